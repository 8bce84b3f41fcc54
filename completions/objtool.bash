# Completion of objtool's words in bash. `./objtool --install PREFIX` puts it under PREFIX/share/bash-completion/completions;
# in a clone, `source completions/objtool.bash` is enough.

_objtool()
{
    local word=${COMP_WORDS[COMP_CWORD]}
    local commands='build clr declarations extract gen join loadconfig names place read signed tls'
    # the machines whose relocations have names, by their numbers in an ELF header
    local machines='3 8 10 20 21 40 51 62 92 183 243 258'
    local architectures='any little big m68k m68040 m68030 i386 i486 i486SX i586 i686 pentIIm3 pentIIm5 pentium4 x86_64 x86_64h
        hppa hppa7100LC arm armv4t armv6 armv5 xscale armv7 armv7f armv7s armv7k armv6m armv7m armv7em arm64 arm64v8 arm64e
        arm64_32 arm64_32_v8 m88k sparc i860 ppc ppc601 ppc603 ppc603e ppc603ev ppc604 ppc604e ppc750 ppc7400 ppc7450 ppc970
        ppc64 ppc970-64 pentium pentpro x86'
    local choices=''
    COMPREPLY=()
    if [[ $COMP_CWORD -eq 1 ]]; then
        choices=$commands
        # the launcher of a clone alone has these
        [[ ${COMP_WORDS[0]} == */* ]] && choices+=' --help --version --install'
    else
        case ${COMP_WORDS[1]} in
            build) [[ $COMP_CWORD -eq 2 ]] && choices=--raw ;;
            names) [[ $COMP_CWORD -eq 2 ]] && choices=$machines ;;
            extract) [[ $COMP_CWORD -eq 2 ]] && choices=$architectures ;;
            --help) [[ $COMP_CWORD -eq 2 ]] && choices=$commands ;;
            --install)
                if [[ $COMP_CWORD -eq 2 ]]; then
                    compopt -o filenames 2> /dev/null
                    mapfile -t COMPREPLY < <(compgen -d -- "$word")
                    return
                fi ;;
            join)
                compopt -o filenames 2> /dev/null
                mapfile -t COMPREPLY < <(compgen -f -- "$word")
                return ;;
        esac
    fi
    mapfile -t COMPREPLY < <(compgen -W "$choices" -- "$word")
}

complete -F _objtool objtool ./objtool
