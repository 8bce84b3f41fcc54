#!/bin/sh
# Has other programs read and link Mach-O files that the program built, for x86_64 and arm64: llvm-objdump has to show each kind
# of relocation of each processor with its symbol, llvm-readobj to read the files without a complaint, and in files that
# ld64.lld linked the call and the load have to go to the function and the byte of data that the part names. Run by hand; it
# is skipped where the program isn't built or llvm-objdump, llvm-readobj or xxd is missing, and the linking where ld64.lld is.
set -eu
top=$(cd "$(dirname "$0")/.." && pwd)
program=$top/crates/objtool/out/objtool
for tool in llvm-objdump llvm-readobj xxd; do
    command -v "$tool" >/dev/null 2>&1 || { echo "checks/mach_tools.sh: skipped, no $tool"; exit 0; }
done
[ -x "$program" ] || { echo "checks/mach_tools.sh: skipped, the program isn't built"; exit 0; }
room=$(mktemp -d)
trap 'rm -rf "$room"' EXIT
# The object file NAME.o of the commands on standard input, for a processor: object NAME ARCH
object() {
    { printf '[{"name":"a.o","arch":"%s","format":"macho","system":"macosx","version":[11,0,0],"commands":[' "$2"; cat; echo ']}]'; } > "$room/$1.json"
    "$program" build < "$room/$1.json" | xxd -r -p > "$room/$1.o"
    llvm-readobj --headers --sections --symbols --relocations "$room/$1.o" > "$room/read" 2> "$room/complaints"
    [ ! -s "$room/complaints" ] || { echo "llvm-readobj complains of $1.o:"; cat "$room/complaints"; exit 1; }
    llvm-objdump -r "$room/$1.o" > "$room/shown"
}
shows() {
    grep -Eq "$1" "$room/shown" || { echo "not shown: $1"; cat "$room/shown"; exit 1; }
}
# The text of a relocation of a function: reloc OFFSET KIND TARGET [ADDEND]
reloc() {
    printf '{"offset":%s,"kind":"%s","target":{%s},"addend":%s}' "$1" "$2" "$3" "${4:-0}"
}
declared='{"op":"declare_function","name":"main","linkage":"Export"},{"op":"declare_function","name":"other","linkage":"Import"},{"op":"declare_data","name":"thread","linkage":"Import","tls":true}'
bytes=$(printf '%096d' 0)
object kinds_x86_64 x86_64 <<END
$declared,{"op":"define_function","id":0,"bytes":"$bytes","relocs":[
$(reloc 0 Abs4 '"function":1' 1),$(reloc 4 Abs8 '"function":1' -2),$(reloc 12 X86PCRel4 '"function":1' -4),$(reloc 16 X86CallPCRel4 '"function":1' -4),
$(reloc 20 X86CallPLTRel4 '"function":1' -4),$(reloc 24 X86GOTPCRel4 '"function":1' -4),$(reloc 28 MachOX86_64Tlv '"data":0' -4)]}
END
for row in '0000 X86_64_RELOC_UNSIGNED _other' '0004 X86_64_RELOC_UNSIGNED _other' '000c X86_64_RELOC_SIGNED _other' '0010 X86_64_RELOC_BRANCH _other' \
    '0014 X86_64_RELOC_BRANCH _other' '0018 X86_64_RELOC_GOT _other' '001c X86_64_RELOC_TLV _thread'; do
    shows "$(echo "$row" | sed 's/ / +/g')"
done
object kinds_arm64 aarch64 <<END
$declared,{"op":"define_function","id":0,"bytes":"$bytes","relocs":[
$(reloc 0 Abs4 '"function":1' 1),$(reloc 4 Abs8 '"function":1' -2),$(reloc 12 Arm64Call '"function":1' 4),$(reloc 16 Aarch64AdrPrelPgHi21 '"function":1' -8),
$(reloc 20 Aarch64AddAbsLo12Nc '"function":1'),$(reloc 24 Aarch64AdrGotPage21 '"function":1'),$(reloc 28 Aarch64Ld64GotLo12Nc '"function":1'),
$(reloc 32 MachOAarch64TlsAdrPage21 '"data":0'),$(reloc 36 MachOAarch64TlsAdrPageOff12 '"data":0')]}
END
for row in '0000 ARM64_RELOC_UNSIGNED _other' '0004 ARM64_RELOC_UNSIGNED _other' '000c ARM64_RELOC_ADDEND 0x4' '000c ARM64_RELOC_BRANCH26 _other' \
    '0010 ARM64_RELOC_ADDEND 0xfffff8' '0010 ARM64_RELOC_PAGE21 _other' '0014 ARM64_RELOC_PAGEOFF12 _other' '0018 ARM64_RELOC_GOT_LOAD_PAGE21 _other' \
    '001c ARM64_RELOC_GOT_LOAD_PAGEOFF12 _other' '0020 ARM64_RELOC_TLVP_LOAD_PAGE21 _thread' '0024 ARM64_RELOC_TLVP_LOAD_PAGEOFF12 _thread'; do
    shows "$(echo "$row" | sed 's/ / +/g')"
done
linker=$(command -v ld64.lld || ls /usr/bin/ld64.lld-* 2>/dev/null | head -n 1)
[ -n "$linker" ] || { echo "checks/mach_tools.sh: read; linking skipped, no ld64.lld"; exit 0; }
parts='{"op":"declare_function","name":"main","linkage":"Export"},{"op":"declare_data","name":"numbers","linkage":"Local","writable":true},{"op":"declare_function","name":"helper","linkage":"Local"}'
data='{"op":"define_data","id":0,"bytes":"002a0000","align":4}'
# The linked program NAME, and its instructions: linked NAME ARCH
linked() {
    "$linker" -arch "$2" -platform_version macos 11.0 11.0 -e _main -o "$room/$1" "$room/$1.o"
    llvm-objdump -d "$room/$1" > "$room/shown"
    place=$(llvm-objdump --section-headers "$room/$1" | awk '$2 == "__data" { print $4 }')
    [ -n "$place" ] || { echo "$1 has no data"; exit 1; }
}
object call_x86_64 x86_64 <<END
$parts,{"op":"define_function","id":1,"bytes":"c3"},{"op":"define_function","id":0,"bytes":"e8000000008a0500000000c3","relocs":[
$(reloc 1 X86CallPCRel4 '"function":1' -4),$(reloc 7 X86PCRel4 '"data":0' -3)]},$data
END
linked call_x86_64 x86_64
shows 'callq.*<_helper>'
shows "movb.*0x$(echo "$place" | sed 's/^0*//; s/.$/1/')"
object call_arm64 aarch64 <<END
$parts,{"op":"define_function","id":1,"bytes":"c0035fd6"},{"op":"define_function","id":0,"bytes":"000000940800009000014039c0035fd6","relocs":[
$(reloc 0 Arm64Call '"function":1'),$(reloc 4 Aarch64AdrPrelPgHi21 '"data":0' 1),$(reloc 8 Aarch64AddAbsLo12Nc '"data":0' 1)]},$data
END
linked call_arm64 arm64
shows 'bl.*<_helper>'
shows "adrp.*0x$(echo "$place" | sed 's/^0*//')"
shows 'ldrb.*#1\]'
echo "checks/mach_tools.sh: all shown"
