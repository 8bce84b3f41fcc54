#!/bin/sh
# Has other programs read, link and run what the program built: readelf has to show the sections, relocations
# and symbols, each kind of relocation of each processor with its number and name, ld -r has to link files, and
# linked programs to exit with a number out of their data, on x86_64 also one that calls memcpy of the C
# library, and on aarch64 and riscv64 under qemu. Run by hand; the whole is skipped where the program isn't
# built or readelf, ld or xxd is missing, and each later part where a tool of its own is.
set -eu
top=$(cd "$(dirname "$0")/.." && pwd)
program=$top/crates/objtool/out/objtool
for tool in readelf ld xxd; do
    command -v "$tool" >/dev/null 2>&1 || { echo "checks/elf_tools.sh: skipped, no $tool"; exit 0; }
done
[ -x "$program" ] || { echo "checks/elf_tools.sh: skipped, the program isn't built"; exit 0; }
room=$(mktemp -d)
trap 'rm -rf "$room"' EXIT
# The object file NAME.o of a part on standard input, and what readelf shows of it without a complaint: object NAME
object() {
    "$program" build | xxd -r -p > "$room/$1.o"
    readelf -hSsrW "$room/$1.o" > "$room/shown" 2> "$room/complaints"
    [ ! -s "$room/complaints" ] || { echo "readelf complains of $1.o:"; cat "$room/complaints"; exit 1; }
}
shows() {
    grep -Eq "$1" "$room/shown" || { echo "readelf doesn't show: $1"; cat "$room/shown"; exit 1; }
}
# Runs a program, which has to exit with the number 42: ends_well WHAT COMMAND..
ends_well() {
    what=$1
    shift
    status=0
    "$@" || status=$?
    [ "$status" = 42 ] || { echo "$what exits with $status, and not with 42"; exit 1; }
}
object three < "$top/examples/three_functions.json"
shows 'Type: +REL'
shows 'Machine: +Advanced Micro Devices X86-64'
shows '\.text +PROGBITS +0+ +000040 00000a'
shows ' 1 FUNC +LOCAL +DEFAULT +1 helper$'
shows ' 0 NOTYPE +GLOBAL +DEFAULT +UND ext$'
shows ' 6 FUNC +GLOBAL +DEFAULT +1 first$'
shows ' 3 FUNC +GLOBAL +DEFAULT +1 second$'
ld -r "$room/three.o" -o "$room/linked.o"
readelf -sW "$room/linked.o" | grep -Eq ' 6 FUNC +GLOBAL +DEFAULT +1 first$' || { echo "ld -r lost a symbol"; exit 1; }
# A program of one file: it exits with the number that its table's pointer leads to, plus what its zeros hold.
object exit < "$top/examples/exit_with_data.json"
shows '\.rodata +PROGBITS .* A +0 +0 +4$'
shows '\.data\.rel\.ro +PROGBITS .* WA +0 +0 +8$'
shows '\.bss +NOBITS .* WA +0 +0 +4$'
shows 'R_X86_64_PC32 .* table - 4$'
shows 'R_X86_64_64 .* answer \+ 0$'
ld -r "$room/exit.o" "$room/three.o" -o "$room/linked.o"
ld "$room/exit.o" -o "$room/exit"
ends_well "the linked program" "$room/exit"

# Every kind of each processor: name in the form, number, name in readelf, size of the field.
kinds() {
    cat <<'END'
x86_64 Abs4 10 R_X86_64_32 4
x86_64 Abs8 1 R_X86_64_64 8
x86_64 X86PCRel4 2 R_X86_64_PC32 4
x86_64 X86CallPCRel4 2 R_X86_64_PC32 4
x86_64 X86CallPLTRel4 4 R_X86_64_PLT32 4
x86_64 X86GOTPCRel4 9 R_X86_64_GOTPCREL 4
x86_64 ElfX86_64TlsGd 19 R_X86_64_TLSGD 4
aarch64 Abs4 258 R_AARCH64_ABS32 4
aarch64 Abs8 257 R_AARCH64_ABS64 8
aarch64 Arm64Call 283 R_AARCH64_CALL26 4
aarch64 Aarch64AdrGotPage21 311 R_AARCH64_ADR_GOT_PAGE 4
aarch64 Aarch64Ld64GotLo12Nc 312 R_AARCH64_LD64_GOT_LO12_NC 4
aarch64 Aarch64AdrPrelPgHi21 275 R_AARCH64_ADR_PREL_PG_HI21 4
aarch64 Aarch64AddAbsLo12Nc 277 R_AARCH64_ADD_ABS_LO12_NC 4
aarch64 Aarch64TlsDescAdrPage21 562 R_AARCH64_TLSDESC_ADR_PAGE21 4
aarch64 Aarch64TlsDescLd64Lo12 563 R_AARCH64_TLSDESC_LD64_LO12 4
aarch64 Aarch64TlsDescAddLo12 564 R_AARCH64_TLSDESC_ADD_LO12 4
aarch64 Aarch64TlsDescCall 569 R_AARCH64_TLSDESC_CALL 4
riscv64 Abs4 1 R_RISCV_32 4
riscv64 Abs8 2 R_RISCV_64 8
riscv64 RiscvCallPlt 19 R_RISCV_CALL_PLT 8
riscv64 RiscvGotHi20 20 R_RISCV_GOT_HI20 4
riscv64 RiscvTlsGdHi20 22 R_RISCV_TLS_GD_HI20 4
riscv64 RiscvPCRelHi20 23 R_RISCV_PCREL_HI20 4
riscv64 RiscvPCRelLo12I 24 R_RISCV_PCREL_LO12_I 4
END
}
# A part with a function that has one relocation of each kind of the processor, one behind the other.
every_kind() {
    kinds | awk -v arch="$1" '
        $1 == arch {
            relocs = relocs sep "{\"offset\":" at ",\"kind\":\"" $2 "\",\"target\":{\"function\":0},\"addend\":" at "}"
            sep = ","; at += $5
            for (k = 0; k < $5; k++) bytes = bytes "00"
        }
        BEGIN { at = 0 }
        END {
            print "[{\"name\":\"a.o\",\"arch\":\"" arch "\",\"format\":\"elf\",\"commands\":["
            print "{\"op\":\"declare_function\",\"name\":\"ext\",\"linkage\":\"Import\"},"
            print "{\"op\":\"declare_function\",\"name\":\"f\",\"linkage\":\"Export\"},"
            print "{\"op\":\"define_function\",\"id\":1,\"bytes\":\"" bytes "\",\"relocs\":[" relocs "]}]}]"
        }'
}
for arch in x86_64 aarch64 riscv64; do
    every_kind "$arch" | object "kinds_$arch"
    # The symbol ext is row 2, behind the null row and the file's.
    kinds | awk -v arch="$arch" 'BEGIN { at = 0 } $1 == arch { printf "%016x 00000002%08x %s ext + %x\n", at, $3, $4, at; at += $5 }' > "$room/wanted"
    awk '$3 ~ /^R_/ { print $1, $2, $3, $5, $6, $7 }' "$room/shown" > "$room/rows"
    cmp -s "$room/wanted" "$room/rows" || { echo "readelf shows other relocations of $arch:"; diff "$room/wanted" "$room/rows"; exit 1; }
done
# Programs for other processors.
for arch in aarch64 riscv64; do
    linker=$arch-linux-gnu-ld
    if ! command -v "$linker" >/dev/null 2>&1 || ! command -v "qemu-$arch" >/dev/null 2>&1; then
        echo "checks/elf_tools.sh: the program for $arch is skipped, no $linker or no qemu-$arch"
        continue
    fi
    object "exit_$arch" < "$top/examples/exit_$arch.json"
    "$linker" "$room/exit_$arch.o" -o "$room/exit_$arch"
    ends_well "the linked program for $arch" "qemu-$arch" "$room/exit_$arch"
done
# A program that calls memcpy of the C library and jumps to a label of its own.
if ! command -v gcc >/dev/null 2>&1; then
    echo "checks/elf_tools.sh: the program with a library call is skipped, no gcc"
    exit 0
fi
object call < "$top/examples/call_and_label.json"
shows 'R_X86_64_PLT32 .* memcpy - 4$'
shows 'R_X86_64_PC32 .* 0*27 \.L0_39 - 4$'
shows ' 0 NOTYPE +GLOBAL +DEFAULT +UND memcpy$'
gcc "$room/call.o" -o "$room/call"
ends_well "the program with a library call" "$room/call"
