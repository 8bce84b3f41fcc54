#!/bin/sh
# Runs every example of examples/ with the program, and compares output, fault text and status with what is expected: files of
# examples/expected/, which were written by hand from the layouts of their formats, and not by the program. A file of bytes
# stands there in hexadecimal. PROGRAM names another program than the repository's own. Run by hand; it is skipped where the
# program isn't built or xxd is missing.
set -eu
top=$(cd "$(dirname "$0")/.." && pwd)
program=${PROGRAM:-$top/crates/objtool/out/objtool}
command -v xxd >/dev/null 2>&1 || { echo "checks/examples.sh: skipped, no xxd"; exit 0; }
[ -x "$program" ] || { echo "checks/examples.sh: skipped, the program isn't built"; exit 0; }
cd "$top/examples"
room=$(mktemp -d)
trap 'rm -rf "$room"' EXIT
ran=0
different=0
# Runs the program: run STATUS OUTPUT FAULTS INPUT WORD.., each a file; the output and the fault text have to be as in theirs.
run() {
    status=$1 output=$2 faults=$3 input=$4
    shift 4
    got=0
    "$program" "$@" < "$input" > "$room/output" 2> "$room/faults" || got=$?
    ran=$((ran + 1))
    if [ "$got" = "$status" ] && cmp -s "$room/output" "$output" && cmp -s "$room/faults" "$faults"; then
        return
    fi
    different=$((different + 1))
    echo "objtool $* < $input: status $got, expected $status"
    cmp "$room/output" "$output" || true
    cmp "$room/faults" "$faults" || true
}
none=/dev/null
bytes() {
    xxd -r -p "$1"
}
zeros() {
    head -c "$1" /dev/zero
}
# Objects and fat files are built and read.
run 0 expected/exported_main.hex $none exported_main.json build
bytes expected/exported_main.hex > "$room/main.o"
run 0 "$room/main.o" $none exported_main.json build --raw
run 0 expected/exported_main.json $none "$room/main.o" read
for format in elf macho; do
    run 0 expected/code_and_data_$format.hex $none code_and_data_$format.json build
done
run 1 $none expected/hidden_and_missing.txt hidden_and_missing.json build
# Slices are joined, in either order, and cut out. Their places in the fat file are multiples of 16,384.
bytes image_x86_64.hex > "$room/x86_64.o"
bytes image_arm64.hex > "$room/arm64.o"
{
    bytes expected/fat_table.hex
    zeros $((16384 - 48))
    cat "$room/x86_64.o"
    zeros $((16384 - 100))
    cat "$room/arm64.o"
} > "$room/fat"
run 0 "$room/fat" $none $none join "$room/x86_64.o" "$room/arm64.o"
run 0 "$room/fat" $none $none join "$room/arm64.o" "$room/x86_64.o"
run 0 "$room/arm64.o" $none "$room/fat" extract arm64
run 0 "$room/x86_64.o" $none "$room/fat" extract x86_64
"$program" build --raw < two_processors.json > "$room/two"
bytes expected/slice_arm64.hex > "$room/slice"
run 0 "$room/slice" $none "$room/two" extract arm64
# The other commands.
run 0 expected/call_across_images.txt $none call_across_images.json place
run 0 expected/declarations.json $none declarations.json declarations
run 0 expected/names_62_1.txt $none $none names 62 1
run 0 expected/signed_ranges.hex $none signed_ranges.json signed
run 0 expected/clr_metadata.json $none clr_metadata.json clr
run 0 expected/load_config.json $none load_config.json loadconfig
run 0 expected/thread_local_data.json $none thread_local_data.json tls
run 0 expected/gen_0_1.txt $none $none gen 0 1
# Every other part of examples/ is built too, and an image of it is read.
for part in call_and_label empty_part exit_aarch64 exit_riscv64 exit_with_data three_functions; do
    ran=$((ran + 1))
    "$program" build --raw < "$part.json" > "$room/part.o" && "$program" read < "$room/part.o" > "$room/image" && [ -s "$room/image" ] && continue
    different=$((different + 1))
    echo "$part.json is not built, or its file not read"
done
echo "checks/examples.sh: $ran examples, $different differences"
[ "$different" = 0 ]
