#!/bin/sh
# Has llvm-lipo read fat files that the program joined, and the program files that llvm-lipo joined: of two object files that the
# program builds, for x86_64 and arm64, llvm-lipo has to list the same architectures in both fat files, to verify them, and to
# cut the slices out byte for byte; the program has to read alignments, offsets and sizes as llvm-objdump does, and to cut
# slices out of both byte for byte too. The fat file that `build` makes of both parts has to be the one that is joined of their
# files. Run by hand; it is skipped where the program isn't built, or llvm-lipo or llvm-objdump is missing. PROGRAM names another
# program than the repository's own.
set -eu
top=$(cd "$(dirname "$0")/.." && pwd)
program=${PROGRAM:-$top/crates/objtool/out/objtool}
lipo=$(command -v llvm-lipo || command -v llvm-lipo-14) || { echo "checks/fat_tools.sh: skipped, no llvm-lipo"; exit 0; }
objdump=$(command -v llvm-objdump || command -v llvm-objdump-14) || { echo "checks/fat_tools.sh: skipped, no llvm-objdump"; exit 0; }
[ -x "$program" ] || { echo "checks/fat_tools.sh: skipped, the program isn't built"; exit 0; }
room=$(mktemp -d)
trap 'rm -rf "$room"' EXIT
cd "$room"
part() {
    printf '{"name":"a.o","arch":"%s","format":"macho","commands":[{"op":"declare_function","name":"main","linkage":"Export"},{"op":"define_function","id":0,"bytes":"%s"}]}' "$1" "$2"
}
x86_64=$(part x86_64 31c0c3) arm64=$(part aarch64 00008052c0035fd6)
echo "[$x86_64]" | "$program" build --raw > x86_64.o
echo "[$arm64]" | "$program" build --raw > arm64.o
"$program" join arm64.o x86_64.o > ours
"$lipo" -create arm64.o x86_64.o -output theirs
echo "[$x86_64,$arm64]" | "$program" build --raw > built
cmp ours built
for fat in ours theirs; do
    "$lipo" "$fat" -archs > archs
    echo 'x86_64 arm64 ' | diff -b - archs || { echo "$fat has other architectures"; exit 1; }
    "$lipo" "$fat" -verify_arch x86_64 arm64 || { echo "$fat is not verified"; exit 1; }
    for arch in x86_64 arm64; do
        "$lipo" "$fat" -thin "$arch" -output slice
        cmp slice "$arch.o"
        "$program" extract "$arch" < "$fat" > slice
        cmp slice "$arch.o"
    done
    # alignment, offset and size of each slice, by both programs
    "$objdump" --macho --universal-headers "$fat" | awk '$1 == "architecture" { arch = $2 } $1 == "offset" { offset = $2 } $1 == "size" { size = $2 }
        $1 == "align" { print arch, substr($2, 3), offset, size }' > told
    "$program" read < "$fat" | tr '[' '\n' | awk -F'[],]' 'NF > 5 { print ($1 == 16777223 ? "x86_64" : $1 == 16777228 ? "arm64" : $1), $3, $4, $5 }' > read
    [ -s told ] || { echo "llvm-objdump tells no slices of $fat"; exit 1; }
    diff told read || { echo "$fat is read in another way (llvm-objdump <, objtool >)"; exit 1; }
done
status=0
"$program" extract arm64e < theirs > slice 2> refused || status=$?
[ "$status" = 1 ] && [ "$(cat refused)" = 'no such architecture: arm64e' ] || { echo "extract arm64e: status $status"; cat refused; exit 1; }
echo "checks/fat_tools.sh: two fat files, 4 slices, 0 differences"
