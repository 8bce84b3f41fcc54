#!/bin/sh
# Compares the numbers and names of relocations with those of another copy: the file of relocation constants of
# the Rust crate goblin (src/elf/constants_relocation.rs), whose path is the argument. Run by hand; it is
# skipped where no path is given or no file lies there.
set -eu
export LC_ALL=C
[ $# -gt 0 ] || { echo "checks/relocation_names.sh: skipped, no file is named"; exit 0; }
[ -f "$1" ] || { echo "checks/relocation_names.sh: skipped, no file $1"; exit 0; }
crates=$(cd "$(dirname "$0")/../crates" && pwd)
room=$(mktemp -d)
trap 'rm -rf "$room"' EXIT
# each constant with its number, also where it is written as another constant
numbers() {
    sed -n 's/^pub const \(R_[A-Za-z0-9_]*\): u32 = \([a-z0-9]*::\)\{0,1\}\([A-Za-z0-9_]*\);.*/\1 \3/p' \
        | awk '{ value[$1] = $2 }
               END { for (name in value) { v = value[name]; while (v in value) v = value[v]; print name, v } }' \
        | sort
}
cat "$crates"/goblin_reloc/src/*.rt | numbers > "$room/numbers"
numbers < "$1" > "$room/their_numbers"
# each row of the tables that contracts cite, whose constant has to be the one of its name
sed -n 's/.*relocation \([0-9]*\) (codes "\(R_[A-Za-z0-9_]*\)") \2$/\2 \1/p' "$crates"/goblin_reloc/specs/*.antt | sort > "$room/rows"
cp "$room/their_numbers" "$room/their_rows"
# each constant with the text that is told of it
cat "$crates"/goblin_reloc_names/src/*.rt | tr '\n' ' ' \
    | grep -o '[a-z0-9_]*::R_[A-Za-z0-9_]*, *"[^"]*"' | sed 's/^[a-z0-9_]*::\(R_[A-Za-z0-9_]*\), *"\(.*\)"$/\1 \2/' \
    | sort > "$room/names"
sed -n 's/^ *\(R_[A-Za-z0-9_]*\) => "\([^"]*\)",.*/\1 \2/p' "$1" | sort > "$room/their_names"
# the texts for numbers without a name
grep -o '"R_UNKNOWN[A-Z0-9_]*"' "$crates/goblin_reloc_names/src/names.rt" | sort -u > "$room/unknown"
grep -o '"R_UNKNOWN[A-Z0-9_]*"' "$1" | sort -u > "$room/their_unknown"
for part in numbers rows names unknown; do
    [ -s "$room/$part" ] || { echo "checks/relocation_names.sh: no $part were found"; exit 1; }
    diff "$room/$part" "$room/their_$part" || { echo "checks/relocation_names.sh: the $part differ"; exit 1; }
done
echo "checks/relocation_names.sh: $(wc -l < "$room/numbers" | tr -d ' ') numbers and rows, $(wc -l < "$room/names" | tr -d ' ') names and $(wc -l < "$room/unknown" | tr -d ' ') other texts agree"
