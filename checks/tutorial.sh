#!/bin/sh
# Runs docs/TUTORIAL.md as it stands: the shell blocks of the page in their order, each of which has to end well and, where a text
# block follows it, to print exactly that text. A block names what it needs beside the shell in its first line, as needs=gcc; it is
# skipped with a note where one is missing. The page runs at the top of a copy of the launcher and the examples, so that nothing is left in the
# clone. PROGRAM names another program than the repository's own, and the argument another page. Run by hand; it is
# skipped where the program isn't built.
set -eu
top=$(cd "$(dirname "$0")/.." && pwd)
program=${PROGRAM:-$top/crates/objtool/out/objtool}
page=${1:-$top/docs/TUTORIAL.md}
[ -x "$program" ] || { echo "checks/tutorial.sh: skipped, the program isn't built"; exit 0; }
program=$(cd "$(dirname "$program")" && pwd)/$(basename "$program")
room=$(mktemp -d)
trap 'rm -rf "$room"' EXIT
mkdir -p "$room/clone/crates/objtool/out" "$room/blocks" "$room/tmp"
cp -R "$top/objtool" "$top/README.md" "$top/docs" "$top/examples" "$room/clone"
[ ! -d "$top/completions" ] || cp -R "$top/completions" "$room/clone"
ln -s "$program" "$room/clone/crates/objtool/out/objtool"
# The blocks by number: N.sh with what it needs in N.needs, and N.text where the next block is of text.
awk -v room="$room/blocks" '
    /^```sh/ { n++; file = sprintf("%s/%03d.sh", room, n); needs = $0; sub(/^```sh */, "", needs); sub(/^needs=/, "", needs)
               print needs > sprintf("%s/%03d.needs", room, n); printf "" > file; next }
    /^```text/ { file = sprintf("%s/%03d.text", room, n); printf "" > file; next }
    /^```/ { file = ""; next }
    file != "" { print > file }' "$page"
has() {
    case $1 in
        x86_64) [ "$(uname -m)" = x86_64 ] ;;
        *) command -v "$1" >/dev/null 2>&1 ;;
    esac
}
# One script of all blocks, so that what a block sets holds in the next; each writes to a file of its own.
ran=0
skipped=0
for block in "$room"/blocks/*.sh; do
    [ -e "$block" ] || { echo "checks/tutorial.sh: $page has no shell block"; exit 1; }
    name=${block%.sh}
    missing=
    for tool in $(tr ',' ' ' < "$name.needs"); do
        has "$tool" || missing="$missing $tool"
    done
    if [ -n "$missing" ]; then
        echo "checks/tutorial.sh: block $(basename "$name") is skipped, no$missing"
        skipped=$((skipped + 1))
        rm -f "$name.text"
        continue
    fi
    ran=$((ran + 1))
    { echo "exec > '$name.got' 2>&1"; echo "echo '$name' > '$room/last'"; cat "$block"; } >> "$room/script"
done
(cd "$room/clone" && TMPDIR=$room/tmp sh -eu "$room/script" < /dev/null) || {
    last=$(cat "$room/last")
    echo "checks/tutorial.sh: block $(basename "$last") ends with a fault:"
    cat "$last.sh" "$last.got"
    exit 1
}
different=0
for text in "$room"/blocks/*.text; do
    [ -e "$text" ] || continue
    diff "$text" "${text%.text}.got" && continue
    different=$((different + 1))
    echo "checks/tutorial.sh: block $(basename "${text%.text}") prints something else (expected <, printed >)"
done
echo "checks/tutorial.sh: $ran blocks, $skipped skipped, $different differences"
[ "$different" = 0 ]
