#!/bin/sh
# Counts what large objects cost: for each number n of the arguments (2000 and 20000 where there are none) a part of n
# functions and n data objects, each with a relocation to the other, is built and its file read. It tells instructions a
# symbol by valgrind's callgrind, of the whole run and of each function that makes the object, writes its file or reads one and
# isn't joined to its caller, with all that it calls, where these are ten or more; the greatest memory and the seconds of a
# run; and for reading the same beside `readelf -aW`. PROGRAM names another program than the repository's own, FORMAT another format than `elf`. Run by hand;
# it is skipped where the program isn't built, and the counts where valgrind is missing. It judges nothing.
set -eu
top=$(cd "$(dirname "$0")/.." && pwd)
program=${PROGRAM:-$top/crates/objtool/out/objtool}
[ -x "$program" ] || { echo "checks/profile.sh: skipped, the program isn't built"; exit 0; }
[ $# -gt 0 ] || set -- 2000 20000
room=$(mktemp -d)
trap 'rm -rf "$room"' EXIT
part() {
    awk -v n="$1" -v format="${FORMAT:-elf}" 'BEGIN {
        printf "[{\"name\":\"a.o\",\"arch\":\"x86_64\",\"format\":\"%s\",\"commands\":[", format
        for (k = 0; k < n; k++) {
            printf "{\"op\":\"declare_function\",\"name\":\"f%d\",\"linkage\":\"Export\"},", k
            printf "{\"op\":\"declare_data\",\"name\":\"d%d\",\"linkage\":\"Local\"},", k
        }
        for (k = 0; k < n; k++) {
            printf "{\"op\":\"define_function\",\"id\":%d,\"align\":16,\"bytes\":\"488d0500000000c3\",\"relocs\":[", k
            printf "{\"offset\":3,\"kind\":\"X86PCRel4\",\"target\":{\"data\":%d},\"addend\":-4}]},", k
            printf "{\"op\":\"define_data\",\"id\":%d,\"align\":8,\"bytes\":\"0000000000000000\",", k
            printf "\"functions\":[{\"function\":%d}],\"function_addresses\":[[0,0]]}%s", k, k + 1 < n ? "," : ""
        }
        printf "]}]"
    }'
}
# The instructions of a run and of functions with what they call, for each of so many symbols: counted SYMBOLS WORD
counted() {
    command -v valgrind >/dev/null 2>&1 || { echo "  valgrind is missing"; return; }
    valgrind --tool=callgrind --callgrind-out-file="$room/counts" "$program" "$2" < "$room/$2" > "$room/out" 2> /dev/null
    callgrind_annotate --inclusive=yes --threshold=100 "$room/counts" 2> /dev/null | awk -v symbols="$1" '
        /PROGRAM TOTALS/ { gsub(",", "", $1); printf "  instructions a symbol: %d in all\n", $1 / symbols }
        match($0, /(object_core|object_elf|object_macho|cranelift_object|image_build|image_read|image_json)::[A-Za-z_:]+/) {
            word = substr($0, RSTART, RLENGTH); gsub(",", "", $1)
            if (!(word in seen) && $1 / symbols >= 10) { seen[word] = 1; printf "    %6d %s\n", $1 / symbols, word }
        }'
}
timed() {
    what=$1
    shift
    if [ -x /usr/bin/time ]; then
        /usr/bin/time -f "  $what: %e s, %M KB at most" "$@"
    else
        "$@"
    fi
}
for n in "$@"; do
    part "$n" > "$room/build"
    echo "n = $n: $((2 * n)) symbols, $(wc -c < "$room/build") bytes in"
    timed build "$program" build < "$room/build" > "$room/line"
    echo "  $(wc -c < "$room/line") bytes out"
    counted $((2 * n)) build
    "$program" build --raw < "$room/build" > "$room/read" 2> /dev/null || continue
    timed read "$program" read < "$room/read" > "$room/text"
    echo "  $(wc -c < "$room/read") bytes in, $(wc -c < "$room/text") out"
    if [ "${FORMAT:-elf}" = elf ] && command -v readelf >/dev/null 2>&1; then
        timed 'readelf -aW' readelf -aW "$room/read" > /dev/null
    fi
    counted $((2 * n)) read
done
