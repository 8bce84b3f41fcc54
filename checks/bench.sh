#!/bin/sh
# Measures the program beside other tools, and prints a table: for each number n of the arguments (1000, 10000 and 100000
# where there are none) the part of n functions and n data objects that `gen 1 n` makes, as JSON, as an object file and as
# assembly; and, once, two images of 30,000,000 bytes that are joined and cut. Each command runs RUNS times (5, where it isn't set):
# the least of the times (with the start of a process, a millisecond or two) and the greatest memory count, and with valgrind the
# instructions of one run more, unless COUNT is 0. PROGRAM names
# another program than the repository's own. A tool that isn't installed has no row. It judges nothing; run it by hand, on an
# idle machine.
set -eu
top=$(cd "$(dirname "$0")/.." && pwd)
program=${PROGRAM:-$top/crates/objtool/out/objtool}
runs=${RUNS:-5}
[ -x "$program" ] || { echo "checks/bench.sh: skipped, the program isn't built"; exit 0; }
[ -x /usr/bin/time ] || { echo "checks/bench.sh: skipped, /usr/bin/time is missing"; exit 0; }
[ $# -gt 0 ] || set -- 1000 10000 100000
room=$(mktemp -d)
trap 'rm -rf "$room"' EXIT
# The first of some names of a tool that is installed.
tool() {
    for name in "$@"; do
        if command -v "$name" > /dev/null 2>&1; then
            command -v "$name"
            return
        fi
    done
}
# The part of a seed and n: as JSON, as assembly, or as what places its object file.
part() {
    awk -v n="$2" -v as="$1" '
        # x * 1103515245 + 12345 modulo 2^31, in steps that numbers of 53 bits hold
        function draw(y) {
            y = (x * 16838) % 2147483648
            x = ((y * 65536) % 2147483648 + (x * 20077) % 2147483648 + 12345) % 2147483648
            return int(x / 65536)
        }
        function repeated(text, count, r) {
            r = ""
            while (count-- > 0) r = r text
            return r
        }
        BEGIN {
            x = 1
            for (k = 0; k < n; k++) {
                len[k] = 16 + draw() % 16
                call[k] = draw() % n
                byte[k] = draw() % 256
                address[k] = draw() % n
            }
            if (as == "json") {
                printf "[{\"name\":\"gen.o\",\"arch\":\"x86_64\",\"format\":\"elf\",\"commands\":["
                for (k = 0; k < n; k++) {
                    printf "{\"op\":\"declare_function\",\"name\":\"f%d\",\"linkage\":\"Export\"},", k
                    printf "{\"op\":\"declare_data\",\"name\":\"d%d\",\"linkage\":\"Local\"},", k
                }
                for (k = 0; k < n; k++) {
                    printf "{\"op\":\"define_function\",\"id\":%d,\"align\":16,\"bytes\":\"%s\",\"relocs\":[", k, repeated("90", len[k])
                    printf "{\"offset\":1,\"kind\":\"X86PCRel4\",\"target\":{\"data\":%d},\"addend\":-4}]},", call[k]
                    printf "{\"op\":\"define_data\",\"id\":%d,\"align\":8,\"bytes\":\"%s\",", k, repeated(sprintf("%02x", byte[k]), 16)
                    printf "\"functions\":[{\"function\":%d}],\"function_addresses\":[[0,0]]}%s", address[k], k + 1 < n ? "," : ""
                }
                printf "]}]"
            }
            if (as == "assembly") {
                print ".file \"gen.o\"\n.text"
                for (k = 0; k < n; k++) {
                    printf ".globl f%d\n.type f%d,@function\n.p2align 4,0\nf%d:\n.byte 0x90\n.long d%d-.-4\n.fill %d,1,0x90\n.size f%d,%d\n", k, k, k, call[k], len[k] - 5, k, len[k]
                }
                print ".section .data.rel.ro,\"aw\",@progbits"
                for (k = 0; k < n; k++) {
                    printf ".type d%d,@object\n.p2align 3\nd%d:\n.quad f%d\n.fill 8,1,%d\n.size d%d,16\n", k, k, address[k], byte[k], k
                }
            }
            if (as == "rows") {
                for (k = 0; k < n; k++) printf "[0,%d,%d,16]%s", k + 2, 1048576 + 16 * k, ","
                for (k = 0; k < n; k++) printf "[0,%d,%d,%d]%s", n + k + 2, 8388608 + 32 * k, len[k], k + 1 < n ? "," : ""
            }
        }'
}
# Runs a command with this input some times, and prints its row: row WHAT INPUT OUTPUT COMMAND..
row() {
    what=$1 input=$2 output=$3
    shift 3
    least= most=0
    round=0
    while [ "$round" -lt "$runs" ]; do
        start=$(date +%s%N)
        /usr/bin/time -o "$room/time" -f '%M' "$@" < "$input" > "$output" 2> "$room/errors" || { echo "| $what | fails | | |"; return; }
        spent=$(($(date +%s%N) - start))
        [ -n "$least" ] && [ "$least" -le "$spent" ] || least=$spent
        read -r memory < "$room/time"
        [ "$memory" -le "$most" ] || most=$memory
        round=$((round + 1))
    done
    count=-
    if command -v valgrind > /dev/null 2>&1 && [ "${COUNT:-1}" = 1 ]; then
        valgrind --tool=callgrind --callgrind-out-file="$room/counts" "$@" < "$input" > "$output" 2> "$room/errors" || true
        count=$(awk '/^(summary|totals):/ { count = $2 } END { if (count != "") printf "%.1f", count / 1000000; else print "-" }' "$room/counts")
    fi
    awk -v what="$what" -v spent="$least" -v memory="$most" -v count="$count" 'BEGIN { printf "| %s | %.1f | %.1f | %s |\n", what, spent / 1000000, memory / 1024, count }'
    echo "$what|$least" >> "$room/rows"
}
as=$(tool as) mc=$(tool llvm-mc llvm-mc-14) readelf=$(tool readelf) objdump=$(tool objdump)
readobj=$(tool llvm-readobj llvm-readobj-14) lipo=$(tool llvm-lipo llvm-lipo-14)
echo "| what | ms | MB | millions of instructions |"
echo "|---|---|---|---|"
for n in "$@"; do
    part json "$n" > "$room/json"
    part assembly "$n" > "$room/assembly"
    row "gen 1 $n" /dev/null "$room/line" "$program" gen 1 "$n"
    row "build, n = $n" "$room/json" "$room/hex" "$program" build
    row "build --raw, n = $n" "$room/json" "$room/object" "$program" build --raw
    [ -z "$as" ] || row "GNU as, n = $n" "$room/assembly" /dev/null "$as" -o "$room/as.o" -
    [ -z "$mc" ] || row "llvm-mc, n = $n" "$room/assembly" "$room/mc.o" "$mc" -triple=x86_64-linux-gnu -filetype=obj
    row "read, n = $n" "$room/object" "$room/text" "$program" read
    [ -z "$readelf" ] || row "readelf -aW, n = $n" /dev/null "$room/text" "$readelf" -aW "$room/object"
    [ -z "$objdump" ] || row "objdump -xs, n = $n" /dev/null "$room/text" "$objdump" -xs "$room/object"
    [ -z "$readobj" ] || row "llvm-readobj, n = $n" /dev/null "$room/text" "$readobj" -S -s -r "$room/object"
    { printf '{"images":["'; tr -d '\n' < "$room/hex"; printf '"],"externs":[],"addresses":['; part rows "$n"; printf ']}'; } > "$room/place"
    row "place, n = $n" "$room/place" "$room/text" "$program" place
done
# Two images: the heads of thin files for x86_64 and arm64, and bytes that differ.
image() {
    printf "$1"
    printf '\001\000\000\000'
    head -c 16 /dev/zero
    yes "$2" | head -c 29999968
}
image '\317\372\355\376\007\000\000\001\003\000\000\000' x86_64 > "$room/x86_64"
image '\317\372\355\376\014\000\000\001\000\000\000\000' arm64 > "$room/arm64"
row "join, 2 x 30 MB" /dev/null "$room/fat" "$program" join "$room/x86_64" "$room/arm64"
[ -z "$lipo" ] || row "llvm-lipo -create" /dev/null "$room/text" "$lipo" -create "$room/x86_64" "$room/arm64" -output "$room/lipo"
row "extract arm64, 30 MB" "$room/fat" "$room/slice" "$program" extract arm64
row "cat, 60 MB" "$room/fat" "$room/slice" cat
[ -z "$lipo" ] || row "llvm-lipo -thin" /dev/null "$room/text" "$lipo" "$room/fat" -thin arm64 -output "$room/slice"
# Ratios of the times that the table shows.
echo
awk -F'|' '
    { time[$1] = $2 }
    function ratio(a, b) { if ((a in time) && (b in time) && time[b] > 0) printf "%s / %s: %.2f\n", a, b, time[a] / time[b] }
    END {
        for (n = 1000; n <= 100000; n *= 10) {
            ratio("build, n = " n, "GNU as, n = " n)
            ratio("build, n = " n, "llvm-mc, n = " n)
            ratio("read, n = " n, "readelf -aW, n = " n)
            ratio("read, n = " n, "llvm-readobj, n = " n)
            ratio("place, n = " n, "read, n = " n)
        }
        ratio("gen 1 100000", "gen 1 10000")
        ratio("build, n = 100000", "build, n = 10000")
        ratio("read, n = 100000", "read, n = 10000")
        ratio("place, n = 100000", "place, n = 10000")
        ratio("join, 2 x 30 MB", "llvm-lipo -create")
        ratio("extract arm64, 30 MB", "cat, 60 MB")
    }' "$room/rows"
