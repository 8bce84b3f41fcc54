#!/bin/sh
# Tells how many seconds the program takes to build large parts: `pairs` has n functions and n data objects,
# each with a relocation to the other, `labels` one function with n relocations to n labels of it, `calls` n
# relocations to one library call. Run by hand, with the numbers as arguments (1000 10000 100000 where there
# are none); it is skipped where the program isn't built. It judges nothing.
set -eu
top=$(cd "$(dirname "$0")/.." && pwd)
program=$top/crates/objtool/out/objtool
[ -x "$program" ] || { echo "checks/build_times.sh: skipped, the program isn't built"; exit 0; }
[ $# -gt 0 ] || set -- 1000 10000 100000
room=$(mktemp -d)
trap 'rm -rf "$room"' EXIT
part() {
    awk -v what="$1" -v n="$2" '
        BEGIN {
            print "[{\"name\":\"a.o\",\"arch\":\"x86_64\",\"format\":\"elf\",\"commands\":["
            if (what == "pairs") {
                for (k = 0; k < n; k++) {
                    print "{\"op\":\"declare_function\",\"name\":\"f" k "\",\"linkage\":\"Export\"},"
                    print "{\"op\":\"declare_data\",\"name\":\"d" k "\",\"linkage\":\"Local\"},"
                }
                for (k = 0; k < n; k++) {
                    print "{\"op\":\"define_function\",\"id\":" k ",\"align\":16,\"bytes\":\"488d0500000000c3\",\"relocs\":["
                    print "{\"offset\":3,\"kind\":\"X86PCRel4\",\"target\":{\"data\":" k "},\"addend\":-4}]},"
                    print "{\"op\":\"define_data\",\"id\":" k ",\"align\":8,\"bytes\":\"0000000000000000\","
                    print "\"functions\":[{\"function\":" k "}],\"function_addresses\":[[0,0]]}" (k + 1 < n ? "," : "")
                }
            } else {
                print "{\"op\":\"declare_function\",\"name\":\"f\",\"linkage\":\"Export\"},"
                print "{\"op\":\"define_function\",\"id\":0,\"bytes\":\""
                for (k = 0; k < n; k++) printf "0000000000000000"
                print "\",\"relocs\":["
                for (k = 0; k < n; k++) {
                    target = what == "labels" ? "{\"label\":[0," 8 * k "]}" : "{\"libcall\":\"Memcpy\"}"
                    print "{\"offset\":" 8 * k ",\"kind\":\"Abs8\",\"target\":" target "}" (k + 1 < n ? "," : "")
                }
                print "]}"
            }
            print "]}]"
        }' | tr -d '\n'
}
for what in pairs labels calls; do
    for n in "$@"; do
        part "$what" "$n" > "$room/part"
        begun=$(date +%s%N)
        status=0
        "$program" build < "$room/part" > "$room/line" || status=$?
        ended=$(date +%s%N)
        echo "$what $n: status $status, $(((ended - begun) / 1000000)) ms, $(wc -c < "$room/part") bytes in, $(wc -c < "$room/line") out"
    done
done
