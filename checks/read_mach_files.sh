#!/bin/sh
# Compares what the program reads of 64-bit Mach-O object files with what llvm-readobj shows, row by row: processor and
# flags, sections with segment, name, address, alignment, flags, size and contents, relocations and symbols. The files are
# those given as arguments; without any, a C file and an assembler file compiled by clang for macOS on x86_64 and arm64 in
# several ways. Each file cut by its last byte must have no reading. Run by hand; it is skipped where the program isn't
# built, or python3, clang or llvm-readobj is missing.
set -eu
top=$(cd "$(dirname "$0")/.." && pwd)
program=$top/crates/objtool/out/objtool
for tool in python3 clang llvm-readobj; do
    command -v "$tool" >/dev/null 2>&1 || { echo "checks/read_mach_files.sh: skipped, no $tool"; exit 0; }
done
[ -x "$program" ] || { echo "checks/read_mach_files.sh: skipped, the program isn't built"; exit 0; }
room=$(mktemp -d)
trap 'rm -rf "$room"' EXIT
if [ $# -eq 0 ]; then
    cat > "$room/a.c" <<'END'
static int counter_of_a_long_name;
int shared = 3, zeros[100], common;
const char *text = "hello";
_Thread_local int slot, started = 5;
__attribute__((weak)) int weak(void) { return 1; }
extern int maybe(void) __attribute__((weak_import));
__attribute__((visibility("hidden"))) int hidden(void) { return shared; }
__attribute__((constructor)) static void first(void) { shared++; }
extern int other(int);
int main(void) { return other(counter_of_a_long_name++) + shared + slot + started + zeros[2] + (maybe ? maybe() : hidden()) + weak(); }
END
    cat > "$room/arm.s" <<'END'
.text
.globl _f
_f: adrp x0, _g@PAGE+16
    add x0, x0, _g@PAGEOFF+16
    bl _h
    ret
.data
here: .quad _g - here
    .quad _h + 8
.zerofill __DATA,__bss,_z,16,3
.tbss _t$tlv$init, 4, 2
END
    for target in x86_64-apple-macos11 arm64-apple-macos11 arm64-apple-ios14 x86_64-apple-macos10.13; do
        for options in "-O0" "-O2 -g" "-O2 -fcommon -fno-asynchronous-unwind-tables"; do
            # shellcheck disable=SC2086
            clang -target $target $options -c "$room/a.c" -o "$room/$target$(echo "$options" | tr -d ' ').o"
        done
    done
    clang -target arm64-apple-macos11 -c "$room/arm.s" -o "$room/arm.o"
    set -- "$room"/*.o
fi
python3 - "$program" "$@" <<'END'
import json, re, subprocess, sys
program, files = sys.argv[1], sys.argv[2:]
ZERO_FILL = (1, 0xc, 0x12)
def shown(file, *options):
    return subprocess.run(['llvm-readobj', *options, file], capture_output=True, text=True, check=True).stdout
def read(bytes_of):
    return subprocess.run([program, 'read'], input=bytes_of, capture_output=True)
def blocks(text, word):
    return [part.split('\n  }\n')[0] for part in text.split(f'\n  {word} {{\n')[1:]]
def number(block, key):
    return int(re.search(rf'^    {key}: (?:.*\()?(0x[0-9A-Fa-f]+|\d+)\)?$', block, re.M)[1], 0)
def name_of(block, key):
    return bytes.fromhex(re.search(rf'^    {key}: .* \(([0-9A-F ]+)\)$', block, re.M)[1]).split(b'\0')[0].hex()
fields = differences = 0
def same(file, what, ours, theirs):
    global fields, differences
    fields += 1
    if ours != theirs:
        differences += 1
        print(f'{file}: {what}: {ours!r}, llvm-readobj {theirs!r}')
for file in files:
    bytes_of = open(file, 'rb').read()
    same(file, 'status without the last byte', read(bytes_of[:-1]).returncode, 1)
    image = json.loads(read(bytes_of).stdout)
    header = shown(file, '--file-headers')
    cpu = [int(re.search(rf'{key}: .*\((0x[0-9A-Fa-f]+)\)', header)[1], 16) for key in ('CpuType', 'CpuSubType')]
    same(file, 'cpu', image['cpu'], cpu)
    same(file, 'flags', image['flags'], int(re.search(r'Flags \[ \((0x[0-9A-Fa-f]+)\)', header)[1], 16))
    sections = blocks(shown(file, '--sections'), 'Section')
    same(file, 'sections', len(image['sections']), len(sections))
    counts = []
    for k, (ours, block) in enumerate(zip(image['sections'], sections)):
        attributes = int(re.search(r'Attributes \[ \((0x[0-9A-Fa-f]+)\)', block)[1], 16)
        flags = number(block, 'Type') + (attributes << 8)
        size, at = number(block, 'Size'), number(block, 'Offset')
        contents = '' if flags % 256 in ZERO_FILL else bytes_of[at:at + size].hex()
        theirs = [name_of(block, 'Segment'), name_of(block, 'Name'), number(block, 'Address'), number(block, 'Alignment'), flags, size, contents]
        for what, a, b in zip(('segment', 'name', 'address', 'align', 'flags', 'size', 'contents'), ours, theirs):
            same(file, f'section {k} {what}', a, b)
        counts.append(number(block, 'RelocationCount'))
    tables = iter(blocks(shown(file, '--relocs', '--expand-relocs').replace('  Section _', '  Section {\n_'), 'Section'))
    for k, (ours, count) in enumerate(zip(image['sections'], counts)):
        rows = re.findall(r'Offset: (0x[0-9A-F]+)\n +PCRel: (\d)\n +Length: (\d)\n +Type: \S+ \((\d+)\)\n +(Symbol|Section): .* \((\d+)\)\n', next(tables)) if count else []
        theirs = [[int(o, 16), int(n), p == '1', int(l), w == 'Symbol', int(t)] for o, p, l, t, w, n in rows]
        same(file, f'relocations of section {k}', len(theirs), count)
        same(file, f'relocations of section {k}', ours[7], theirs)
    symbols = blocks(shown(file, '--symbols'), 'Symbol')
    same(file, 'symbols', len(image['symbols']), len(symbols))
    for k, (ours, block) in enumerate(zip(image['symbols'], symbols)):
        name = re.search(r'^    Name: (.*) \(\d+\)$', block, re.M)[1]
        kind = number(block, 'Type') + ('\n    Extern\n' in block) + 16 * ('\n    PrivateExtern\n' in block)
        desc = number(block, 'RefType') | int(re.search(r'Flags \[ \((0x[0-9A-Fa-f]+)\)', block)[1], 16)
        theirs = [name.encode().hex(), kind, number(block, 'Section'), desc, number(block, 'Value')]
        for what, a, b in zip(('name', 'type', 'section', 'desc', 'value'), ours, theirs):
            same(file, f'symbol {k} {what}', a, b)
print(f'{len(files)} files, {fields} fields, {differences} differences')
sys.exit(1 if differences or not files else 0)
END
