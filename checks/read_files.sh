#!/bin/sh
# Compares what the program reads of ELF64 object files with what readelf shows, row by row: sections with name, type,
# flags, address, size, link, info, alignment and entry size as far as the program tells them, contents byte by byte by
# objcopy, symbols and relocations. The files are those given as arguments; without any, a C file compiled by gcc and clang
# in several ways, for other processors too where their compilers are there, and linked by ld -r and gold -r. Run by hand;
# it is skipped where the program isn't built or python3 or readelf is missing.
set -eu
top=$(cd "$(dirname "$0")/.." && pwd)
program=$top/crates/objtool/out/objtool
for tool in python3 readelf; do
    command -v "$tool" >/dev/null 2>&1 || { echo "checks/read_files.sh: skipped, no $tool"; exit 0; }
done
[ -x "$program" ] || { echo "checks/read_files.sh: skipped, the program isn't built"; exit 0; }
room=$(mktemp -d)
trap 'rm -rf "$room"' EXIT
if [ $# -eq 0 ]; then
    cat > "$room/a.c" <<'END'
static int counter_of_a_long_name;
int shared = 3, zeros[100];
const char *text = "hello";
__thread int slot, started = 5;
__attribute__((weak)) int maybe(void);
__attribute__((visibility("hidden"))) int hidden(void) { return shared; }
extern int other(int);
int main(void) { return other(counter_of_a_long_name++) + shared + slot + started + (maybe ? maybe() : hidden()); }
END
    for compiler in gcc clang aarch64-linux-gnu-gcc riscv64-linux-gnu-gcc; do
        command -v "$compiler" >/dev/null 2>&1 || continue
        for options in "-O0" "-O2 -g" "-O2 -ffunction-sections -fdata-sections -fPIC"; do
            # shellcheck disable=SC2086
            "$compiler" $options -c "$room/a.c" -o "$room/$compiler$(echo "$options" | tr -d ' ').o"
        done
    done
    for linker in ld.bfd ld.gold; do
        command -v "$linker" >/dev/null 2>&1 || continue
        "$linker" -r "$room"/gcc-O2-g.o -o "$room/$linker.o"
    done
    set -- "$room"/*.o
fi
python3 - "$program" "$@" <<'END'
import json, re, subprocess, sys
program, files = sys.argv[1], sys.argv[2:]
TYPES = {'NULL': 0, 'PROGBITS': 1, 'SYMTAB': 2, 'STRTAB': 3, 'RELA': 4, 'HASH': 5, 'NOTE': 7, 'NOBITS': 8, 'INIT_ARRAY': 14,
         'FINI_ARRAY': 15, 'GROUP': 17, 'SYMTAB_SHNDX': 18, 'X86_64_UNWIND': 0x70000001, 'LOOS+0xfff4c03': 0x6fff4c03,
         'RISCV_ATTRIBUTE': 0x70000003}
FLAGS = {'W': 1, 'A': 2, 'X': 4, 'M': 0x10, 'S': 0x20, 'I': 0x40, 'L': 0x80, 'O': 0x100, 'G': 0x200, 'T': 0x400,
         'C': 0x800, 'R': 0x200000, 'E': 0x80000000, 'l': 0x10000000}
BINDS = {'LOCAL': 0, 'GLOBAL': 1, 'WEAK': 2, 'UNIQUE': 10}
KINDS = {'NOTYPE': 0, 'OBJECT': 1, 'FUNC': 2, 'SECTION': 3, 'FILE': 4, 'COMMON': 5, 'TLS': 6, 'IFUNC': 10}
SIGHTS = {'DEFAULT': 0, 'INTERNAL': 1, 'HIDDEN': 2, 'PROTECTED': 3}
PLACES = {'UND': 0, 'ABS': 0xfff1, 'COM': 0xfff2}
def shown(option, file):
    return subprocess.run(['readelf', option, file], capture_output=True, text=True, check=True).stdout
fields = differences = 0
def same(file, what, ours, theirs):
    global fields, differences
    fields += 1
    if ours != theirs:
        differences += 1
        print(f'{file}: {what}: {ours!r}, readelf {theirs!r}')
for file in files:
    bytes_of = open(file, 'rb').read()
    image = json.loads(subprocess.run([program, 'read'], input=bytes_of, capture_output=True, check=True).stdout)
    sections = re.findall(r'^  \[ *(\d+)\] (.*?) +(\S+) +([0-9a-f]{16}) ([0-9a-f]+) ([0-9a-f]+) ([0-9a-f]+) +([A-Za-z]*) +(\d+) +(\d+) +(\d+)$', shown('-SW', file), re.M)[1:]
    same(file, 'sections', len(image['sections']), len(sections))
    for ours, row in zip(image['sections'], sections):
        number, name, kind, _, offset, size, _, flags, _, _, align = row
        theirs = [name, TYPES.get(kind, kind), sum(FLAGS[c] for c in flags), int(align), int(size, 16)]
        for what, a, b in zip(('name', 'type', 'flags', 'align', 'size'), [bytes.fromhex(ours[0]).decode()] + ours[1:5], theirs):
            same(file, f'section {number} {what}', a, b)
        at = int(offset, 16)
        same(file, f'section {number} contents', ours[5], '' if kind in ('NOBITS', 'NULL') else bytes_of[at:at + int(size, 16)].hex())
    symbols = re.findall(r'^ +\d+: ([0-9a-f]{16}) +(\S+) (\S+) +(\S+) +(\S+) +(?:\[.*?\] +)?(\S+)(?: (.*))?$', shown('-sW', file), re.M)[1:]
    same(file, 'symbols', len(image['symbols']), len(symbols))
    for number, (ours, row) in enumerate(zip(image['symbols'], symbols), 1):
        value, size, kind, bind, sight, place, name = row
        name = bytes.fromhex(ours[0]).decode() if kind == 'SECTION' else (name or '')
        theirs = [name, BINDS[bind] * 16 + KINDS[kind], SIGHTS[sight], PLACES[place] if place in PLACES else int(place), int(value, 16), int(size, 0)]
        for what, a, b in zip(('name', 'info', 'other', 'section', 'value', 'size'), [bytes.fromhex(ours[0]).decode()] + ours[1:], theirs):
            same(file, f'symbol {number} {what}', a, b & 3 if what == 'other' else b)
    tables, table = [], None
    targets = {row[1]: int(row[9]) for row in sections if row[2] == 'RELA'}
    infos = [int(row[9]) for row in sections if row[2] == 'RELA' and int(row[5], 16)]
    wanted = {number: [] for number in range(1, len(sections) + 1)}
    for line in shown('-rW', file).splitlines():
        if line.startswith('Relocation section'):
            table = wanted[infos.pop(0)]
        record = re.match(r'^([0-9a-f]{16})  ([0-9a-f]{8})([0-9a-f]{8}) \S+ +(?:[0-9a-f]{16} .*? ([+-]) ([0-9a-f]+)|([0-9a-f]+))$', line)
        if record and table is not None:
            offset, symbol, kind, sign, addend, alone = record.groups()
            number = int(addend or alone, 16) * (-1 if sign == '-' else 1)
            number = number - 2 ** 64 if number >= 2 ** 63 else number
            table.append([int(offset, 16), int(symbol, 16), int(kind, 16), number])
    for number, ours in enumerate(image['sections'], 1):
        same(file, f'relocations of section {number}', ours[6], wanted[number])
print(f'{len(files)} files, {fields} fields, {differences} differences')
sys.exit(1 if differences or not files else 0)
END
