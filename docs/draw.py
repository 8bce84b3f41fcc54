#!/usr/bin/env python3
"""Draws the pictures of docs/FORMATS.md and docs/ARCHITECTURE.md as SVG files beside itself.

The files of the formats are those of examples/: each is walked from its own headers, and each part is drawn where they say
that it stands. The crates are those of crates.txt, in the layers of the table of docs/ARCHITECTURE.md. With --check it writes
nothing, and ends with status 1 where a picture isn't up to date."""
import re
import struct
import sys
from html import escape
from pathlib import Path

DOCS = Path(__file__).resolve().parent
TOP = DOCS.parent
INK, FAINT, LINE = "#1c2733", "#5b6875", "#8a96a3"
COLORS = {"header": "#cfe0f3", "contents": "#d9ecd0", "records": "#f8e3c0", "symbols": "#ead6ee", "names": "#f6d5d5",
          "padding": "#eeeeee", "crate": "#ffffff", "layer": "#f1f4f7", "step": "#cfe0f3", "value": "#ffffff"}


class Picture:
    def __init__(self, width, height, title):
        self.width, self.height, self.title, self.items = width, height, title, []

    def text(self, x, y, words, size=13, anchor="start", color=INK, weight="normal", mono=False):
        family = "monospace" if mono else "sans-serif"
        self.items.append(f'<text x="{x:g}" y="{y:g}" font-family="{family}" font-size="{size:g}" text-anchor="{anchor}" '
                          f'fill="{color}" font-weight="{weight}">{escape(words)}</text>')

    def box(self, x, y, w, h, color, round_by=3, border=LINE):
        self.items.append(f'<rect x="{x:g}" y="{y:g}" width="{w:g}" height="{h:g}" rx="{round_by}" fill="{color}" '
                          f'stroke="{border}"/>')

    def line(self, points, arrow=False, color=LINE, dashed=False):
        path = " ".join(f"{x:g},{y:g}" for x, y in points)
        end = ' marker-end="url(#tip)"' if arrow else ""
        dash = ' stroke-dasharray="4 3"' if dashed else ""
        self.items.append(f'<polyline points="{path}" fill="none" stroke="{color}" stroke-width="1.3"{end}{dash}/>')

    def __str__(self):
        head = (f'<svg xmlns="http://www.w3.org/2000/svg" width="{self.width:g}" height="{self.height:g}" '
                f'viewBox="0 0 {self.width:g} {self.height:g}" role="img">\n<title>{escape(self.title)}</title>\n'
                f'<defs><marker id="tip" viewBox="0 0 8 8" refX="7" refY="4" markerWidth="8" markerHeight="8" '
                f'orient="auto"><path d="M0,0 L8,4 L0,8 z" fill="{LINE}"/></marker></defs>\n'
                f'<rect width="{self.width:g}" height="{self.height:g}" fill="#ffffff"/>\n')
        return head + "\n".join(self.items) + "\n</svg>\n"


def bytes_of(name):
    return bytes.fromhex((TOP / "examples" / name).read_text())


def stack(title, length, rows):
    """A file from its first byte to its last: rows of (start, end, kind, name, what stands there, where it begins)."""
    at = 0
    for start, end, _, name, _, _ in rows:
        if start != at or end < start:
            raise SystemExit(f"{title}: {name} stands at {start}, and what is before it ends at {at}")
        at = end
    if at != length:
        raise SystemExit(f"{title}: the parts end at {at}, and the file has {length} bytes")
    heights = [28 + 16 * len(what) for _, _, _, _, what, _ in rows]
    picture = Picture(980, 64 + sum(heights) + 16, title)
    picture.text(16, 28, title, 17, weight="bold")
    for x, words, anchor in ((84, "place", "end"), (100, "what stands there", "start"), (640, "where it begins", "start")):
        picture.text(x, 52, words, 12, anchor, FAINT)
    y = 60
    for (start, end, kind, name, what, rule), height in zip(rows, heights):
        picture.box(100, y, 520, height, COLORS[kind], 0)
        picture.text(84, y + 15, str(start), 13, "end", mono=True)
        size = end - start
        picture.text(610, y + 18, f"{size} byte" + ("" if size == 1 else "s"), 12, "end", FAINT)
        picture.text(110, y + 18, name, 13, weight="bold" if kind != "padding" else "normal")
        for k, words in enumerate(what):
            picture.text(110, y + 35 + 16 * k, words, 12, color=FAINT)
        picture.text(640, y + 18, rule, 12)
        y += height
    picture.text(84, y + 5, str(length), 13, "end", mono=True)
    return picture


def gap(rows, start, end):
    """Zeros between two parts, where there are any."""
    if start < end:
        rows.append((start, end, "padding", "zeros", [], "where the part before ends"))


def elf():
    data = bytes_of("expected/code_and_data_elf.hex")
    headers, = struct.unpack_from("<Q", data, 40)
    count, names_row = struct.unpack_from("<HH", data, 60)
    sections = [struct.unpack_from("<IIQQQQIIQQ", data, headers + 64 * k) for k in range(count)]

    def name_of(row):
        start = sections[names_row][4] + row[0]
        return data[start:data.index(b"\0", start)].decode()

    rows = [(0, 64, "header", "file header", ["magic, class, type, machine, flags;", "where the section headers stand, and how many there are"],
             "0")]
    at = 64
    for row in sections[1:]:
        name, kind, offset, size, align = name_of(row), row[1], row[4], row[5], row[8]
        if kind == 8:
            rows.append((at, at, "contents", name, [f"zeros in memory: {size} bytes there, none of the file"], "where the part before ends"))
            continue
        gap(rows, at, offset)
        rule = "where the part before ends" if align == 1 else f"the next multiple of its alignment, {align}"
        color, what = {4: ("records", [f"{size // 24} records of 24 bytes: offset, type and symbol, addend"]),
                       2: ("symbols", [f"{size // 24} rows of 24 bytes, the null row first, then the local ones:",
                                       "name, info, other, section, value, size"]),
                       3: ("names", ["a zero byte, then each name with a zero byte behind it"])}.get(kind, ("contents", []))
        if kind == 1:
            what = ["the code of functions" if row[2] & 4 else "the bytes of data"] if size else ["nothing: it says that the stack needn't be executable"]
        rows.append((offset, offset + size, color, name, what, rule))
        at = offset + size
    gap(rows, at, headers)
    listed = ["null"] + [name_of(row) for row in sections[1:]]
    rows.append((headers, headers + 64 * count, "header", "section headers",
                 [f"{count} rows of 64 bytes, in this order:", ", ".join(listed[:5]) + ",", ", ".join(listed[5:])],
                 "the next multiple of 8"))
    return stack("An ELF64 file", len(data), rows)


def macho():
    data = bytes_of("expected/code_and_data_macho.hex")
    commands, = struct.unpack_from("<I", data, 16)
    rows = [(0, 32, "header", "header", ["magic, processor, MH_OBJECT, number and size of the commands, flags"], "0")]
    at, sections, symtab = 32, [], None
    for _ in range(commands):
        cmd, size = struct.unpack_from("<II", data, at)
        if cmd == 0x19:
            count, = struct.unpack_from("<I", data, at + 64)
            rows.append((at, at + 72, "header", "LC_SEGMENT_64", ["one segment without a name, that holds all sections"], "behind the header"))
            for k in range(count):
                place = at + 72 + 80 * k
                name, segment = (data[p:p + 16].rstrip(b"\0").decode() for p in (place, place + 16))
                sections.append((segment, name) + struct.unpack_from("<QQIIIII", data, place + 32))
                rows.append((place, place + 80, "header", f"header of {segment},{name}",
                             ["names, address, size, place in the file, alignment, records, flags"], "behind the part before, in the order of the sections"))
        elif cmd == 0x32:
            rows.append((at, at + size, "header", "LC_BUILD_VERSION", ["platform and version, where the system has a platform"], "behind the sections' headers"))
        else:
            symtab = struct.unpack_from("<IIII", data, at + 8)
            rows.append((at, at + size, "header", "LC_SYMTAB", ["where symbols and names stand"], "behind the command before"))
        at += size
    start = at
    for segment, name, address, size, offset, power, _, _, flags in sections:
        if flags & 0xff in (1, 0xc, 0x12):
            rows.append((at, at, "contents", f"{segment},{name}", [f"zeros in memory: {size} bytes there, none of the file"], "nowhere"))
            continue
        gap(rows, at, offset)
        rows.append((offset, offset + size, "contents", f"{segment},{name}",
                     ["the code of functions" if flags & 0x400 else "the bytes of data", "an addend stands in its field, where the kind keeps it there"][:2 if flags & 0x400 else 1],
                     f"{start} and its address in memory, {address}"))
        at = offset + size
    for segment, name, _, _, _, _, records, number, _ in sections:
        if number:
            gap(rows, at, records)
            rows.append((records, records + 8 * number, "records", f"records of {segment},{name}",
                         [f"{number} records of 8 bytes: address, symbol, relative or not, length, type"], "the next multiple of 8"))
            at = records + 8 * number
    symbols, count, names, size = symtab
    rows.append((symbols, symbols + 16 * count, "symbols", "symbols",
                 [f"{count} rows of 16 bytes, the local ones first: name, type, section, description, value"], "behind the records"))
    rows.append((names, names + size, "names", "names", ["a zero byte, then each name with a zero byte behind it"], "behind the symbols"))
    return stack("A 64-bit Mach-O file", len(data), rows)


def fat():
    table = bytes_of("expected/fat_table.hex")
    count, = struct.unpack_from(">I", table, 4)
    names = {0x01000007: "x86_64", 0x0100000c: "arm64"}
    rows = [(0, 8, "header", "header", ["magic number cafebabe, and how many entries there are; big-endian"], "0")]
    at, entries = 8, []
    for k in range(count):
        entries.append(struct.unpack_from(">IIIII", table, at))
        name = names[entries[-1][0]]
        rows.append((at, at + 20, "header", f"entry of {name}", ["type and subtype of the processor, offset, size, alignment as a power of two"],
                     "behind the part before: arm64 last, else by alignment"))
        at += 20
    for cputype, _, offset, size, power in entries:
        gap(rows, at, offset)
        rows.append((offset, offset + size, "contents", f"slice of {names[cputype]}", ["a whole Mach-O file"],
                     f"the next multiple of {2 ** power}, the greatest alignment"))
        at = offset + size
    return stack("A fat file", at, rows)


def layers():
    """The layers of the map in docs/ARCHITECTURE.md, each with its crates, and what each crate uses, by crates.txt."""
    uses = {}
    for line in (TOP / "crates.txt").read_text().splitlines():
        if line and not line.startswith("#"):
            name, _, rest = line.partition(":")
            uses[name] = rest.split()
    found, layer = [], None
    for row in re.findall(r"^\| (\w*) ?\| `(\w+)` \|", (DOCS / "ARCHITECTURE.md").read_text(), re.M):
        if row[0]:
            layer = row[0]
            found.append((layer, []))
        found[-1][1].append(row[1])
    listed = {name for _, names in found for name in names}
    missing = sorted(set(uses) ^ listed)
    if missing:
        raise SystemExit(f"crates.txt and the map of docs/ARCHITECTURE.md differ: {', '.join(missing)}")
    return found, uses


def wrapped(words, width):
    lines = [""]
    for word in words:
        if lines[-1] and len(lines[-1]) + len(word) + 2 > width:
            lines[-1] += ","
            lines.append("")
        lines[-1] += (", " if lines[-1] else "") + word
    return lines


def crates():
    found, uses = layers()
    found = [(layer, names) for layer, names in found if layer != "tests"]
    below = {}

    def all_below(name):
        if name not in below:
            below[name] = set()
            for one in uses.get(name, []):
                below[name] |= {one} | all_below(one)
        return below[name]

    # what a crate uses and no other crate that it uses already stands on
    direct = {}
    for name, used in uses.items():
        own = [one for one in used if one in uses]
        direct[name] = [one for one in own if not any(one in all_below(other) for other in own)]
    wide, gap_x, columns = 176, 10, 5
    rows = []
    for layer, names in reversed(found):
        boxes = [(name, wrapped(direct[name], 25) if direct[name] else []) for name in reversed(names)]
        rows.append((layer, [boxes[k:k + columns] for k in range(0, len(boxes), columns)]))
    heights = [[30 + 14 * max(len(lines) for _, lines in line) for line in lines_of] for _, lines_of in rows]
    picture = Picture(92 + columns * (wide + gap_x) + 12, 62 + sum(sum(h + 10 for h in hs) + 22 for hs in heights), "The crates")
    picture.text(16, 28, "The crates", 17, weight="bold")
    picture.text(16, 48, "The lowest layer is at the bottom. Under a name stands what the crate is built on, but for what that stands on in turn.", 12, color=FAINT)
    y = 62
    for (layer, lines_of), hs in zip(rows, heights):
        whole = sum(h + 10 for h in hs) + 10
        picture.box(8, y, picture.width - 16, whole, COLORS["layer"], 6, "#dfe5ea")
        picture.text(18, y + 26, layer, 13, weight="bold")
        top = y + 10
        for line, h in zip(lines_of, hs):
            for k, (name, lines) in enumerate(line):
                x = 92 + k * (wide + gap_x)
                picture.box(x, top, wide, h, COLORS["crate"])
                picture.text(x + 8, top + 18, name, 13, weight="bold")
                for number, words in enumerate(lines):
                    picture.text(x + 8, top + 34 + 14 * number, words, 11, color=FAINT)
            top += h + 10
        y += whole + 12
    return picture


def way():
    picture = Picture(980, 540, "The way of a file")
    picture.text(16, 28, "The way of a file", 17, weight="bold")
    picture.text(16, 48, "Blue: a call, with its crate. White: what it gives.", 12, color=FAINT)

    width, height, columns = 200, 46, (90, 332, 572)

    def node(x, y, name, note, kind):
        picture.box(x, y, width, height, COLORS[kind], 4 if kind == "step" else 14)
        picture.text(x + width / 2, y + (20 if note else 28), name, 13, "middle", weight="bold" if kind == "step" else "normal")
        if note:
            picture.text(x + width / 2, y + 36, note, 11, "middle", FAINT)

    # A row of nodes, of which each leads to the next one: to the right, or back to the left.
    def row(y, nodes, back=False):
        xs = list(reversed(columns) if back else columns)
        for k, (name, note, kind) in enumerate(nodes):
            node(xs[k], y, name, note, kind)
            if k + 1 < len(nodes):
                middle = y + height / 2
                ends = (xs[k], xs[k + 1] + width + 2) if back else (xs[k] + width, xs[k + 1] - 2)
                picture.line([(ends[0], middle), (ends[1], middle)], True)

    # From a node of this column down to the one under it.
    def down(column, y, to):
        x = columns[column] + width / 2
        picture.line([(x, y + height), (x, to - 2)], True)

    picture.text(16, 84, "build", 14, weight="bold")
    row(64, [("input", "JSON: a list of parts", "value"), ("script", "objtool_run", "step"), ("parts", "names, targets, commands", "value")])
    down(2, 64, 140)
    row(140, [("build_image", "image_build", "step"), ("apply, each command", "cranelift_object, cranelift_module", "step"),
              ("link state", "cranelift_module", "value")], True)
    down(0, 140, 216)
    row(216, [("finish", "cranelift_object", "step"), ("object", "object_core", "value"),
              ("emit_elf, emit_macho", "object_elf, object_macho", "step")])
    down(2, 216, 292)
    row(292, [("file of a part", "ELF64 or Mach-O", "value"), ("FatWriter, of several", "fat_macho", "step"),
              ("output", "hexadecimal, or the file", "value")], True)
    picture.line([(672, 338), (672, 352), (190, 352), (190, 340)], True)
    picture.text(431, 366, "of one part: the file itself", 11, "middle", FAINT)
    picture.text(16, 406, "read", 14, weight="bold")
    row(386, [("input", "any bytes", "value"), ("read_image", "image_read", "step"), ("image", "rows, names, slices", "value")])
    down(2, 386, 462)
    row(462, [("image_text", "image_json", "step"), ("output", "a line of JSON", "value")], True)
    for y, words in [(84, "status 2: words"), (102, "3, 7: reading"), (120, "6: not of the form"), (166, "1: refused, with part,"),
                     (184, "command and cause"), (318, "4: writing"), (408, "1: no format reads it")]:
        picture.text(800, y, words, 12, color=FAINT)
    return picture


PICTURES = {"elf.svg": elf, "macho.svg": macho, "fat.svg": fat, "crates.svg": crates, "way.svg": way}


def main():
    check = sys.argv[1:] == ["--check"]
    if sys.argv[1:] and not check:
        raise SystemExit("docs/draw.py takes no words but --check")
    old = []
    for name, draw in PICTURES.items():
        text, place = str(draw()), DOCS / name
        if check:
            if not place.is_file() or place.read_text() != text:
                old.append(name)
        else:
            place.write_text(text)
    if old:
        raise SystemExit(f"docs/draw.py: not up to date: {', '.join(old)}")


main()
