#!/bin/sh
# Compares what the program answers of PE files with what other programs answer, over the files whose paths are the
# arguments: the SHA-256 of the bytes that `signed` tells with the message digest of osslsigncode, and what `clr`,
# `loadconfig` and `tls` tell with what pefile reads, with the offsets of addresses by the numbers that stand there. Run by
# hand; it is skipped where no path is given, the program isn't built or a tool is missing. It ends with status 0 only where
# each difference is one that docs/DIFFERENCES.md explains: in load configurations of 32 bits the fields
# process_affinity_mask and process_heap_flags are exchanged; pefile rounds addresses of sections down to a page, and looks
# up an address that two sections hold otherwise, where the alignment in memory is below a page.
#
# It was run on 1 December 2026 over 48 files of Debian 12 packages: 22 x64, 15 x86, 9 arm64 and 2 arm32, among them 3 .NET
# libraries (libmono-*-cil), 13 signed EFI programs (shim-signed, shim-helpers-amd64-signed, grub-efi-*-signed,
# fwupd-amd64-signed), 20 with thread-local data (gcc-mingw-w64-*-runtime) and 4 with a load configuration (python3-distlib);
# the others are of systemd-boot-efi. It ended with 1918 fields, 7 explained differences and no other.
set -eu
top=$(cd "$(dirname "$0")/.." && pwd)
program=$top/crates/objtool/out/objtool
[ $# -gt 0 ] || { echo "checks/pe_files.sh: skipped, no file is named"; exit 0; }
[ -x "$program" ] || { echo "checks/pe_files.sh: skipped, the program isn't built"; exit 0; }
for tool in osslsigncode openssl; do
    command -v "$tool" >/dev/null 2>&1 || { echo "checks/pe_files.sh: skipped, no $tool"; exit 0; }
done
python=
for one in python3 /usr/bin/python3; do
    if "$one" -c 'import pefile' >/dev/null 2>&1; then python=$one; break; fi
done
[ -n "$python" ] || { echo "checks/pe_files.sh: skipped, no pefile"; exit 0; }
room=$(mktemp -d)
trap 'rm -rf "$room"' EXIT
openssl req -x509 -newkey rsa:2048 -nodes -subj /CN=test -days 2 -keyout "$room/key.pem" -out "$room/certificate.pem" >/dev/null 2>&1
"$python" - "$program" "$room" "$@" <<'PYTHON'
import hashlib, json, os, re, struct, subprocess, sys
import pefile

program, room, paths = sys.argv[1], sys.argv[2], sys.argv[3:]
COUNTS = {"files": 0, "fields": 0, "explained": 0, "differences": 0}
KINDS = {}
SKIPPED = []

def ask(command, value):
    run = subprocess.run([program, command], input=json.dumps(value).encode(), capture_output=True)
    if run.returncode == 0:
        return run.stdout.decode().rstrip("\n"), None
    return None, "status %d: %s" % (run.returncode, run.stderr.decode().strip())

def compare(path, what, ours, theirs, explained=False):
    COUNTS["fields"] += 1
    if ours == theirs:
        return
    if explained:
        COUNTS["explained"] += 1
        return
    COUNTS["differences"] += 1
    print("%s: %s: %s here, %s there" % (path, what, str(ours)[:200], str(theirs)[:200]))

def places(pe):
    header = pe.OPTIONAL_HEADER
    checksum = header.get_file_offset() + 64
    entry = header.DATA_DIRECTORY[4].get_file_offset()
    return {"checksum": [checksum, checksum + 4], "certificate_entry": [entry, entry + 8],
            "certificate_size": header.DATA_DIRECTORY[4].Size, "header_end": header.SizeOfHeaders}

# The message digest that osslsigncode reckons for a signed file.
def digest_of(path):
    run = subprocess.run(["osslsigncode", "verify", path], capture_output=True)
    text = run.stdout.decode(errors="replace")
    found = re.search(r"Calculated message digest *: *([0-9A-Fa-f]+)", text)
    kind = re.search(r"Message digest algorithm *: *(\w+)", text)
    return (kind.group(1), found.group(1).lower()) if found and kind else None

# The same for a file without certificates: a copy is signed. `size` bytes of certificates at its end are left out first.
def digest_of_copy(data, excluded, size):
    copy, signed = os.path.join(room, "copy"), os.path.join(room, "signed")
    for old in (copy, signed):
        if os.path.exists(old):
            os.remove(old)
    data = bytearray(data)
    data[excluded["certificate_entry"][0]:excluded["certificate_entry"][1]] = bytes(8)
    with open(copy, "wb") as out:
        out.write(data[:len(data) - size])
    subprocess.run(["osslsigncode", "sign", "-h", "sha256", "-certs", os.path.join(room, "certificate.pem"), "-key",
                    os.path.join(room, "key.pem"), "-in", copy, "-out", signed], capture_output=True)
    return digest_of(signed) if os.path.exists(signed) else None

def check_signed(path, data, pe, sections):
    excluded = places(pe)
    theirs = digest_of(path) if excluded["certificate_size"] else None
    if theirs is None:
        theirs = digest_of_copy(data, excluded, excluded["certificate_size"])
    if theirs is None:
        SKIPPED.append("%s: osslsigncode reckons no digest" % path)
        return
    text, refused = ask("signed", {"bytes": data.hex(), "sections": sections, "excluded": excluded})
    ours = refused if text is None else hashlib.new(theirs[0].lower(), bytes.fromhex(text)).hexdigest()
    compare(path, "digest of the signed bytes", ours, theirs[1])

# An entry of the data directory, None where it isn't there or empty.
def entry_of(pe, number):
    entries = pe.OPTIONAL_HEADER.DATA_DIRECTORY
    return entries[number] if number < len(entries) and entries[number].VirtualAddress else None

def image(data, sections, pe, number):
    entry = entry_of(pe, number)
    return {"bytes": data.hex(), "sections": sections, "directory": [entry.VirtualAddress, entry.Size],
            "file_alignment": pe.OPTIONAL_HEADER.FileAlignment}

def offset(pe, rva):
    try:
        return pe.get_offset_from_rva(rva)
    except pefile.PEFormatError:
        return None

# Offsets: of the first number of 4 bytes of each section, of one in its middle and of its last.
def check_offsets(path, data, pe, sections, is_64):
    page = 4096
    for address, virtual, pointer, raw in sections:
        held = min(raw, virtual) if virtual else raw
        if held < 4:
            continue
        for rva in sorted({address, address + held // 2, address + held - 4}):
            place = offset(pe, rva)
            if place is None or place + 4 > len(data) or rva % page > page - 4 and rva - address + 4 > held:
                continue
            value = {"bytes": data.hex(), "sections": sections, "directory": [rva, 4],
                     "file_alignment": pe.OPTIONAL_HEADER.FileAlignment, "is_64": is_64}
            text, refused = ask("loadconfig", value)
            ours = refused if text is None else json.loads(text)["size"]
            theirs = struct.unpack_from("<I", data, place)[0]
            two = sum(1 for row in sections if is_held(row, rva)) > 1
            compare(path, "number at address %#x" % rva, ours, theirs, address % page != 0 or two)

def check_clr(path, data, pe, sections):
    if entry_of(pe, 14) is None:
        return
    header = pe.get_data(pe.OPTIONAL_HEADER.DATA_DIRECTORY[14].VirtualAddress, 72)
    _, _, _, rva, size, flags = struct.unpack_from("<IHHIII", header, 0)
    root = pe.get_data(rva, size)
    signature, _, _, _, length = struct.unpack_from("<IHHII", root, 0)
    version = root[16:16 + length].decode()
    count, = struct.unpack_from("<H", root, 16 + length + 2)
    at, streams, mvid = 16 + length + 4, [], None
    for _ in range(count):
        start, bytes_long = struct.unpack_from("<II", root, at)
        end = root.index(b"\0", at + 8)
        name = root[at + 8:end].decode()
        streams.append([name, start, bytes_long])
        if name == "#GUID" and mvid is None:
            mvid = root[start:start + bytes_long].hex()
        at = (end + 4) // 4 * 4
    text, refused = ask("clr", image(data, sections, pe, 14))
    ours = json.loads(text) if text is not None else {}
    if refused:
        print("%s: clr: %s" % (path, refused))
    theirs = {"flags": flags, "metadata": [rva, size], "mvid": mvid, "signature": signature, "streams": streams, "version": version}
    for key in theirs:
        compare(path, "clr " + key, ours.get(key), theirs[key])
    KINDS[".NET"] = KINDS.get(".NET", 0) + 1

# A field's name here, from its name in pefile.
SPECIAL = {"TimeDateStamp": "time_stamp", "CSDVersion": "csd_version", "Reserved1": "dependent_load_flags", "SEHandlerTable": "se_handler_table",
           "SEHandlerCount": "se_handler_count", "CHPEMetadataPointer": "chpe_metadata_pointer"}
def our_name(name):
    name = SPECIAL.get(name, name)
    if "_" in name or name.islower():
        return name
    name = name.replace("CF", "Cf").replace("RF", "Rf")
    return re.sub(r"(?<!^)(?=[A-Z])", "_", name).lower()

def check_load_config(path, data, pe, sections, is_64):
    if entry_of(pe, 10) is None or not hasattr(pe, "DIRECTORY_ENTRY_LOAD_CONFIG"):
        return
    size = pe.OPTIONAL_HEADER.DATA_DIRECTORY[10].Size
    text, refused = ask("loadconfig", dict(image(data, sections, pe, 10), is_64=is_64))
    ours = json.loads(text) if text is not None else {}
    if refused:
        print("%s: loadconfig: %s" % (path, refused))
    found = pe.DIRECTORY_ENTRY_LOAD_CONFIG.struct
    integrity = []
    for group in found.__keys__:
        # two names of pefile's 32-bit format run together; the fields behind them aren't compared
        if len(group) > 1:
            break
        for name in group:
            theirs = getattr(found, name)
            place = found.get_field_relative_offset(name)
            if name.startswith("CodeIntegrity"):
                integrity.append(theirs)
                if len(integrity) == 4:
                    compare(path, "loadconfig code_integrity", ours.get("code_integrity"), integrity if place + 4 <= size else None)
                continue
            key = our_name(name)
            if key not in ours:
                print("%s: loadconfig: no field %s" % (path, key))
            # a field behind the directory's end is none here
            if ours.get(key) is None and place + 2 > size - 8:
                theirs = None
            swapped = not is_64 and key in ("process_affinity_mask", "process_heap_flags")
            compare(path, "loadconfig " + key, ours.get(key), theirs, swapped)
    KINDS["load configuration"] = KINDS.get("load configuration", 0) + 1

def number(data, place, width):
    return int.from_bytes(data[place:place + width], "little") if place is not None and place + width <= len(data) else None

def check_tls(path, data, pe, sections, is_64):
    if entry_of(pe, 9) is None or not hasattr(pe, "DIRECTORY_ENTRY_TLS"):
        return
    found, base, width = pe.DIRECTORY_ENTRY_TLS.struct, pe.OPTIONAL_HEADER.ImageBase, 8 if is_64 else 4
    text, refused = ask("tls", dict(image(data, sections, pe, 9), is_64=is_64, image_base=base))
    ours = json.loads(text) if text is not None else {}
    if refused:
        print("%s: tls: %s" % (path, refused))
    start, end = found.StartAddressOfRawData, found.EndAddressOfRawData
    place = offset(pe, start - base)
    raw = data[place:place + end - start].hex() if start and end and place is not None and place < len(data) and place + end - start <= len(data) else None
    callbacks, at = [], offset(pe, found.AddressOfCallBacks - base) if found.AddressOfCallBacks else None
    while at is not None and number(data, at, width):
        callbacks.append(number(data, at, width))
        at += width
    slot = number(data, offset(pe, found.AddressOfIndex - base), 4) if held(sections, found.AddressOfIndex - base) else None
    raw = raw if held(sections, start - base) else None
    theirs = {"callbacks": callbacks, "callbacks_address": found.AddressOfCallBacks, "characteristics": found.Characteristics,
              "end": end, "index": found.AddressOfIndex, "raw": raw, "slot": slot, "start": start, "zero_fill": found.SizeOfZeroFill}
    for key in theirs:
        compare(path, "tls " + key, ours.get(key), theirs[key])
    KINDS["thread-local"] = KINDS.get("thread-local", 0) + 1

# Whether a section has bytes in the file for an address: its size in memory counts in whole pages.
def is_held(row, rva):
    address, virtual, pointer, raw = row
    extent = min(raw, (virtual + 4095) // 4096 * 4096) if virtual else raw
    return address <= rva < address + extent

def held(sections, rva):
    return any(is_held(row, rva) for row in sections)

MACHINES = {0x8664: "x64", 0x14c: "x86", 0xaa64: "arm64", 0x1c0: "arm32", 0x1c2: "arm32", 0x1c4: "arm32"}
for path in paths:
    with open(path, "rb") as opened:
        data = opened.read()
    try:
        pe = pefile.PE(data=data, fast_load=True)
        pe.parse_data_directories([9, 10])
    except pefile.PEFormatError as error:
        SKIPPED.append("%s: pefile: %s" % (path, error))
        continue
    if len(data) > 33000000:
        SKIPPED.append("%s: too long for an input" % path)
        continue
    COUNTS["files"] += 1
    kind = MACHINES.get(pe.FILE_HEADER.Machine, "other")
    KINDS[kind] = KINDS.get(kind, 0) + 1
    if entry_of(pe, 4) is not None:
        KINDS["signed"] = KINDS.get("signed", 0) + 1
    is_64 = pe.OPTIONAL_HEADER.Magic == 0x20b
    sections = [[s.VirtualAddress, s.Misc_VirtualSize, s.PointerToRawData, s.SizeOfRawData] for s in pe.sections]
    check_signed(path, data, pe, sections)
    check_offsets(path, data, pe, sections, is_64)
    check_clr(path, data, pe, sections)
    check_load_config(path, data, pe, sections, is_64)
    check_tls(path, data, pe, sections, is_64)
for line in SKIPPED:
    print("skipped: " + line)
print("kinds: " + ", ".join("%s %d" % pair for pair in sorted(KINDS.items())))
print("checks/pe_files.sh: %(files)d files, %(fields)d fields, %(explained)d explained differences, %(differences)d differences" % COUNTS)
sys.exit(1 if COUNTS["differences"] else 0)
PYTHON
