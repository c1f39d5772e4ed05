#!/usr/bin/env python3
"""Writes images.txt: ELF files, and what is wrong with each.

    python3 vectors/images.py > crates/conformance/data/images.txt

The files and what is said of them are made from the ELF standard ("ELF Header", "Program Header", "Note Section"), the
RISC-V ELF psABI (e_machine, e_flags) and the limits and places of docs/IMAGES.md alone; no program of this repository
takes part.

A row is `FILE NAME` where the file is refused for that reason, or `FILE read CERTIFICATE` where it is read. FILE is hex,
and `HEX+N` stands for these bytes and N zero bytes behind them. CERTIFICATE is hex, `-` where the file has none, and
`empty` where it has no byte. Rows stand in the order in which reasons are told; the last ones, each with its name in the
line before it, are about what no rule names, and about limits.
"""
import struct

LOAD, DYNAMIC, INTERP, NOTE, TLS = 1, 2, 3, 4, 7
X, W, R = 1, 2, 4
CODE = bytes.fromhex("d772060c 07040502 07880502 57048802 27040502 73000000")
CERTIFICATE = struct.pack("<III", 7, 4, 1) + b"RVVBOX\0\0" + bytes([1, 2, 3, 4])


def note(name, descriptor, kind, padding=0):
    def padded(part):
        return part + bytes([padding]) * (-len(part) % 4)

    return struct.pack("<III", len(name), len(descriptor), kind) + padded(name) + padded(descriptor)


def elf(headers, body, patches=(), phnum=None):
    """A file of these headers (type, offset in the body, address, file size, memory size, flags) and this body."""
    start = 52 + 32 * len(headers)
    ident = b"\x7fELF" + bytes([1, 1, 1]) + bytes(9)
    out = bytearray(ident + struct.pack("<HHIIIIIHHHHHH", 2, 243, 1, 0x10000, 52, 0, 0, 52, 32,
                                        len(headers) if phnum is None else phnum, 0, 0, 0))
    for kind, offset, address, filesz, memsz, flags in headers:
        out += struct.pack("<8I", kind, start + offset, address, address, filesz, memsz, flags, 4)
    out += body
    for offset, size, value in patches:
        out[offset:offset + size] = value.to_bytes(size, "little")
    return bytes(out)


TEXT = (LOAD, 0, 0x10000, 24, 24, R | X)
DATA = (LOAD, 24, 0x20000, 4, 16, R | W)
BODY = CODE + bytes([0xDE, 0xAD, 0xBE, 0xEF]) + CERTIFICATE
NOTES = (NOTE, 28, 0, 24, 24, R)


def whole(data=DATA, notes=NOTES, patches=()):
    return elf([TEXT, data, notes], BODY, patches)


def changed(header, **fields):
    names = ["kind", "offset", "address", "filesz", "memsz", "flags"]
    return tuple(fields.get(name, value) for name, value in zip(names, header))


def data(**fields):
    return whole(data=changed(DATA, **fields))


def many(count):
    """`count` segments, each on a page of its own."""
    pages = [(LOAD, 0, 0x20000 + 4096 * i, 4, 4096, R | W) for i in range(1, count)]
    return [TEXT] + pages


def notes_of(*parts):
    body = b"".join(parts)
    return elf([TEXT, (NOTE, 24, 0, len(body), len(body), R)], CODE + body)


ROWS = []


def row(file, name, certificate=None, zeros=0, told=None):
    if told:
        ROWS.append(f"# {told}")
    tail = f"+{zeros}" if zeros else ""
    shown = "" if name != "read" else " -" if certificate is None else " " + (certificate.hex() or "empty")
    ROWS.append(f"{file.hex()}{tail} {name}{shown}")


def header_rows():
    row(whole()[:51], "TooShort")
    for place in range(4):
        row(whole(patches=[(place, 1, 0x20)]), "BadMagic")
    for place, value in [(4, 2), (4, 0), (5, 2), (6, 0)]:
        row(whole(patches=[(place, 1, value)]), "BadClass")
    for place, value in [(16, 1), (16, 3), (20, 0), (20, 2)]:
        row(whole(patches=[(place, 2, value)]), "BadType")
    for value in [62, 40, 0, 242]:
        row(whole(patches=[(18, 2, value)]), "BadMachine")
    for value in [1, 2, 4, 6, 8, 0x1F]:
        row(whole(patches=[(36, 4, value)]), "BadFlags")
    row(whole(patches=[(36, 4, 0x10)]), "read", bytes([1, 2, 3, 4]))
    for place, size, value in [(40, 2, 51), (42, 2, 40), (44, 2, 0), (44, 2, 65), (44, 2, 5), (28, 4, 105), (28, 4, 0xFFFFFFFF)]:
        row(whole(patches=[(place, size, value)]), "BadHeaderTable")
    row(whole()[:52], "BadHeaderTable")


def segment_rows():
    for kind in [DYNAMIC, INTERP, TLS]:
        row(data(kind=kind), "NotStatic")
    for header in [changed(DATA, offset=50), changed(DATA, filesz=17), changed(DATA, filesz=0x80000000),
                   changed(DATA, memsz=0), changed(DATA, offset=0xFFFFFF00)]:
        row(whole(data=header), "SegmentOutOfFile")
    row(whole(notes=changed(NOTES, offset=29)), "SegmentOutOfFile")
    row(whole(notes=changed(NOTES, filesz=25)), "SegmentOutOfFile")
    for address in [0, 0xFFF, 0x1FFFFFF1, 0x20000000, 0x2FFF0000, 0x40000000, 0x7FFFFFFF, 0xBFFFFFF1, 0xC0000000, 0xFFFFFFF8]:
        row(data(address=address), "SegmentOutOfPlace")
    for address in [0x1000, 0x1FFFFFF0, 0x80000000, 0xBFFFFFF0, 0xFFF0, 0x10018]:
        row(data(address=address), "read", bytes([1, 2, 3, 4]))
    for address in [0xFFF1, 0x10000, 0x10017]:
        row(data(address=address), "SegmentsOverlap")
    row(elf(many(4) + [(LOAD, 0, 0x21FFF, 0, 2, R)], CODE), "SegmentsOverlap")
    for flags in [W | X, R | W | X]:
        row(data(flags=flags), "WriteAndExecute")
    row(elf(many(17), CODE), "TooLarge")
    row(elf(many(16), CODE), "read")
    row(data(memsz=0xFFFFE9), "TooLarge")
    row(data(memsz=0xFFFFE8), "read", bytes([1, 2, 3, 4]))
    file = elf([TEXT], CODE)
    row(file, "TooLarge", zeros=(4 << 20) + 1 - len(file))
    row(file, "read", zeros=(4 << 20) - len(file))
    for entry in [0x10002, 0x10001, 0x10018, 0xFFFC, 0x20000, 0]:
        row(whole(patches=[(24, 4, entry)]), "EntryNotCode")
    row(whole(patches=[(24, 4, 0x10014)]), "read", bytes([1, 2, 3, 4]))
    row(elf([changed(TEXT, flags=R)], CODE), "EntryNotCode")
    # A loadable segment without memory is none, wherever it lies.
    row(whole(data=(LOAD, 24, 0, 0, 0, R | W | X)), "read", bytes([1, 2, 3, 4]))
    row(data(kind=6), "read", bytes([1, 2, 3, 4]))


def note_rows():
    other = note(b"other", b"\x07", 1, padding=9)
    past = struct.pack("<III", 0xFFFF, 0, 1)
    for parts in [(CERTIFICATE, CERTIFICATE), (CERTIFICATE, other, CERTIFICATE)]:
        row(notes_of(*parts), "TwoCertificates")
    # Two program headers over one note.
    row(whole(data=changed(NOTES, kind=NOTE)), "TwoCertificates")
    for parts, found in [
            ((other, CERTIFICATE, other), bytes([1, 2, 3, 4])), ((other, CERTIFICATE[:23]), None), ((past, CERTIFICATE), None),
            ((CERTIFICATE, past, CERTIFICATE), bytes([1, 2, 3, 4])), ((note(b"RVVBOX\0", bytes(range(1, 4)), 1, 9),), bytes([1, 2, 3])),
            ((note(b"RVVBOX\0", bytes(range(1, 4)), 1)[:23],), bytes([1, 2, 3])), ((note(b"RVVBOX\0", b"", 1)[:19],), b""),
            ((note(b"RVVBOX\0", bytes(4), 2),), None), ((note(b"RVVBOX", bytes(4), 1),), None),
            ((note(b"RVVBOX\0\0", bytes(4), 1),), None), ((note(b"SVVBOX\0", bytes(4), 1),), None)]:
        row(notes_of(*parts), "read", found)


def order_rows():
    """Each file has the faults of all the rows behind it in this list too."""
    faults = [("BadMagic", (0, 4, 0)), ("BadClass", (4, 1, 2)), ("BadType", (16, 2, 3)), ("BadMachine", (18, 2, 62)),
              ("BadFlags", (36, 4, 1)), ("BadHeaderTable", (44, 2, 65)), ("NotStatic", (116, 4, 3)), ("SegmentOutOfFile", (100, 4, 1 << 31)),
              ("SegmentsOverlap", (92, 4, 0x10017)), ("WriteAndExecute", (108, 4, 7)), ("TooLarge", (104, 4, 0xFFFFE9)),
              ("EntryNotCode", (24, 4, 0x10002))]
    for place, (name, _) in enumerate(faults):
        row(whole(patches=[patch for _, patch in faults[place:]]), name)


def moved_table(table):
    """The file of one segment of code whose header table begins at `table`: at 44 it shares e_phnum, 1 as LOAD is, with the ELF header."""
    head = elf([], b"", [(28, 4, table)], phnum=1)
    entries = struct.pack("<8I", LOAD, table + 32, 0x10000, 0, 24, 24, R | X, 4)
    return head[:table] + bytes(max(0, table - len(head))) + entries + CODE


def limit_rows():
    """Files in which what no rule names is not as linkers leave it."""
    found = bytes([1, 2, 3, 4])
    row(whole(patches=[(20, 4, 0x10001)]), "BadType", told="e_version 1, and bits above the lowest 16")
    for place, name, value in [(16, "BadType", 0x102), (18, "BadMachine", 0x1F3), (40, "BadHeaderTable", 0x134), (42, "BadHeaderTable", 0x120),
                               (44, "BadHeaderTable", 0x103)]:
        row(whole(patches=[(place, 2, value)]), name, told=f"a second byte at {place + 1}")
    row(whole(patches=[(7, 1, 3)]), "read", found, told="another OS ABI")
    row(whole(patches=[(8, 8, 0xFFFFFFFF)]), "read", found, told="bytes 8 to 15 of the header")
    row(whole(patches=[(32, 4, 0x100000)]), "read", found, told="section headers that lie past the file")
    row(whole(patches=[(46, 6, 0x123456789ABC)]), "read", found, told="size and number of section headers")
    row(whole(patches=[(36, 4, 0xFFFFFFF0)]), "read", found, told="high bits of e_flags")
    row(whole(patches=[(64, 4, 9), (80, 4, 3)]), "read", found, told="a physical address, and an alignment of 3")
    row(data(filesz=0, offset=0x800000), "read", found, told="an offset past the file, of no bytes")
    row(whole(notes=changed(NOTES, memsz=0)), "read", found, told="notes with more bytes than memory")
    row(whole(notes=changed(NOTES, address=0x10000, memsz=1 << 31)), "read", found, told="notes that would lie over code")
    row(data(flags=0x100000 | R | W), "read", found, told="other bits of p_flags")
    row(data(kind=5), "read", found, told="a header of type 5")
    row(whole(data=changed(DATA, kind=0x70000003, offset=0x7FFFFF00)), "read", found, told="a header of a type of its own, past the file")
    row(elf([changed(TEXT, memsz=32)], CODE, [(24, 4, 0x1001C)]), "read", told="an entry past the bytes of the file")
    row(elf([changed(TEXT, memsz=32)], CODE, [(24, 4, 0x10020)]), "EntryNotCode", told="an entry past the memory")
    others = [(6, 0, 0, 0, 0, R)]
    row(elf([TEXT] + 63 * others, CODE), "read", told="64 headers")
    row(elf([TEXT] + 64 * others, CODE), "BadHeaderTable", told="65 headers, which the file has")
    row(moved_table(53), "read", told="a header table at an odd offset")
    row(moved_table(44), "read", told="a header table that begins inside the ELF header")
    row(elf([], b"", [(28, 4, 20)], phnum=1), "SegmentOutOfPlace", told="a header table inside the ELF header, of a segment at 20")
    row(elf([], b"", [(28, 4, 0)], phnum=1), "EntryNotCode", told="a header table at 0, of no segment")
    row(data(offset=0xFFFFFFFE - 148), "SegmentOutOfFile", told="a segment whose end in the file is past 2^32")
    row(data(address=0x10008, memsz=4), "SegmentsOverlap", told="a segment inside the one before")
    row(elf([changed(DATA, offset=0, address=0x10008, memsz=4), TEXT], CODE), "SegmentsOverlap", told="a segment around the one before")
    row(elf([TEXT] + 2 * [(LOAD, 0, 0, 4, 4, R)], CODE), "SegmentOutOfPlace", told="two segments that are out of place and overlap")
    row(elf([changed(TEXT, memsz=26)], CODE, [(24, 4, 0x10018)]), "EntryNotCode", told="an entry with two bytes of code")
    row(whole(data=changed(DATA, flags=R | X), patches=[(24, 4, 0x20000)]), "read", found, told="an entry in the second segment")
    both = 2 * CERTIFICATE
    row(elf([TEXT, (NOTE, 24, 0, len(both), len(both), R)], CODE + both, [(24, 4, 2)]), "EntryNotCode", told="two certificates, and no entry")
    turned = elf([], CODE + CERTIFICATE, [(28, 4, 52 + len(CODE + CERTIFICATE))], phnum=2)
    for kind, offset, size, flags in [(LOAD, 52, 24, R | X), (NOTE, 52 + 24, len(CERTIFICATE), R)]:
        turned += struct.pack("<8I", kind, offset, 0x10000, 0, size, size, flags, 4)
    row(turned, "read", found, told="a note before the header table")
    row(turned[:-1], "BadHeaderTable", told="a note before the header table, of which the last byte is missing")


def main():
    for line in __doc__.split("\n")[4:]:
        print(f"# {line}".rstrip())
    row(whole(), "read", bytes([1, 2, 3, 4]))
    header_rows()
    segment_rows()
    note_rows()
    order_rows()
    limit_rows()
    print("\n".join(ROWS))


if __name__ == "__main__":
    main()
