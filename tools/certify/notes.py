"""Images as files: labels, and the note that carries a certificate. docs/IMAGES.md has the form of both."""
import re
import struct

from outside import certificates

NOTE, NOTE_FLAGS = 4, 4
HEADER = 32
SYMTAB = 2


class Trouble(Exception):
    """What is wrong, in words."""


def padded(part):
    return part + bytes(-len(part) % 4)


def note(descriptor):
    name = b'RVVBOX\0'
    return struct.pack('<III', len(name), len(descriptor), 1) + padded(name) + padded(descriptor)


def with_note(image, descriptor):
    """The image's segments, and one note behind them, which takes the place of an older one. The program headers move behind
    the file's bytes."""
    first, = struct.unpack_from('<I', image, 28)
    size, count = struct.unpack_from('<HH', image, 42)
    if size != HEADER or first + size * count > len(image):
        raise Trouble('the image has no table of program headers')
    headers = [image[first + size * i:first + size * (i + 1)] for i in range(count)]
    old = [header for header in headers if is_certificate(image, header)]
    kept = [header for header in headers if header not in old]
    body = padded(image[:first] if old and is_behind(first, kept) else image)
    part = note(descriptor)
    place = len(body) + HEADER * (len(kept) + 1)
    kept.append(struct.pack('<8I', NOTE, place, 0, 0, len(part), len(part), NOTE_FLAGS, 4))
    out = bytearray(body + b''.join(kept) + part)
    struct.pack_into('<I', out, 28, len(body))
    struct.pack_into('<H', out, 44, len(kept))
    return bytes(out)


def is_certificate(image, header):
    """Whether a program header is a note with a certificate. One with other notes as well is left to its author."""
    kind, offset, _, _, size, *_ = struct.unpack('<8I', header)
    if kind != NOTE:
        return False
    part = image[offset:offset + size]
    found = list(certificates.certificates_in(part))
    if found and part != note(found[0]):
        raise Trouble('the certificate stands in one segment with other notes: build the image without them')
    return bool(found)


def is_behind(first, headers):
    """Whether the table of headers stands behind all that the other headers speak of."""
    ends = [offset + size for _, offset, _, _, size, *_ in (struct.unpack('<8I', header) for header in headers)]
    return first >= max(ends, default=0)


def symbols(image):
    """(name, place of its entry, value) of each named symbol of the image's table. None where it was stripped."""
    sections, size, count = struct.unpack_from('<I', image, 32)[0], *struct.unpack_from('<HH', image, 46)
    if not sections or size != 40 or sections + size * count > len(image):
        return
    table = [struct.unpack_from('<10I', image, sections + size * k) for k in range(count)]
    for _, kind, _, _, offset, length, link, *_ in table:
        if kind != SYMTAB or link >= len(table):
            continue
        strings = image[table[link][4]:table[link][4] + table[link][5]]
        for at in range(offset, offset + length, 16):
            name, value = struct.unpack_from('<II', image, at)
            text = strings[name:strings.index(b'\0', name)].decode(errors='replace')
            if text and not text.startswith('$'):
                yield text, at, value


def labels(image):
    """The names of the image's symbol table with their addresses. Empty where it was stripped."""
    return {text: value for text, _, value in symbols(image)}


def move_labels(image, places):
    """Gives each symbol whose address is in `places` the address that stands there. The image is changed."""
    for _, at, value in list(symbols(bytes(image))):
        if value in places:
            struct.pack_into('<I', image, at + 4, places[value])


def mapped(text):
    """Labels of a map: lines of an address and a name, as `llvm-nm` prints them (a letter between them is skipped)."""
    out = {}
    for line in text.splitlines():
        found = re.fullmatch(r'\s*(?:0x)?([0-9a-fA-F]+)(?:\s+[A-Za-z])?\s+(\S+)\s*', line)
        if found:
            out[found[2]] = int(found[1], 16)
    return out
