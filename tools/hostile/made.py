"""What `make` has to answer, and the file that it has to write: nothing here calls the program or reads `crates/`.

The certificate is maker.py's, the order of refusals that of docs/JOBS.md, and the file with a certificate is put together as docs/IMAGES.md tells.
"""
import struct

import expected
from outside import certificates, images, maker

MOST_FILE = 4 << 20
MOST_HEADERS = 64
NONE = certificates.Param('none')
MODES = {'r': certificates.READ, 'rw': certificates.READ | certificates.WRITE}
KINDS = {'none': lambda p: NONE, 'scalar': lambda p: certificates.Param('scalar', 0, p['lo'], p['hi']),
         'buffer': lambda p: certificates.Param('buffer', MODES[p['mode']], p['size'])}


def job_text(params, vlenb):
    """A job file that says what a kernel takes."""
    lines = ['vlen = %d' % (8 * vlenb)]
    for p in params:
        lines += ['[[param]]', 'kind = "%s"' % p.kind]
        if p.kind == 'scalar':
            lines += ['lo = %d' % p.a, 'hi = %d' % p.b]
        elif p.kind == 'buffer':
            lines += ['mode = "%s"' % next(mode for mode, rights in MODES.items() if rights == p.mode), 'size = %d' % p.a]
    return '\n'.join(lines) + '\n'


def attached(file, image, certificate):
    """A file with a certificate in a note, or Refused."""
    table, = struct.unpack_from('<I', file, 28)
    count, = struct.unpack_from('<H', file, 44)
    note = images.note(b'RVVBOX\0', certificate, 1)
    out = bytearray(file) + bytes(-len(file) % 4)
    place = len(out) + 32 * (count + 1)
    struct.pack_into('<I', out, 28, len(out))
    struct.pack_into('<H', out, 44, count + 1)
    out += file[table:table + 32 * count] + struct.pack('<8I', certificates.NOTE, place, 0, 0, len(note), len(note), 4, 4) + note
    certificates.refuse_if(count == MOST_HEADERS or len(out) > MOST_FILE, 'TooLarge')
    certificates.refuse_if(image.certificate is not None, 'CertificateThere')
    return bytes(out)


def are_parameters(params):
    return not any(p.kind == 'scalar' and p.a > p.b or p.kind == 'buffer' and p.a > expected.MOST_BUFFER for p in params)


def of_file(file, params, vlenb):
    """What `make` answers for an image file, parameters and a length of vector registers, and what it writes, None where nothing."""
    try:
        image = expected.read_image(file)
        if not are_parameters(params):
            return expected.bad_job('BadKey'), None
        certificate = maker.make(image, params, vlenb)
        certified = attached(file, image, certificates.certificate_bytes(certificate))
    except certificates.Refused as e:
        return expected.refused(e.text), None
    except maker.NotALoop as e:
        return expected.refused(e.text.replace(' ', ' at ')), None
    said = expected.check(certified, vlenb)
    return (expected.accepted(said), certified) if said.startswith('accepted ') else (expected.not_accepted(said), None)


def of_text(data, files, image):
    """What `make` answers to an image's path and a job file of these bytes, where `files` has the bytes of each file that there is; and what
    it writes."""
    refusal = expected.job_refusal(data, 'make')
    if refusal:
        return refusal, None
    if image not in files:
        return expected.lacking(image), None
    table = expected.table_of(data)
    params = [KINDS[param['kind']](param) for param in table.get('param', [])]
    return of_file(files[image], params + [NONE] * (8 - len(params)), table['vlen'] // 8)


def in_header(file):
    """The loop of an image of one segment, whose last word, `ret`, is that of the ELF header that tells where the table of program headers
    lies. In a copy with a certificate the table lies elsewhere, so that word is another, and `make` refuses what it made."""
    image = certificates.read_image(file)
    first, code = image.segments[0].first, image.segments[0].data
    table, = struct.unpack_from('<I', code, len(code) - 4)
    out = bytearray(file[:52])
    struct.pack_into('<I', out, 28, table)
    struct.pack_into('<H', out, 44, 2)
    out += code + bytes(table - len(out) - len(code))
    for offset, address, size in ((52, first, len(code) - 4), (28, first + len(code) - 4, 4)):
        out += struct.pack('<8I', certificates.LOAD, offset, address, 0, size, size, certificates.READ | certificates.EXECUTE, 4)
    return bytes(out)
