"""Makes jobs.txt: texts of job files, and what they say.

    python3 vectors/jobs.py > crates/conformance/data/jobs.txt

A row is `TEXT = ANSWER`. TEXT is the job file in hexadecimal, `empty` where it has no byte. ANSWER is `NotToml`; `BadKey` where the table breaks a rule whatever it is
read for; or `job IMAGE VLEN AGNOSTIC MAX P0 .. P7 TRY RUN`, each value `-` where its key is missing. A text is `t` and its bytes in hexadecimal. A parameter
is `none`, `scalar,LO,HI,VALUE` or `buffer,MODE,SIZE,FILE,OUT`. TRY and RUN are 1 or 0: whether `try` and `run` find all that they need.

The answers are by hand, by docs/JOBS.md; the model below, over Python's tomllib, has to say the same, but where tomllib reads another TOML: it reads 1.0, not 1.1,
and numbers of any size. Such rows are marked in the line before them.
"""
import tomllib

ROWS = []
KEYS = {'image', 'vlen', 'agnostic', 'max', 'param'}
OF_KIND = {'none': {'kind'}, 'scalar': {'kind', 'lo', 'hi', 'value'}, 'buffer': {'kind', 'mode', 'size', 'file', 'out'}}


# ---- The rules ------------------------------------------------------------------------------------------------------------------------

class BadKey(Exception):
    pass


def require(holds):
    if not holds:
        raise BadKey


def at(table, key, is_right):
    """The value of a key, None where it is missing."""
    value = table.get(key)
    require(value is None or is_right(value))
    return value


def number_below(limit):
    return lambda value: type(value) is int and 0 <= value < limit


def is_text(value):
    return isinstance(value, str)


def one_of(*values):
    return lambda value: any(type(value) is type(v) and value == v for v in values)


def shown(value):
    return '-' if value is None else str(value)


def shown_text(value):
    return '-' if value is None else 't' + value.encode().hex()


def param_of(table):
    """A parameter's text, and whether `try` and `run` find what they need of it."""
    require(isinstance(table, dict))
    kind = table.get('kind')
    require(is_text(kind) and kind in OF_KIND and table.keys() <= OF_KIND[kind])
    word = number_below(1 << 32)
    if kind == 'none':
        return 'none', True, True
    if kind == 'scalar':
        lo, hi, value = (at(table, key, word) for key in ('lo', 'hi', 'value'))
        return 'scalar,%s,%s,%s' % (shown(lo), shown(hi), shown(value)), value is not None, value is not None
    mode, size = at(table, 'mode', one_of('r', 'rw')), at(table, 'size', word)
    file, out = at(table, 'file', is_text), at(table, 'out', is_text)
    text = 'buffer,%s,%s,%s,%s' % (shown(mode), shown(size), shown_text(file), shown_text(out))
    return text, file is not None and mode is not None, file is not None


def answer_of(text):
    try:
        table = tomllib.loads(text.removeprefix('\ufeff'))
    except tomllib.TOMLDecodeError:
        return 'NotToml'
    try:
        require(table.keys() <= KEYS)
        image, vlen = at(table, 'image', is_text), at(table, 'vlen', one_of(128, 256, 512))
        agnostic, most = at(table, 'agnostic', one_of('keep', 'ones')), at(table, 'max', number_below(1 << 63))
        params = at(table, 'param', lambda value: isinstance(value, list) and len(value) <= 8) or []
        params = [param_of(p) for p in params] + [('none', True, True)] * (8 - len(params))
    except BadKey:
        return 'BadKey'
    whole = None not in (image, vlen, agnostic, most)
    fields = [shown_text(image), shown(vlen), shown(agnostic), shown(most)] + [text for text, _, _ in params]
    needs = [whole and all(p[place] for p in params) for place in (1, 2)]
    return ' '.join(['job'] + fields + ['%d' % found for found in needs])


# ---- Rows -------------------------------------------------------------------------------------------------------------------------------

def case(name, expected, text, by_hand=False):
    """expected: NotToml, BadKey, or what TRY and RUN say. by_hand: tomllib reads it otherwise, and NotToml or the row of a like text is the answer."""
    if by_hand:
        answer = expected
    else:
        answer = answer_of(text)
        assert answer == expected or answer.startswith('job ') and answer.endswith(' ' + expected), (name, expected, answer)
    data = text.encode()
    ROWS.append('# %s%s\n%s = %s' % (name, ' (not by tomllib)' if by_hand else '', data.hex() or 'empty', answer))


HEAD = 'image = "a.elf"\nvlen = 128\nagnostic = "keep"\nmax = 100\n'
BUFFER = '[[param]]\nkind = "buffer"\nmode = "rw"\nfile = "a.bin"\nout = "b.bin"\nsize = 5\n'
SCALAR = '[[param]]\nkind = "scalar"\nlo = 1\nhi = 9\nvalue = 3\n'
NONE = '[[param]]\nkind = "none"\n'
BOTH, NEITHER, RUN_ALONE = '1 1', '0 0', '0 1'


def whole_jobs():
    for name, text in (('no parameter', HEAD), ('each kind', HEAD + BUFFER + SCALAR + NONE), ('comments and empty lines', '# a\n\n' + HEAD.replace('\n', ' # b\n')), ('a byte order mark', '\ufeff' + HEAD),
                       ('line ends of two bytes', HEAD.replace('\n', '\r\n')), ('no newline at the end', HEAD[:-1]), ('keys in another order', ''.join(HEAD.splitlines(True)[::-1]) + SCALAR),
                       ('parameters in line', HEAD + 'param = [{ kind = "none" }, { kind = "scalar", value = 7 }]\n'), ('an empty array', HEAD + 'param = []\n'), ('literal texts', HEAD.replace('"', "'")),
                       ('eight parameters', HEAD + NONE * 7 + SCALAR), ('quoted keys', HEAD.replace('vlen', '"vlen"')), ('a parameter by dotted keys', HEAD + '[[param]]\n"kind" = "none"\n')):
        case(name, BOTH, text)
    for bits in (128, 256, 512):
        case('vlen %d' % bits, BOTH, HEAD.replace('128', str(bits)))
    case('agnostic ones', BOTH, HEAD.replace('keep', 'ones'))
    for most in (0, 1, (1 << 32), (1 << 63) - 1):
        case('max %d' % most, BOTH, HEAD.replace('100', str(most)))
    for spelled in ('0x64', '0o144', '0b1100100', '+100', '1_00', '0xFFFF_ffff'):
        case('max %s' % spelled, BOTH, HEAD.replace('100', spelled))
    for spelled in ('0x80', '+128', '1_2_8', '0b1000_0000'):
        case('vlen %s' % spelled, BOTH, HEAD.replace('128', spelled))
    for text in ('""', '"\\u00e9\\n\\""', '"""\na"""', "'''a\nb'''", '"é"', '"a/../b c"', '"\\U0001F600"'):
        case('image = %s' % text.replace('\n', '\\n'), BOTH, HEAD.replace('"a.elf"', text))
    for key in ('lo', 'hi', 'value'):
        for value in (0, 1 << 31, (1 << 32) - 1):
            case('%s %d' % (key, value), BOTH, HEAD + '[[param]]\nkind = "scalar"\nvalue = 3\n%s = %d\n' % (key, value) if key != 'value' else HEAD + '[[param]]\nkind = "scalar"\nvalue = %d\n' % value)
    case('lo above hi', BOTH, HEAD + SCALAR.replace('lo = 1', 'lo = 10'))
    case('value below lo', BOTH, HEAD + SCALAR.replace('value = 3', 'value = 0'))
    case('mode r', BOTH, HEAD + BUFFER.replace('rw', 'r'))
    case('size of 4 GiB less one', BOTH, HEAD + BUFFER.replace('size = 5', 'size = 4294967295'))


def missing_keys():
    case('nothing', NEITHER, '')
    case('a comment', NEITHER, '# nothing')
    for line in HEAD.splitlines(True):
        case('without %s' % line.split()[0], NEITHER, HEAD.replace(line, '') + SCALAR)
    for key, expected in (('out', BOTH), ('size', BOTH), ('mode', RUN_ALONE), ('file', NEITHER), ('kind', 'BadKey')):
        lines = [line for line in BUFFER.splitlines(True) if line.split()[0] != key]
        case('a buffer without %s' % key, expected, HEAD + ''.join(lines))
        case('a buffer without %s at the last place' % key, expected, HEAD + NONE * 7 + ''.join(lines))
    for key, expected in (('lo', BOTH), ('hi', BOTH), ('value', NEITHER), ('kind', 'BadKey')):
        case('a scalar without %s' % key, expected, HEAD + ''.join(line for line in SCALAR.splitlines(True) if line.split()[0] != key))
    case('a buffer of a kind alone', NEITHER, HEAD + '[[param]]\nkind = "buffer"\n')
    case('a scalar of a kind alone', NEITHER, HEAD + '[[param]]\nkind = "scalar"\n')
    case('a parameter of no key', 'BadKey', HEAD + '[[param]]\n')


def bad_keys():
    for name, text in (('an unknown key', HEAD + 'steps = 1\n'), ('an unknown table', HEAD + '[params]\n'), ('a key in upper case', HEAD.replace('vlen', 'VLEN')), ('an empty key', HEAD + '"" = 1\n'),
                       ('nine parameters', HEAD + NONE * 9), ('nine parameters, the ninth of no kind', HEAD + NONE * 8 + '[[param]]\n'), ('param a table', HEAD + '[param]\nkind = "none"\n'),
                       ('param a number', HEAD + 'param = 1\n'), ('param an array of numbers', HEAD + 'param = [1]\n'), ('param an array of arrays', HEAD + 'param = [[]]\n'), ('param a text', HEAD + 'param = "none"\n'),
                       ('an unknown key alone', 'x = 1\n')):
        case(name, 'BadKey', text)
    for key, values in (('vlen', ('0', '64', '127', '129', '1024', '-128', '128.0', '"128"', 'true', '[128]', '4294967424')), ('max', ('-1', '1.0', '1e2', '"1"', 'false', '[1]', 'inf', 'nan', '-9223372036854775808', '{}')),
                        ('agnostic', ('"Keep"', '"one"', '""', '"keep "', '1', 'true', '["keep"]', '"ones\\n"')), ('image', ('1', 'true', '["a"]', '1979-05-27', '{ path = "a" }', '1.5'))):
        for value in values:
            old = next(line for line in HEAD.splitlines(True) if line.startswith(key))
            case('%s = %s' % (key, value), 'BadKey', HEAD.replace(old, '%s = %s\n' % (key, value)))
    for kind in ('"buffers"', '"Scalar"', '""', '1', 'true', '["none"]'):
        case('kind = %s' % kind, 'BadKey', HEAD + '[[param]]\nkind = %s\n' % kind)
    for key in ('lo', 'hi', 'value'):
        for value in ('-1', '4294967296', '1.0', '"1"', 'true', '-0.0'):
            case('%s = %s' % (key, value), 'BadKey', HEAD + ''.join('%s = %s\n' % (key, value) if line.startswith(key) else line for line in SCALAR.splitlines(True)))
    for key, value in (('mode', '"w"'), ('mode', '"wr"'), ('mode', '""'), ('mode', '3'), ('size', '-1'), ('size', '4294967296'), ('size', '5.0'), ('file', '1'), ('file', '["a"]'), ('out', '1'), ('out', 'false')):
        case('%s = %s' % (key, value), 'BadKey', HEAD + ''.join('%s = %s\n' % (key, value) if line.startswith(key) else line for line in BUFFER.splitlines(True)))
    for kind, key, value in (('none', 'value', '1'), ('none', 'mode', '"r"'), ('scalar', 'file', '"a"'), ('scalar', 'mode', '"r"'), ('scalar', 'size', '1'), ('buffer', 'value', '1'), ('buffer', 'lo', '1'),
                             ('buffer', 'x', '1'), ('scalar', 'Value', '1'), ('none', 'kinds', '1')):
        case('%s of a %s' % (key, kind), 'BadKey', HEAD + '[[param]]\nkind = "%s"\n%s = %s\n' % (kind, key, value))
    case('a wrong key in the last parameter', 'BadKey', HEAD + NONE * 7 + '[[param]]\nkind = "none"\nx = 1\n')
    case('a wrong key where others are missing', 'BadKey', 'vlen = 1\n')


def no_toml():
    for name, text in (('a key twice', HEAD + 'max = 1\n'), ('a key without a value', HEAD + 'param\n'), ('no value', 'vlen =\n'), ('two keys in a line', 'vlen = 128 max = 1\n'), ('a text without an end', 'image = "a\n'),
                       ('a number with zeros before it', 'max = 007\n'), ('a header without an end', '[[param\n'), ('a table and an array of one name', '[param]\n[[param]]\n'), ('a bare text', 'image = a.elf\n'),
                       ('a lone carriage return', 'vlen = 128\rmax = 1\n'), ('a zero byte', 'vlen = 128\0\n'), ('two byte order marks', '\ufeff\ufeff' + HEAD), ('a bad escape', 'image = "\\q"\n'),
                       ('underscores side by side', 'max = 1__0\n'), ('half a pair of surrogates', 'image = "\\ud800"\n'), ('an array without an end', 'param = [\n')):
        case(name, 'NotToml', text)
    for value in ('9223372036854775808', '0x8000000000000000', '18446744073709551616', '-9223372036854775809'):
        case('max = %s' % value, 'NotToml', HEAD.replace('100', value), by_hand=True)
    case('a float above 64 bits', 'NotToml', HEAD.replace('100', '1e400'), by_hand=True)
    # What TOML 1.1 takes and 1.0 does not: the row of the same job in 1.0.
    plain = HEAD + 'param = [{ kind = "none" }]\n'
    case('an inline table over lines, with a comma at its end', answer_of(plain), HEAD + 'param = [{\n  kind = "none",\n}]\n', by_hand=True)
    case('the escapes of 1.1', answer_of(HEAD.replace('a.elf', '\\u001bA')), HEAD.replace('a.elf', '\\e\\x41'), by_hand=True)


def main():
    for rows in (whole_jobs, missing_keys, bad_keys, no_toml):
        rows()
    for line in __doc__.split('\n')[:-1]:
        print(('# ' + line).rstrip())
    print('# %d rows, of which %d are not by tomllib.' % (len(ROWS), sum('(not by tomllib)' in row for row in ROWS)))
    print('\n'.join(ROWS))


if __name__ == '__main__':
    main()
