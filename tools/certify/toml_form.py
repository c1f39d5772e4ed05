"""Certificates as TOML. docs/CERTIFICATES.md tells the form."""
import re
import tomllib

import names
from notes import Trouble
from outside import certificates, checker, model

LENGTHS = (128, 256, 512)
KEYS = {
    '': {'vlen', 'param', 'block'},
    'param': {'kind', 'mode', 'size', 'lo', 'hi'},
    'block': {'start', 'constant', 'factor', 'register', 'second_factor', 'second_register', 'vtype', 'fact', 'vector', 'order'},
    'fact': {'number', 'lo', 'hi', 'equal'},
    'equal': {'constant', 'terms'},
    'terms': {'register', 'passed', 'factor'},
    'vector': {'register', 'width', 'registers', 'count', 'lo', 'hi'},
    'order': {'greater', 'lesser'},
}
MODES = {'r': certificates.READ, 'rw': certificates.READ | certificates.WRITE}


class Form:
    """A text in TOML, and where in it things stand."""

    def __init__(self, text, labels=None):
        self.text, self.labels = text, labels or {}
        try:
            self.table = tomllib.loads(text)
        except tomllib.TOMLDecodeError as e:
            raise Trouble(f'not TOML: {e}') from None
        self.known('', self.table, ())
        self.lengths = self.table.get('vlen')
        if not isinstance(self.lengths, list):
            self.lengths = [self.lengths]
        if not self.lengths or any(vlen not in LENGTHS for vlen in self.lengths):
            self.refuse('vlen has to be 128, 256 or 512, or a list of these', 'vlen', ())

    def line(self, key, path):
        """The line where a key stands. path: ((table, index), ..), as (('block', 2), ('fact', 0))."""
        seen, is_inside = {}, not path
        for number, line in enumerate(self.text.splitlines(), 1):
            header = re.match(r'\s*\[\[\s*([\w.]+)\s*\]\]', line)
            if header:
                name = header[1]
                seen[name] = seen.get(name, -1) + 1
                for other in [other for other in seen if other.startswith(name + '.')]:
                    del seen[other]
                steps = ['.'.join(table for table, _ in path[:k + 1]) for k in range(len(path))]
                is_inside = bool(path) and name == steps[-1] and all(seen.get(s) == k for s, (_, k) in zip(steps, path))
            elif is_inside and re.search(rf'(^|[\s{{,])"?{re.escape(key)}"?\s*=', line.split('#')[0]):
                return number
        return None

    def refuse(self, what, key, path):
        line = self.line(key, path)
        raise Trouble((f'line {line}: ' if line else '') + what)

    def known(self, kind, table, path):
        """Refuses a key that this table does not have."""
        if not isinstance(table, dict):
            raise Trouble(f'{kind} has to be a table')
        for key in table:
            if key not in KEYS[kind]:
                allowed = ', '.join(sorted(KEYS[kind]))
                self.refuse(f'unknown key {key}{" in " + kind if kind else ""} (there are {allowed})', key, path)

    def tables(self, kind, table, path):
        """The tables of an array, each with its path."""
        found = table.get(kind, [])
        if not isinstance(found, list):
            self.refuse(f'{kind} has to be an array of tables', kind, path)
        for k, inner in enumerate(found):
            inner_path = path + ((kind, k),)
            self.known(kind, inner, inner_path if kind != 'terms' else path)
            yield inner, inner_path

    def number(self, table, key, path, default=None, least=0, most=checker.M32):
        value = table.get(key, default)
        if value is None:
            raise Trouble(f'{self.place(path)} needs {key}')
        if isinstance(value, bool) or not isinstance(value, int) or not least <= value <= most:
            self.refuse(f'{key} has to be a number from {least} to {most:#x}', key, path)
        return value

    def place(self, path):
        return ' '.join(f'{table} {index + 1}' for table, index in path) or 'the certificate'

    def register(self, table, key, path, default=None):
        value = table.get(key, default)
        number = names.register(value)
        if number is None:
            self.refuse(f'{key} has to be a register, as 10, "x10" or "a0"; 32 or "vl" is vl' if key in table
                        else f'{self.place(path)} needs {key}', key, path)
        return number

    def certificate(self, vlen):
        """The certificate for one length: in version 1 where that can say it."""
        params = [self.param(table, path) for table, path in self.tables('param', self.table, ())]
        if len(params) > 8:
            raise Trouble('there are more than eight parameters')
        params += [certificates.Param('none')] * (8 - len(params))
        blocks = sorted(self.block(table, path) for table, path in self.tables('block', self.table, ()))
        is_second = any(b.orders or b.k2 for b in blocks)
        return certificates.Certificate(vlen, params, blocks, 2 if is_second else 1)

    def param(self, table, path):
        kind = table.get('kind')
        if kind == 'buffer':
            if table.get('mode') not in MODES:
                self.refuse('mode has to be "r" or "rw"', 'mode', path)
            return certificates.Param(kind, MODES[table['mode']], self.number(table, 'size', path, most=16 << 20), 0)
        if kind == 'scalar':
            return certificates.Param(kind, 0, self.number(table, 'lo', path), self.number(table, 'hi', path))
        if kind != 'none':
            self.refuse('kind has to be "none", "scalar" or "buffer"', 'kind', path)
        return certificates.Param('none')

    def block(self, table, path):
        number = lambda key, default=0: self.number(table, key, path, default)
        facts = [self.fact(*inner) for inner in self.tables('fact', table, path)]
        vectors = [self.vector(*inner) for inner in self.tables('vector', table, path)]
        orders = [certificates.OrderFact(self.register(t, 'greater', p), self.register(t, 'lesser', p))
                  for t, p in self.tables('order', table, path)]
        factors = [(self.register(table, 'register', path, 0), number('factor')),
                   (self.register(table, 'second_register', path, 0), number('second_factor'))]
        (r, k), (r2, k2) = sorted(factors, key=lambda factor: (not factor[1], factor[0]))
        return certificates.Block(self.start(table, path), number('constant', None), k, r, self.vtype(table, path),
                                  tuple(sorted(facts, key=lambda fact: fact.number)), tuple(sorted(vectors)), k2, r2,
                                  tuple(sorted(orders)))

    def start(self, table, path):
        value = table.get('start')
        if isinstance(value, str):
            name, plus, more = value.partition('+')
            if name.strip() not in self.labels or plus and not more.strip().isdigit():
                self.refuse(f'no label {value} in the image (the symbol table is gone where it was stripped; --map gives one)',
                            'start', path)
            return self.labels[name.strip()] + (int(more) if plus else 0)
        return self.number(table, 'start', path)

    def vtype(self, table, path):
        value = table.get('vtype')
        if isinstance(value, str):
            text = value.replace(' ', '')
            if text not in names.VTYPE_BITS:
                self.refuse(f'vtype {value} is none: as "e8,m2,ta,ma"', 'vtype', path)
            return names.VTYPE_BITS[text]
        return None if value is None else self.number(table, 'vtype', path, most=255)

    def fact(self, table, path):
        equal = table.get('equal')
        lo, hi = self.number(table, 'lo', path, 0), self.number(table, 'hi', path, checker.M32)
        if equal is None:
            return certificates.RegisterFact(self.register(table, 'number', path), lo, hi)
        self.known('equal', equal, path)
        terms = sorted(self.term(term, path) for term, _ in self.tables('terms', equal, path))
        constant = self.number(equal, 'constant', path, 0, -checker.M32) & checker.M32
        return certificates.RegisterFact(self.register(table, 'number', path), lo, hi, (constant, tuple(terms)))

    def term(self, table, path):
        """Atoms 1 to 32 are registers and vl where the block begins, 33 + j is what was passed for the parameter at place j."""
        factor = self.number(table, 'factor', path, 1, -checker.M32) & checker.M32
        if 'passed' in table:
            return names.PASSED + self.number(table, 'passed', path, most=7), factor
        return self.register(table, 'register', path), factor

    def vector(self, table, path):
        number = lambda key, default=None: self.number(table, key, path, default)
        register = names.vector_register(table.get('register'))
        if register is None:
            self.refuse('register has to be a vector register, as 8 or "v8"', 'register', path)
        return certificates.VectorFact(register, number('width'), number('registers'), number('count', 0), number('lo', 0),
                                       number('hi', (1 << number('width')) - 1))


def written(certificate, lengths=None):
    """A certificate as TOML, with names."""
    lengths = lengths or [certificate.vlen]
    out = [f'vlen = {lengths if len(lengths) > 1 else lengths[0]}']
    last = max((k for k, p in enumerate(certificate.params) if p.kind != 'none'), default=-1)
    for place, p in enumerate(certificate.params[:last + 1]):
        out += ['', f'# a{place}', '[[param]]', f'kind = "{p.kind}"']
        if p.kind == 'buffer':
            out += ['mode = "{}"'.format('rw' if p.mode & certificates.WRITE else 'r'), f'size = {p.a}']
        if p.kind == 'scalar':
            out += [f'lo = {toml_number(p.a)}', f'hi = {toml_number(p.b)}']
    for block in certificate.blocks:
        out += [''] + block_lines(block)
    return '\n'.join(out) + '\n'


def toml_number(value):
    digits = f'{value:08x}'
    return str(value) if value < 0x10000 else f'0x{digits[:4]}_{digits[4:]}'


def block_lines(b):
    out = ['[[block]]', f'start = {toml_number(b.start)}', f'constant = {b.c}']
    for prefix, r, k in (('', b.r, b.k), ('second_', b.r2, b.k2)):
        if k:
            out += [f'{prefix}factor = {k}', f'{prefix}register = "{names.ABI[r]}"']
    if b.vtype is not None:
        out.append(f'vtype = "{names.vtype(b.vtype)}"')
    for fact in b.facts:
        out += ['[[block.fact]]', f'number = "{names.ABI[fact.number]}"']
        if (fact.lo, fact.hi) != certificates.FULL:
            out += [f'lo = {toml_number(fact.lo)}', f'hi = {toml_number(fact.hi)}']
        if fact.equal:
            out.append('equal = ' + equal_text(*fact.equal))
    for fact in b.vectors:
        out += ['[[block.vector]]', f'register = "v{fact.register}"']
        out += [f'{key} = {getattr(fact, key)}' for key in ('width', 'registers', 'count', 'lo', 'hi')]
    for order in b.orders:
        out += ['[[block.order]]', f'greater = "{names.ABI[order.s]}"', f'lesser = "{names.ABI[order.r]}"']
    return out


def equal_text(constant, terms):
    parts = []
    for atom, factor in terms:
        name = f'register = "{names.ABI[atom]}"' if atom < names.PASSED else f'passed = {atom - names.PASSED}'
        parts.append(f'{{ {name}, factor = {model.signed(factor, 32)} }}')
    inner = [f'constant = {toml_number(constant)}'] if constant or not parts else []
    return '{ ' + ', '.join(inner + ([f'terms = [{", ".join(parts)}]'] if parts else [])) + ' }'
