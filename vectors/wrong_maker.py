"""Wrong makers of certificates: a name, a text of maker.py and what stands in its place, perhaps several times. For wrong.py.

Makers that take loops of which no certificate should be made, that take none where one should be, that tell another word, and that write another
certificate, also where it passes the check.
"""
HEAD = "self.words.require(i.name == 'beq' and f['rs2'] == 0)"
N_PLACE = "self.words.require(0 <= place < 8 and self.params[place].kind == 'scalar')"
MOST = 'self.most = self.params[place].b'
VSET = "self.words.require(i.name == 'vsetvli' and f['rs1'] == self.n and model.is_supported(f['imm']))"
T = 'self.words.require(self.t not in (0, RA, self.n))'
MEMORY = "i.shape in ('vload', 'vstore') and i.width == 8 * self.width:\n                self.words.require(f['vm'] == 1 and model.is_legal(self.vtype, word))"
ARITHMETIC = "elif is_fitting(i):\n                self.words.require(f['vm'] == 1 and model.is_legal(self.vtype, word))"
BUFFER = 'self.words.require(buffer is not None and register != self.t and buffer.a >= self.most * self.width)'
STORED = 'self.words.require(not is_store or buffer.mode & WRITE)'
ONCE = '        if register not in self.pointers:\n            self.pointers.append(register)'
SHIFT = "self.words.require(i.name == 'slli' and f['rs1'] == self.t and 1 << f['imm'] == self.width)"
STEP = 'self.words.require(self.step not in [0, RA, self.n, self.t] + self.pointers)'
ADD = "self.words.require(i.name == 'add' and f['rd'] == f['rs1'] and f['rs2'] == self.step and f['rd'] in left)"
SUB = "self.words.require(i.name == 'sub' and f['rd'] == f['rs1'] == self.n and f['rs2'] == self.t)"
BNEZ = "self.words.require(i.name == 'bne' and f['rs1'] == self.n and f['rs2'] == 0)"
ENDS = "self.words.require(self.words.at + f['to'] & M32 == self.start and self.end == self.words.at + 4)"
RET = "self.words.require(i.name == 'jalr' and (f['rd'], f['rs1'], f['imm']) == (0, RA, 0))"
SEGMENT = '        self.require(segment is not None)\n'
FITTING = "FITTING = ('int', 'mac', 'mv', 'fixed', 'ext', 'slide', 'gather', 'gather16', 'compress', 'reduce', 'iota', 'fromx', 'mvr')"
WIDE = "return i.shape in FITTING and i.eew[0] != 's2'"
FIRST = 'blocks = [block(loop.entry, 2, loop.length, RegisterFact(n, 0, loop.most, (0, ((passed, 1),))), lambda base: (base, base, (base, ())))]'
BEHIND = 'behind = lambda base: (base, base + w * loop.most, (base, ((n, -w & M32), (passed, w))))'
LOOP = 'blocks.append(block(loop.start, 1, loop.length, RegisterFact(n, 1, loop.most), behind))'
LAST = 'blocks.append(block(loop.end, 1, 0))'
BLOCK = 'return Block(start, constant, length, n if length else 0, None, tuple(facts), ())'


def changes(old, *pairs):
    """Each change is a name, a text within `old`, and what stands in its place."""
    out = []
    for name, part, new in pairs:
        assert old.count(part) == 1, (name, old.count(part))
        out.append((name, old, old.replace(part, new)))
    return out


def fits(name):
    return 'a word of shape %s does not fit' % name, FITTING, FITTING.replace("'%s', " % name, '').replace(", '%s')" % name, ')')


def fits_too(name):
    return 'a word of shape %s fits' % name, FITTING, FITTING.replace("'mvr')", "'mvr', '%s')" % name)


HEADS = changes(
    HEAD,
    ('beqz may be bnez', "i.name == 'beq'", "i.name in ('beq', 'bne')"),
    ('beqz may compare any two registers', " and f['rs2'] == 0", '')) + changes(
    N_PLACE,
    ('n may be a buffer', "self.params[place].kind == 'scalar'", "self.params[place].kind != 'none'"),
    ('n may be no argument', "self.params[place].kind == 'scalar'", "self.params[place].kind != 'buffer'"),
    ('n may not be in a7', '0 <= place < 8', '0 <= place < 7'),
    ('n may not be in a0', '0 <= place < 8', '0 < place < 8')) + changes(
    MOST,
    ('N is the lower end', '.b', '.a'),
    ('N is one more', '.b', '.b + 1')) + changes(
    VSET,
    ('vsetvli may be of any register', " and f['rs1'] == self.n", ''),
    ('a vtype that is not supported fits', " and model.is_supported(f['imm'])", ''),
    ('vtype asks for whole groups', "model.is_supported(f['imm'])", "model.is_supported(f['imm']) and f['imm'] & 7 < 4"),
    ('vtype has its tail agnostic', "model.is_supported(f['imm'])", "model.is_supported(f['imm']) and f['imm'] >> 6 & 1"),
    ('vtype has inactive elements agnostic', "model.is_supported(f['imm'])", "model.is_supported(f['imm']) and f['imm'] >> 7 & 1")) + changes(
    T,
    ('t may be x0', '(0, RA, self.n)', '(RA, self.n)'),
    ('t may be ra', '(0, RA, self.n)', '(0, self.n)'),
    ('t may be n', '(0, RA, self.n)', '(0, RA)'),
    ('t may not be sp', '(0, RA, self.n)', '(0, RA, 2, self.n)'))

BODIES = changes(
    MEMORY,
    ('accesses may be masked', "f['vm'] == 1 and ", ''),
    ('accesses may be illegal', " and model.is_legal(self.vtype, word)", ''),
    ('accesses may have any width', ' and i.width == 8 * self.width', ''),
    ('loads alone', "('vload', 'vstore')", "('vload',)"),
    ('stores alone', "('vload', 'vstore')", "('vstore',)")) + changes(
    ARITHMETIC,
    ('arithmetic may be masked', "f['vm'] == 1 and ", ''),
    ('arithmetic may be illegal', " and model.is_legal(self.vtype, word)", '')) + [
    ('widening fits', WIDE, 'return i.shape in FITTING')] + [
    fits(name) for name in ('int', 'mac', 'mv', 'fixed', 'ext', 'slide', 'gather', 'gather16', 'compress', 'reduce', 'iota', 'fromx', 'mvr')] + [
    fits_too(name) for name in ('narrow', 'cmp', 'logic', 'first', 'count', 'tox', 'carry_mask', 'vload_whole', 'vstore_whole')] + changes(
    BUFFER,
    ('a pointer may be no buffer of the parameters', 'buffer is not None and ', 'buffer is None or '),
    ('a pointer may be t', ' and register != self.t', ''),
    ('a buffer may be of any size', ' and buffer.a >= self.most * self.width', ''),
    ('a buffer may be a byte too small', 'buffer.a >=', 'buffer.a + 1 >='),
    ('a buffer may be an element too small', 'buffer.a >= self.most * self.width', 'buffer.a >= (self.most - 1) * self.width'),
    ('a buffer has a byte to spare', 'buffer.a >=', 'buffer.a >'),
    ('a buffer has N bytes', 'self.most * self.width', 'self.most')) + changes(
    STORED,
    ('a store may go to a buffer that is read alone', 'not is_store or buffer.mode & WRITE', 'True'),
    ('a load needs a buffer that may be written', 'not is_store or ', '')) + [
    ('each access has a pointer of its own', ONCE, '        self.pointers.append(register)')]

TAILS = changes(
    SHIFT,
    ('slli may be srli', "i.name == 'slli'", "i.name in ('slli', 'srli')"),
    ('slli may be of any register', " and f['rs1'] == self.t", ''),
    ('slli may shift by any number', " and 1 << f['imm'] == self.width", ''),
    ('slli may shift by more', "1 << f['imm'] ==", "1 << f['imm'] >=")) + changes(
    STEP,
    ('t1 may be x0', '[0, RA, self.n, self.t]', '[RA, self.n, self.t]'),
    ('t1 may be ra', '[0, RA, self.n, self.t]', '[0, self.n, self.t]'),
    ('t1 may be n', '[0, RA, self.n, self.t]', '[0, RA, self.t]'),
    ('t1 may be t', '[0, RA, self.n, self.t]', '[0, RA, self.n]'),
    ('t1 may be a pointer', ' + self.pointers', '')) + [
    ('slli is wanted at SEW 8 too', 'if self.width > 1:', 'if True:'),
    ('slli is not wanted at SEW 16', 'if self.width > 1:', 'if self.width > 2:')] + changes(
    ADD,
    ('add may be sub', "i.name == 'add'", "i.name in ('add', 'sub')"),
    ('add may write another register', "f['rd'] == f['rs1'] and ", ''),
    ('add may add any register', " and f['rs2'] == self.step", ''),
    ('add may be of any register', " and f['rd'] in left", ''),
    ('add has its operands in either order', "f['rd'] == f['rs1'] and f['rs2'] == self.step", "(f['rd'], self.step) in ((f['rs1'], f['rs2']), (f['rs2'], f['rs1']))")) + [
    ('a pointer may stay where it is', 'while left:', 'while len(left) > 1:'),
    ('adds come in the order of the pointers', "f['rd'] in left)", "f['rd'] == next(p for p in self.pointers if p in left))")] + changes(
    SUB,
    ('sub may be add', "i.name == 'sub'", "i.name in ('sub', 'add')"),
    ('sub may write another register', "f['rd'] == f['rs1'] == self.n", "f['rs1'] == self.n"),
    ('sub may be of another register', "f['rd'] == f['rs1'] == self.n", "f['rd'] == f['rs1']"),
    ('sub may take any register away', " and f['rs2'] == self.t", '')) + changes(
    BNEZ,
    ('bnez may be beqz', "i.name == 'bne'", "i.name in ('bne', 'beq')"),
    ('bnez may be of any register', " and f['rs1'] == self.n", ''),
    ('bnez may compare any two registers', " and f['rs2'] == 0", '')) + changes(
    ENDS,
    ('bnez may lead anywhere', "self.words.at + f['to'] & M32 == self.start and ", ''),
    ('beqz may lead anywhere', ' and self.end == self.words.at + 4', ''),
    ('beqz leads to the bnez', 'self.end == self.words.at + 4', 'self.end == self.words.at')) + changes(
    RET,
    ('ret may link', "(f['rd'], f['rs1'], f['imm']) == (0, RA, 0)", "(f['rs1'], f['imm']) == (RA, 0)"),
    ('ret may be by any register', "(f['rd'], f['rs1'], f['imm']) == (0, RA, 0)", "(f['rd'], f['imm']) == (0, 0)"),
    ('ret may go past ra', "(f['rd'], f['rs1'], f['imm']) == (0, RA, 0)", "(f['rd'], f['rs1']) == (0, RA)")) + [
    ('code may lie in any segment', SEGMENT, "        segment = segment or next((s for s in self.segments if s.first <= self.at and self.at + 4 <= s.first + len(s.data)), None)\n"
     + SEGMENT)]

CERTIFICATES = changes(
    FIRST,
    ('the first block pays for three words', 'loop.entry, 2,', 'loop.entry, 3,'),
    ('the first block pays for a word more in each round', 'loop.entry, 2, loop.length,', 'loop.entry, 2, loop.length + 1,'),
    ('n is at least 1 in the first block', 'RegisterFact(n, 0, loop.most,', 'RegisterFact(n, 1, loop.most,'),
    ('n may be anything in the first block', 'RegisterFact(n, 0, loop.most,', 'RegisterFact(n, 0, M32,'),
    ('n is no sum in the first block', '(0, ((passed, 1),))', 'None'),
    ('n is twice what was passed', '(passed, 1)', '(passed, 2)'),
    ('a pointer is no number in the first block', '(base, base, (base, ()))', '(base, base, None)'),
    ('a pointer may lie behind in the first block', '(base, base, (base, ()))', '(base, base + 1, (base, ()))')) + changes(
    BEHIND,
    ('a pointer ends at its base', 'base + w * loop.most', 'base'),
    ('a pointer ends an element later', 'base + w * loop.most', 'base + w * loop.most + w'),
    ('a pointer ends after N bytes', 'base + w * loop.most', 'base + loop.most'),
    ('a pointer is no sum', '(base, ((n, -w & M32), (passed, w)))', 'None'),
    ('a pointer goes down', '(n, -w & M32)', '(n, w)'),
    ('a sum has its terms the other way round', '((n, -w & M32), (passed, w))', '((passed, w), (n, -w & M32))')) + changes(
    LOOP,
    ('the loop pays for two words behind it', 'loop.start, 1,', 'loop.start, 2,'),
    ('n may be 0 in the loop', 'RegisterFact(n, 1, loop.most)', 'RegisterFact(n, 0, loop.most)'),
    ('n may be anything in the loop', 'RegisterFact(n, 1, loop.most)', 'RegisterFact(n, 1, M32)')) + changes(
    LAST,
    ('the last block pays for two words', 'loop.end, 1, 0', 'loop.end, 2, 0'),
    ('the last block pays for n', 'loop.end, 1, 0', 'loop.end, 1, 1')) + changes(
    BLOCK,
    ('a budget names n where it takes nothing of it', 'n if length else 0', 'n'),
    ('blocks state vtype', ', None, tuple(facts)', ', loop.vtype, tuple(facts)')) + [
    ('there is a loop where N is 0', 'if loop.most:', 'if True:'),
    ('there is no loop where N is 1', 'if loop.most:', 'if loop.most > 1:'),
    ('ra may be anything', 'RegisterFact(RA, model.EXIT, model.EXIT)', 'RegisterFact(RA, 0, M32)'),
    ('facts are not in order', 'facts = sorted(facts + [returned] + ([count] if count else []))', 'facts = facts + [returned] + ([count] if count else [])'),
    ('the certificate is for 128 bits', 'Certificate(8 * vlenb, params, blocks)', 'Certificate(128, params, blocks)'),
    ('a round counts one word less', 'self.length = (self.words.at - self.start) // 4 + 1', 'self.length = (self.words.at - self.start) // 4'),
    ('a loop of no pointers is none', "        self.sums(last)\n", "        self.words.require(self.pointers)\n        self.sums(last)\n")]

MAKER = HEADS + BODIES + TAILS + CERTIFICATES

# Changes that change no answer, and why.
SAME = [
    ('vadc, vsbc and vmerge fit', 'their words have vm 0, and a word that fits has 1'),
    ('pointers are kept by number', 'facts are in order anyway, and adds may come in any'),
]
