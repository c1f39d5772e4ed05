"""A second opinion on the maker of certificates: what it answers for an image and parameters, in Python.

Written from the class of loops and the certificate as README.md tells them in words ("The class of makes.txt"), and from no code or definition of
crates/. What words mean and whether they are legal is model.py's; whether a certificate passes, checker.py's.
"""
import model
from certificates import WRITE, Block, Certificate, RegisterFact, code_segment
from checker import PASSED, buffers
from table import M32, sew_of

RA, FIRST_ARGUMENT = 1, 10
# Arithmetic that writes a vector register, no mask, and neither widens nor narrows.
FITTING = ('int', 'mac', 'mv', 'fixed', 'ext', 'slide', 'gather', 'gather16', 'compress', 'reduce', 'iota', 'fromx', 'mvr')


def is_fitting(i):
    return i.shape in FITTING and i.eew[0] != 's2'


class NotALoop(Exception):
    """The address of the first word that does not fit."""

    @property
    def text(self):
        return 'NotALoopOfTheClass %08x' % self.args[0]


class Words:
    """The words of an image from its entry on. `at` is the address of the one that was read last."""

    def __init__(self, image):
        self.segments, self.at = image.segments, image.entry - 4

    def take(self):
        """The next word: itself, what it means and its fields."""
        self.at += 4
        segment = code_segment(self.segments, self.at)
        self.require(segment is not None)
        word = int.from_bytes(segment.data[self.at - segment.first:self.at - segment.first + 4], 'little')
        decoded = model.decode(word)
        self.require(decoded is not None)
        return word, *decoded

    def require(self, fits):
        if not fits:
            raise NotALoop(self.at)


class Loop:
    """What is read of a loop: the registers n, t, t1 and of the pointers, the most strips' elements, the places of its words."""

    def __init__(self, image, params):
        self.params, self.words, self.pointers = params, Words(image), []
        self.head()
        last = self.body()
        if self.width > 1:
            self.shift(*last)
            last = self.words.take()
        else:
            self.step = self.t
        self.sums(last)
        self.tail()

    def buffer(self, register):
        """The parameter of a register, where it is a buffer."""
        place = register - FIRST_ARGUMENT
        return self.params[place] if 0 <= place < 8 and self.params[place].kind == 'buffer' else None

    def head(self):
        """`beqz n,end` and `vsetvli t,n,VTYPE`."""
        _, i, f = self.words.take()
        self.words.require(i.name == 'beq' and f['rs2'] == 0)
        self.n, self.entry, self.end = f['rs1'], self.words.at, self.words.at + f['to'] & M32
        place = self.n - FIRST_ARGUMENT
        self.words.require(0 <= place < 8 and self.params[place].kind == 'scalar')
        self.most = self.params[place].b
        _, i, f = self.words.take()
        self.words.require(i.name == 'vsetvli' and f['rs1'] == self.n and model.is_supported(f['imm']))
        self.start, self.t, self.vtype = self.words.at, f['rd'], f['imm']
        self.words.require(self.t not in (0, RA, self.n))
        self.width = sew_of(self.vtype) // 8

    def body(self):
        """Accesses and arithmetic; the first word that is neither."""
        while True:
            word, i, f = self.words.take()
            if i.shape in ('vload', 'vstore') and i.width == 8 * self.width:
                self.words.require(f['vm'] == 1 and model.is_legal(self.vtype, word))
                self.access(f['rs1'], i.shape == 'vstore')
            elif is_fitting(i):
                self.words.require(f['vm'] == 1 and model.is_legal(self.vtype, word))
            else:
                return word, i, f

    def access(self, register, is_store):
        buffer = self.buffer(register)
        self.words.require(buffer is not None and register != self.t and buffer.a >= self.most * self.width)
        self.words.require(not is_store or buffer.mode & WRITE)
        if register not in self.pointers:
            self.pointers.append(register)

    def shift(self, word, i, f):
        """`slli t1,t,log2(SEW/8)`."""
        self.words.require(i.name == 'slli' and f['rs1'] == self.t and 1 << f['imm'] == self.width)
        self.step = f['rd']
        self.words.require(self.step not in [0, RA, self.n, self.t] + self.pointers)

    def sums(self, last):
        """One `add p,p,t1` for each pointer, and `sub n,n,t`."""
        left = set(self.pointers)
        while left:
            _, i, f = last
            self.words.require(i.name == 'add' and f['rd'] == f['rs1'] and f['rs2'] == self.step and f['rd'] in left)
            left.remove(f['rd'])
            last = self.words.take()
        _, i, f = last
        self.words.require(i.name == 'sub' and f['rd'] == f['rs1'] == self.n and f['rs2'] == self.t)

    def tail(self):
        """`bnez n,loop` and `ret`."""
        _, i, f = self.words.take()
        self.words.require(i.name == 'bne' and f['rs1'] == self.n and f['rs2'] == 0)
        self.words.require(self.words.at + f['to'] & M32 == self.start and self.end == self.words.at + 4)
        self.length = (self.words.at - self.start) // 4 + 1
        _, i, f = self.words.take()
        self.words.require(i.name == 'jalr' and (f['rd'], f['rs1'], f['imm']) == (0, RA, 0))


def make(image, params, vlenb):
    """The certificate, or NotALoop."""
    loop = Loop(image, params)
    bases = {FIRST_ARGUMENT + place: at for place, at, _, _ in buffers(params)}
    returned, passed = RegisterFact(RA, model.EXIT, model.EXIT), PASSED + loop.n - FIRST_ARGUMENT
    w, n = loop.width, loop.n

    def block(start, constant, length, count=None, pointer=None):
        """pointer: the interval of a pointer of this base, and its equality."""
        facts = [RegisterFact(p, *pointer(bases[p])) for p in loop.pointers] if pointer else []
        facts = sorted(facts + [returned] + ([count] if count else []))
        return Block(start, constant, length, n if length else 0, None, tuple(facts), ())

    blocks = [block(loop.entry, 2, loop.length, RegisterFact(n, 0, loop.most, (0, ((passed, 1),))), lambda base: (base, base, (base, ())))]
    if loop.most:
        behind = lambda base: (base, base + w * loop.most, (base, ((n, -w & M32), (passed, w))))
        blocks.append(block(loop.start, 1, loop.length, RegisterFact(n, 1, loop.most), behind))
    blocks.append(block(loop.end, 1, 0))
    return Certificate(8 * vlenb, params, blocks)
