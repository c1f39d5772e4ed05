"""Tests of the advice: kernels as words, each with one obstacle, and what is said of it; calls, vsetivli, limits and progress."""
import contextlib
import io
import unittest

import advice
import chart
import picture
import reasons
import search
import trial
import watch
from outside import ROOT, certificates, table
from test_commands import Case, example

R, RW = certificates.READ, certificates.READ | certificates.WRITE
CODE = 0x10000


def word(name, **fields):
    """A word by its instruction's name and fields."""
    return table.ALL[name].encode(**fields)


def li(rd, number):
    """A register becomes a number."""
    return word('addi', rd=rd, rs1=0, imm=number)


def moved(rd, number):
    """A register moves by a number."""
    return word('addi', rd=rd, rs1=rd, imm=number)


def load(rd, base, at=0, name='lbu'):
    """A load from so many bytes behind a register."""
    return word(name, rd=rd, rs1=base, imm=at)


def branch(name, one, two, to):
    """A branch by so many words."""
    return word(name, rs1=one, rs2=two, to=CODE + 4 * to)


def jump(rd, to):
    """A jump by so many words."""
    return word('jal', rd=rd, to=CODE + 4 * to)


RET = word('jalr', rd=0, rs1=1, imm=0)
ECALL = word('ecall')


def image(*words):
    """An image of these words alone."""
    data = b''.join(w.to_bytes(4, 'little') for w in words)
    return certificates.Image(CODE, [certificates.Segment(CODE, CODE + len(data), R | certificates.EXECUTE, data)], None)


def buffer(size=64, mode=RW):
    """A buffer."""
    return certificates.Param('buffer', mode, size, 0)


def scalar(lo, hi):
    """A number in an interval."""
    return certificates.Param('scalar', 0, lo, hi)


# Of each obstacle: the kernel's words, its parameters, and what is said of it.
KERNELS = {
    'rises': ([load(13, 10), moved(12, 1), branch('bltu', 12, 11, -2), RET], [buffer(), scalar(1, 8), scalar(0, 0)],
              ('a2 rises to its end', 'put fuel into this loop')),
    'data': ([load(13, 10), branch('bne', 13, 0, -1), RET], [buffer()],
             ('ends on data out of memory (lbu a3, 0(a0) at 0x10000)', 'put fuel into this loop')),
    'halved': ([word('srli', rd=10, rs1=10, imm=1), branch('bne', 10, 0, -1), RET], [scalar(1, 99)],
               ('nothing tells that a0 falls', 'srli a0, a0, 1 at 0x10000')),
    'grows': ([word('slli', rd=10, rs1=10, imm=1), branch('bltu', 10, 11, -1), RET], [scalar(1, 1), scalar(9, 99)],
              ('a0 is made anew on each way round by slli a0, a0, 1',)),
    'out of memory': ([load(11, 10, name='lw'), word('add', rd=11, rs1=10, rs2=11), load(11, 11), RET], [buffer()],
                      ('comes out of memory (lw a1, 0(a0) at 0x10000)', "test this address against a0's 64 bytes")),
    'kept': ([word('sw', rs2=10, rs1=2, imm=-4), load(11, 2, -4, 'lw'), load(12, 11), RET], [buffer()],
             ('kept on the stack (lw a1, -4(sp) at 0x10004)', "against a0's 64 bytes")),
    'xor': ([word('xor', rd=11, rs1=10, rs2=11), load(12, 11), RET], [buffer(), scalar(0, 9)],
            ('a1 is computed by xor a1, a0, a1 at 0x10000', "against a0's 64 bytes")),
    'beyond': ([word('add', rd=11, rs1=10, rs2=11), load(12, 11), RET], [buffer(), scalar(0, 66)],
               ("may reach 3 bytes past a0's 64 bytes",)),
    'two buffers': ([branch('beq', 12, 0, 2), word('addi', rd=10, rs1=11, imm=0), load(13, 10, 80), RET],
                    [buffer(), buffer(32), scalar(0, 1)],
                    ("a0's 64 bytes or a1's 32 bytes, whichever it is in",)),
    'return kept': ([word('sw', rs2=1, rs1=2, imm=-4), load(1, 2, -4, 'lw'), RET], [],
                    ('the return address was kept in memory (lw ra, -4(sp) at 0x10004)', 'end the run here by ecall')),
    'table': ([load(11, 10, name='lw'), word('jalr', rd=0, rs1=11, imm=0)], [buffer()], ('the jump goes by a table in memory',)),
    'pointer': ([word('jalr', rd=0, rs1=10, imm=0)], [scalar(0, 1 << 20)], ('where the jump leads is not known', 'among the code whose address')),
    'read only': ([word('sb', rs1=10, rs2=11, imm=0), RET], [buffer(mode=R)], ('state mode = "rw"', 'has nothing for this')),
    'computed jump': ([word('auipc', rd=5, imm=0), word('jalr', rd=0, rs1=5, imm=8), load(11, 0), RET], [], ('zero is 0',)),
    'no instruction': ([0], [], ('means no instruction', 'has nothing for this')),
    'called': ([word('addi', rd=5, rs1=1, imm=0), jump(1, 4), jump(1, 3), word('addi', rd=1, rs1=5, imm=0), RET,
                branch('beq', 10, 0, 1), RET], [scalar(0, 1)],
               ('called from more than one place', 'choose here among the places that call')),
    'vsetivli': ([word('vsetivli', rd=0, avl=4, imm=0xc0), moved(12, 1), word('vle8.v', vd=8, rs1=12, vm=1),
                  branch('bltu', 12, 11, -2), RET], [buffer(), scalar(1, 8), scalar(0, 0)], ('a2 rises to its end',)),
}


class Obstacles(unittest.TestCase):
    """What is said of kernels without a certificate."""

    def test_what_is_said(self):
        for name, (words, params, parts) in KERNELS.items():
            with self.subTest(name=name):
                made = image(*words)
                found = search.find(made, params, 128)
                self.assertNotEqual(found.answer, 'accepted')
                said = '\n'.join(advice.told(found, made))
                for part in parts:
                    self.assertIn(part, said)

    def test_a_run_that_comes_back_through_calls(self):
        # _start calls f again and again: f's block has no way back but its return.
        made = image(jump(1, 2), jump(0, -1), moved(12, 1), RET)
        refuted = trial.refuted(made, [certificates.Param('none')] * 2 + [scalar(0, 0)], 128)
        self.assertIn('comes back to', '\n'.join(advice.told_of_run(refuted, made)))
        away = trial.Refuted(CODE + 0x100, None, {})
        self.assertIn('called again and again', '\n'.join(advice.told_of_run(away, made)))

    def test_every_reason_says_what_guards_would_do(self):
        found = dict.fromkeys(('past', 'base', 'setters', 'step', 'count', 'fall', 'bytes', 'area', 'stride', 'regions'), 'x')
        for kind in reasons.REASONS:
            why, guard = reasons.told(kind, **found)
            self.assertIn('`certify guard`', guard)
            self.assertNotIn('{', why + guard)


class Limits(Case):
    """How long a search may take, and what is told meanwhile."""

    JOB = '''vlen = 128
        param = [{ kind = "buffer", mode = "r", size = 1024 }, { kind = "scalar", lo = 0, hi = 1024 }, { kind = "none" },
        { kind = "buffer", mode = "rw", size = 4 }]'''

    def test_a_limit_stops_the_search_and_nothing_is_written(self):
        job = self.file('job.toml', self.JOB)
        for limit, status, said in (('0.000001', 1, 'nothing found: the limit of 1e-06 seconds has passed: '), ('600', 0, 'accepted: ')):
            made = self.folder / 'made.elf'
            got, out, _ = self.said('find', example('sum_bytes'), job, '-o', made, '--toml', self.folder / 'made.toml', '--limit', limit)
            self.assertEqual((got, made.exists(), (self.folder / 'made.toml').exists()), (status, not status, not status), out)
            self.assertTrue(out.startswith(said), out)
        for limit in ('0', '-1', 'nan', 'inf', 'soon'):
            self.assertEqual(self.said('find', example('sum_bytes'), job, '-o', made, '--limit', limit)[0], 2)

    def test_what_takes_long_is_told(self):
        times, err = iter([0, 1.9, 2.1, 2.2, 4.5, 9]), io.StringIO()
        looking = watch.Progress(8, lambda: next(times))
        with contextlib.redirect_stderr(err):
            looking.tell('plan 1 of 8')
            looking.check()
            looking.tell('plan 2 of 8')
            looking.check()
            with self.assertRaises(search.OutOfTime) as stop:
                looking.check()
        self.assertEqual(err.getvalue(), 'certify: plan 1 of 8, 2 s\ncertify: plan 2 of 8, 4 s\n')
        self.assertEqual(str(stop.exception), 'the limit of 8 seconds has passed: plan 2 of 8')

    def test_a_search_asks_its_watch(self):
        class Stop(search.Watch):
            told = []

            def tell(self, text):
                self.told.append(text)

            def check(self):
                raise search.OutOfTime('now')

        with self.assertRaises(search.OutOfTime):
            search.find(image(RET), [], 128, Stop())
        self.assertEqual(Stop.told, [f'search at VLEN 128, plan 1 of {len(search.PLANS)}'])


class Pictures(Case):
    """Certificates as graphs and as pictures."""

    def test_the_committed_picture_is_what_is_made(self):
        made = self.done('show', example('raise_if'), '--svg')
        self.assertEqual((ROOT / 'docs/certificate.svg').read_text(), made)
        self.assertEqual(picture.svg(self.done('show', example('raise_if'), '--dot').splitlines()), made)

    def test_a_graph(self):
        out = self.done('show', example('sum_bytes'), '--dot')
        for line in ('digraph certificate {', '  b10000 [label="0x10000\\lat most', 'bne a1, zero', '  end [label="the run ends", shape=oval];'):
            self.assertIn(line, out)
        self.assertNotIn('guard', out)
        self.assertEqual(self.said('show', example('sum_bytes'), '--dot', '--svg')[0], 2)
        self.assertEqual(self.said('show', example('add_bytes'), '--dot')[0], 2)

    def test_guards_are_marked(self):
        # a0 is tested from both sides; what fails puts a number into a0 and ends the run.
        words = [word('lui', rd=5, imm=0x40000000), branch('bltu', 10, 5, 5), moved(5, 63), branch('bltu', 5, 10, 3), load(11, 10), RET,
                 li(10, -1), ECALL]
        made = image(*words)
        params = [scalar(0, (1 << 32) - 1), buffer()]
        found = search.find(made, params, 128)
        self.assertEqual(found.answer, 'accepted')
        lines = list(chart.dot(made, found.certificate, {'_start': CODE, 'failed': CODE + 24}))
        self.assertEqual([line for line in lines if 'guard' in line],
                         ['  b10000 -> b10018 [label="guard, bltu a0, t0", color=red, style=dashed];',
                          '  b10008 -> b10018 [label="guard, bltu t0, a0", color=red, style=dashed];'])
        self.assertIn('<failed>', '\n'.join(lines))
        drawn = picture.svg(lines)
        self.assertEqual(drawn.count('stroke-dasharray'), 2)
        self.assertEqual(drawn.count('<path d="M'), len([line for line in lines if '->' in line]) + 1)
        self.assertIn('&lt;failed&gt;', drawn)


if __name__ == '__main__':
    unittest.main()
