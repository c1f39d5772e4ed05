"""Tests of `certify guard` as a command: what is told and written, how code is laid out anew, and random images beside what was made of them."""
import pathlib
import random
import re
import struct
import unittest
from collections import namedtuple
from unittest import mock

import certify_main
import graph
import guard
import harden
import notes
import program
import small
from outside import certificates, checker, model
from program import Address, Away, Branch, Jump, Label, Word, word
from small import reads, scalar, writes
from test_commands import EXAMPLES, Case

INDEX = 'lw t0, 0(a0); at: add t1, a1, t0; lbu t2, 0(t1); sw t2, 0(a2); ret'
EVERY = [n for n in range(3, 32) if n not in (10, 11)]
PARAM = {'none': '{{ kind = "none" }}', 'scalar': '{{ kind = "scalar", lo = {0.a}, hi = {0.b} }}', 'buffer': '{{ kind = "buffer", mode = "{1}", size = {0.a} }}'}


def of_each(line, registers=EVERY):
    """A line of assembly for each register."""
    return '; '.join(line.format(n, 4 * n) for n in registers) + '; '


class Commands(Case):
    def job(self, params, name='job.toml'):
        modes = {certificates.READ: 'r', certificates.READ | certificates.WRITE: 'rw'}
        return self.file(name, 'param = [' + ', '.join(PARAM[p.kind].format(p, modes.get(p.mode)) for p in params) + ']')

    def guard(self, text, params, *more, data=()):
        """The status and both streams of the command, on an image of assembly."""
        (self.folder / 'in.elf').write_bytes(small.image(text, data))
        return self.said('guard', self.folder / 'in.elf', self.job(params), '-o', self.folder / 'out.elf', *more)

    def refused(self, said, text, params, *more, status=1):
        """Checks that a command writes nothing and ends with a status, and says why."""
        ended, out, err = self.guard(text, params, '--map', self.folder / 'map', '--toml', self.folder / 'c.toml', *more)
        self.assertEqual(ended, status, out + err)
        self.assertIn(said, out + err)
        self.assertEqual([name for name in ('out.elf', 'map', 'c.toml') if (self.folder / name).exists()], [])

    # ---- What is told ------------------------------------------------------------------------------------------------------------

    def test_the_map_has_a_line_for_each_number(self):
        params = [reads(4), reads(16), writes(4), small.STATUS]
        status, out, err = self.guard(INDEX, params, '--status', '3', '--map', self.folder / 'map')
        self.assertEqual((status, re.sub(r'\d+', 'N', out)), (0, 'accepted: bound N + N * xN\n'))
        self.assertNotIn('cannot be told', err)
        lines = [line.split('\t') for line in (self.folder / 'map').read_text().splitlines()]
        self.assertEqual(lines, [['1', 'address', hex(small.label(INDEX, 'at')), '?', '-', 'a1']])
        image = certificates.read_image((self.folder / 'out.elf').read_bytes())
        for offset, number in ((15, 0), (16, 1)):
            ran = small.run(image, params, [small.word(offset), bytes(16), bytes(4), b'what'])
            self.assertEqual(ran.buffers[3], small.word(number))

    def test_where_a_run_leaves_a_number(self):
        """In a buffer of its own, or where eight places are passed behind the last one."""
        params, contents, place = harden.with_place([reads(4), writes(16)], [bytes(4), bytes(16)])
        self.assertEqual((params[place], contents[place], place), (writes(4), bytes(4), 2))
        eight = [reads(4), writes(16), reads(8), *5 * [scalar(0, 9)]]
        params, contents, place = harden.with_place(eight, [bytes(4), bytes(16), b'r' * 8, *5 * [1]])
        self.assertEqual((params[place], contents[place], place), (writes(12), b'r' * 8 + bytes(4), 2))
        self.assertEqual([at for _, at, *_ in checker.buffers(params)], [at for _, at, *_ in checker.buffers(eight)])
        self.assertFalse(harden.has_place(8 * [scalar(0, 9)]))

    def test_without_a_status_guards_that_fail_have_one_end(self):
        """Nothing asks for their numbers then but a run of another image, which keeps what it counts where the registers are."""
        text, data = f'{INDEX[:-3]}loop: lbu t2, 0(a2); bnez t2, loop; ret', []
        for status in (None, 3):
            image = small.image(text)
            maker = guard.Maker(image, certificates.read_image(image), [reads(4), reads(16), writes(4), small.STATUS], 128, 9, status)
            maker.run()
            data.append(maker)
            self.assertEqual(len(maker.told), 2)
        without, kept = data
        self.assertEqual((without.is_number_kept, kept.is_number_kept), (False, True))
        self.assertEqual(len({without.laid.places['fails', number] for number in (1, 2)} | {without.laid.places['end',]}), 1)
        address = next(at for place, at, *_ in checker.buffers(without.params) if place == 3)
        for maker in data:
            for offset, number in ((16, 1), (15, 2), (3, 0)):
                told = certificates.read_image(maker.told_at(address))
                ran = small.run(told, maker.params, [small.word(offset), bytes(15) + b'x', bytes(4), b'what'])
                self.assertEqual(ran.buffers[3], small.word(number), offset)

    def test_fuel_that_was_accepted_stays_where_it_is_enough(self):
        """Where it is not, more is tried with nothing else put in, and then anew."""
        as_it_was, more = (b'', None, 'found'), (b'more', None, 'other')
        for wanted, alone, runs, came in ((guard.FUEL, None, 1, as_it_was), (2 * guard.FUEL, None, 2, as_it_was), (2 * guard.FUEL, more, 1, more)):
            maker = mock.Mock(fuelled=True, fuel=guard.FUEL)
            maker.run.return_value, maker.with_fuel.return_value = as_it_was, alone
            with mock.patch.object(harden, 'fuel_of', lambda *_: [(wanted, 'why')]):
                self.assertEqual(harden.made_by(maker, mock.Mock(can_run=lambda: False), 128, None), (*came, 'why'))
            self.assertEqual(maker.run.call_count, runs)

    def test_fuel_is_many_times_what_runs_take(self):
        for rounds, fuel in ((0, [1 << 16, 1 << 12, 1 << 10, 1 << 10]), (1500, [1 << 17, 1 << 15, 1 << 13, 1 << 11]), (None, [guard.FUEL])):
            with mock.patch.multiple(harden, can_measure=lambda _: True, used_fuel=lambda *_: rounds):
                job = mock.Mock(params=[], contents=lambda: [])
                self.assertEqual([number for number, _ in harden.fuel_of(None, job, 128)], fuel)

    def test_other_fuel_is_taken_where_it_is_accepted(self):
        data = small.image('at: lbu t1, 0(a0); bnez t1, at; ret')
        maker = guard.Maker(data, certificates.read_image(data), [reads(4)], 128, fuel=9)
        made = maker.run()
        with mock.patch.object(maker, 'search', return_value=mock.Mock(answer='no')):
            self.assertIsNone(maker.with_fuel(20))
        self.assertEqual((maker.fuel, maker.build()[0]), (9, made[0]))
        more = maker.with_fuel(20)
        self.assertEqual((maker.fuel, more[2].answer), (20, 'accepted'))
        self.assertNotEqual(more[0], made[0])

    def test_without_a_status_it_is_told_that_an_early_end_cannot_be_told(self):
        status, _, err = self.guard(INDEX, [reads(4), reads(16), writes(4)])
        self.assertEqual(status, 0)
        self.assertIn('without --status a run that a guard ended cannot be told from a whole one', err)

    def test_each_length_has_its_image_and_its_map(self):
        params = [writes(48), scalar(0, 64)]
        text = 'vsetvli t1, a1, e8, m1, ta, ma; vle8.v v8, (a0); vadd.vi v8, v8, 1; vse8.v v8, (a0); ret'
        self.assertEqual(self.guard(text, params, '--vlen', '128,512', '--map', self.folder / 'map')[0], 0)
        for name, vlen, has_guards in (('out', 128, False), ('out-512', 512, True)):
            image = certificates.read_image((self.folder / f'{name}.elf').read_bytes())
            self.assertEqual(certificates.read_certificate(image.certificate).vlen, vlen)
            self.assertEqual(bool((self.folder / name.replace('out', 'map')).read_text()), has_guards)

    # ---- What is refused ----------------------------------------------------------------------------------------------------------

    def test_places_that_are_no_status(self):
        params = [reads(4), reads(16), writes(4), scalar(0, 4), writes(3)]
        for place in ('0', '1', '3', '4', '5', '8', '-1'):
            with self.subTest(place=place):
                self.refused('--status has to name', INDEX, params, f'--status={place}', status=2)
        self.refused('invalid int value', INDEX, params, '--status=a2', status=2)

    def test_fuel_that_is_none(self):
        for number in ('0', '-1', '0x80000000', 'much'):
            self.refused('invalid fuel value', INDEX, [reads(4), reads(16), writes(4)], f'--fuel={number}', status=2)

    def test_a_job_without_sizes(self):
        (self.folder / 'in.elf').write_bytes(small.image(INDEX))
        job = self.file('job.toml', 'param = [{ kind = "buffer", mode = "r" }]')
        self.assertEqual(self.said('guard', self.folder / 'in.elf', job, '-o', self.folder / 'out.elf')[::2],
                         (2, f"certify: {job}: a parameter needs 'file'\n"))
        self.assertFalse((self.folder / 'out.elf').exists())

    def test_code_that_cannot_be_read(self):
        for said, text in (('the jump goes by a table in memory (lw t0, 0(a0) at 0x10000)', 'lw t0, 0(a0); jalr x0, 0(t0)'),
                           ('where the jump leads is not known', 'jalr x0, 0(a1)'), ('IllegalWord at 0x10008', 'lw t0, 0(a0); beqz t0, on; .word 0; on: ret'),
                           ('NotCode at 0x20000', 'lw t0, 0(a0); beqz t0, on; j 0x20000; on: ret'), ('NotCode at 0x10004', 'nop'),
                           ('TargetNotABlock at 0x10004', 'lw t0, 0(a0); jalr x0, 0(t0)')):
            with self.subTest(text=text):
                self.refused(said, text, [writes(256), scalar(0, 100)])

    def test_an_entry_that_cannot_be_read(self):
        self.refused('IllegalWord at 0x10000', '.word 0x00052007; ret', [writes(256)])

    def test_too_few_spare_registers(self):
        """Where the stack pointer stands is not known, so that no register can go to the stack."""
        load, move, store = (of_each(line, (1, *EVERY)) for line in ('lw x{}, {}(a0)', 'addi x{0}, x{0}, 1', 'sw x{}, {}(a0)'))
        self.refused('compile with -ffixed-x26 -ffixed-x27', 'andi t0, a1, 16; sub sp, sp, t0; ' + load + 'loop: ' + move
                     + 'srli a1, a1, 1; bnez a1, loop; ' + store + 'ecall', [writes(256), scalar(0, 100)])

    def test_a_register_that_is_kept_on_the_stack(self):
        """All registers are needed in a loop that needs fuel."""
        load, move, store = (of_each(line, (1, *EVERY)) for line in ('lw x{}, {}(a0)', 'addi x{0}, x{0}, 1', 'sw x{}, {}(a0)'))
        params = [writes(256), scalar(0, 100)]
        status, out, err = self.guard(load + 'loop: ' + move + 'srli a1, a1, 1; bnez a1, loop; ' + store + 'ecall', params)
        self.assertEqual(status, 0, err)
        plain, image = (certificates.read_image((self.folder / name).read_bytes()) for name in ('in.elf', 'out.elf'))
        for number in (0, 1, 77):
            one, two = (small.run(it, params, [bytes(range(256)), number]) for it in (plain, image))
            self.assertEqual((one.fault, one.buffers), (two.fault, two.buffers))

    def test_a_stride_that_takes_too_many_registers(self):
        self.refused('would take more than 8 registers', 'vsetvli t1, a1, e8, m4, ta, ma; lw t0, 0(a0); vlse8.v v8, (a0), t0; ret',
                     [writes(256), scalar(0, 100)])

    def test_a_limit(self):
        text = 'li t0, 0; loop: add t1, a0, t0; lbu t2, 0(t1); addi t0, t0, 1; bltu t0, a1, loop; ret'
        self.refused('nothing found: ', text, [writes(256), scalar(0, 300)], '--limit', '0.0001')

    # ---- What is written ------------------------------------------------------------------------------------------------------------

    def test_an_image_that_needs_nothing_keeps_its_bytes(self):
        for name in ('raise_words', 'sum_bytes', 'translate'):
            data = (EXAMPLES / name / f'{name}.elf').read_bytes()
            params = certificates.read_certificate(certificates.read_image(data).certificate).params
            status, _, err = self.said('guard', EXAMPLES / name / f'{name}.elf', self.job(params), '--vlen', '128', '-o', self.folder / 'out.elf',
                                       '--map', self.folder / 'map')
            made = (self.folder / 'out.elf').read_bytes()
            self.assertEqual((status, (self.folder / 'map').read_text()), (0, ''))
            self.assertIn('nothing had to be put in', err)
            self.assertEqual(made, notes.with_note(data, certificates.read_image(made).certificate))

    def test_data_stay_where_they_are_and_code_becomes_data(self):
        """A kernel that reads a constant behind its code, by auipc, and a table of its own."""
        text = '''auipc t3, 0; at: lw t3, 44(t3); lui t1, 0x20; lw t0, 0(a0); add t1, t1, t0; addi t1, t1, -1; lbu t2, 1(t1); add t2, t2, t3
            sw t2, 0(a1); j end; end: ret; .word 1000'''
        table = bytes(range(5, 21))
        made = small.Guarded(small.image(text, [(0x20000, table, small.READ)]), [reads(4), writes(4)])
        self.assertEqual(made.answer(), 'accepted')
        old, new = made.plain.segments, made.image.segments
        self.assertEqual([(s.first, s.end, s.data) for s in new[:2]], [(s.first, s.end, s.data) for s in old])
        self.assertEqual([s.rights for s in new], [small.READ, small.READ, small.RUN])
        for offset, number in ((0, 0), (15, 0), (16, 1), (-1, 1)):
            ran, status = made.run([small.word(offset), bytes(4)])
            self.assertEqual((status, ran.buffers[1]), (number, small.word(0 if number else 1005 + offset)))

    def test_symbols_move_with_their_code(self):
        data = bytearray(small.image(INDEX))
        names = b'\0_start\0table\0'
        symbols = bytes(16) + struct.pack('<IIIBBH', 1, small.CODE, 0, 0, 0, 1) + struct.pack('<IIIBBH', 8, 0x12345678, 0, 0, 0, 1)
        at = len(notes.padded(data))
        sections = bytes(40) + struct.pack('<10I', 0, 2, 0, 0, at, len(symbols), 2, 0, 4, 16) + struct.pack(
            '<10I', 0, 3, 0, 0, at + len(symbols), len(names), 0, 0, 1, 0)
        data = notes.padded(notes.padded(bytes(data)) + symbols + names)
        data = bytearray(data + sections)
        struct.pack_into('<I', data, 32, len(data) - len(sections))
        struct.pack_into('<HH', data, 46, 40, 3)
        made = small.Guarded(bytes(data), [reads(4), reads(16), writes(4)])
        labels = notes.labels(made.data)
        self.assertEqual(labels['table'], 0x12345678)
        self.assertTrue(certificates.code_segment(made.image.segments, labels['_start']))
        self.assertGreaterEqual(labels['_start'], made.image.entry)


class Layout(unittest.TestCase):
    """Code that is laid out anew."""

    def test_branches_that_no_longer_reach(self):
        """Between a branch and its target stand some 4 KiB, which become more."""
        body = 'lw t0, 0(a0); add t1, a0, t0; addi t1, t1, -3; lbu t2, 0(t1); add t3, t3, t2; ' * 8 + 'addi t3, t3, 1; ' * 978
        text = f'li t3, 0; loop: beqz a1, end; addi a1, a1, -1; {body} j loop; end: sw t3, 0(a2); ret'
        made = small.Guarded(small.image(text), [reads(16), scalar(0, 3), writes(4)])
        self.assertEqual(made.answer(), 'accepted')
        self.assertTrue(made.maker.laid.long)
        for offset in (3, 18):
            (ran, number), plain = made.run([small.word(offset) + bytes(12), 3, bytes(4)]), made.run_plain([small.word(offset) + bytes(12), 3, bytes(4)])
            self.assertEqual((number, ran.buffers), (0, plain.buffers))
        self.assertNotEqual(made.run([small.word(19) + bytes(12), 3, bytes(4)])[1], 0)

    def test_each_operation_reaches_its_label(self):
        nop = [word('addi', rd=0, rs1=0, imm=0)]
        for away in (0, 1, 1022, 1023, 1024, 1025, 5000):
            for name in program.OPPOSITE:
                ahead = [Branch(name, 1, 2, ('on',)), *nop * away, Label(('on',)), *nop]
                back = [Label(('on',)), *nop * away, Branch(name, 1, 2, ('on',)), *nop]
                for operations in (ahead, back):
                    self.assertEqual(self.target(program.Laid(operations, 0x11000), name), self.place)

    def target(self, laid, name):
        """Where the one branch of some operations leads, as a branch or as its opposite before a jump."""
        self.place = laid.places['on',]
        k = next(k for k, op in enumerate(laid.operations) if isinstance(op, Branch))
        at = laid.at[k]
        i, f = model.decode(laid.words[(at - laid.first) // 4])
        if i.name == name:
            return at + f['to'] & 0xffffffff
        self.assertEqual((i.name, at + f['to'] & 0xffffffff), (program.OPPOSITE[name], at + 8))
        i, f = model.decode(laid.words[(at - laid.first) // 4 + 1])
        self.assertEqual(i.name, 'jal')
        return at + 4 + f['to'] & 0xffffffff

    def test_an_address_is_counted_on_from_one_that_is_near(self):
        for many in (0, 1, 511, 512, 513, 5000):
            for labels in (('base', 'on'), ('on', 'base')):
                operations = [Address(5, ('base',)), Away(5, ('on',), ('base',)), Label((labels[0],)), *[Word(0x13)] * many, Label((labels[1],)), Word(0x13)]
                laid, number = program.Laid(operations, 0x11000), 0
                for here in laid.words[:(laid.at[2] - laid.first) // 4]:
                    i, f = model.decode(here)
                    number = f['imm'] if i.name == 'lui' else number + f['imm'] & 0xffffffff
                self.assertEqual((number, laid.at[2] - laid.at[1]), (laid.places['on',], 4 if many <= 511 + (labels[0] == 'on') else 8))

    def test_a_jump_that_does_not_reach_is_told(self):
        far = [Jump(0, ('on',)), *[Word(0x13)] * (1 << 18), Label(('on',)), Word(0x13)]
        with self.assertRaisesRegex(notes.Trouble, 'larger than a jump reaches'):
            program.Laid(far, 0x11000)

    def test_numbers(self):
        for value in (0, 1, 2047, 2048, 0xfff, 0x1000, 0x7fffffff, 0x80000000, 0xfffff7ff, 0xfffff800, 0xffffffff, 0x12345fff):
            x = [0] * 32
            machine = model.Machine(16, False, 0, x, bytes(512), model.VILL, 0, 0, 0, model.Memory([]))
            for one in program.number_words(5, value):
                machine.step(one)
            self.assertEqual(machine.x[5], value)

    def test_loops_and_dominators(self):
        text = 'a: beqz a0, c; b: addi a0, a0, -1; d: addi a1, a1, -1; bnez a1, d; j a; c: ret'
        code = program.Code(certificates.read_image(small.image(text)))
        its = graph.Graph(code)
        key = lambda name: ((), small.label(text, name))
        self.assertEqual([loop.head for loop in its.loops], [key('d'), key('a')])
        self.assertEqual([its.depth(key(name)) for name in 'abcd'], [1, 1, 0, 2])
        self.assertTrue(its.dominates(key('b'), key('d')) and not its.dominates(key('b'), key('c')))
        self.assertTrue(all(its.is_natural(loop) for loop in its.loops))


# ---- Random images -------------------------------------------------------------------------------------------------------------------

Drawn = namedtuple('Drawn', 'text params')


class Kernel:
    """A random kernel: numbers out of a buffer, sums and shifts of them, accesses to a buffer at what comes of that, single and in strips,
    branches, loops, and calls."""

    def __init__(self, seed):
        self.random, self.labels, self.functions = random.Random(seed), 0, []
        self.registers = ['t0', 't1', 't2', 'a4', 'a5']
        lines = ['addi sp, sp, -16', 'sw ra, 12(sp)'] + [f'lw {r}, {4 * k}(a0)' for k, r in enumerate(self.registers)] + self.lines(3)
        lines += [f'sw {r}, {4 * k}(a3)' for k, r in enumerate(self.registers)] + ['lw ra, 12(sp)', 'addi sp, sp, 16', 'ret']
        self.text = '; '.join(lines + [line for part in self.functions for line in part])
        self.params = [reads(20), writes(24), scalar(0, 12), writes(20)]

    def some(self):
        return self.random.choice(self.registers)

    def label(self):
        self.labels += 1
        return f'l{self.labels}'

    def lines(self, depth):
        return [line for _ in range(self.random.randint(1, 3)) for line in self.random.choice(self.kinds(depth))()]

    def kinds(self, depth):
        inner = [lambda: self.branch(depth - 1), lambda: self.loop(depth - 1), self.call] if depth > 1 else []
        return [self.sum, self.access, self.access, self.strip, *inner]

    def call(self):
        """A call of a function that makes no call and has no loop, which is called from elsewhere too."""
        if not self.functions or self.random.random() < 0.5:
            self.functions.append([f'f{len(self.functions)}: nop', *self.lines(1), 'ret'])
        return [f'jal ra, f{self.random.randrange(len(self.functions))}']

    def strip(self):
        """A vector load or store of so many elements as one of the registers says."""
        count, offset, width = self.some(), self.some(), self.random.choice([8, 8, 16, 32])
        moved = [f'andi {offset}, {offset}, 31', f'add t3, a1, {offset}'] if self.random.random() < 0.7 else ['mv t3, a1']
        stride = f'li t4, {self.random.choice([1, 2, 3, -1, -2])}'
        how = self.random.choice([[f'vle{width}.v v8, (t3)'], [f'vse{width}.v v8, (t3)'], [stride, f'vlse{width}.v v8, (t3), t4'],
                                  [stride, f'vsse{width}.v v8, (t3), t4'], ['vl1re8.v v10, (t3)'], ['vlm.v v10, (t3)'], self.indexed(), self.indexed()])
        kind = f"e{width}, {self.random.choice(['m1', 'm2'])}, {self.random.choice(['ta, ma', 'tu, mu'])}"
        return [*moved, f'andi t5, {count}, 15', f'vsetvli t5, t5, {kind}', *how, 'vadd.vi v10, v8, 3', f'vmv.x.s {self.some()}, v10']

    def indexed(self):
        """A gather or scatter, of all elements or of some, by indices that may be cut."""
        cut = ['li t4, 15', 'vand.vx v12, v10, t4'] if self.random.random() < 0.7 else ['vadd.vi v12, v10, 0']
        mask = ['vmsgtu.vi v0, v10, 2'] if self.random.random() < 0.5 else []
        return [*cut, *mask, self.random.choice(['vluxei8.v v8, (a1), v12', 'vsuxei8.v v8, (a1), v12']) + (', v0.t' if mask else '')]

    def sum(self):
        name = self.random.choice(['add', 'sub', 'xor', 'and', 'mul', 'srl'])
        return [f'{name} {self.some()}, {self.some()}, {self.some()}']

    def access(self):
        offset = self.some()
        cut = [f'andi {offset}, {offset}, 31'] if self.random.random() < 0.8 else []
        by = self.random.choice([['add t3, a1, ' + offset], ['add t3, a1, ' + offset, 'addi t3, t3, -2']])
        what = self.random.choice(['lbu {}, 0(t3)', 'lb {}, 1(t3)', 'sb {}, 0(t3)', 'sb {}, 2(t3)'])
        return cut + by + [what.format(self.some())]

    def branch(self, depth):
        on = self.label()
        name = self.random.choice(['beq', 'bne', 'bltu', 'bge'])
        return [f'{name} {self.some()}, {self.some()}, {on}', *self.lines(depth), f'{on}: nop']

    def loop(self, depth):
        head, out = self.label(), self.label()
        count = {2: 'a6', 1: 'a7'}[depth]
        if self.random.random() < 0.5:
            return [f'li {count}, 0', f'{head}: bgeu {count}, a2, {out}', *self.lines(depth), f'addi {count}, {count}, 1', f'j {head}', f'{out}: nop']
        some = self.some()
        return [f'{head}: andi {some}, {some}, 15', *self.lines(depth), f'bnez {some}, {head}']


class Random(unittest.TestCase):
    """Guarded images run as the unguarded ones where those meet no fault and end; else they end early, and tell a number."""

    SEEDS, FUEL = range(20), 50

    def test_some(self):
        whole = early = 0
        for seed in self.SEEDS:
            with self.subTest(seed=seed):
                kernel = Kernel(seed)
                made = small.Guarded(small.image(kernel.text), kernel.params, self.FUEL, (128, 256, 512)[seed % 3])
                self.assertEqual(made.answer(), 'accepted')
                for contents in self.contents(seed):
                    is_whole = self.is_same(made, contents)
                    whole, early = whole + is_whole, early + (not is_whole)
        self.assertTrue(whole > 5 and early > 5, (whole, early))

    def contents(self, seed):
        drawn = random.Random(seed)
        for _ in range(6):
            words = [drawn.choice([0, 1, 3, 20, 24, drawn.getrandbits(5), drawn.getrandbits(32)]) for _ in range(5)]
            yield [b''.join(map(small.word, words)), drawn.randbytes(24), drawn.randint(0, 12), bytes(20)]

    def is_same(self, made, contents):
        """Whether a run is whole, after it was compared."""
        (ran, number), plain = made.run(contents), made.run_plain(contents)
        self.assertEqual((ran.fault, ran.steps is None), (None, False))
        if number == 0:
            self.assertEqual((plain.fault, plain.steps is None, ran.buffers), (None, False, plain.buffers))
        elif plain.fault is None and plain.steps is not None:
            self.assertEqual(made.told[number - 1].kind, 'fuel')
        return number == 0


if __name__ == '__main__':
    unittest.main()
