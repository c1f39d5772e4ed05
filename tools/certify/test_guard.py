"""Tests of each kind of guard: a run that passes at its last byte, and one that fails one past it and tells its number."""
import struct
import unittest
import unittest.mock

import counters
import graph
import guard
import guided
import kinds
import notes
import pace
import program
import search
import small
import watch
from outside import certificates, checker
from small import reads, scalar, word, writes

TAKEN_APART = bytes(range(1, 33))


class Kinds(unittest.TestCase):
    """Each kernel has its access, or the head of its loop, at the label `at`."""

    def guards(self, text, params, whole, early, kind='address', fuel=1000, data=()):
        """Puts guards into a kernel. whole: arguments of runs that are as those of the kernel as it was. early: of runs that a guard of
        this kind at `at` ends, where the kernel as it was meets a fault or runs on and on."""
        made = small.Guarded(small.image(text, data), params, fuel)
        self.assertEqual(made.answer(), 'accepted')
        for contents in whole:
            (ran, number), plain = made.run(contents), made.run_plain(contents)
            self.assertEqual((number, ran.fault, ran.buffers), (0, None, plain.buffers), contents)
            self.assertEqual((plain.steps is None, ran.steps is None), (False, False), contents)
        for contents in early:
            (ran, number), plain = made.run(contents), made.run_plain(contents)
            self.assertEqual((ran.steps is None, ran.fault, plain.steps), (False, None, None), contents)
            self.assertEqual(made.told[number - 1][:2] if number else None, (kind, small.label(text, 'at')), contents)
        return made

    # ---- Scalar accesses --------------------------------------------------------------------------------------------------------

    def test_scalar_at_both_ends(self):
        some = lambda offset: [word(offset), TAKEN_APART[:16], bytes(4)]
        made = self.guards('lw t0, 0(a0); add t1, a1, t0; addi t1, t1, -3; at: lbu t2, 0(t1); sw t2, 0(a2); ret',
                           [reads(4), reads(16), writes(4)], [some(3), some(18)], [some(2), some(19), some(-1), some(1 << 31)])
        self.assertEqual([told.what for told in made.told], ['a1'])

    def test_words_at_both_ends(self):
        some = lambda offset: [word(offset), TAKEN_APART[:16], bytes(4)]
        self.guards('lw t0, 0(a0); add t1, a1, t0; addi t1, t1, -8; at: lw t2, 4(t1); sw t2, 0(a2); ret',
                    [reads(4), reads(16), writes(4)], [some(4), some(16)], [some(3), some(17)])

    def test_index(self):
        some = lambda offset: [word(offset), TAKEN_APART[:16], bytes(4)]
        self.guards('lw t0, 0(a0); at: add t1, a1, t0; lbu t2, 0(t1); sw t2, 0(a2); ret',
                    [reads(4), reads(16), writes(4)], [some(0), some(15)], [some(-1), some(16)])

    def test_a_store_goes_to_no_buffer_that_may_only_be_read(self):
        some = lambda offset: [word(offset), bytes(16)]
        self.guards('lw t0, 0(a0); add t1, a1, t0; addi t1, t1, 4; at: sb t0, -4(t1); ret', [reads(4), writes(16)],
                    [some(0), some(15)], [some(-1), some(16), some(-0x10000)])

    def test_where_no_register_is_spare(self):
        """All registers are needed before and behind the access: each keeps its number."""
        each = lambda line: '; '.join(line.format(n, 4 * n) for n in range(3, 32) if n not in (10, 11)) + '; '
        text = each('lw x{}, {}(a0)') + 'add x3, x3, a0; addi x3, x3, 1; at: sb x4, 0(x3); addi x3, x3, -1; sub x3, x3, a0; ' + each('sw x{}, {}(a0)')
        some = lambda offset: [TAKEN_APART[:12] + word(offset - 1) + bytes(range(100, 212)), 7]
        self.guards(text + 'sw a1, 0(a0); ret', [writes(128), scalar(0, 100)], [some(0), some(127)], [some(-1), some(128)])

    def test_the_second_number_is_made_of_the_first(self):
        """Where one register is free at the access alone, and the ends lie near to each other."""
        each = lambda line: '; '.join(line.format(n, 4 * n) for n in range(3, 31) if n not in (10, 11)) + '; '
        for size, count in ((256, 1), (1 << 13, 2)):
            text = each('lw x{}, {}(a0)') + 'add x3, x3, a0; at: lbu x31, 1(x3); sub x3, x3, a0; ' + each('sw x{}, {}(a0)') + 'sw x31, 0(a0); ret'
            some = lambda offset: [TAKEN_APART[:12] + word(offset - 1) + bytes(range(100, 212)) + bytes(size - 128), 7]
            made = self.guards(text, [writes(size), scalar(0, 100)], [some(0), some(size - 1)], [some(-1), some(size)])
            (test,), operations = made.maker.tests.values(), made.maker.laid.operations
            self.assertEqual(sum(op[1] in (test.least, test.most) for op in operations if isinstance(op, program.Number)), count)

    def test_a_row_is_tested_before_the_loop_that_goes_along_it(self):
        """Of an index that is made of one that rises, in another register or in place, only the upper end is tested within the loop then."""
        some = lambda offset, many: [bytes(range(64)), word(offset), many, bytes(4)]
        text = '''lw t0, 0(a1); add t0, a0, t0; li t1, 0; mv t2, a2; {}: srli t3, t1, 4; {}; {}lbu t4, 0(t6); add t5, t5, t4
            addi t1, t1, 8; addi t2, t2, -1; bnez t2, {}; sw t5, 0(a3); ret'''
        for index in ('add t6, t0, t3', 'mv t6, t3; add t6, t0, t6', 'addi t6, t3, 0; add t6, t6, t0'):
            for head, at, early in (('at', '', [some(-1, 1), some(-3, 128), some(64, 1), some(1 << 31, 2)]), ('loop', 'at: ', [some(0, 129), some(63, 3)])):
                with self.subTest(index=index, head=head):
                    made = self.guards(text.format(head, index, at, head), [reads(64), reads(4), scalar(1, 200), writes(4)],
                                       [some(0, 128), some(63, 1), some(63, 2), some(60, 8)], early)
                    self.assertEqual(sorted((test.is_entering, test.low, test.high) for test in made.maker.tests.values()), [(False, False, True), (True, True, True)])

    def test_the_end_of_whole_pages_takes_one_word(self):
        each = lambda line: '; '.join(line.format(n, 4 * n) for n in range(3, 31) if n not in (10, 11)) + '; '
        text = each('lw x{}, {}(a0)') + 'at: add x3, x3, a0; lbu x31, 0(x3); sub x3, x3, a0; ' + each('sw x{}, {}(a0)') + 'sw x31, 0(a0); ret'
        for size, name in ((4096, 'bgeu'), (4000, 'bltu')):
            some = lambda offset: [TAKEN_APART[:12] + word(offset) + bytes(size - 16), 7]
            made = self.guards(text, [writes(size), scalar(0, 100)], [some(0), some(size - 1)], [some(-1), some(size)])
            self.assertEqual([op.name for op in made.maker.laid.operations if isinstance(op, program.Branch)], [name])

    def test_choice_among_buffers(self):
        some = lambda which, offset: [TAKEN_APART[:8], TAKEN_APART[:12], which, offset, bytes(4)]
        made = self.guards('mv t0, a0; beqz a2, on; mv t0, a1; on: add t0, t0, a3; at: lbu t1, 0(t0); sw t1, 0(a4); ret',
                           [reads(8), reads(12), scalar(0, 1), scalar(0, 20), writes(4)],
                           [some(0, 7), some(1, 11), some(1, 0)], [some(0, 8), some(1, 12)])
        self.assertEqual([told.what for told in made.told], ['a0 or a1'])

    # ---- Vector accesses --------------------------------------------------------------------------------------------------------

    STRIPS = '''li t0, 0; loop: sub t1, a1, t0; vsetvli t1, t1, e8, m1, ta, ma; add t2, a0, t0; at: vle8.v v8, (t2); vadd.vi v8, v8, 1
        add t0, t0, t1; vse8.v v8, (t2); bltu t0, a1, loop; ret'''

    def test_unit_stride_strips(self):
        some = lambda many: [bytes(48), many]
        self.guards(self.STRIPS, [writes(48), scalar(0, 64)], [some(0), some(1), some(32), some(48)], [some(49), some(64)], 'strip')

    def test_the_base_of_strips_is_tested_before_their_loop(self):
        """Within the loop only the end of each strip is, as far as the base is not set anew there."""
        params, some = [writes(48), scalar(0, 64), reads(4)], lambda offset, many: [bytes(range(48)), many, word(offset)]
        text = '''lw t0, 0(a2); add t2, a0, t0; beqz a1, end; {}: vsetvli t1, a1, e8, m1, ta, ma; {}vle8.v v8, (t2); vadd.vi v8, v8, 1; vse8.v v8, (t2)
            sub a1, a1, t1; add t2, t2, t1; bnez a1, {}; end: ret'''
        whole = [some(0, 48), some(47, 1), some(30, 17), some(100, 0), some(-1, 0)]
        for head, at, early, kind in (('at', '', [some(48, 1), some(-1, 40), some(1 << 31, 3)], 'address'), ('loop', 'at: ', [some(47, 2), some(1, 48)], 'strip')):
            made = self.guards(text.format(head, at, head), params, whole, early, kind)
            self.assertEqual([(strip.low, strip.high) for strip in made.maker.strips.values()], [(False, False)])
            self.assertEqual([test.is_entering for test in made.maker.tests.values()], [True])
        made = self.guards(text.format('loop', 'at: ', 'loop').replace('sub a1', 'lw t0, 0(a2); add t2, a0, t0; sub a1'), params, [some(3, 14), some(0, 20)],
                           [some(32, 20), some(33, 16)], 'strip')
        self.assertEqual([(strip.low, strip.high) for strip in made.maker.strips.values()], [(True, True)])
        self.assertEqual(made.maker.tests, {})

    def test_bases_of_strips_go_once_it_is_known_that_strips_have_elements(self):
        """Those beside the tested one as well, which lie at known distances from it."""
        text = '''li t0, 3; bltu a1, t0, end; addi a4, a1, -2; li t6, 1; rows: mul t0, t6, a1; add t0, a0, t0; mv t3, a4; at: vsetvli t4, t3, e8, m2, ta, ma
            vle8.v v8, (t0); addi t5, t0, 2; vle8.v v10, (t5); vadd.vv v8, v8, v10; vse8.v v8, (t0); add t0, t0, t4; sub t3, t3, t4; bnez t3, at
            addi t6, t6, 1; bne t6, a2, rows; end: ret'''
        some = lambda width, height: [bytes(range(128)), width, height]
        made = self.guards(text, [writes(128), scalar(0, 32), scalar(2, 8)], [some(2, 2), some(16, 8), some(32, 4), some(3, 8)], [some(32, 5)])
        self.assertEqual({strip[2:5] for strip in map(tuple, made.maker.strips.values())}, {(False, False, False)})
        ran, number = made.run(some(20, 7))
        self.assertEqual((ran.fault, made.told[number - 1].kind), (None, 'strip'))

    def test_a_strip_that_is_loaded_and_stored_is_tested_once(self):
        some = lambda many: [TAKEN_APART[:20], many]
        for between, count in (('vadd.vi v8, v8, 1', 1), ('vadd.vi v8, v8, 1; addi a0, a0, 0', 2), ('lw t0, 0(a0); vadd.vx v8, v8, t0', 2)):
            with self.subTest(between=between):
                made = self.guards(f'vsetvli t1, a1, e8, m1, ta, ma; lbu t2, 3(a0); add a0, a0, t2; at: vle8.v v8, (a0); {between}; vse8.v v8, (a0); ret',
                                   [writes(20), scalar(1, 40)], [some(1), some(16)], [], 'strip')
                self.assertEqual(len(made.maker.strips), count)

    def test_what_was_put_in_last_is_searched(self):
        """However few rounds there are: a search sees all that was put in."""
        for rounds, is_enough in ((4, False), (5, True)):
            with self.subTest(rounds=rounds), unittest.mock.patch('guard.MOST_ROUNDS', rounds):
                made = lambda: small.Guarded(small.image(self.STRIPS), [writes(48), scalar(0, 64)])
                if is_enough:
                    self.assertEqual(made().answer(), 'accepted')
                else:
                    self.assertRaises(notes.Trouble, made)

    def test_strided(self):
        some = lambda many: [TAKEN_APART[:15], many, bytes(16)]
        self.guards('li t0, 2; vsetvli t1, a1, e8, m1, ta, ma; at: vlse8.v v8, (a0), t0; vse8.v v8, (a2); ret',
                    [reads(15), scalar(0, 16), writes(16)], [some(0), some(8)], [some(9), some(16)], 'strip')

    def test_strided_downwards(self):
        some = lambda many: [TAKEN_APART[:8], many, bytes(16)]
        self.guards('li t0, -1; vsetvli t1, a1, e8, m1, ta, ma; addi t2, a0, 7; at: vlse8.v v8, (t2), t0; vse8.v v8, (a2); ret',
                    [reads(8), scalar(0, 16), writes(16)], [some(0), some(8)], [some(9)], 'strip')

    def test_strided_from_a_base_that_is_not_known(self):
        for stride, whole, early in ((3, [(0, 6), (3, 5), (9, 3)], [(0, 7), (1, 6), (9, 4)]), (-3, [(15, 6), (2, 1), (9, 4)], [(15, 7), (2, 2), (16, 1)])):
            some = lambda case: [TAKEN_APART[:16], case[0], case[1], bytes(16)]
            with self.subTest(stride=stride):
                self.guards(f'li t0, {stride}; vsetvli t1, a2, e8, m1, ta, ma; add t2, a0, a1; at: vlse8.v v8, (t2), t0; vse8.v v8, (a3); ret',
                            [reads(16), scalar(0, 20), scalar(0, 16), writes(16)], map(some, whole), map(some, early), 'strip')

    def test_one_choice_for_several_accesses(self):
        """Accesses by one number in one straight line have one choice, and what stands between them has a copy for each buffer; so has what is
        put in there."""
        some = lambda which, offset, other=0: [TAKEN_APART[:8], TAKEN_APART[:13], which, offset, word(other) + TAKEN_APART[:8], other]
        text = """mv t0, a0; beqz a2, on; mv t0, a1; on: add t0, t0, a3; at: lbu t1, 0(t0); lbu t2, 3(t0); add t1, t1, t2; {}lbu t2, 1(t0); add t1, t1, t2
            sb t1, 2(t0); lbu t0, 2(t0); add t1, t1, t0; sw t1, 0(a4); ret"""
        params = [writes(8), writes(13), scalar(0, 1), scalar(0, 20), writes(12), scalar(0, 20)]
        whole, early = [some(0, 0), some(0, 4), some(1, 0), some(1, 9)], [some(0, 5), some(1, 10)]
        made = self.guards(text.format(''), params, whole, early)
        self.assertLess(made.run(some(0, 4))[0].steps, made.run_plain(some(0, 4)).steps + 13)
        made = self.guards(text.format('add t4, a4, a5; lbu t3, 0(t4); add t1, t1, t3; '), params, [*whole, some(1, 9, 11), some(0, 2, 3)], early)
        for which in (0, 1):
            ran, number = made.run(some(which, 4, 12))
            self.assertEqual((ran.fault, made.told[number - 1].what), (None, 'a4'))

    def test_numbers_that_guards_compare_with_get_registers_of_the_kernel(self):
        """Where the numbers of a choice in a loop have no registers, some of the kernel's go to the stack for them."""
        each = lambda line: '; '.join(line.format(n, 4 * n) for n in (3, 4, 8, 9, *range(14, 32)))
        text = """loop: mv t0, a0; andi t2, a2, 1; beqz t2, on; mv t0, a1; on: add t0, t0, a2; lbu t1, 0(t0); add x14, x14, t1; addi a2, a2, -1; bnez a2, loop"""
        full, params = f"{each('lw x{}, {}(a1)')}; {text}; {each('sw x{}, {}(a1)')}; ret", [reads(128), writes(128), scalar(1, 200)]
        image, steps = certificates.read_image(small.image(full)), []
        for evicted in (0, 2):
            maker = guard.Maker(small.image(full), image, params, 128, 1000, None, watch.Progress(), evicted=evicted)
            _, new, found = maker.run()
            self.assertEqual(found.answer, 'accepted')
            self.assertTrue(evicted or maker.wanted())
            contents = [bytes(range(128)), bytes(range(128, 256)), 100]
            ran, plain = small.run(new, params, contents), small.run(image, params, contents)
            self.assertEqual((ran.fault, ran.buffers), (None, plain.buffers))
            steps.append(ran.steps)
        self.assertLess(steps[1], steps[0] - 50)

    def test_choice_among_buffers_of_vectors(self):
        """Each buffer has a copy of the access."""
        strip = 'vsetvli t1, a3, e8, m1, ta, ma; at: {}; vse8.v v8, (a4)'
        for stride, access in ((1, 'vle8.v v8, (t0)'), (2, 'vlse8.v v8, (t0), t3'), (-2, 'vlse8.v v8, (t0), t3')):
            most = lambda size: (size - 1) // abs(stride) + 1
            some = lambda which, many: [TAKEN_APART[:8], TAKEN_APART[:13], which, many, bytes(16)]
            ends = 'addi t0, a0, 7; beqz a2, on; addi t0, a1, 12' if stride < 0 else 'mv t0, a0; beqz a2, on; mv t0, a1'
            with self.subTest(stride=stride):
                made = self.guards(f'li t3, {stride}; {ends}; on: {strip.format(access)}; ret', [reads(8), reads(13), scalar(0, 1), scalar(0, 16), writes(16)],
                                   [some(0, 0), some(0, most(8)), some(1, most(13)), some(1, 0)], [some(0, most(8) + 1), some(1, most(13) + 1)], 'strip')
                self.assertEqual([told.what for told in made.told], ['a0 or a1'])

    def test_choice_among_buffers_of_vectors_of_a_known_length(self):
        """One comparison tells the end, as of a scalar access, and the next number is counted on from the one before."""
        some = lambda which, offset: [TAKEN_APART[:8], TAKEN_APART[:13], which, offset, bytes(16)]
        made = self.guards('vsetivli x0, 4, e8, m1, ta, ma; mv t0, a0; beqz a2, on; mv t0, a1; on: add t0, t0, a3; at: vle8.v v8, (t0); vse8.v v8, (a4); ret',
                           [reads(8), reads(13), scalar(0, 1), scalar(0, 20), writes(16)],
                           [some(0, 0), some(0, 4), some(1, 0), some(1, 9)], [some(0, 5), some(1, 10)])
        self.assertLess(made.run(some(0, 4))[0].steps, made.run_plain(some(0, 4)).steps + 13)

    def test_choice_among_buffers_of_whole_registers_and_masks(self):
        for access, size in (('vl1re8.v v8, (t0); vs1r.v v8, (a4)', 16), ('vlm.v v8, (t0); vsm.v v8, (a4)', 2)):
            some = lambda which, offset: [TAKEN_APART[:20], TAKEN_APART[:24], which, offset, bytes(16)]
            with self.subTest(access=access):
                self.guards(f'vsetivli x0, 16, e8, m1, ta, ma; mv t0, a0; beqz a2, on; mv t0, a1; on: add t0, t0, a3; at: {access}; ret',
                            [reads(20), reads(24), scalar(0, 1), scalar(0, 40), writes(16)],
                            [some(0, 0), some(0, 20 - size), some(1, 24 - size)], [some(0, 21 - size), some(1, 25 - size)])

    def test_an_address_out_of_memory(self):
        """It may be in any buffer, and in the image or the stack."""
        params = [reads(8), reads(12), writes(16)]
        first, second = [address for _, address, *_ in checker.buffers(params)][:2]
        some = lambda address: [word(address) + bytes(range(4)), TAKEN_APART[:12], bytes(16)]
        for kind, access, size in (('address', 'lw t1, 0(t0); sw t1, 0(a2)', 4), ('address', 'vle8.v v8, (t0); vse8.v v8, (a2)', 3)):
            with self.subTest(access=access):
                self.guards(f'vsetivli x0, 3, e8, m1, ta, ma; lw t0, 0(a0); at: {access}; ret', params,
                            [some(first), some(first + 8 - size), some(second), some(second + 12 - size)],
                            [some(0), some(first + 9 - size), some(second - 1), some(second + 13 - size), some(-1)], kind)

    def test_masks_of_no_element(self):
        """Where vl is 0 nothing is accessed, wherever the base lies."""
        some = lambda offset, many: [TAKEN_APART[:4], word(offset), bytes(2), many]
        self.guards('lw t0, 0(a1); add t1, a0, t0; vsetvli t2, a3, e8, m1, ta, ma; at: vlm.v v0, (t1); vsm.v v0, (a2); ret',
                    [reads(4), reads(4), writes(2), scalar(0, 16)], [some(2, 16), some(4, 0), some(3, 8)], [some(3, 9)], 'strip')

    def test_masks(self):
        for access, params in (('vlm.v v0, (t1); vsm.v v0, (a2)', [reads(4), reads(4), writes(2)]),
                               ('vsm.v v0, (t1)', [writes(4), reads(4), reads(2)])):
            some = lambda offset: [TAKEN_APART[:4], word(offset), bytes(2)]
            with self.subTest(access=access):
                self.guards(f'lw t0, 0(a1); add t1, a0, t0; vsetivli x0, 16, e8, m1, ta, ma; vlm.v v0, (a2); at: {access}; ret',
                            params, [some(0), some(2)], [some(3), some(-1)], 'strip')

    def test_whole_registers(self):
        for access, params in (('vl2re8.v v8, (t1)', [reads(64), reads(4)]), ('vs2r.v v8, (t1)', [writes(64), reads(4)])):
            some = lambda offset: [TAKEN_APART * 2, word(offset)]
            with self.subTest(access=access):
                self.guards(f'lw t0, 0(a1); add t1, a0, t0; at: {access}; ret', params, [some(0), some(32)], [some(33), some(-1)])

    def test_a_stride_that_is_not_known(self):
        some = lambda stride, many: [word(stride), TAKEN_APART[:15], many, bytes(16)]
        for access in ('vlse8.v v8, (a1), t0', 'vmv.v.i v8, 5; add t2, a3, t0; sub t2, t2, t0; vlse8.v v8, (a1), t0'):
            self.guards(f'lw t0, 0(a0); vsetvli t1, a2, e8, m1, ta, ma; {access}; vse8.v v8, (a3); ret'.replace('vlse8', 'at: vlse8'),
                        [reads(4), reads(15), scalar(0, 16), writes(16)], [some(2, 8), some(0, 16), some(7, 3), some(9, 0)],
                        [some(2, 9), some(-1, 2), some(1 << 31, 2)], 'index')

    def test_a_stride_of_elements_that_are_not_those_of_the_vector_type(self):
        some = lambda stride, offset: [word(stride) + word(offset), bytes(range(64)), bytes(64)]
        for width, vtype, base in ((8, 'e32, m2', '0'), (16, 'e8, m1', '0'), (32, 'e16, m2', '0'), (16, 'e32, m1', 't2'), (32, 'e8, mf2', 't2')):
            size, many = width // 8, 8 if base == '0' else 4
            last, move = 64 - size, '' if base == '0' else 'lw t2, 4(a0); add a1, a1, t2; '
            whole = [some(size, 0), some(2 * size, 0), some(0, 0)] + ([some(-size, last)] if move else [])
            early = [some((last + many - 1) // (many - 1) // size * size + size, 0), some(-size, 0)]
            for load, store in (('at: vlse{}.v v8, (a1), t0', 'vse{}.v v8, (a2)'), ('vle{}.v v8, (a1)', 'at: vsse{}.v v8, (a2), t0')):
                first = f'{move if "at" in load else move.replace("a1", "a2")}lw t0, 0(a0); vsetivli x0, {many}, {vtype}, ta, ma; '
                with self.subTest(width=width, vtype=vtype, load=load, base=base):
                    self.guards(f'{first}{load.format(width)}; {store.format(width)}; vmv.v.i v8, 1; addi t3, a3, 0; vs1r.v v8, (t3); ret',
                                [reads(8), reads(64), writes(64), writes(16)], [it + [bytes(16)] for it in whole], [it + [bytes(16)] for it in early], 'index')

    def test_a_stride_and_a_base_that_are_not_known(self):
        some = lambda stride, base, many: [word(stride) + word(base), bytes(range(15)), many]
        self.guards('lw t0, 0(a0); lw t2, 4(a0); add t2, t2, a1; vsetvli t1, a2, e8, m1, ta, ma; vid.v v8; at: vsse8.v v8, (t2), t0; ret',
                    [reads(8), writes(15), scalar(0, 16)], [some(2, 0, 8), some(-2, 14, 8), some(3, 8, 3), some(0, 14, 16)],
                    [some(2, 1, 8), some(-2, 13, 8), some(3, 8, 4), some(1, -1, 1), some(1, 15, 1)], 'index')

    def test_indices_from_a_base_that_is_not_known(self):
        some = lambda base, least: [word(base), bytes([least, 3, 1, 4]), TAKEN_APART[:15 + width // 8], bytes(4)]
        for width, lmul in (8, 'mf2'), (16, 'm1'):
            widen = f'vsetivli x0, 4, e{width}, {lmul}, ta, ma; vle8.v v9, (a1); vzext.vf2 v8, v9' if width == 16 else f'vsetivli x0, 4, e8, {lmul}, ta, ma; vle8.v v8, (a1)'
            self.guards(f'lw t0, 0(a0); add t0, t0, a2; {widen}; at: vluxei{width}.v v10, (t0), v8; vsetivli x0, 4, e8, m1, ta, ma; vse8.v v10, (a3); ret',
                        [reads(4), reads(4), reads(15 + width // 8), writes(4)], [some(0, 5), some(11, 4), some(-1, 2)], [some(12, 2), some(-2, 4), some(0, 100)], 'index')

    def test_indices_that_are_addresses(self):
        """Compilers put a pointer into the indices and a small number into the base; here the pointer is kept in memory for a while."""
        kept = 'addi sp, sp, -16; vs1r.v v8, (sp); vmv.v.i v8, 0; vl1re8.v v8, (sp); addi sp, sp, 16'
        some = lambda *offsets: [bytes(offsets), TAKEN_APART[:20], bytes(4)]
        for base, made in (('li t0, 2', f'vzext.vf4 v9, v10; vmv.v.x v8, a1; {kept}; vadd.vv v9, v9, v8'), ('mv t0, x0', 'vzext.vf4 v8, v10; vadd.vx v9, v8, a1; vadd.vi v9, v9, 2')):
            text = f'''{base}; vsetivli x0, 4, e8, mf4, ta, ma; vle8.v v10, (a0); vsetvli x0, x0, e32, m1, ta, ma; {made}; vsetvli x0, x0, e8, mf4, ta, ma
                at: vluxei32.v v8, (t0), v9; vse8.v v8, (a2); ret'''
            with self.subTest(base=base):
                made = self.guards(text, [reads(4), reads(20), writes(4)], [some(0, 17, 3, 9)], [some(0, 1, 2, 18), some(255, 1, 2, 3)], 'index')
                self.assertEqual([told.what for told in made.told], ['a1'])

    def test_indices_where_no_vector_register_is_spare(self):
        """All vector registers are needed before and behind the access."""
        fill = '; '.join(f'addi t2, a2, {8 * n}; vle8.v v{n}, (t2)' for n in range(32))
        keep = '; '.join(f'addi t2, a3, {8 * n}; vse8.v v{n}, (t2)' for n in range(32))
        some = lambda least: [bytes([least, 3, 1, 4, 5, 6, 7, 8]), TAKEN_APART[:16], bytes(range(256)), bytes(256)]
        self.guards(f'vsetivli x0, 8, e8, m1, ta, ma; {fill}; vle8.v v9, (a0); at: vluxei8.v v10, (a1), v9; {keep}; ret',
                    [reads(8), reads(16), reads(256), writes(256)], [some(0), some(15)], [some(16), some(255)], 'index')

    def test_indexed(self):
        some = lambda *indices: [TAKEN_APART[:20], bytes(indices), bytes(4)]
        self.guards('vsetivli x0, 4, e8, m1, ta, ma; vle8.v v4, (a1); at: vluxei8.v v8, (a0), v4; vse8.v v8, (a2); ret',
                    [reads(20), reads(4), writes(4)], [some(0, 19, 3, 18)], [some(0, 20, 1, 2), some(0, 1, 2, 255)], 'index')

    def test_indexed_stores(self):
        some = lambda *indices: [bytes(20), bytes(indices), TAKEN_APART[:4]]
        self.guards('vsetivli x0, 4, e8, m1, ta, ma; vle8.v v4, (a1); vle8.v v8, (a2); at: vsuxei8.v v8, (a0), v4; ret',
                    [writes(20), reads(4), reads(4)], [some(0, 19, 3, 18)], [some(0, 1, 2, 20)], 'index')

    def test_gathers_keep_the_registers_of_groups(self):
        """Of groups whose length is the instruction's own, or comes of its width."""
        for first, last in (('vl2re8.v v2, (a2)', 'vs2r.v v2, (a3)'), ('vle32.v v4, (a2)', 'vse32.v v4, (a3)')):
            text = f'''vsetivli x0, 16, e8, m1, ta, ma; {first}; vsetivli x0, 4, e8, m1, ta, ma; vle8.v v1, (a1); at: vluxei8.v v8, (a0), v1
                vse8.v v8, (a4); vsetivli x0, 16, e8, m1, ta, ma; {last}; ret'''
            some = lambda index: [TAKEN_APART[:20], bytes([1, 2, 3, index]), TAKEN_APART * 2, bytes(64), bytes(4)]
            with self.subTest(first=first):
                self.guards(text, [reads(20), reads(4), reads(64), writes(64), writes(4)], [some(19)], [some(20)], 'index')

    def test_a_mask_does_not_count(self):
        """A masked access is tested as if all its elements were: a run that relies on its mask ends."""
        text = 'vsetvli t1, a1, e8, m1, ta, ma; vlm.v v0, (a2); at: vle8.v v8, (a0), v0.t; vse8.v v8, (a3); ret'
        params, some = [reads(8), scalar(0, 16), reads(2), writes(16)], lambda many, mask: [TAKEN_APART[:8], many, mask, bytes(16)]
        made = self.guards(text, params, [some(8, b'\xff\xff')], [some(9, b'\xff\xff')], 'strip')
        self.assertEqual(made.run(some(9, b'\xff\0'))[1], 1)

    # ---- Loops ------------------------------------------------------------------------------------------------------------------

    def test_fuel(self):
        text = '''li t0, 0; li t1, 1; at: beq a0, t1, end; andi t2, a0, 1; srli a0, a0, 1; beqz t2, even; slli t3, a0, 1; add a0, a0, t3
            addi a0, a0, 2; even: addi t0, t0, 1; j at; end: sw t0, 0(a1); ret'''
        made = small.Guarded(small.image(text), [scalar(1, 100_000), writes(4)], fuel=9)
        self.assertEqual((made.answer(), [told.kind for told in made.told]), ('accepted', ['fuel']))
        rounds = lambda x: 0 if x == 1 else 1 + rounds(x // 2 if x % 2 == 0 else (3 * x + 1) // 2)
        for x in (1, 6, 128, 256, 7, 512, 27):
            ran, number = made.run([x, bytes(4)])
            is_whole = rounds(x) <= 9
            self.assertEqual((number == 0, ran.buffers[1]), (is_whole, word(rounds(x)) if is_whole else bytes(4)), x)
            if number:
                self.assertEqual(made.told[number - 1].pc, small.label(text, 'at'))

    def test_fuel_is_paid_on_the_way_back(self):
        """A loop that does not go round takes none: before it stand the status and the fuel's number, and a jump where its last branch leaves it."""
        for text, before in (('li t0, 0; at: lbu t1, 0(a0); addi t0, t0, 1; bnez t1, at; sw t0, 0(a1); ret', 5),
                             ('li t0, 1; at: lbu t1, 0(a0); beqz t1, end; addi t0, t0, 1; j at; end: sw t0, 0(a1); ret', 4),
                             ('li t0, 1; at: lbu t1, 0(a0); beqz t1, end; addi t0, t0, 1; blt x0, t0, at; end: sw t0, 0(a1); ret', 4)):
            made, some = small.Guarded(small.image(text), [reads(1), writes(4)], fuel=9), [bytes(1), bytes(4)]
            ran, number = made.run(some)
            with self.subTest(text=text):
                self.assertEqual((number, ran.buffers[1], ran.steps), (0, word(1), made.run_plain(some).steps + before))
                self.assertEqual(made.run([b'x', bytes(4)])[1], 1)

    def test_fuel_is_paid_once_before_a_node(self):
        """Where loops go back by the same call, as those around a function of one copy."""
        maker, edits = unittest.mock.Mock(fuel_register=3, code=unittest.mock.Mock(nodes={'x': 1, 'y': 2})), program.Edits()
        maker.loop_of = {((), k): graph.Loop(((), k), frozenset(), frozenset(latches), 1) for k, latches in enumerate(('x', 'x', 'xy'))}
        maker.paying_heads.return_value, maker.edits = (set(maker.loop_of), set()), edits
        maker.code.is_return.return_value, maker.is_paid_at_latches.return_value = False, True
        pace.Pace.put_fuel(maker)
        self.assertEqual({key: len(operations) for key, operations in edits.before.items()}, {'x': 2, 'y': 2})
        self.assertEqual([call.args[0] for call in maker.failed.call_args_list], ['fuel', 'fuel'])

    def test_loops_around_one_get_fuel_together_after_many_rounds(self):
        loops = [graph.Loop(((), k), frozenset(((), at) for at in range(k, 4)), frozenset(), k) for k in (3, 2, 1)]
        for number, heads in ((0, {((), 1)}), (pace.PATIENCE, {((), 1), ((), 2)})):
            maker = unittest.mock.Mock(round=number, fuelled=set(), rests={}, counters={((), 2): 'its counter'}, **{'heads_of.return_value': [((), 3)]})
            maker.graph.loops = loops
            pace.Pace.give_fuel(maker, unittest.mock.Mock())
            self.assertEqual((maker.fuelled, len(maker.counters)), (heads, number == 0))

    def test_tests_that_never_fail_go(self):
        """Each end by itself: here the upper one, of an index that was loaded, is needed."""
        for cut, left in (('andi t0, t0, 7', {}), ('nop', {'high'})):
            text = f'lbu t0, 0(a1); {cut}; add t0, a0, t0; at: lbu t1, 0(t0); sw t1, 0(a2); ret'
            data = small.image(text)
            maker = guard.Maker(data, certificates.read_image(data), [reads(8), reads(4), writes(4)], 128)
            name = ((), small.label(text, 'at')), 5
            maker.tests[name] = kinds.Test(name[0], False, 5, 0x40000000, 0x40000007, True, True, 'a0')
            with self.subTest(cut=cut):
                self.assertEqual(maker.run()[2].answer, 'accepted')
                self.assertEqual({end for test in maker.tests.values() for end in ('low', 'high') if getattr(test, end)}, set(left))

    def test_a_draft_asks_for_no_budgets(self):
        """Where an access is refused they would not help; what they are is told later, if nothing else can be put in."""
        for offset, answer in ((0, 'accepted'), (1, 'AccessNotProved')):
            data = small.image(f'lw t0, {offset}(a0); ret')
            image = certificates.read_image(data)
            maker = guard.Maker(data, image, [reads(4)], 128)
            maker.is_ending = True
            data, image = maker.build()
            found = maker.search(image, guard.PLANS[0], True)
            whole = found.finder.whole(found)
            with self.subTest(offset=offset):
                self.assertEqual((found.answer == guided.DRAFT, whole.answer.split()[0]), (answer != 'accepted', answer))
                self.assertEqual(maker.misfits(whole, image), maker.misfits(found, image))

    def test_a_pointer_is_tested_once_before_a_loop(self):
        some = lambda many: [TAKEN_APART, many, bytes(4)]
        made = self.guards('li t2, 0; beqz a1, end; at: loop: lbu t1, 0(a0); add t2, t2, t1; addi a0, a0, 1; addi a1, a1, -1; bnez a1, loop; '
                           'end: sw t2, 0(a2); ret', [reads(32), scalar(0, 40), writes(4)], map(some, (0, 1, 32)), map(some, (33, 40)), 'span')
        self.assertEqual(len(made.told), 1)

    def test_a_count_that_is_no_multiple_of_its_step(self):
        for step in (3, 4):
            text = f'li t0, 0; li t1, 0; at: addi t0, t0, {step}; addi t1, t1, 1; bne t0, a0, at; sw t1, 0(a1); ret'
            with self.subTest(step=step):
                self.guards(text, [scalar(1, 1000), writes(4)], [[12, bytes(4)], [step, bytes(4)]], [[step + 1, bytes(4)]], 'division')

    def test_a_count_that_misses_its_end_where_the_loop_is_left_before(self):
        """A run is whole where data end it, and fails where the counter is used up: at the branch that leads on or at the one that leaves."""
        some = lambda stop, many: [TAKEN_APART[:stop] + bytes(32 - stop), many, bytes(4)]
        for step, whole, ends in ((2, 32, 'at: loop: beq t0, t1, end; {0}; j loop'), (4, 32, 'at: loop: {0}; bne t0, t1, loop'), (3, 30, 'at: loop: {0}; bne t0, t1, loop')):
            body = f'lbu t3, 0(t0); beqz t3, end; add t2, t2, t3; addi t0, t0, {step}'
            text = f'mv t0, a0; add t1, a0, a1; li t2, 0; {ends.format(body)}; end: sw t2, 0(a2); ret'
            with self.subTest(step=step):
                made = self.guards(text, [reads(32), scalar(1, 1000), writes(4)], [some(20, whole), some(20, 31), some(0, 7), some(32, step), some(9, 1000)], [])
                self.assertFalse(made.maker.fuelled)
                self.assertEqual(made.run(some(32, 31))[0].fault, None)
                self.assertNotEqual(made.run(some(32, 31))[1], 0)

    def test_a_count_of_0(self):
        self.guards('li t0, 0; at: addi t0, t0, 1; bne t0, a0, at; sw t0, 0(a1); ret', [scalar(0, 900), writes(4)],
                    [[1, bytes(4)], [900, bytes(4)]], [[0, bytes(4)]], 'count')

    def rising(self, branch):
        """The kinds of guards of a loop over a rising index, which may leave its buffer."""
        made = self.guards(f'li t0, 0; li t2, 0; beqz a1, end; loop: at: add t1, a0, t0; lbu t1, 0(t1); add t2, t2, t1; addi t0, t0, 1; {branch}, loop; '
                           'end: sw t2, 0(a2); ret', [reads(32), scalar(0, 40), writes(4)],
                           [[TAKEN_APART, many, bytes(4)] for many in (0, 1, 32)], [[TAKEN_APART, many, bytes(4)] for many in (33, 40)])
        return {told.kind for told in made.told}

    def test_a_rising_index_needs_no_fuel(self):
        self.assertEqual(self.rising('bne t0, a1'), {'address'})

    def limited(self, before, text, whole, early, kind):
        """The limits and tests of a loop that adds the bytes of a buffer up to an index in t3, from one in t0."""
        text = f"li t2, 0; lbu t0, 0(a1); lbu t3, 1(a1); {before}; {text}; end: sw t2, 0(a2); ret"
        made = self.guards(text, [reads(256), reads(4), writes(4)], [[TAKEN_APART * 8, bytes(some) + bytes(2), bytes(4)] for some in whole],
                           [[TAKEN_APART * 8, bytes(some) + bytes(2), bytes(4)] for some in early], kind)
        self.assertEqual((len(made.maker.limits), made.maker.fuelled, made.maker.tests), (1, set(), {}))
        return [limit.is_tested for limit in made.maker.limits.values()]

    LATE = 'at: add t1, a0, t0; lbu t1, 0(t1); addi t0, t0, 1; add t2, t2, t1; bne t0, t3, at'
    SOON = 'at: beq t0, t3, end; add t1, a0, t0; lbu t1, 0(t1); addi t0, t0, 1; add t2, t2, t1; j at'

    def test_a_rising_index_is_kept_below_its_end(self):
        """The branch of the loop does that, and one before it where none is there that tells of its start."""
        self.assertEqual(self.limited('nop', self.LATE, [(0, 1), (3, 255)], [(3, 3), (4, 3)], 'count'), [True])
        self.assertEqual(self.limited('nop', self.SOON, [(0, 0), (3, 255)], [(4, 3)], 'count'), [True])
        self.assertEqual(self.limited('bgeu t0, t3, end', self.LATE, [(0, 1), (3, 3), (4, 3)], [], ''), [False])
        self.assertEqual(self.limited('bltu t3, t0, end', self.SOON, [(0, 1), (3, 3), (4, 3)], [], ''), [False])
        self.assertEqual(self.limited('mv t4, t0; bltu t4, t3, on; j end; on: mv t0, t4', self.LATE, [(0, 1), (3, 3), (4, 3)], [], ''), [False])
        self.assertEqual(self.limited('beqz t3, end; li t0, 0', self.LATE, [(0, 0), (9, 255)], [], ''), [False])

    def test_a_loop_that_is_left_in_another_way_has_no_limit(self):
        """Its index may begin above its end, and a run is right all the same."""
        text = ("li t2, 0; lbu t0, 0(a1); lbu t3, 1(a1); at: beq t0, t3, end; add t1, a0, t0; lbu t1, 0(t1); add t2, t2, t1; addi t0, t0, 1; bnez t1, at; "
                'end: sw t2, 0(a2); ret')
        some = lambda one, two: [bytes([1, 1, 0, 1]) * 64, bytes([one, two, 0, 0]), bytes(4)]
        made = self.guards(text, [reads(256), reads(4), writes(4)], [some(0, 1), some(4, 1), some(250, 255)], [])
        self.assertEqual(made.maker.limits, {})

    def limits_of(self, text):
        """Of the first loop of a kernel: which registers limit it, and whether a branch before it tells that they do not fail."""
        data = small.image(text)
        its_graph = guard.Maker(data, certificates.read_image(data), [reads(4), scalar(0, 9), scalar(0, 9)], 128).graph
        return [(it.x, counters.is_told_before(its_graph, its_graph.loops[0], it)) for it in counters.limits(its_graph, its_graph.loops[0])]

    def test_what_no_limit_is_of(self):
        """A loop that goes on at its end, or that does not ask each time, or by more than one; a way in that a branch tells nothing of."""
        for text, found in (('bgeu a1, a2, end; at: addi a1, a1, 1; bne a1, a2, at; end: ret', [(11, True)]),
                            ('bgeu a1, a2, end; at: addi a1, a1, 1; beq a1, a2, at; end: ret', []),
                            ('bgeu a1, a2, end; at: addi a1, a1, 2; bne a1, a2, at; end: ret', []),
                            ('at: addi a1, a1, 1; lbu t0, 0(a0); beqz t0, at; bne a1, a2, at; ret', []),
                            ('at: addi a1, a1, 1; lbu t0, 0(a0); beqz t0, on; addi a1, a1, 1; on: bne a1, a2, at; ret', []),
                            ('bgeu a1, a2, end; more: lbu t0, 0(a0); at: addi a1, a1, 1; bne a1, a2, at; bnez t0, more; end: ret', [(11, False)])):
            with self.subTest(text=text):
                self.assertEqual(self.limits_of(text), found)

    def test_a_rising_index_below_its_end_needs_no_fuel(self):
        self.assertEqual(self.rising('bltu t0, a1'), {'address'})

    # ---- Calls and jumps --------------------------------------------------------------------------------------------------------

    CALL = 'addi sp, sp, -16; sw ra, 12(sp); {}; lw ra, 12(sp); addi sp, sp, 16; ret; '

    def test_two_pointers_of_which_one_rises_need_no_fuel(self):
        """Sorted bytes that are in both: one counter for both pointers."""
        text = '''li t2, 0; loop: at: bgeu a0, a1, end; bgeu a2, a3, end; lbu t0, 0(a0); lbu t1, 0(a2); bltu t0, t1, one; bltu t1, t0, two
            addi t2, t2, 1; one: addi a0, a0, 1; j loop; two: addi a2, a2, 1; j loop; end: sw t2, 0(a4); ret'''
        text = 'add a1, a0, a1; add a3, a2, a3; ' + text
        made = self.guards(text, [reads(16), scalar(0, 20), reads(16), scalar(0, 20), writes(4)],
                           [[TAKEN_APART[:16], 16, bytes(range(3, 51, 3)), many, bytes(4)] for many in (0, 5, 16)], [])
        self.assertEqual(len(made.maker.fuelled), 0)

    def test_what_a_strip_relies_on_needs_nothing(self):
        """A length that is asked for again by a register that holds it, a vector type that is not the same on each way, and an address that was
        kept on the stack."""
        params = [writes(64), scalar(0, 16)]
        again = '''beqz a1, end; loop: vsetvli t0, a1, e8, m1, ta, ma; vle8.v v8, (a0); vsetvli x0, t0, e16, m2, ta, ma; vmv.v.i v12, 0
            sub a1, a1, t0; add a0, a0, t0; bnez a1, loop; end: ret'''
        types = '''vsetivli x0, 4, e32, m4, ta, ma; beqz a1, end; loop: vsetvli x0, x0, e8, m1, ta, ma; vle8.v v8, (a0); vadd.vi v8, v8, 1
            vse8.v v8, (a0); addi a0, a0, 4; addi a1, a1, -1; bnez a1, loop; end: ret'''
        stack = 'addi sp, sp, -16; sw a0, 4(sp); li a0, 0; lw t0, 4(sp); add t0, t0, a1; sb a1, 0(t0); addi sp, sp, 16; ret'
        for text in (again, types, stack):
            with self.subTest(text=text):
                made = self.guards(text, params, [[TAKEN_APART * 2, many] for many in (0, 1, 16)], [])
                self.assertEqual(made.told, [])

    def test_a_vector_type_that_is_not_the_same_on_each_way_of_a_loop(self):
        """It is one type where only what is left to the machine differs. Else it is set before the loop, as soon as nothing asks for the older one;
        or, where ways meet outside of loops, by a length that is asked for."""
        params = [writes(64), scalar(0, 64), scalar(0, 1)]
        text = '''beqz a1, end; loop: vsetvli t0, a1, e8, m1, ta, mu; vle8.v v8, (a0); {}; vsetvli x0, t0, e8, m1, ta, mu; vadd.vi v8, v8, 1
            vse8.v v8, (a0); sub a1, a1, t0; add a0, a0, t0; bnez a1, loop; end: ret'''
        inner = 'li t1, 2; more: vsetvli x0, t0, {}; vmv.v.i v12, 0; addi t1, t1, -1; bnez t1, more'
        ways = (('e8, m1, ta, ma', inner, (0, 0), 0), ('e16, m2, ta, ma', inner, (1, 0), 0), ('e16, m2, ta, ma', f'beqz a2, on; nop; on: {inner}', (0, 1), 0),
                ('e16, m2, ta, ma', 'beqz a2, on; vsetvli x0, t0, {}; vmv.v.i v12, 0; on: nop', (0, 0), 2))
        for vtype, between, count, tests in ways:
            with self.subTest(vtype=vtype, between=between):
                made = self.guards(text.format(between.format(vtype)), params, [[TAKEN_APART * 2, many, is_on] for many in (0, 1, 17, 64) for is_on in (0, 1)], [])
                its_graph, names = made.maker.graph, [op for op in made.maker.laid.operations if isinstance(op, program.Word)]
                self.assertEqual((len(made.told), (len(its_graph.early), len(its_graph.entering))), (tests, count))
                self.assertFalse(any(op.key is None and checker.model.decode(op.word)[0].name == 'vsetvli' and op.word >> 15 & 31 for op in names))

    def test_a_count_out_of_memory_is_tested_before_its_loop(self):
        text = '''li a3, 100; more: lw t0, 0(a0); beqz t0, next; at: addi t0, t0, -1; addi a2, a2, 3; bnez t0, at
            next: addi a3, a3, -1; bnez a3, more; sw a2, 0(a1); ret'''
        made = self.guards(text, [reads(4), writes(4)], [[word(many), bytes(4)] for many in (0, 1, 7)], [[word(1 << 30), bytes(4)]], 'count')
        self.assertEqual(len(made.maker.fuelled), 0)

    def test_a_count_that_falls_to_0_needs_no_counter(self):
        """Its body comes before it is asked for, so that it may begin at 0."""
        text = 'lw t0, 0(a0); at: addi a2, a2, 3; addi t0, t0, -1; bnez t0, at; sw a2, 0(a1); ret'
        made = self.guards(text, [reads(4), writes(4)], [[word(many), bytes(4)] for many in (1, 7)], [[word(0), bytes(4)], [word(1 << 30), bytes(4)]], 'count')
        self.assertEqual((made.maker.fuelled, made.maker.counters), (set(), {}))

    def test_a_count_of_a_loop_that_is_left_by_another_way(self):
        """It would miss its end, and a run is right all the same."""
        text = 'lw t0, 0(a0); li t2, 9; at: beq t0, t2, end; mv t3, t0; addi t0, t0, -1; addi a2, a2, 3; bnez t3, at; end: sw a2, 0(a1); ret'
        self.guards(text, [reads(4), writes(4)], [[word(many), bytes(4)] for many in (0, 5, 9, 12)], [])

    def test_fuel_is_paid_round_each_loop(self):
        """An inner loop pays for one around it only where each way round that one comes to it."""
        text = ('more: addi t0, t0, 1; inner: lw t1, 0(a0); beqz t1, out; innermost: lw t2, 0(a0); bnez t2, innermost; lw t3, 0(a0); bnez t3, inner; '
                'out: lw t4, 0(a0); bnez t4, more; ret')
        data = small.image(text)
        maker = guard.Maker(data, certificates.read_image(data), [reads(4)], 128)
        maker.fuelled = set(maker.loop_of)
        paying, relied = maker.paying_heads()
        self.assertLess(paying, maker.fuelled)
        for loop in maker.graph.loops:
            self.assertTrue(counters.is_on_each_way(maker.graph, loop, paying & loop.nodes), loop.head)

    def test_one_test_of_a_register_for_accesses_behind_one_another(self):
        """The second access stands behind a branch, and the pointer is moved before the third one."""
        some = lambda offset: [word(offset), TAKEN_APART[:16], bytes(4)]
        made = self.guards('lw t0, 0(a0); at: add t1, a1, t0; lbu t2, 0(t1); beqz t2, end; lbu t2, 0(t1); addi t1, t1, 4; beqz t2, end; lbu t3, -4(t1); end: sw t2, 0(a2); ret',
                           [reads(4), reads(16), writes(4)], [some(0), some(15)], [some(16), some(-1)])
        self.assertEqual(len(made.maker.tests), 1)

    def test_an_address_that_is_kept_below_a_frame_of_vector_registers(self):
        """The frame is as large as VLEN says."""
        some = lambda offset: [TAKEN_APART[:16], word(offset), bytes(4)]
        for move in ('slli t0, t0, 1; ', ''):
            text = f'''addi sp, sp, -16; csrrs t0, 0xc22, x0; {move}sub sp, sp, t0; sw a0, 4(sp); sw a1, 0(sp); lw t1, 0(a1); lw t2, 4(sp); add t2, t2, t1; at: lbu t3, 0(t2)
                csrrs t0, 0xc22, x0; {move}add sp, sp, t0; addi sp, sp, 16; sw t3, 0(a2); ret'''
            made = self.guards(text, [reads(16), reads(4), writes(4)], [some(0), some(15)], [some(-1), some(16)])
            self.assertEqual([told.what for told in made.told], ['a0'])

    def test_what_is_known_of_a_word_that_no_block_comes_to(self):
        text = 'beqz a0, end; at: addi a0, a0, -1; end: ret'
        image = certificates.read_image(small.image(text))
        found = search.find(image, [scalar(0, 9)], 128)
        alone = found._replace(certificate=found.certificate._replace(blocks=found.certificate.blocks[:1]))
        self.assertIsNotNone(guided.Walked(alone, image, 128).known_at(small.CODE))
        self.assertIsNone(guided.Walked(alone, image, 128).known_at(small.label(text, 'at')))

    def test_the_entrys_return_in_memory(self):
        made = self.guards(self.CALL.format('jal ra, f') + 'f: sw a0, 0(a1); ret', [scalar(0, 1000), writes(4)], [[12, bytes(4)]], [])
        self.assertEqual(made.told, [])

    def test_calls_from_two_places(self):
        some = lambda one, two: [one, two, TAKEN_APART, bytes(4)]
        self.guards(self.CALL.format('jal ra, f; mv a0, a1; jal ra, f') + 'f: at: add t0, a2, a0; lbu t1, 0(t0); sw t1, 0(a3); ret',
                    [scalar(0, 100), scalar(0, 100), reads(32), writes(4)], [some(31, 0), some(0, 31)], [some(32, 0), some(0, 32)])

    def test_recursion(self):
        text = self.CALL.format('jal ra, f') + '''f: addi sp, sp, -16; sw ra, 12(sp); beqz a0, done; addi a0, a0, -1; jal ra, f
            lw t0, 0(a1); addi t0, t0, 1; sw t0, 0(a1); done: lw ra, 12(sp); addi sp, sp, 16; ret'''
        made = small.Guarded(small.image(text), [scalar(0, 100), writes(4)], fuel=50)
        self.assertEqual(made.answer(), 'accepted')
        for many in (0, 1, 20):
            self.assertEqual(made.run([many, bytes(4)])[0].buffers, {1: word(many)})
        self.assertEqual(made.told[made.run([100, bytes(4)])[1] - 1].kind, 'fuel')

    def test_a_recursion_keeps_its_registers(self):
        """What a return is compared with has to stand in a register that nothing needs."""
        text = self.CALL.format('li t1, 0; li t2, 0; jal ra, f; sw t1, 0(a1); sw t2, 4(a1)') + '''f: addi sp, sp, -16; sw ra, 12(sp); beqz a0, done
            addi a0, a0, -1; jal ra, f; addi t1, t1, 1; addi t2, t2, 2; done: lw ra, 12(sp); addi sp, sp, 16; ret'''
        self.guards(text, [scalar(0, 20), writes(8)], [[many, bytes(8)] for many in (0, 1, 20)], [])

    def test_a_return_to_no_call(self):
        """Where a return address was written over in a recursion, the run ends."""
        text = self.CALL.format('jal ra, f; lw t0, 0(a1); addi t0, t0, 1; sw t0, 0(a1)') + '''f: addi sp, sp, -16; sw ra, 12(sp); beqz a0, done
            addi a0, a0, -1; jal ra, f; done: lw t0, 0(a2); beqz t0, ok; sw t0, 12(sp); ok: lw ra, 12(sp); addi sp, sp, 16; at: ret'''
        self.guards(text, [scalar(0, 20), writes(4), reads(4)], [[3, bytes(4), bytes(4)]], [[3, bytes(4), b'wild']], 'choice')

    def test_data_by_where_a_call_returns(self):
        """Code that reads its own words from where a call would return to finds those of the code as it came."""
        text = 'jal t0, next; .word 77; next: lw t1, 0(t0); sw t1, 0(a1); lw t2, 0(a0); at: add t2, t2, a0; lbu t2, 0(t2); sw t2, 0(a2); ret'
        some = lambda offset: [small.word(offset) + TAKEN_APART[:16], bytes(4), bytes(4)]
        self.guards(text, [reads(20), writes(4), writes(4)], [some(0), some(19)], [some(20)])

    def test_a_loop_that_would_make_the_bound_too_great(self):
        """A count out of memory may be so great that no run would be allowed: such a loop has fuel."""
        text = '''li t2, 100; lw t1, 0(a0); srli t1, t1, 1; outer: li t0, 0; beqz t1, next; at: addi t0, t0, 1; bltu t0, t1, at; next: addi t2, t2, -1
            bnez t2, outer; sw t0, 0(a1); ret'''
        some = lambda many: [small.word(2 * many), bytes(4)]
        made = self.guards(text, [reads(4), writes(4)], [some(0), some(1), some(20)], [some(1 << 30)], 'fuel', 1 << 12)
        first = next(block for block in made.certificate.blocks if block.start == made.image.entry)
        self.assertLess(first.c + first.k * 0x40000000 * bool(first.r), 1 << 32)

    def test_a_loop_whose_own_number_would_make_the_bound_too_great(self):
        """The same of a number that falls in the kernel's own code, with no counter."""
        text = '''li t2, 1000; {}lw t1, 4(a0); srli t1, t1, 3; outer: mv t0, t1; at: bgeu a2, t0, next; addi t0, t0, -1; j at; next: addi t2, t2, -1
            bnez t2, outer; sw t0, 0(a1); ret'''
        some = lambda many: [bytes(4) + small.word(8 * many), bytes(4), 2]
        for access in ('lw t1, 0(a0); add t3, a1, t1; sb x0, 0(t3); ', ''):     # (the second one has a certificate without guards)
            made = self.guards(text.format(access), [reads(8), writes(4), scalar(1, 5)], [some(0), some(3)], [], 'fuel', 3500)
            self.assertEqual(made.told[made.run(some(1 << 28))[1] - 1].kind, 'fuel')
            first = next(block for block in made.certificate.blocks if block.start == made.image.entry)
            self.assertLess(first.c + first.k * 0x40000000 * bool(first.r), 1 << 32)

    def test_what_comes_behind_a_loop_with_fuel_is_no_part_of_its_rounds(self):
        """A multiple of a register that the loop leaves alone stands in each of its blocks, on the ways back too."""
        text = 'lw t1, 0(a0); li t2, 0; at: srli t1, t1, 1; addi t2, t2, 1; bnez t1, at; loop: addi t2, t2, 3; addi a1, a1, -1; bnez a1, loop; sw t2, 0(a2); ret'
        some = lambda number, many: [word(number), many, bytes(4)]
        made = self.guards(text, [reads(4), scalar(1, 1000), writes(4)], [some(0, 1), some(5, 1000), some(1 << 31, 7)], [], 'fuel', 100)
        first = next(block for block in made.certificate.blocks if block.start == made.image.entry)
        self.assertLess(first.c + 1000 * first.k, 100 * 6 + 1000 * 4)

    def test_a_loop_that_is_come_into_in_its_midst(self):
        text = 'li t0, 0; li t2, 0; beqz a2, mid; at: addi t2, t2, 5; mid: addi t0, t0, 1; addi t2, t2, 1; bne t0, a0, at; sw t2, 0(a1); ret'
        self.guards(text, [scalar(1, 100), writes(4), scalar(0, 1)], [[many, bytes(4), way] for many in (1, 9, 100) for way in (0, 1)], [])

    def test_jump_table(self):
        text = '''li t0, 3; bgeu a0, t0, none; slli t0, a0, 2; lui t1, 0x20; add t0, t0, t1; lw t0, 0(t0); jalr x0, 0(t0); one: li t2, 11; j end
            two: li t2, 22; j end; three: li t2, 33; j end; none: li t2, 0; end: sw t2, 0(a1); ret'''
        table = struct.pack('<3I', *[small.label(text, name) for name in ('one', 'two', 'three')])
        self.guards(text, [scalar(0, 100), writes(4)], [[case, bytes(4)] for case in (0, 1, 2, 3, 100)], [], data=[(0x20000, table, small.READ)])

    def test_each_target_of_a_jump_table_is_counted_on_from_the_one_before(self):
        """Where no register is left for their addresses."""
        each = lambda line: '; '.join(line.format(n, 4 * n) for n in (3, 4, 7, 8, 9, *range(12, 32)))
        cases = ''.join(f'c{n}: addi t2, t2, {n + 1}; j end; ' for n in range(8))
        text = f"""li t0, 7; bltu t0, a0, none; {each('lw x{}, {}(a1)')}; slli t0, a0, 2; lui t1, 0x20; add t0, t0, t1; lw t0, 0(t0); jalr x0, 0(t0);
            {cases} end: {each('sw x{}, {}(a1)')}; none: ret"""
        table = struct.pack('<8I', *[small.label(text, f'c{n}') for n in range(8)])
        made = self.guards(text, [scalar(0, 9), writes(128)], [[case, TAKEN_APART * 4] for case in range(10)], [], data=[(0x20000, table, small.READ)])
        for case in range(8):
            ran, plain = made.run([case, TAKEN_APART * 4])[0], made.run_plain([case, TAKEN_APART * 4])
            self.assertLessEqual(ran.steps - plain.steps, 2 + 2 * 3 + 2)

    def test_jump_table_whose_address_is_on_the_stack(self):
        """And which is asked for far before the jump."""
        each = lambda line: '; '.join(line.format(n, 4 * n) for n in range(12, 32)) + '; '
        begin = 'li t0, 3; bgeu a0, t0, none; lui t1, 0x20; addi t1, t1, 4; sw t1, -8(sp); ' + each('lw x{}, {}(a1)')
        text = f'''{begin} slli t0, a0, 2; lw t1, -8(sp); add t0, t0, t1; lw t0, 0(t0); {9 * 'addi t1, t1, 1; '} jalr x0, 0(t0); one: addi x12, x12, 11; j end
            two: addi x13, x13, 22; j end; three: addi x14, x14, 33; end: {each('sw x{}, {}(a1)')} none: ret'''
        table = struct.pack('<4I', 0, *[small.label(text, name) for name in ('one', 'two', 'three')])
        made = self.guards(text, [scalar(0, 100), writes(128)], [[case, TAKEN_APART * 4] for case in (0, 1, 2, 3, 100)], [], data=[(0x20000, table, small.READ)])
        self.assertFalse(made.maker.pointers)

    def test_calls_by_pointers(self):
        """A pointer to a function leads to one whose address the image names, whatever holds it."""
        text = ('mv t2, ra; lw t0, 0(a0); at: jalr ra, 0(t0); sw a1, 0(a2); mv ra, t2; ret; '
                'f: addi a1, a1, 1; ret; g: add a1, a1, a1; ret; h: lw a1, 4(a0); ret')
        table = struct.pack('<3I', *[small.label(text, name) for name in 'fgh'])
        some = lambda address: [struct.pack('<2I', address & 0xffffffff, 9), 5, bytes(4)]
        self.guards(text, [reads(8), scalar(0, 100), writes(4)], [some(small.label(text, name)) for name in 'fgh'],
                    [some(0), some(-1), some(0x20000)], 'choice', data=[(0x20000, table, small.READ_WRITE)])

    def test_a_recursion_by_a_pointer(self):
        text = ('mv t2, ra; mv a2, a1; at: jalr ra, 0(a2); sw a1, 0(a0); mv ra, t2; ret; '
                'f: beqz a1, done; addi a1, a1, -1; addi sp, sp, -16; sw ra, 12(sp); jalr ra, 0(a2); addi a1, a1, 3; lw ra, 12(sp); addi sp, sp, 16; done: ret')
        address = small.label(text, 'f')
        text = text.replace('mv a2, a1', f'lui a2, {address >> 12:#x}; addi a2, a2, {(address & 0xfff) + 4}')
        self.assertEqual(small.label(text, 'f'), address + 4)
        self.guards(text, [writes(4), scalar(0, 5)], [[bytes(4), n] for n in range(6)], [])


    def test_functions_of_one_copy(self):
        with unittest.mock.patch('program.MOST_COPIED', 0), unittest.mock.patch('program.LARGE', 1):
            for name in ('calls_from_two_places', 'recursion', 'a_recursion_keeps_its_registers', 'a_return_to_no_call', 'calls_by_pointers', 'data_by_where_a_call_returns'):
                with self.subTest(name):
                    getattr(self, f'test_{name}')()


    def test_returns_to_many_places(self):
        """Where a function of one copy returns to is chosen by halves, and some of the addresses stay in registers."""
        text = self.CALL.format(60 * 'addi a0, a0, 1; jal ra, f; ') + 'f: lw t0, 0(a1); add t0, t0, a0; sw t0, 0(a1); ret'
        with unittest.mock.patch('program.MOST_COPIED', 0), unittest.mock.patch('program.LARGE', 1):
            made = self.guards(text, [scalar(0, 9), writes(4)], [[1, bytes(4)], [9, bytes(4)]], [])
        ran, _ = made.run([1, bytes(4)])
        self.assertLess(ran.steps, 60 * 20)

    def test_a_recursion_with_many_calls(self):
        """The chains of calls are cut before there are too many: ten calls of itself would be ten factorial of them."""
        calls = 'addi a0, a0, -1; sw a0, 8(sp); beqz a0, done; jal ra, f; lw a0, 8(sp); '
        text = self.CALL.format('jal ra, f') + ('f: addi sp, sp, -16; sw ra, 12(sp); lw t0, 0(a1); addi t0, t0, 1; sw t0, 0(a1); sw a0, 8(sp); ' + 10 * calls
                                                + 'done: lw ra, 12(sp); addi sp, sp, 16; ret')
        code = program.read(certificates.read_image(small.image(text)), ())
        self.assertLess(len(code.nodes), 100)
        self.assertEqual(len(code.shared), 1)


if __name__ == '__main__':
    unittest.main()
