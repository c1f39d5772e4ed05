"""Tests of loads from the stack in whose place a known number is put."""
import unittest

import bases
import evict
import graph
import program
import reloads
import small
from outside import certificates
from small import reads, writes

PARAMS = [writes(16), reads(16)]
FIRST, LAST = 'addi sp, sp, -32; li t0, 7; sw t0, 12(sp); ', 'at: lw t1, 12(sp); sw t1, 0(a0); addi sp, sp, 32; ret'


def found(text, evicted=0):
    """What is put in the place of the load at the label `at`, or None. evicted: how many registers are kept on the stack."""
    image = certificates.read_image(small.image(text))
    code = program.Code(image)
    read = lambda: (its := graph.Graph(code), bases.Bases(code, its, PARAMS))
    if evicted:
        evict.evicted(code, *read(), PARAMS, evicted)
    return reloads.reloads(code, *read()[:1], PARAMS, read()[1]).get(((), small.label(text, 'at')))


class Reloads(unittest.TestCase):
    def test_what_keeps_the_number(self):
        for between in ('', 'sw a1, 8(sp); ', 'sw a1, 16(sp); ', 'sw t0, 4(a0); ', 'lw t2, 0(a1); add t2, t2, a0; sw t0, 0(t2); ', 'addi t2, sp, 4; sltu t3, a0, a1; '):
            with self.subTest(between=between):
                self.assertEqual(found(FIRST + between + LAST), 7)

    def test_an_address_of_the_image(self):
        """It is put in though it takes two words; another number of two words is not."""
        self.assertEqual(found(FIRST.replace('li t0, 7', 'auipc t0, 0') + LAST), small.CODE + 4)
        self.assertIsNone(found(FIRST.replace('li t0, 7', 'auipc t0, 1') + LAST))

    def test_a_large_frame(self):
        self.assertEqual(found(FIRST.replace('addi sp, sp, -32', 'lui t1, 0xfffff; addi t1, t1, -16; add sp, sp, t1') + LAST), 7)

    def test_what_may_change_it(self):
        for between in ('lw t2, 0(a1); sw t2, 12(sp); ', 'sw a1, 9(sp); ', 'sw a1, 14(sp); ', 'sb a1, 12(sp); ', 'addi t2, sp, 4; sw a1, 8(t2); ', 'ori t2, sp, 12; sw a1, 0(t2); ',
                        'xori t2, sp, 12; sw a1, 0(t2); ', 'sub t2, x0, sp; sub t2, x0, t2; sw a1, 12(t2); ', 'sw sp, 0(a0); lw t2, 0(a0); sw a1, 12(t2); ',
                        'vsetivli x0, 4, e32, m1, ta, ma; mv t2, sp; vse32.v v8, (t2); ', 'andi sp, sp, -16; sw a1, 12(sp); ', 'beqz a1, at; sw a1, 12(sp); '):
            with self.subTest(between=between):
                self.assertIsNone(found(FIRST + between + LAST))

    def test_a_register_that_is_kept_on_the_stack_is_stored(self):
        last = LAST.replace('sw t1', 6 * 'add t1, t1, t0; ' + 'sw t1')        # (so that t0 and t1 are dear)
        text = FIRST + 'lw s0, 0(a1); lw s1, 4(a1); add s0, s0, s1; sw s0, 12(sp); ' + last
        for evicted in (0, 2, 3):
            with self.subTest(evicted=evicted):
                self.assertIsNone(found(text, evicted))
        self.assertEqual(found(text.replace('sw s0, 12', 'sw s0, 8'), 2), 7)

    def test_registers_of_which_a_jumps_address_is_computed_stay(self):
        text = 'lui t1, 0x20; slli t0, a0, 2; add t0, t0, t1; lw t0, 0(t0); addi t2, t2, 1; addi a2, a2, 1; jalr x0, 0(t0)'
        code = program.Code(certificates.read_image(small.image(text)))
        its = graph.Graph(code)
        self.assertEqual(evict.Evictor(code, its, bases.Bases(code, its, PARAMS), set()).candidates(), [7, 12])


if __name__ == '__main__':
    unittest.main()
