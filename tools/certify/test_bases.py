"""Tests of what registers may stem from: slots of functions that use the same stack, and the stack pointer behind calls."""
import unittest

import bases
import graph
import program
import small
from outside import certificates
from small import reads, writes

PARAMS = [writes(16), reads(16)]
KEEP, BACK = 'addi sp, sp, -16; sw ra, 12(sp); ', 'lw ra, 12(sp); addi sp, sp, 16; ret; '


# Data that may be written, and data that may only be read and hold an address of the others.
DATA = ((0x12000, bytes(64), small.READ_WRITE), (0x13000, bytes(12) + small.word(0x12010) + bytes(48), small.READ))


def read(text, data=()):
    """The bases of a kernel, and the nodes of its labels: the label's name -> the nodes of all its copies."""
    code = program.Code(certificates.read_image(small.image(text, data)))
    found = bases.Bases(code, graph.Graph(code), PARAMS)
    return found, lambda name: [key for key in code.nodes if key[1] == small.label(text, name)]


class Bases(unittest.TestCase):
    def test_a_slot_of_one_function_is_none_of_another(self):
        text = (KEEP + 'jal ra, f; jal ra, g; ' + BACK + 'f: ' + KEEP + 'jal ra, h; ' + BACK
                + 'g: addi sp, sp, -16; sw a0, 12(sp); lw t0, 12(sp); at: sw t1, 0(t0); addi sp, sp, 16; ret; h: ret')
        found, nodes = read(text)
        self.assertFalse(found.reads_links())
        self.assertEqual([found.at(key)[5] for key in nodes('at')], [frozenset([0])])

    def test_a_pointer_to_the_stack_stores_to_the_slot_of_a_caller(self):
        text = KEEP + 'addi a2, sp, 4; jal ra, f; lw t0, 4(sp); at: sw t1, 0(t0); ' + BACK + 'f: sw a1, 0(a2); ret'
        found, nodes = read(text)
        self.assertEqual([found.at(key)[5] for key in nodes('at')], [frozenset([1])])

    def test_what_is_passed_on_the_stack(self):
        text = KEEP + 'sw a1, 0(sp); jal ra, f; ' + BACK + 'f: addi sp, sp, -16; lw t0, 16(sp); at: sw t1, 0(t0); addi sp, sp, 16; ret'
        found, nodes = read(text)
        self.assertEqual([found.at(key)[5] for key in nodes('at')], [frozenset([1])])

    def test_the_stack_pointer_behind_a_recursion(self):
        text = KEEP + 'mv a2, sp; jal ra, f; behind: lw a1, 0(a2); ' + BACK + 'f: ' + KEEP + 'beqz a0, done; jal ra, f; done: ' + BACK
        found, nodes = read(text)
        self.assertFalse(found.reads_links())
        self.assertEqual([found.depth(key) for key in nodes('behind')], [-16])

    def test_a_frame_that_is_larger_than_an_addi_reaches(self):
        text = ('lui t1, 0xfffff; addi t1, t1, -16; add sp, sp, t1; sw a1, 8(sp); lw t0, 8(sp); at: sw t1, 0(t0); '
                'lui t1, 1; addi t1, t1, 16; add sp, sp, t1; end: ret')
        found, nodes = read(text)
        self.assertEqual([found.depth(nodes(name)[0]) for name in ('at', 'end')], [-0x1010, 0])
        self.assertEqual(found.own_slot(found.code.nodes[nodes('at')[0]]), None)
        self.assertEqual(found.at(nodes('at')[0])[5], frozenset([1]))

    def test_pointers_that_move_in_many_ways(self):
        """What is merged only grows, so that it ends."""
        found = read('ret', DATA)[0]
        first = frozenset([0, (bases.AT, 0x12000), (bases.STACK, -8)])
        vague = found.merged(first, frozenset((bases.AT, 0x12000 + 4 * k) for k in range(bases.MOST_AT + 1)))
        self.assertEqual(vague, frozenset([0, (bases.IN, 0x12000), (bases.STACK, -8)]))
        self.assertEqual(found.merged(vague, first), vague)
        self.assertEqual(found.merged(first, vague), vague)
        vague = found.merged(first, frozenset((bases.STACK, 4 * k) for k in range(bases.MOST)))
        self.assertEqual(vague, frozenset([0, (bases.AT, 0x12000), (bases.STACK, None)]))
        text = 'lui t0, 0x12; lui t1, 0x13; more: ' + ''.join(f'beq a{k}, zero, n{k}; addi t0, t0, {k}; n{k}: add t2, t1, zero; ' for k in range(2, 7)) + 'addi t1, t0, 4; at: bne a0, a1, more; ret'
        found, nodes = read(text, DATA)
        self.assertEqual(found.at(nodes('at')[0])[5], frozenset([(bases.IN, 0x12000)]))

    def test_a_table_of_the_image_is_told_from_other_segments(self):
        """Of a pointer that goes through it, and of a sum with an index whose low part stands in the access."""
        text = 'lui t0, 0x13; addi t0, t0, 8; more: addi t0, t0, 4; at: lw t2, 0(t0); bne t0, a2, more; lui t1, 0x13; add t1, t1, a2; here: lw t2, 8(t1); ret'
        found, nodes = read(text, DATA)
        zone = [(0x13000, 0x13040, small.READ, 'the image')]
        self.assertEqual(found.zones_of(found.at(nodes('at')[0])[5]), zone)
        self.assertEqual(found.zones_of(found.at(nodes('here')[0])[6], 8), zone)

    def test_a_great_number_is_no_address(self):
        found, nodes = read('lui t0, 0x9e378; addi t0, t0, -1607; add t1, t0, a2; at: lw t2, 0(t1); ret', DATA)
        self.assertNotIn(6, found.at(nodes('at')[0]))

    def test_pointers_in_memory(self):
        """A pointer that a static structure, a part of a table, a buffer or an array on the stack holds, and one that the image holds."""
        far = 'add t2, t2, a2; '
        for keep, get, stem in (('lui t2, 0x12; sw a1, 4(t2); ', 'lui t2, 0x12; lw t0, 4(t2); ', 1),
                                ('lui t2, 0x12; ' + far + 'sw a1, 4(t2); ', 'lui t2, 0x12; lw t0, 4(t2); ', 1),
                                ('lui t2, 0x12; sw a1, 4(t2); ', 'lui t2, 0x12; ' + far + 'lw t0, 4(t2); ', 1),
                                ('sw a1, 4(a0); ', 'add t2, a0, a2; lw t0, 0(t2); ', 1),
                                ('addi t2, sp, -32; ' + far + 'sw a1, 0(t2); ', 'addi t2, sp, -16; ' + far + 'lw t0, 0(t2); ', 1),
                                ('', 'lui t2, 0x13; lw t0, 12(t2); ', (bases.IN, 0x12000)), ('', 'lui t2, 0x13; ' + far + 'lw t0, 0(t2); ', (bases.IN, 0x12000))):
            with self.subTest(keep=keep, get=get):
                found, nodes = read(keep + get + 'at: sw t1, 0(t0); ret', DATA)
                self.assertEqual(found.at(nodes('at')[0])[5], frozenset([stem]))

    def test_a_number_that_is_kept_on_the_stack_is_no_address(self):
        """Though addresses are stored somewhere there, too."""
        text = (KEEP + 'addi t2, sp, -32; add t2, t2, a2; sw a1, 0(t2); addi t1, zero, 48; sw t1, 8(sp); lui t0, 0x12; lw t1, 8(sp); add t0, t0, t1; at: sw t2, 0(t0); '
                + BACK)
        found, nodes = read(text, DATA)
        self.assertEqual(found.zones_of(found.at(nodes('at')[0])[5]), [(*DATA[0][:1], 0x12040, small.READ_WRITE, 'the image')])

    def test_what_a_function_keeps_on_the_stack(self):
        """Behind a recursion a register that it saves is told apart by its calls."""
        text = (KEEP + 'mv s0, a0; mv a0, a1; jal ra, f; at: sw t1, 0(s0); ' + BACK + 'f: ' + KEEP + 'sw s0, 8(sp); mv s0, a0; beqz a2, done; addi a2, a2, -1; jal ra, f; '
                'here: lw t1, 0(s0); done: lw s0, 8(sp); ' + BACK)
        found, nodes = read(text)
        self.assertEqual([found.at(key)[8] for key in nodes('at')], [frozenset([0])])
        self.assertEqual({found.at(key)[8] for key in nodes('here')}, {frozenset([1])})

    def test_a_function_that_moves_the_stack_pointer(self):
        text = 'jal t0, save; behind: lw ra, 12(sp); addi sp, sp, 16; ret; save: addi sp, sp, -16; sw ra, 12(sp); jalr x0, 0(t0)'
        found, nodes = read(text)
        self.assertEqual([found.depth(key) for key in nodes('behind')], [-16])
        self.assertEqual([found.own_slot(found.code.nodes[key]) for key in nodes('behind')], [None])

    def test_where_a_return_address_is_read(self):
        self.assertTrue(read('mv t1, ra; jal ra, next; next: addi t0, ra, 8; sw t0, 0(a0); mv ra, t1; ret')[0].reads_links())
        self.assertTrue(read(KEEP + 'jal ra, f; ' + BACK + 'f: addi sp, sp, -16; sw ra, 12(sp); lw t0, 12(sp); sw t0, 0(a0); addi sp, sp, 16; ret')[0].reads_links())


if __name__ == '__main__':
    unittest.main()
