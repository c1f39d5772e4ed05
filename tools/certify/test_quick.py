"""Tests of the search's speed-ups: the same answers as the checker's own, the same parts and loops, no recursion that ends."""
import importlib.util
import random
import unittest

import affine
import flow
import quick
import search
import small
from outside import ROOT, certificates, checker

EXAMPLES = ROOT / 'examples'


def plain_checker():
    """The second checker as it stands in its file, without what `quick` puts in."""
    spec = importlib.util.spec_from_file_location('plain_checker', ROOT / 'vectors/checker.py')
    module = importlib.util.module_from_spec(spec)
    spec.loader.exec_module(module)
    return module


def shown(s):
    """What is known, as values that can be compared."""
    form = lambda form: (form.constant, tuple(sorted(form.terms.items())))
    return ([(form(v.form), v.range) for v in s.x], s.atoms, s.splits, s.vtype, s.facts, s.words)


class Slow(checker.Walk):
    """The walk of another checker module, its state shown before each word and on each way out of a branch."""

    def states(self, module, image, certificate):
        """Of each block in turn."""
        walk = module.Walk(image, certificate)
        walk.zones = [module.Zone(-1 << 60, 1 << 60, 7)]
        for block in certificate.blocks:
            s, pc = module.at_block(certificate, block, walk.vlenb), block.start
            yield shown(s)
            while True:
                i, f = walk.fetched(s, pc)
                s.words += 1
                if i.shape == 'branch':
                    yield from ((way and shown(way)) for way in (module.refined(s, i, f, taken) for taken in (True, False)))
                if i.shape in ('branch', 'jal', 'jalr', 'ecall'):
                    break
                walk.act(s, i, f, pc)
                yield shown(s)
                pc += 4
                if pc in walk.blocks:
                    break


class Quick(unittest.TestCase):
    """Steps with the answers of the checker's own."""

    def test_each_state_is_that_of_the_plain_checker(self):
        plain, states = plain_checker(), Slow.states
        for name in ('sum_bytes', 'raise_words', 'translate', 'raise_if', 'fill_rows', 'grey'):
            image = certificates.read_image((EXAMPLES / name / f'{name}.elf').read_bytes())
            certificate = certificates.read_certificate(image.certificate)
            slow = list(states(None, plain, image, certificate))
            fast = type('Fast', (), {**vars(checker), 'at_block': staticmethod(quick.at_block), 'refined': staticmethod(quick.refined)})
            self.assertEqual(list(states(None, fast, image, certificate)), slow, name)

    def test_ranges_behind_a_branch(self):
        plain, rng = plain_checker(), random.Random(7)
        branches = [flow.model.decode(word) for word in (0x00b50463, 0x00b51463, 0x00b56463, 0x00b57463, 0x00b54463, 0x00b55463, 0x00050463)]
        ends = [0, 1, 5, 31, 4096, (1 << 31) - 1, 1 << 31, checker.M32]
        for _ in range(300):
            facts = []
            for number in (10, 11, 12, 13, 32):
                lo, hi = sorted(rng.sample(ends, 2))
                equal = (rng.choice(ends), ((10, rng.choice((1, 4, checker.M32))), (12, 1))) if number in (11, 13) and rng.random() < .6 else None
                facts.append(certificates.RegisterFact(number, lo, hi, equal))
            orders = tuple(certificates.OrderFact(*pair) for pair in ((10, 32), (12, 10)) if rng.random() < .5)
            block = certificates.Block(0, 0, 0, 0, None, tuple(facts), (), 0, 0, orders)
            frame = certificates.Certificate(128, [certificates.Param('none')] * 8, [block], 2)
            slow, fast = plain.at_block(frame, block, 16), quick.at_block(frame, block, 16)
            self.assertEqual(shown(fast), shown(slow))
            i, f = rng.choice(branches)
            for taken in (True, False):
                one, two = plain.refined(slow, i, f, taken), quick.refined(fast, i, f, taken)
                self.assertEqual(two and shown(two), one and shown(one))

    def test_scalar_instructions(self):
        plain, rng = plain_checker(), random.Random(5)
        rows = [i for rows in flow.model.TABLE.values() for _, _, i in rows if i.shape in ('imm', 'shift', 'reg', 'upper')]
        frame = certificates.Certificate(128, [certificates.Param('scalar', 0, 0, 9)] * 8, [], 2)
        for _ in range(2000):
            facts = []
            for number in (10, 11, 12, 13):
                lo, hi = sorted(rng.sample((0, 1, 5, 31, 4096, (1 << 31) - 1, 1 << 31, checker.M32), 2))
                equal = rng.choice((0, 8)), ((10, rng.choice((1, 4, checker.M32))), *((place, 1) for place in range(33, rng.randrange(34, 41))))
                facts.append(certificates.RegisterFact(number, lo, hi, equal if number in (11, 13) and rng.random() < .6 else None))
            orders = (certificates.OrderFact(12, 10),) * (rng.random() < .5)
            s = plain.at_block(frame, certificates.Block(0, 0, 0, 0, None, tuple(facts), (), 0, 0, orders), 16)
            fast, i = quick.copied(s), rng.choice(rows)
            fields = {'rd': 10, 'rs1': rng.choice((0, 10, 11, 12)), 'rs2': rng.choice((0, 11, 13))}
            word = i.encode(**{name: value for name, value in fields.items() if name in i.syntax}, **{'imm': rng.choice((0, 1, 4, 12))} if 'imm' in i.syntax else {})
            _, f = flow.model.decode(word)
            s.x[10], fast.x[10] = plain.scalar_result(s, i, f, 64), checker.scalar_result(fast, i, f, 64)
            self.assertEqual(shown(fast), shown(s), i.name)

    def test_sums_on_the_way(self):
        plain, rng = plain_checker(), random.Random(3)
        frame = certificates.Certificate(128, [certificates.Param('scalar', 0, 0, 9)] * 8, [], 2)
        for _ in range(500):
            number = lambda: rng.choice((0, 1, 4, checker.M32))
            facts = [certificates.RegisterFact(n, 0, 9, (number(), ((12, 1), (33, 4))) if n != 12 else None) for n in (11, 12, 13)]
            s = plain.at_block(frame, certificates.Block(0, 0, 0, 0, None, tuple(facts), ()), 16)
            equal = number(), tuple((atom, factor) for atom in (11, 12, 33) if (factor := number()))
            self.assertEqual(quick.is_equal(s, 13, equal), plain.is_equal(s, certificates.RegisterFact(13, 0, 9, equal)))


def moved(image, by):
    """The same image with its code elsewhere."""
    segments = [s._replace(first=s.first + by, end=s.end + by) if s.rights & certificates.EXECUTE else s for s in image.segments]
    return image._replace(segments=segments, entry=image.entry + by)


class Walked(unittest.TestCase):
    """What searches of several images share."""

    def test_ways_that_are_kept_are_those_that_are_walked(self):
        for name, by in (('sum_bytes', 64), ('raise_words', 4096), ('translate', 12), ('fill_rows', 8)):
            image = certificates.read_image((EXAMPLES / name / f'{name}.elf').read_bytes())
            certificate, walks = certificates.read_certificate(image.certificate), flow.Walks()
            blocks = [block._replace(start=block.start + by) for block in certificate.blocks]
            explorers = [flow.Explorer(*it) for it in ((image, certificate, walks), (moved(image, by), certificate, walks), (moved(image, by), certificate))]
            for explorer, some in zip(explorers, (certificate.blocks, blocks, blocks)):
                explorer.blocks = {block.start: block for block in some}
            for one, two in zip(certificate.blocks, blocks):
                explorers[0].edges(one)
                walks.turn()
                kept, anew = (explorer.edges(two) for explorer in explorers[1:])
                self.assertEqual([it._replace(known=shown(it.known), start=None) for it in kept], [it._replace(known=shown(it.known), start=None) for it in anew])
                self.assertTrue(all(any(one.known is other.known for _, other in next(iter(walks.now.values()))) for one in kept))

    def test_a_block_that_tells_of_its_address_is_another_one_elsewhere(self):
        image = certificates.read_image((EXAMPLES / 'sum_bytes/sum_bytes.elf').read_bytes())
        code = next(s for s in image.segments if s.rights & certificates.EXECUTE)
        for word, is_same in ((0x00000517, False), (0x008000ef, False), (0x0080006f, True), (0x00008067, False), (0x00000073, True)):
            data = word.to_bytes(4, 'little') * 4
            one = image._replace(segments=[code._replace(data=data, end=code.first + 16)])
            contents = [flow.content_of(it, it.segments[0].first, {it.segments[0].first + 4})[0] for it in (one, moved(one, 8))]
            self.assertEqual(contents[0] == contents[1], is_same, hex(word))

    def test_an_interval_that_is_widened_often_has_all_numbers(self):
        image = certificates.read_image((EXAMPLES / 'sum_bytes/sum_bytes.elf').read_bytes())
        finder = search.Finder(image, certificates.read_certificate(image.certificate).params, 128, search.PLANS[0])
        finder.marks = [0, 10, 20, 30, checker.M32]
        self.assertEqual([finder.widened((5, 7), (5, 12), times) for times in (False, 1, search.MOST_MARKS, search.MOST_MARKS + 1)],
                         [(5, 12), (5, 20), (5, 20), (5, checker.M32)])
        self.assertEqual(finder.widened((15, 17), (12, 17), search.MOST_MARKS + 1), (0, 17))


class Graphs(unittest.TestCase):
    """Strongly connected parts and loops."""

    def test_a_long_chain_and_a_deep_nest(self):
        chain = {k: {k + 1} for k in range(20_000)}
        self.assertEqual(len(flow.components(range(20_001), chain)), 20_001)
        ring = {**chain, 20_000: {0}}
        self.assertEqual(flow.components(range(20_001), ring), [set(range(20_001))])
        deep = {k: {k + 1, k - 1} - {-1, 300} for k in range(300)}
        self.assertEqual([min(loop) for loop in flow.loops(range(300), deep)], list(range(299)))

    def test_parts_and_loops(self):
        leads = {1: {2}, 2: {3, 5}, 3: {3, 4}, 4: {2}, 5: {6}, 6: set()}
        self.assertEqual(flow.components(leads, leads), [{6}, {5}, {2, 3, 4}, {1}])
        self.assertEqual(list(flow.loops(leads, leads)), [{2, 3, 4}, {3}])


class Sums(unittest.TestCase):
    """Affine hulls, and what searches share."""

    def test_sums_of_a_hull(self):
        space = affine.Space([0] * affine.PLACES, [{10: 4, 11: -1}, {12: 1}])
        moved = affine.Space([0] * 10 + [8] + [0] * 30, [{10: 4, 11: -1}, {12: 1}])
        self.assertEqual(space.sums([11, 12, 10])[10], (0, ((11, checker.M32 - 3),)))
        self.assertNotIn(11, space.sums([10, 12]))
        joined = space.joined(moved)
        self.assertEqual(len(joined.directions), 3)
        self.assertEqual([one.holds(two) for one, two in ((space, moved), (joined, moved), (joined, space), (space, space))], [False, True, True, True])
        joined.free({10})
        self.assertEqual(sorted(map(sorted, joined.directions)), [[10], [11], [12]])

    def test_what_is_not_asked_for_plays_no_part(self):
        rng = random.Random(11)
        decoded = [flow.model.decode(word) for word in (0x00a58633, 0x40b60533, 0x00259693, 0x00450513, 0x0005a583, 0xfff60613)]     # add, sub, slli, addi, lw, addi
        for _ in range(200):
            rows = ({place: rng.choice((1, 2, -1)) for place in rng.sample((10, 11, 12, 13, 33), 2)} for _ in range(3))
            space = affine.Space([rng.randrange(9) for _ in range(affine.PLACES)], list(affine.reduced(rows).values()))
            now = affine.effect([(4 * k, *rng.choice(decoded)) for k in range(4)], space, 16)
            live = {*rng.sample((10, 11, 12, 13), 2), *range(affine.PASSED, affine.PLACES)}
            whole, part = now.on(space, set(range(1, affine.PLACES))), now.on(space, live)
            for it in (whole, part):
                it.free(set(range(1, 33)) - live)
            self.assertTrue(whole.holds(part) and part.holds(whole))

    def test_what_comes_behind_a_loop_is_paid_once(self):
        """However a loop is left: at its head alone, or out of its midst as well."""
        rest = 'li t0, 900; rest: addi t0, t0, -1; bnez t0, rest; ret'
        for loop in ('loop: beqz a0, done; addi a0, a0, -1; j loop; done:',
                     'loop: beqz a0, done; lw t1, 0(a1); beqz t1, on; addi t1, t1, 1; j done; on: addi a0, a0, -1; j loop; done:'):
            with self.subTest(loop=loop):
                found = search.find(certificates.read_image(small.image(f'{loop} {rest}')), [small.scalar(1, 1000), small.reads(4)], 128)
                first = found.certificate.blocks[0]
                self.assertEqual((found.answer, first.r), ('accepted', 10))
                self.assertLess(first.k, 20)
                self.assertLess(first.c, 2000)

    def test_a_search_shares_what_is_settled(self):
        image = certificates.read_image((EXAMPLES / 'sum_bytes/sum_bytes.elf').read_bytes())
        params = certificates.read_certificate(image.certificate).params
        one = search.Finder(image, params, 128, search.PLANS[0])
        two = search.Finder(image, params, 128, search.PLANS[1], one.shared)
        self.assertIs(one.find().certificate, two.find().certificate)
        alone = search.Finder(image, params, 128, search.PLANS[1]).find()
        self.assertEqual(alone.certificate, two.find().certificate)


if __name__ == '__main__':
    unittest.main()
