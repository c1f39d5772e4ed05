"""The search over code that something was put into, and what is known before its words."""
import budgets
import flow
import search
from outside import certificates, checker

VL = checker.VL
DRAFT = 'a draft'       # the answer where words are refused whatever budgets there are


class Guided(search.Finder):
    """A search over code with counters: these stay free in sums, and what they started from is kept."""

    def __init__(self, image, params, vlen, plan, maker, is_draft=False):
        """is_draft: whether no budgets are asked for where words are refused for something else."""
        maker.walks.turn()
        super().__init__(image, params, vlen, plan, None, maker.watch, maker.walks)
        self.maker, self.is_draft = maker, is_draft
        self.marks = sorted({*self.marks, *maker.marks, *maker.ends_that_are_tested()})

    def settle_flow(self):
        """Where all jumps lead is told by the words of guarded code, so that no fixpoint over all registers has to find it."""
        if self.plan.cuts not in self.shared.flows:
            words, targets = flow.blocks_of(self.image, self.starts)
            ends = {start: some[-1] for start, some in words.items() if some}
            if all(targets[start] or self.is_last(pc, i) for start, (pc, i, _) in ends.items()):
                calls = {start: {pc + f['to']} for start, (pc, i, f) in ends.items() if i.shape == 'jal' and f['rd']}
                self.words, self.targets = {start: words[start] for start in ends}, targets | calls
                self.shared.flows[self.plan.cuts] = set(ends), self.words, self.targets, search.Uses(self.words), self.loops_around()
        super().settle_flow()
        for start in list(self.words):
            self.live[start] = self.live[start] | self.maker.kept_at(start)

    def is_last(self, pc, i):
        """Whether a run ends behind a word."""
        node = self.maker.code.nodes.get(self.maker.node_at.get(pc) if self.maker.laid else ((), pc))
        return i.shape == 'ecall' or node is not None and self.maker.code.is_exit(node)

    def sums_at(self, start, space):
        live = self.live[start]
        space.free(set(range(1, 33)) - live)
        first, last = self.maker.ranks_at(start)
        ends = list(self.maker.strip_registers.get(start, ()))
        rank = lambda n: (n not in live, n in last, n not in first, *self.rank_at(start, n))
        before = [*ends, VL] if ends else []        # (a strip's base is its end less a multiple of vl)
        after = sorted(set(range(1, 33)) - set(before), key=rank)
        sums = space.sums(before + list(range(search.PASSED, search.PASSED + 8)) + after)
        return self.with_ends(start, space, sums)

    def with_ends(self, start, space, sums):
        """The sums, with each pointer whose end was tested as that end less what its rounds still take."""
        for pointer, end, rounds, step in self.maker.ends_at(start):
            away = space.constant({pointer: 1, rounds: step, end: -1})
            if away is not None and {pointer, end, rounds} <= self.live[start]:
                sums = {n: total for n, total in sums.items() if n not in (end, rounds) and all(place != pointer for place, _ in total[1])}
                terms = sorted({end: 1, rounds: -step & checker.M32}.items())
                sums[pointer] = away & checker.M32, tuple(terms)
        return sums

    def judgement(self):
        if self.is_draft:
            self.edge_list = self.all_edges()
            self.budgets = budgets.Budgets(self.edge_list, self.watch)
            certificate = self.certificate()
            if self.maker.refused(self, certificate, self.image):
                return self.edge_list, self.budgets, certificate, DRAFT, None
        return super().judgement()

    def whole(self, found):
        """What was found, with budgets where it is a draft."""
        if found.answer == DRAFT:
            *_, certificate, answer, trouble = super().judgement()
            found = found._replace(certificate=certificate, answer=answer, trouble=trouble)
        return found

    def guess_orders(self):
        """Besides the plan's orders: what is left for strips is no less than the strip that was taken, where a branch stands between."""
        super().guess_orders()
        for start in self.words:
            free, orders = self.live[start] - self.sums[start].keys(), {order.s: order for order in self.orders[start]}
            for asked, length in self.maker.lengths:
                lesser = next((n for n in (length, VL) if n in free), None)
                if asked in free and lesser is not None and asked not in orders:
                    orders[asked] = certificates.OrderFact(asked, lesser)
            self.orders[start] = tuple(orders[greater] for greater in sorted(orders))


class Walked:
    """The blocks of a certificate, walked without refusals."""

    def __init__(self, found, image, vlen):
        self.certificate, self.image, self.vlenb = found.certificate, image, vlen // 8

    def decoded(self, pc):
        return flow.decoded_at(self.image, pc)

    def known_at(self, pc):
        """What is known before a word; None where no block comes to it."""
        walk = checker.Walk(self.image, self.certificate)
        walk.zones = flow.EVERYWHERE
        block = max((b for b in self.certificate.blocks if b.start <= pc), key=lambda b: b.start)
        s, at = checker.at_block(self.certificate, block, self.vlenb), block.start
        while at < pc:
            i, f = walk.fetched(s, at)
            if i.shape in ('branch', 'jal', 'jalr', 'ecall'):
                return None
            walk.act(s, i, f, at)
            at += 4
        return s


class Before:
    """The code as it came, with what is known before its words in the code that was made of it."""

    def __init__(self, maker, calls, found, image):
        self.image, self.calls, self.is_laid = maker.image, calls, maker.laid is not None
        self.places = {key: at for at, key in maker.node_at.items()}
        self.walked = Walked(found, image, maker.vlen)

    def decoded(self, pc):
        return flow.decoded_at(self.image, pc)

    def known_at(self, pc):
        return self.walked.known_at(self.places[self.calls, pc] if self.is_laid else pc)
