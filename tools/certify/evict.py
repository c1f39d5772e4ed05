"""Registers of the kernel that are kept on the stack throughout, so that what is put in can have them.

Each instruction that reads such a register is led by a load to another one, and each that writes it is followed by a store. The places
lie below all frames of the kernel; where the stack pointer stands is known before each instruction.
"""
import itertools

import graph
import jumps
from kinds import NoRegister
from outside import model, table
from program import INS, SP, STACK_TOP, Number, word

AWAY = 64               # how far below the frames the places lie
REACH = 1 << 11         # how far an offset reaches
PRICE = 3               # how much more a register costs that addresses or ends of loops are computed from
MORE = 4                # how many dearer registers are tried
KEPT = (0, 1, 2, 10, 11)        # x0, the return address, the stack pointer, and what a run may leave


class Evictor:
    """Chooses registers and rewrites a code's nodes. bases: of the code as it came."""

    def __init__(self, code, its_graph, bases, passed):
        """passed: the registers in which a run starts with numbers."""
        self.code, self.graph, self.bases, self.passed = code, its_graph, bases, passed
        self.depths = {key: bases.depth(key) for key in its_graph.order}
        self.bottom = bases.bottom() - AWAY

    # ---- The choice ------------------------------------------------------------------------------------------------------------

    def chosen(self, count):
        """So many registers, the cheapest that will do, and what becomes of the nodes."""
        prices = {register: self.price(register) for register in self.candidates()}
        cheap = sorted(prices, key=prices.get)[:count + MORE]
        for some in sorted(itertools.combinations(cheap, count), key=lambda some: sum(map(prices.get, some))):
            rewritten = self.rewritten(some)
            if rewritten is not None:
                return some, rewritten
        raise NoRegister('too few registers are spare: compile with -ffixed-x26 -ffixed-x27')

    def candidates(self):
        """Registers that no call, return or jump through a table needs."""
        nodes = self.code.nodes
        kept = set(KEPT)
        for node in nodes.values():
            if node.i.shape in ('jal', 'jalr'):
                kept |= {node.f.get('rd'), node.f.get('rs1')}
            if node.i.shape == 'jalr' and not self.code.is_return(node):
                kept |= self.computing(node)
        used = self.graph.touched(self.graph.order)
        return [r for r in range(3, 32) if r not in kept and used >> r & 1]

    def computing(self, jump):
        """The registers that the address of a jump through a table is computed from in the words before it."""
        found = {jump.f['rs1']}
        for back in range(1, jumps.BACK + 1):
            before = self.code.nodes.get((jump.calls, jump.pc - 4 * back))
            if before and before.f.get('rd') in found:
                found |= {before.f.get('rs1'), before.f.get('rs2')}
        return found

    def price(self, register):
        """What it costs to keep a register on the stack."""
        out, is_address = 0, False
        for key in self.graph.order:
            node = self.code.nodes[key]
            used, wrote = graph.used_and_set(node)
            if (used | wrote) >> register & 1:
                out += 8 ** self.graph.depth(key) * ((used >> register & 1) + (wrote >> register & 1))
                is_address |= node.f.get('rs1') == register and (node.i.is_vector or node.i.shape in ('load', 'store', 'branch', 'vset'))
        return out * (PRICE if is_address else 1)

    # ---- The nodes ---------------------------------------------------------------------------------------------------------------

    def rewritten(self, evicted):
        """node -> (the node with other registers, what stands before it, what stands behind it), or None where it can't be done."""
        out = {}
        for key in self.graph.order:
            node = self.code.nodes[key]
            names = [name for name in ('rs1', 'rs2', 'rd') if node.f.get(name) in evicted and name in node.i.syntax]
            if names:
                out[key] = self.with_others(node, names, evicted)
                if out[key] is None:
                    return None
        return out

    def with_others(self, node, names, evicted):
        own = {node.f[name] for name in ('rs1', 'rs2', 'rd') if name in node.f}
        live = self.graph.live[node.key]
        spare = [r for r in evicted[1:]] + [r for r in range(31, 2, -1) if not live >> r & 1 and r not in own and r not in evicted]
        read = list(dict.fromkeys(node.f[name] for name in names if name != 'rd'))
        rd = node.f.get('rd')
        if rd and rd not in evicted and not live >> rd & 1 and node.i.shape not in ('jal', 'jalr'):
            spare.append(rd)
        is_kept = 'rd' in names
        if len(spare) < max(len(read), is_kept):
            return None
        loads = tuple(zip(spare, read))
        other = {r: t for t, r in loads}
        stores = ((loads[0][0] if loads else spare[0], rd),) if is_kept else ()
        f = dict(node.f)
        for name in names:
            f[name] = stores[0][0] if name == 'rd' else other[node.f[name]]
        at = self.depths[node.key]
        if at is None:
            return None
        before = [op for t, r in loads for op in self.load(t, self.place(r, evicted), at)]
        behind = self.store(stores, at, spare, evicted, f)
        if behind is None:
            return None
        return node._replace(f=f, word=INS[node.i.name].encode(**f), loads=loads, stores=stores), before, behind

    def place(self, register, evicted):
        return self.bottom - 4 * (1 + evicted.index(register))

    def load(self, t, place, at):
        if -REACH <= place - at < REACH:
            return [word('lw', rd=t, rs1=SP, imm=place - at)]
        low = model.signed(STACK_TOP + place, 12)
        return [Number(t, STACK_TOP + place - low & table.M32), word('lw', rd=t, rs1=t, imm=low)]

    def store(self, stores, at, spare, evicted, f):
        """What keeps the number that a node wrote; None where no register is left for that."""
        if not stores:
            return []
        (t, register), = stores
        place = self.place(register, evicted)
        if -REACH <= place - at < REACH:
            return [word('sw', rs1=SP, rs2=t, imm=place - at)]
        other = next((r for r in spare if r not in f.values() and r != t), None)
        if other is None:
            return None
        low = model.signed(STACK_TOP + place, 12)
        return [Number(other, STACK_TOP + place - low & table.M32), word('sw', rs1=other, rs2=t, imm=low)]

    def at_entry(self, evicted):
        """What keeps the numbers that are passed."""
        out = []
        for register in self.passed & set(evicted):
            place = self.place(register, evicted)
            live = self.graph.live[self.code.entry] | sum(1 << r for r in self.passed)
            other = next((r for r in (5, 6, 7, 28, 29, 30, 31) if not live >> r & 1), None)
            if place < -REACH and other is None:
                raise NoRegister('no register is spare where a run starts')
            out += [word('sw', rs1=SP, rs2=register, imm=place)] if place >= -REACH else [Number(other, STACK_TOP + place), word('sw', rs1=other, rs2=register, imm=0)]
        return out


def evicted(code, its_graph, bases, params, count):
    """Rewrites the code's nodes so that so many registers are free throughout."""
    passed = {10 + place for place, param in enumerate(params) if param.kind != 'none'}
    evictor = Evictor(code, its_graph, bases, passed)
    chosen, nodes = evictor.chosen(count)
    for key, (node, before, behind) in nodes.items():
        code.nodes[key] = node
        code.before[key], code.behind[key] = before, behind
    code.first = evictor.at_entry(chosen)
    return chosen
