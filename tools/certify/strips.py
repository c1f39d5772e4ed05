"""Tests of vector accesses: of where a strip ends, of indices, of masks."""
import functools
import operator

import bases
import counters
import graph
import indices
import program
import vectors
from guided import Walked
from kinds import Strip, Stuck, Test
from outside import certificates, checker, model, table
from program import SP, ZERO, Branch, Jump, Label, Number, Word, word

VL = checker.VL
KEPT_BELOW = 1 << 10     # how far below all frames vector registers are kept for a moment, at least


class Strips:
    """What a maker puts in for a vector access."""

    def guard_vector(self, misfit, node):
        """A test before a vector access: of its whole span where that is one number, else of where its last element lies."""
        known, register = misfit.known, node.f['rs1']
        zones, base = self.zones(misfit.key, register, node.i.shape.startswith('vstore')), checker.known(known.x[register].range)
        zones = [zone for zone in zones if base is not None and zone[0] <= base <= zone[1]] or zones
        zone = zones[0]
        how = node.i.shape.split('_')[1] if '_' in node.i.shape else 'unit'
        length = checker.known(known.vl)
        if length and how == 'unit' and len(zones) == 1 and base is None:
            self.put_test(misfit, register, *self.sure[misfit.key].get(register, (0, length * node.i.width // 8)), zone)
            return
        if length and how == 'unit' and base is None and not self.is_chosen_by_vl(misfit.key):
            self.sizes[misfit.key] = length * node.i.width // 8
            self.choices[misfit.key] = tuple(zones)
            return
        if how in ('whole', 'mask') and len(zones) > 1:
            self.sizes[misfit.key] = node.i.regs * self.vlen // 8 if how == 'whole' else known.vl[1] + 7 >> 3
            self.choices[misfit.key] = tuple(zones)
        elif how == 'whole':
            self.put_test(misfit, register, 0, node.i.regs * self.vlen // 8, zone)
        elif how == 'mask':
            low, high = known.x[register].range[0] < zone[0], known.vl[1] + 7 >> 3
            self.masks[misfit.key] = zone, low or self.masks.get(misfit.key, (0, False))[1], high
        elif how == 'indexed' or how == 'strided' and checker.known(known.x[node.f['rs2']].range) is None:
            if how == 'indexed' and not self.bases.zones_of(self.bases.at(misfit.key).get(register, bases.NOTHING)):
                zones = self.zones_of_indices(misfit.key, node) or zones
            if len(zones) > 1:
                raise Stuck(f'which buffer the indices at {node.pc:#x} mean is not known')
            self.indices[misfit.key] = indices.of(node, known, register, zones[0])
        else:
            stride = model.signed(checker.known(known.x[node.f['rs2']].range), 32) if how == 'strided' else node.i.width // 8
            self.put_strip(misfit, node, zones, stride)

    def is_chosen_by_vl(self, key):
        """Whether buffers are chosen already before a vector access by where it ends."""
        return isinstance(self.choices.get(key, (None,))[0], Strip)

    def zones_of_indices(self, key, node):
        """The zones that an access means whose indices are addresses, as compilers make them, with a small number as the base."""
        right = certificates.WRITE if node.i.shape.startswith('vstore') else certificates.READ
        return [zone for zone in self.bases.zones_of(self.vectors().stems_of_indices(key, self.bases)) if zone[2] & right]

    def put_strip(self, misfit, node, zones, stride):
        """A test of a strip by vl, one for each buffer that is possible."""
        known, register, zone = misfit.known, node.f['rs1'], zones[0]
        if len(zones) > 1:
            older = self.choices.get(misfit.key) if self.is_chosen_by_vl(misfit.key) else None
            is_empty = known.vl[0] == 0 or bool(older and older[0].is_empty)
            self.choices[misfit.key] = tuple(Strip(misfit.key, it, True, True, is_empty, None, stride) for it in zones)
            return
        if self.give_rest(misfit) or known.vl[0] and self.is_strip_above(misfit.key, node, stride):
            return
        self.told_of.append((misfit.key, (register, node.i.width, stride)))
        most = greatest_length(checker.known(known.x[register].range), zone, node.i.width // 8, stride)
        if most is not None:
            self.strips[misfit.key] = Strip(misfit.key, zone, False, False, False, None, stride, most)
            return
        lengths = [r for r in range(1, 32) if known.x[r].form == known.x[VL].form and known.x[VL].form.terms]
        range_, older = known.x[register].range, self.strips.get(misfit.key)
        low, high = range_[0] < zone[0], range_[1] > zone[1] if stride < 0 else range_[1] + stride * known.vl[1] > table.M32
        if self.begin_strip(misfit, zone, stride, low, high):
            low = high = False
            older = older and older._replace(low=False, high=False)
        elif older is None and low and high and stride >= 0:
            low = False             # (a pointer that rises is known to be above its start once its end is known)
        elif older is not None and (low or older.low, high or older.high) == (older.low, older.high):
            low = high = True       # (what was asked for was not enough)
        self.strips[misfit.key] = Strip(misfit.key, zone, low or bool(older and older.low), high or bool(older and older.high),
                                        known.vl[0] == 0 or bool(older and older.is_empty), lengths[0] if lengths else None, stride)

    def begin_strip(self, misfit, zone, stride, low, high):
        """Tests of a strip's base before the loop around it, once, where it only rises there and the first round is sure to have that strip: what
        is told of each strip's end keeps the base in its zone then. Whether they were put in; where they were of no use they go."""
        key = misfit.key
        if key in self.begun:
            self.tests.pop(self.begun[key], None)
            return False
        name = self.base_before(key, stride) if misfit.known.vl[0] and (low or high) else None
        if name is None or name in self.tests:
            return False
        self.tests[name] = self.base_test(name, key, zone, low, high)
        self.begun[key] = name
        return True

    def base_before(self, key, stride):
        """The name of a test of a strip's base before the loop around it, where that is as good as one of its first round; else None."""
        register = self.code.nodes[key].f['rs1']
        for loop in sorted(filter(self.graph.is_natural, self.graph.inside[key]), key=lambda loop: -loop.depth)[:1]:
            if (self.hoists and stride > 0 and self.comes_first(loop, key, register)
                    and (not self.graph.writers(loop.nodes, register) or counters.only_rises(self.graph, loop, register))):
                return loop.head, register, 'entering'
        return None

    def base_test(self, name, key, zone, low, high):
        return Test(name[0], True, name[1], zone[0], zone[1] - self.code.nodes[key].i.width // 8 & table.M32, low, high, zone[3])

    def with_bases_before(self, found):
        """The strips without tests of their bases, as far as they have elements, and the tests of those before their loops; None where that would
        be the same as it is."""
        walked, places = Walked(found, self.seen, self.vlen), {key: at for at, key in self.node_at.items()}
        strips, tests = dict(self.strips), dict(self.tests)
        for key, strip in self.strips.items():
            known = walked.known_at(places[key]) if strip.most is None and strip.stride > 0 and (strip.low or strip.high) and key in places else None
            if known and known.vl[0]:
                strips[key] = strip._replace(low=False, high=False, is_empty=False)
                name = self.base_before(key, strip.stride)
                if name and name not in tests:
                    tests[name] = self.base_test(name, key, strip.zone, True, True)
        return None if strips == self.strips else (strips, tests)

    def is_strip_above(self, key, node, stride):
        """Whether this round tests the same strip, which has elements, in one straight line above an access, with no other test between: what
        that tells is waited for."""
        strip, tested = (node.f['rs1'], node.i.width, stride), {name[0] for name in self.tests}
        while len(self.graph.comes[key]) == 1 and len(self.graph.leads[self.graph.comes[key][0]]) == 1:
            key, = self.graph.comes[key]
            if (key, strip) in self.told_of:
                return True
            if graph.used_and_set(self.code.nodes[key])[1] & (1 << strip[0] | 1 << VL) or key in tested or key in self.strips or key in self.choices:
                return False
        return False

    def strip_numbers(self, strip):
        """What a strip's base is at least and at most, None where that need not be tested, and what its end is compared with."""
        (first, end, *_), size = strip.zone, self.code.nodes[strip.key].i.width // 8
        if strip.stride < 0:
            return [n & table.M32 for n in (first, end - size, first + strip.stride)]
        low, high = first if strip.low else None, end if strip.high else None
        return [n if n is None else n & table.M32 for n in (low, high, end + strip.stride - size)]

    def strip_words(self, strip):
        """A test of where a vector access ends, by vl. The register with the end is kept up to the access."""
        key, node, spilled = strip.key, self.code.nodes[strip.key], []
        base, falls = node.f['rs1'], strip.stride < 0
        label = self.failed('strip', node.pc, strip.zone[3])
        used = sum(1 << r for r in {base, node.f.get('rs2', 0), strip.length or 0})
        t = self.taken(key, used, spilled)
        other = self.taken(key, used | 1 << t, spilled)
        if strip.is_empty:              # (a strip of no element may stand anywhere)
            self.edits.last += [Label(('empty', key)), word('csrrs', rd=t, csr=0xc20, rs1=0),
                                Branch('beq', t, ZERO, ('past', key)), Jump(ZERO, label)]
            label = 'empty', key
        self.strip_temporaries[key] = t
        out = self.strip_tests(strip, base, t, other, falls, label)
        places = {r: -4 * number for number, r in enumerate(spilled, 1)}
        restored = {r: word('lw', rd=r, rs1=SP, imm=at) for r, at in places.items()}
        self.edits.after[key] = [*restored.values(), *self.edits.after.get(key, [])]
        saved = [word('sw', rs1=SP, rs2=r, imm=at) for r, at in places.items()]
        return saved + out + [restored[r] for r in spilled if r != t]

    def strip_tests(self, strip, base, t, other, falls, label):
        """The tests of a strip, by two registers."""
        key = strip.key
        if strip.most is not None:
            return [word('csrrs', rd=t, csr=0xc20, rs1=0), *self.compared(key, t, strip.most, False, label, 0, other)]
        low, high, ends = self.strip_numbers(strip)
        out = []
        if low is not None:
            out += self.compared(key, base, low, True, label, 0, other)
        if high is not None:
            out += self.compared(key, base, high, False, label, 0, other)
        length = strip.length
        if length is None:
            out.append(word('csrrs', rd=t, csr=0xc20, rs1=0))
            length = t
        if abs(strip.stride) != 1:
            out += self.times(key, t, length, abs(strip.stride), 0, other)
            length = t
        out.append(word('sub' if falls else 'add', rd=t, rs1=base, rs2=length))
        return out + self.compared(key, t, ends, falls, label, 0, other)

    def strip_choice_words(self, key, strips):
        """The same of a vector access by vl: its base chooses, and its end is tested."""
        node, base = self.code.nodes[key], self.code.nodes[key].f['rs1']
        label = self.failed('strip', key[1], ' or '.join(dict.fromkeys(strip.zone[3] for strip in strips)))
        t = self.strip_temporaries[key] = self.temporary([key], 1 << base)
        vl = word('csrrs', rd=t, csr=0xc20, rs1=0)
        out = [vl, Branch('beq', t, ZERO, ('joined', key))] if strips[0].is_empty else []
        for k, strip in enumerate(strips):
            other = ('other', key, k) if k + 1 < len(strips) else label
            low, high, ends = self.strip_numbers(strip)
            out += self.compared(key, base, low, True, other, 1 << t) + self.compared(key, base, high, False, other, 1 << t)
            out += [vl, *self.times(key, t, t, abs(strip.stride), 1 << base), word('sub' if strip.stride < 0 else 'add', rd=t, rs1=base, rs2=t)]
            out += [*self.compared(key, t, ends, strip.stride < 0, label, 1 << base), Word(node.word, key), Jump(ZERO, ('joined', key))]
            out.append(Label(('other', key, k)))
        return out + [Label(('joined', key))]

    def mask_words(self, key, zone, is_low, most):
        """An access of a mask: at the end of its buffer, where not as many bytes are left as any vl takes, a copy for each count of bytes."""
        node, label = self.code.nodes[key], self.failed('strip', key[1], zone[3])
        base, end = node.f['rs1'], zone[1]
        t = self.temporary([key], 1 << base)
        other = self.temporary([key], 1 << base | 1 << t)
        out = self.compared(key, base, zone[0], True, label, 0) if is_low else []
        out += self.compared(key, base, end - most, False, ('short', key, 1), 0)
        out += [Word(node.word, key), Label(('past', key))]
        late = []
        for count in range(1, most):
            late += [Label(('short', key, count)), word('csrrs', rd=t, csr=0xc20, rs1=0), Branch('beq', t, ZERO, ('past', key)), Number(other, 8 * count),
                     Branch('bltu', other, t, ('short', key, count + 1)), Number(other, end - count), Branch('bltu', other, base, label),
                     Word(node.word, key), Jump(ZERO, ('past', key))]
        self.edits.last += late + [Label(('short', key, most)), Jump(ZERO, label)]
        return out

    def index_words(self, key, index):
        """An access by indices, or by a stride that is not known."""
        node = self.code.nodes[key]
        label = self.failed('index', key[1], index.zone)
        used = sum(1 << r for r in {node.f['rs1'], node.f.get('rs2', 0)})
        t = self.temporary([key], used)
        other = self.temporary([key], used | 1 << t)
        spare, mask, kept = indices.registers_for(index, node, self.vectors().free(key))
        vlenb, place = self.vlen // 8, bases.stack_zone()[0]        # (frames of vector registers are as large as VLEN says)
        if kept and place + sum(count for _, count in kept) * vlenb > program.STACK_TOP + self.bases.bottom() - KEPT_BELOW:
            raise Stuck(f'too little of the stack is left for vector registers at {node.pc:#x}')
        held = {value: self.held(key, value) for value in (index.first, max(index.most, 0)) if self.held(key, value)}
        return [*indices.moved(kept, t, place, vlenb, 'vs{}r.v'), *indices.words(node, index, label, t, other, spare, mask, held),
                *indices.moved(kept, t, place, vlenb, 'vl{}re8.v')]

    def give_type(self, misfit):
        """Sets the vector type anew where it is not the same on each way: where an instruction changes it and keeps vl, else before the access."""
        keeping = self.graph.type_setters(misfit.key)
        setting = self.graph.settings[misfit.key]
        if all(graph.is_keep(self.code.nodes[key]) for key in keeping):
            self.retyped |= keeping
        elif None not in setting.types and len({vtype & 0x3f for vtype in setting.types}) == 1:
            self.retyped.add(misfit.key)

    def put_types(self):
        """The settings of the vector type with vl as it is."""
        for head, vtype in self.graph.entering.items():
            self.enter(head, [word('vsetvli', rd=0, rs1=0, imm=vtype)])
        for key, vtype in self.graph.early.items():
            self.edits.after.setdefault(key, []).append(word('vsetvli', rd=0, rs1=0, imm=vtype))
        for key in self.same_lengths.keys() - self.retyped:
            f = self.code.nodes[key].f          # (where the type before is not known, only a length that is asked for makes it known)
            register = 0 if self.same_lengths[key] else f['rs1']
            self.edits.instead[key] = [word('vsetvli', rd=register, rs1=register, imm=f['imm'])._replace(key=key)]
        for key in sorted(self.retyped):
            node, setting = self.code.nodes[key], self.graph.settings[key]
            is_own = graph.is_keep(node)
            vtype = node.f['imm'] if is_own else functools.reduce(operator.and_, setting.types)
            same = not is_own or setting.most == table.vlmax_of(vtype, self.vlen // 8)
            if setting.length is not None and setting.length < 32 and same:
                out = [word('vsetivli', rd=0, avl=setting.length, imm=vtype)]
            else:
                t = self.temporary([key])
                out = [word('csrrs', rd=t, csr=0xc20, rs1=0), word('vsetvli', rd=0, rs1=t, imm=vtype)]
            if is_own:
                self.edits.instead[key] = [*out[:-1], out[-1]._replace(key=key)]
            else:
                self.edits.before.setdefault(key, []).extend(out)

    def vectors(self):
        """Which vector registers are free, once they are asked for."""
        if self.its_vectors is None:
            self.its_vectors = vectors.Vectors(self.graph, self.vlen // 8)
        return self.its_vectors


def greatest_length(base, zone, size, stride):
    """How many elements from a known base on lie in a zone; None where the base is not known, or not in it."""
    first, end, *_ = zone
    if base is None or not stride or not first <= base <= end - size:
        return None
    return ((end - size - base) // stride if stride > 0 else (base - first) // -stride) + 1
