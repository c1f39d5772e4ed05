"""Counters of loops: a register beside a loop that falls on each way round, for loops in which no register does.

`rest`: what is left of a count of elements where strips are taken from it by an index that rises: no branch changes.
`end`: where a pointer will stand when a loop ends that counts its rounds: it is tested once, before the loop.
`left`: a loop that ends where a register x meets a number e. The counter is e - x (or x - e where x falls), in steps of x; it moves
with x, and the branches of x and e become branches of the counter and 0. `mirror`: a register that rises on each way round and is known
to stay at or below some number; the counter is that number less the register. Neither changes what the kernel does.

A limit is no counter: where a register that rises by one ends a loop as it meets a number, the branch asks whether it is below that number.
"""
from collections import namedtuple

import graph
from outside import table
from program import SP, ZERO, Branch, Jump, Label, Number, word

LEFT, MIRROR, REST, END = 'left', 'mirror', 'rest', 'end'

LONGEST = 1024   # by how much a register is taken to rise at most where that is not known
SLACK = 4
ANEW = 0         # the sign of a move by what is not known: the register is computed anew
# What a branch of a register that rises by one and its end becomes, where it is at most the end.
LIMIT_BRANCHES = {'bne': 'bltu', 'beq': 'bgeu'}
# Such a register and its end; exits: the branches; is_below: whether it has to be below the end where the loop begins, since it rises before it
# is compared; is_tested: whether that is tested.
Limit = namedtuple('Limit', 'x end exits is_below is_tested', defaults=(True,))
# What a branch of an index and its end becomes as one of what is left and 0, where the index is at most the end.
REST_BRANCHES = {'bltu': 'bne', 'blt': 'bne', 'bne': 'bne', 'bgeu': 'beq', 'bge': 'beq', 'beq': 'beq'}
TRIES = 4        # how many registers of a loop are tried
FAR_BACK = 16    # how many nodes before a loop may tell of its registers
# One way that a register moves: the node, and by which number (None: by a register's) it rises.
Move = namedtuple('Move', 'key by register sign')
# kind; registers: the counter, and the one that keeps its start; x, and e or the number that x stays below; step: of which the counter counts one; rises:
# whether x does; moves; exits: the branches; is_tested: whether the start is tested.
# more: other registers that are taken from the number too. keeps: whether there is a register for the start.
Counter = namedtuple('Counter', 'kind registers x end step rises moves exits is_tested more keeps', defaults=((), True))


def moves_of(the_graph, loop, x, numbers=()):
    """The ways that a register moves in a loop; None where it is set to something else there. numbers: registers that hold one number
    throughout the loop, which are steps like any other."""
    numbers = dict(numbers)
    moves = []
    for key in the_graph.writers(loop.nodes, x):
        node = the_graph.nodes[key]
        i, f = node.i, node.f
        if graph.is_moved(node, x):
            return None
        if i.name == 'addi' and f['rs1'] == x and f['imm']:
            moves.append(Move(key, f['imm'], None, 1))
        elif i.name == 'add' and (f['rs1'] == x) != (f['rs2'] == x):
            register = f['rs2'] if f['rs1'] == x else f['rs1']
            moves.append(Move(key, numbers.get(register), register, 1))
        elif i.name == 'sub' and f['rs1'] == x and f['rs2'] != x:
            step = numbers.get(f['rs2'])
            moves.append(Move(key, None if step is None else -step, f['rs2'], -1))
        else:
            return None
    return moves or None


def is_rise(move):
    return move.sign > 0 if move.by is None else move.by > 0


def is_on_each_way(the_graph, loop, keys):
    """Whether each way round a loop goes through one of these nodes."""
    keys, seen, todo = set(keys), set(), [loop.head]
    if loop.head in keys:
        return True
    while todo:
        key = todo.pop()
        for to in the_graph.leads[key]:
            if to == loop.head:
                return False
            if to in loop.nodes and to not in keys and to not in seen:
                seen.add(to)
                todo.append(to)
    return True


def left_counters(the_graph, loop, numbers):
    """The counters of the first kind that a loop may have, without registers. numbers: as for `moves_of`."""
    pairs = {}
    for key in loop.nodes:
        node = the_graph.nodes[key]
        if node.i.name in ('beq', 'bne'):
            for x, end in ((node.f['rs1'], node.f['rs2']), (node.f['rs2'], node.f['rs1'])):
                if x and x != end and any(to not in loop.nodes for to in the_graph.leads[key]):
                    pairs.setdefault((x, end), []).append(key)
    for (x, end), exits in pairs.items():
        moves = moves_of(the_graph, loop, x, numbers)
        if moves is None or end and the_graph.writers(loop.nodes, end):
            continue
        rises = {is_rise(m) for m in moves}
        if len(rises) != 1 or not is_on_each_way(the_graph, loop, [m.key for m in moves]):
            continue
        steps = {abs(m.by) if m.by is not None else None for m in moves}
        step = steps.pop() if len(steps) == 1 else None
        yield Counter(LEFT, (), x, end, step or 1, rises.pop(), tuple(moves), tuple(exits), False)


def limits(the_graph, loop):
    """The registers that rise by one in each round of a loop, and end it where they meet a number: each round asks for that once."""
    for counter in left_counters(the_graph, loop, {}):
        key, by = counter.moves[0].key, counter.moves[0].by
        before = {frozenset(setters_of(the_graph, loop, at, counter.x)) for at in counter.exits}
        ends = [the_graph.leads[at][the_graph.nodes[at].i.name == 'bne'] for at in counter.exits if len(the_graph.leads[at]) == 2]
        if (counter.end and by == 1 and len(counter.moves) == 1 and the_graph.depth(key) == the_graph.depth(loop.head)
                and len(ends) == len(counter.exits) and loop.nodes.isdisjoint(ends) and is_on_each_way(the_graph, loop, counter.exits) and before in ({frozenset([None])}, {frozenset([key])})):
            yield Limit(counter.x, counter.end, counter.exits, before == {frozenset([key])})


def is_told_before(the_graph, loop, limit):
    """Whether a branch on the one way into a loop tells that its register is at most the end, or below it."""
    x, key = limit.x, loop.head
    for _ in range(FAR_BACK):
        comes = [come for come in the_graph.comes[key] if key != loop.head or come not in loop.nodes]
        if len(comes) != 1:
            return False
        (come,), node = comes, the_graph.nodes[comes[0]]
        if node.i.name in ('bltu', 'bgeu') and the_graph.leads[come][0] != the_graph.leads[come][-1]:
            is_less = (node.i.name == 'bltu') == (the_graph.leads[come][0] == key)         # (whether its first number is below its second)
            pair = node.f['rs1'], node.f['rs2']
            if pair == (x, limit.end) and is_less or pair == (limit.end, x) and not is_less and not limit.is_below:
                return True
        if node.loads or node.stores or node.calls != key[0] or the_graph.writers([come], limit.end):
            return False
        if the_graph.writers([come], x):
            if node.i.name != 'addi' or node.f['imm'] or not node.f['rs1']:
                return False
            x = node.f['rs1']
        key = come
    return False


def mirror_counters(the_graph, loop, most):
    """The counters of the second kind. most: register -> the greatest number that is known of it at the head. First those of registers that
    rise in place, then those of some that are computed anew from others, of which the search has to find out that they rise."""
    anew, rising = [], {}
    for x in range(1, 32):
        if x == SP or most.get(x, 1 << 32) >= (1 << 32) - (1 << 12):
            continue
        moves = moves_of(the_graph, loop, x)
        if moves is None:
            moves = anew_moves(the_graph, loop, x) if the_graph.writers(loop.nodes, x) else None
            if moves:
                anew.append(mirror(x, most[x], moves))
        elif all(is_rise(m) for m in moves) and all(m.by is None or m.by <= 2047 for m in moves):
            rising[x] = moves
    yield from together(the_graph, loop, most, rising)
    for x, moves in rising.items():
        if is_on_each_way(the_graph, loop, [m.key for m in moves]):
            yield mirror(x, most[x], moves)
    is_sure = lambda counter: rises_anew(the_graph, loop, counter.x)
    yield from sorted(anew, key=lambda counter: (not is_sure(counter), counter.end))[:TRIES]


def setters_of(the_graph, loop, key, register):
    """The nodes of a loop that may have set a register last before a node, and None where it is as it was at the head."""
    name = 'setters', loop.head, key, register
    if name not in the_graph.known:
        the_graph.known[name] = frozenset(setters_before(the_graph, loop, key, register))
    return the_graph.known[name]


def setters_before(the_graph, loop, key, register):
    """The same, looked for."""
    todo, seen = [key], {key}
    while todo:
        at = todo.pop()
        if at == loop.head:
            yield None
            continue
        for come in the_graph.comes[at]:
            if come in loop.nodes and the_graph.writers([come], register):
                yield come
            elif come in loop.nodes and come not in seen:
                seen.add(come)
                todo.append(come)


def last_setters(the_graph, loop, x):
    """The nodes that set a register last in a round of a loop; None among them where a way round does not set it."""
    out = set()
    for latch in loop.latches:
        out |= {latch} if the_graph.writers([latch], x) else setters_of(the_graph, loop, latch, x)
    return out


def rise_by(the_graph, loop, setter, x, depth=0):
    """By how much a register is above x of the head at least, behind the node that sets it by sums with numbers alone; None where it is
    computed otherwise."""
    name = 'rise', loop.head, setter, x, depth
    if name not in the_graph.known:
        the_graph.known[name] = rise_behind(the_graph, loop, setter, x, depth)
    return the_graph.known[name]


def rise_behind(the_graph, loop, setter, x, depth):
    """The same, computed."""
    node = the_graph.nodes[setter]
    if node.i.name != 'addi' or node.loads or node.stores or depth > 4:
        return None
    before, least = setters_of(the_graph, loop, setter, node.f['rs1']), None
    for it in before:
        rise = (0 if node.f['rs1'] == x else None) if it is None else rise_by(the_graph, loop, it, x, depth + 1)
        if rise is None:
            return None
        least = rise if least is None else min(least, rise)
    return None if least is None else least + node.f['imm']


def rises_anew(the_graph, loop, x):
    """Whether a register is computed anew as itself and a number above 0 on each way round."""
    rises = rises_of(the_graph, loop, x)
    return all(rise is not None and rise > 0 for rise in rises)


def falls_anew(the_graph, loop, x):
    """The same with a number below 0."""
    rises = rises_of(the_graph, loop, x)
    return len(rises) == 1 and rises[0] is not None and rises[0] < 0


def rises_of(the_graph, loop, x):
    return [it and rise_by(the_graph, loop, it, x) for it in last_setters(the_graph, loop, x)]


def counts(the_graph, loop):
    """The registers that fall by a number on each way round a loop, which ends where one is 0."""
    ending = {node.f['rs1'] or node.f['rs2'] for key in loop.nodes for node in [the_graph.nodes[key]]
              if node.i.name in ('beq', 'bne') and 0 in (node.f['rs1'], node.f['rs2']) and any(to not in loop.nodes for to in the_graph.leads[key])}
    for x in sorted(ending - {0}):
        moves = moves_of(the_graph, loop, x) or []
        if moves and all(m.by is not None and m.by < 0 for m in moves) and is_on_each_way(the_graph, loop, [m.key for m in moves]):
            yield x
        elif not moves and falls_anew(the_graph, loop, x):
            yield x


def only_rises(the_graph, loop, x):
    """Whether a register only rises in a loop, in place or computed anew."""
    moves = moves_of(the_graph, loop, x)
    return rises_anew(the_graph, loop, x) if moves is None else all(map(is_rise, moves))


def only_falls(the_graph, loop, x):
    """The same with falls."""
    moves = moves_of(the_graph, loop, x)
    return falls_anew(the_graph, loop, x) if moves is None else not any(map(is_rise, moves))


def together(the_graph, loop, most, rising):
    """The counter of as few registers that rise as will do, of which one does on each way round: round the loops within as well, where
    that can be, so that one register pays for all."""
    def is_enough(some, loops):
        keys = {m.key for x in some for m in rising[x]}
        return all(is_on_each_way(the_graph, it, keys & it.nodes) for it in loops)
    loops = [it for it in the_graph.loops if it.nodes <= loop.nodes and the_graph.is_natural(it) and is_enough(rising, [it])]
    if loop not in loops:
        return
    kept = list(rising)
    for x in sorted(rising, key=lambda x: -most[x]):
        if is_enough([other for other in kept if other != x], loops):
            kept.remove(x)
    first, *more = kept
    moves = [m for x in kept for m in rising[x]]
    yield mirror(first, sum(most[x] for x in kept), moves)._replace(more=tuple(more))


def mirror(x, most, moves):
    """The counter of a register that is at most so much at the head: its number is so great that it holds behind each move as well, and
    where intervals are known less well than at the head."""
    return Counter(MIRROR, (), x, most + SLACK * sum(move.by or LONGEST for move in moves), 1, True, tuple(moves), (), False)


def anew_moves(the_graph, loop, x):
    """The ways that a register is computed from others in a loop, as its head has it; None where it is set to a number, or to what is loaded."""
    moves = []
    for key in last_setters(the_graph, loop, x):
        node = the_graph.nodes.get(key)
        if node is None or node.i.name not in ('add', 'addi') or not node.f['rs1'] or graph.is_moved(node, x):
            return None
        moves.append(Move(key, None, None, ANEW))
    return sorted(moves)


def needs(counter):
    """How many registers a counter needs: its own, and one for what it started from or the number that it is taken from."""
    return 2 if counter.kind == LEFT and counter.keeps or any(move.sign == ANEW for move in counter.moves) else 1


def rest_counters(the_graph, loop):
    """What is left of n where a strip's length is asked for as n less an index, which moves by the length."""
    for key in loop.nodes:
        node = the_graph.nodes[key]
        if node.i.shape != 'vset' or not node.f.get('rs1') or node.loads or node.stores:
            continue
        for at in the_graph.writers(loop.nodes, node.f['rs1']):
            made = the_graph.nodes[at]
            end, x = made.f.get('rs1', 0), made.f.get('rs2', 0)
            if made.i.name != 'sub' or not x or end and the_graph.writers(loop.nodes, end):
                continue
            moves = moves_of(the_graph, loop, x)
            length = node.f['rd']
            if length and moves and [(m.register, m.sign) for m in moves] == [(length, 1)]:
                # (it falls right behind the vset, where what is left is known as a part of what was)
                exits = rest_exits(the_graph, loop, key, at, moves[0].key, x, end)
                yield Counter(REST, (), x, end, 1, True, (Move(key, None, length, 1),), exits, False)


def rest_exits(the_graph, loop, vset, made, move, x, end):
    """The branches that end a loop where its index has come to the end, and that stand behind its move: what is left is 0 there. None,
    unless each round asks once for what is left, and then moves the index by what it got."""
    node = the_graph.nodes[vset]
    is_once = all(the_graph.depth(key) == the_graph.depth(loop.head) and is_on_each_way(the_graph, loop, [key]) for key in (vset, move))
    if not (is_once and setters_of(the_graph, loop, vset, node.f['rs1']) == {made} and setters_of(the_graph, loop, move, node.f['rd']) == {vset}
            and setters_of(the_graph, loop, made, x) == setters_of(the_graph, loop, vset, x) == {None}):
        return ()
    return tuple(key for key in sorted(loop.nodes) if the_graph.nodes[key].i.name in REST_BRANCHES
                 and (the_graph.nodes[key].f['rs1'], the_graph.nodes[key].f['rs2']) == (x, end)
                 and setters_of(the_graph, loop, key, x) == {move} and any(to not in loop.nodes for to in the_graph.leads[key]))


def rounds_of(the_graph, loop, counter):
    """The register that holds how many rounds of a loop are still to come at its head, where one does: it falls by one each time, and
    the loop ends where it is 0, at its one way out, behind all else."""
    ways_out = [key for key in loop.nodes if any(to not in loop.nodes for to in the_graph.leads[key]) or not the_graph.leads[key]]
    if len(ways_out) != 1 or list(loop.latches) != ways_out:
        return None
    if counter is not None and counter.kind == LEFT and counter.exits == tuple(ways_out):
        return counter.registers[0] if len(counter.moves) == 1 and abs(counter.moves[0].by or 0) == counter.step else None
    node = the_graph.nodes[ways_out[0]]
    if node.i.name != 'bne' or 0 not in (node.f['rs1'], node.f['rs2']):
        return None
    register = node.f['rs1'] or node.f['rs2']
    moves = moves_of(the_graph, loop, register) or []
    falls_once = [m.by for m in moves] == [-1] and is_on_each_way(the_graph, loop, [moves[0].key])
    return register if falls_once and the_graph.depth(moves[0].key) == the_graph.depth(loop.head) else None


def step_of(the_graph, loop, register):
    """By how much a pointer rises once in each round of a loop, and where; None where it is not so."""
    moves = moves_of(the_graph, loop, register) or []
    if len(moves) != 1 or not moves[0].by or moves[0].by < 0 or not is_on_each_way(the_graph, loop, [moves[0].key]):
        return None
    return moves[0].by if the_graph.depth(moves[0].key) == the_graph.depth(loop.head) else None


def on_entering(counter, fail_division, fail_start, most, late=None):
    """What sets a counter on the way into its loop. fail_division, fail_start: labels. most: what a tested count is at most. late: two labels,
    where the loop may be left before its end: a count that would miss the end is then the greatest one, and fails where the loop is left for it."""
    r = counter.registers[0]
    if counter.kind == MIRROR:
        number = counter.registers[-1]
        taken = [word('sub', rd=r, rs1=r, rs2=x) for x in counter.more]
        return [Number(number, counter.end & table.M32), word('sub', rd=r, rs1=number, rs2=counter.x), *taken]
    if counter.kind == REST:
        test = [Branch('bltu', counter.end, counter.x, fail_start[0])] if counter.exits else []
        return test + [word('sub', rd=r, rs1=counter.end, rs2=counter.x)]
    kept = counter.registers[-1]
    ends = (counter.end, counter.x) if counter.rises else (counter.x, counter.end)
    out = [word('sub', rd=r, rs1=ends[0], rs2=ends[1])]
    step, (misses, meets) = counter.step, late or (fail_division, None)
    leaves = [Branch('bgeu', kept, r, meets)] if counter.is_tested else [Jump(ZERO, meets)]
    if step > 1 and step & step - 1 == 0 and step <= 2048:
        out += [word('andi', rd=kept, rs1=r, imm=step - 1), word('srli', rd=r, rs1=r, imm=step.bit_length() - 1)]
        is_last = late and not counter.is_tested
        out += [] if is_last else [Branch('bne', kept, ZERO, misses)]
        leaves = [Branch('beq', kept, ZERO, meets)] if is_last else leaves
    elif step > 1:
        out += [Number(kept, step), word('remu', rd=kept, rs1=r, rs2=kept), Branch('bne', kept, ZERO, misses)]
        out += [Number(kept, step), word('divu', rd=r, rs1=r, rs2=kept)]
    if counter.is_tested:
        none, many = fail_start or late
        out += [Branch('beq', r, ZERO, misses if late else none), Number(kept, most)] + ([] if late else [Branch('bltu', kept, r, many)])
    if late:
        out += [*leaves, Label(misses), Number(r, most), Label(meets)]
    return out + ([word('addi', rd=kept, rs1=r, imm=0)] if counter.keeps else [])


def on_move(counter, move):
    """What moves a counter with its register."""
    r = counter.registers[0]
    if move.sign == ANEW:
        return [word('sub', rd=r, rs1=counter.registers[1], rs2=counter.x)]
    if move.by is None:
        falls = (move.sign > 0) == counter.rises
        return [word('sub' if falls else 'add', rd=r, rs1=r, rs2=move.register)]
    return [word('addi', rd=r, rs1=r, imm=-abs(move.by) // counter.step)]


def in_place(counter, the_graph, key, fails=None):
    """What stands in the place of a branch that ends a loop. fails: where to go, if given, where the counter is 0 and the end is not met."""
    node = the_graph.nodes[key]
    name, to = REST_BRANCHES[node.i.name] if counter.kind == REST else node.i.name, ('way', key, the_graph.leads[key][0])
    if fails is None:
        return [Branch(name, counter.registers[0], ZERO, to, key)]
    if name == 'bne':
        return [Branch(name, counter.registers[0], ZERO, to, key), Branch('bne', counter.x, counter.end, fails)]
    goes_on = 'goes on', key
    return [Branch('bne', counter.registers[0], ZERO, goes_on, key), Branch('beq', counter.x, counter.end, to), Jump(ZERO, fails), Label(goes_on)]
