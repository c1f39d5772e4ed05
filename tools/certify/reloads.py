"""Loads from the stack that give one known number: what was stored there, over all ways, is that number.

Compilers keep addresses on the stack where registers are few. A checker does not look into memory, so the number itself is put in the place
of the load: then it is known. A store by an address that may have been computed from the stack pointer makes all such places unknown, and
so does one by an address that stems from nothing, where some number was made of the stack pointer that is not followed.
"""
import graph
import program
from bases import NOTHING, STACK
from outside import checker, table
from program import SP, STACK_TOP


def reloads(code, its_graph, params, bases):
    """node -> the number that its load gives, of those that one word makes, and of addresses of the image."""
    start = {SP: STACK_TOP, **{10 + place: address for place, address, *_ in checker.buffers(params)}}
    stores = [key for key in its_graph.order if 'store' in code.nodes[key].i.shape]
    is_told = any(tells_of_stack(key, code.nodes[key], bases) for key in its_graph.order)
    wild = {key for key in stores if may_be_stack(code.nodes[key], bases.at(key), is_told)}
    known, todo, waiting = {code.entry: start}, [code.entry], {code.entry}
    while todo:
        key = todo.pop()
        waiting.discard(key)
        now = behind(code.nodes[key], known[key], key in wild)
        for to in its_graph.leads[key]:
            both = now if to not in known else {place: number for place, number in known[to].items() if now.get(place) == number}
            if known.get(to) != both:
                known[to] = both
                if to not in waiting:
                    waiting.add(to)
                    todo.append(to)
    found = ((key, loaded(code.nodes[key], state)) for key, state in known.items())
    return {key: number for key, number in found if number is not None and (len(program.number_words(1, number)) == 1 or is_in_image(code, number))}


def is_in_image(code, number):
    return any(segment.first <= number < segment.end for segment in code.image.segments)


def is_stack(stems):
    return any(isinstance(it, tuple) and it[0] == STACK for it in stems)


def tells_of_stack(key, node, bases):
    """Whether a node keeps an address of the stack in memory, or makes a number of one that is not followed."""
    used, wrote = graph.used_and_set(node)
    stems, is_access = bases.at(key), 'load' in node.i.shape or 'store' in node.i.shape
    if is_access:
        return is_stack(stems.get(node.f.get('rs2'), NOTHING))
    made = bases.stepped(key).get(node.stores[0][1] if node.stores else node.f.get('rd'), NOTHING)
    return any(used >> r & 1 and is_stack(stems.get(r, NOTHING)) for r in range(1, 32)) and node.i.shape != 'branch' and not is_stack(made)


def may_be_stack(node, stems, is_told):
    """Whether a store may go to any place of the stack. is_told: whether numbers that are not followed may be such places."""
    base = stems.get(node.f['rs1'], NOTHING)
    return not (node.i.name == 'sw' and node.f['rs1'] == SP) and (is_stack(base) or not base and is_told)


def slot(node, state):
    """The place of the stack that a load or store by the stack pointer means: above all registers, as places of a state are."""
    is_own = node.i.name in ('lw', 'sw') and node.f['rs1'] == SP and SP in state
    return state[SP] + node.f['imm'] & table.M32 if is_own else None


def loaded(node, state):
    is_moved = node.loads or node.stores
    return state.get(slot(node, state)) if node.i.name == 'lw' and not is_moved else None


def behind(node, state, is_wild):
    """What is known behind a node: registers and places of the stack that hold one known number. is_wild: whether it may store anywhere."""
    if is_wild or node.i.name == 'sw' and node.f['rs1'] == SP and SP not in state:
        return {place: number for place, number in state.items() if place < 32}
    i, f = node.i, node.f
    place = slot(node, state)
    wrote = {r for r in range(1, 32) if graph.used_and_set(node)[1] >> r & 1} | {t for t, _ in node.loads}
    if i.name == 'sw' and place is not None:        # (a store need not be aligned)
        wrote |= {place + away & table.M32 for away in range(-3, 4)}
    if not wrote:
        return state
    out = {at: number for at, number in state.items() if at not in wrote}
    if node.loads or node.stores:
        return out
    if i.name == 'sw' and place is not None and f['rs2'] in state:
        out[place] = state[f['rs2']]
    elif i.name == 'lw' and place in state:
        out[f['rd']] = state[place]
    elif i.name == 'lui':
        out[f['rd']] = f['imm'] & table.M32
    elif i.name == 'auipc':
        out[f['rd']] = node.pc + f['imm'] & table.M32
    elif i.name == 'addi' and (f['rs1'] in state or not f['rs1']):
        out[f['rd']] = state.get(f['rs1'], 0) + f['imm'] & table.M32
    elif i.name == 'add' and f['rs1'] in state and f['rs2'] in state:
        out[f['rd']] = state[f['rs1']] + state[f['rs2']] & table.M32
    out.pop(0, None)
    return out
