"""The reasons for which a word or a loop resists, with what would help and what `certify guard` would do there."""
from collections import namedtuple

import budgets

# why: what the obstacle is; helps: what to write instead; both may name what was found. guard: what `certify guard` would do.
Reason = namedtuple('Reason', 'why helps guard')
ADDRESS = '`certify guard` would test this address against {regions}'
INDICES = '`certify guard` would cut the indices with vminu.vx before this access'
FUEL = '`certify guard` would put fuel into this loop'
END = '`certify guard` would end the run here by ecall'
RETURNS = '`certify guard` would choose here among the places that call'
TABLE = '`certify guard` would test the jump against the addresses of its table'
POINTERS = '`certify guard` would choose here among the code whose address the image has, if any'
NOTHING = '`certify guard` has nothing for this'

REASONS = {
    # Of an access.
    'indices': Reason(
        'the indices may be anything',
        'cut them with `vand` (an index & 127) before the access', INDICES),
    'stride': Reason(
        'the stride in {stride} is not known',
        'give it as a number, or pass a scalar whose interval is one number', ADDRESS),
    'difference': Reason(
        'the length of a strip is a difference',
        'let the count itself fall, with `n -= vl`', ADDRESS),
    'anew': Reason(
        'the length of a strip is a count that is shifted anew each time',
        'pass the number of elements, and let it fall by vl', ADDRESS),
    'counted': Reason(
        '{base} moves by how many elements a mask has ({setters}), which is data',
        'let a count that falls bound it, and test it within the loop', ADDRESS),
    'kept in memory': Reason(
        'nothing is known of {base}, as it was kept on the stack ({setters})',
        'let fewer numbers live at once, so that it stays in a register', ADDRESS),
    'out of memory': Reason(
        '{base} is computed from what comes out of memory ({setters})',
        'cut an index out of memory before its use, as by `& 255`', ADDRESS),
    'shifted': Reason(
        'a count is shifted in its own register ({setters}), and nothing tells any more what it was',
        'pass the count itself, go on while `n >= 4` with `n -= 4`, or keep the shifted one, or the end that it gives, in '
        'a register of its own', ADDRESS),
    'whole': Reason(
        'the count is stepped by a whole strip',
        'compile with -Os -fno-vectorize, or write the loop with intrinsics and `n -= vl`', ADDRESS),
    'index': Reason(
        'the address is a pointer and an index that rises beside the count',
        'let the pointer itself move, with `p += vl`', ADDRESS),
    'no sum': Reason(
        '{base} is computed by {setters}, of which the rules know no sum',
        'compute addresses by sums, or cut an index, as by `& 255`', ADDRESS),
    'ratio': Reason(
        '{base} moves by {step} while {count} falls by {fall}, of which {step} is no whole multiple',
        'let a count fall by 1 each time that the pointer moves', ADDRESS),
    'beyond': Reason(
        'the access may reach {bytes} past {area}: an order between sums, or what a number is a multiple of, is not '
        'shown',
        'give the buffer so much more, or test the pointer itself against its end', ADDRESS),
    'moves': Reason(
        '{base} moves ({setters}), and no count that falls beside it makes a sum of it',
        'has each pointer a count beside it that falls as it moves?', ADDRESS),
    'access': Reason(
        'the interval leaves the buffers',
        'does the interval in the job fit the buffer, and has each pointer a count beside it that falls as it moves?', ADDRESS),
    # Of a jump.
    'return kept': Reason(
        'the return address was kept in memory ({setters}), and memory is not tracked',
        'make the functions inline', END),
    'call kept': Reason(
        'a called function keeps its return address in memory ({setters}), and memory is not tracked',
        'make the functions inline', RETURNS),
    'called': Reason(
        'the function is called from more than one place, so that where it returns is not known',
        'make it inline', RETURNS),
    'table': Reason(
        'the jump goes by a table in memory ({setters})',
        'compile with -fno-jump-tables', TABLE),
    'pointer': Reason(
        'where the jump leads is not known',
        'no function pointers', POINTERS),
    # Of a loop.
    budgets.TOO_DEEP: Reason(
        '',
        'a budget names two registers: unroll the innermost loop, or make one loop of two', FUEL),
    budgets.TOO_GREAT: Reason(
        '',
        'state smaller intervals in the job', FUEL),
    'strips': Reason(
        'the count is stepped by a whole strip',
        'compile with -Os -fno-vectorize, or write the loop with intrinsics and `n -= vl`', FUEL),
    'joined': Reason(
        'two conditions are joined to one number ({setters}), which tells nothing of either',
        'test one of them within the loop, as by `if (!room) return;`, with asm volatile("") before it', FUEL),
    'beside': Reason(
        '{count} falls, but the loop does not end on it, so that nothing tells that it is not 0',
        'end the loop where it is 0', FUEL),
    'stepped': Reason(
        '{count} is stepped by {fall}, and nothing tells that it meets its end',
        'go on while `n >= {fall}`; or compile with -Os, or write the loop with intrinsics and `n -= vl`', FUEL),
    'unbounded': Reason(
        '{count} falls by {fall}, and nothing tells that it is not below that where a pass begins',
        'let the loop end on `n`, as it was passed, and test it before the first pass', FUEL),
    'rises': Reason(
        '{base} rises to its end, and a budget needs a number that falls',
        'count down (`for (; n; n--)`), and hide the count from the compiler with asm("" : "+r"(n)) where it turns it round', FUEL),
    'falls little': Reason(
        'nothing tells that {base} falls where it is shifted or cut by `&` ({setters})',
        'let a count fall beside it, as `for (k = 32; k; k--)`, and test the other within the loop', FUEL),
    'grows': Reason(
        '{base} is made anew on each way round by {setters}, and a budget needs a number that falls',
        'let a count fall beside it, as `for (k = 32; k; k--)`', FUEL),
    'data': Reason(
        'the loop ends on data out of memory ({setters}), and no count bounds it',
        'let a count fall beside it, and end the loop where it is 0', FUEL),
    'count kept': Reason(
        'what the loop ends on is kept on the stack ({setters}), and memory is not tracked',
        'let fewer numbers live at once, so that it stays in a register', FUEL),
    'endless': Reason(
        'no branch leads out of this loop',
        'end it where a count is 0', FUEL),
    'calls': Reason(
        'a function is called again and again, or calls itself',
        'make it inline', FUEL),
    'loop': Reason(
        'no number falls on each way round',
        'count down, `n -= vl` or `n--`, with `n` compared to 0', FUEL),
}


def told(kind, **found):
    """The lines of an obstacle: why it is one and what helps, and what guards would do."""
    reason = REASONS[kind]
    yield ': '.join(part.format(**found) for part in (reason.why, reason.helps) if part)
    yield reason.guard.format(**{'regions': 'each buffer', **found})
