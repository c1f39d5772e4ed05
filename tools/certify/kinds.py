"""What may be put into a kernel, as plain values, and why nothing more can be."""
from collections import namedtuple

import notes

NEVER_GIVEN = 1 | 1 << 2            # x0 and the stack pointer
COUNT = 'its count'                 # the zone of a test of a count
ORDER = (31, 30, 29, 28, 7, 6, 5, 27, 26, 25, 24, 23, 22, 21, 20, 19, 18, 9, 8, 4, 3, 17, 16, 15, 14, 13, 12, 1)

# A test before an access, at a node or on the ways into the loop of a head: that a register is at least `least` and at most `most`. low,
# high: which of both is tested. zone: what is accessed, by name.
Test = namedtuple('Test', 'key is_entering register least most low high zone')
# A test of a vector access: its node and zone, which ends of the zone the base is tested against, whether vl may be 0, a register that
# holds vl, and how far elements lie apart. most: what vl is at most, where the base is one known number; else None.
Strip = namedtuple('Strip', 'key zone low high is_empty length stride most', defaults=(None,))
# Where a pointer may stand before a loop and at its end, and how many rounds it may have.
End = namedtuple('End', 'zone least rounds most')
# What is told of a guard that may fail.
Told = namedtuple('Told', 'kind pc what')
# An access that is not proved: its node, the rule, and what is known before it.
Misfit = namedtuple('Misfit', 'key rule known pc')


class Stuck(notes.Trouble):
    """Nothing more can be put in, and why."""


class NoRegister(Stuck):
    """No register is left where one is needed."""
