"""Finite searches: slots with values, and constraints on them."""
from collections import namedtuple

# `slots` is the number of values of each slot. A constraint has the slots that it uses and a test of values for all slots.
Constraint = namedtuple("Constraint", "slots test")


def first_solution(slots, constraints, budget):
    """The first values that meet all constraints, False where there are none, and True where as many minimal refuted
    prefixes as the budget come before."""
    count = 0
    for prefix, refuted in prefixes(slots, constraints, ()):
        if refuted:
            count += 1
            if count >= budget:
                return True
        elif len(prefix) == len(slots):
            return prefix
    return False


def prefixes(slots, constraints, prefix):
    """The prefixes in lexicographic order, each with whether a constraint refutes it; none behind a refuted one."""
    refuted = any(all(slot < len(prefix) for slot in c.slots) and not c.test(prefix) for c in constraints)
    yield prefix, refuted
    if not refuted and len(prefix) < len(slots):
        for value in range(slots[len(prefix)]):
            yield from prefixes(slots, constraints, prefix + (value,))
