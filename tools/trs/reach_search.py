"""What terms reach: joins of two terms, and forks to two terms that are never joined. Terms wait by levels, as steps lead to
them, and small ones first."""
import heapq
from collections import namedtuple
from itertools import count, islice, product

from plain_prover.rewriting import Step
from plain_prover.terms import apply, match, put, size, subterms, symbol_places, variables

MOST_NODES = 400

Fork = namedtuple("Fork", "start left right test")


class Reach:
    """The terms that a start reaches, with the way to each; more of them where more is asked for."""

    def __init__(self, facts, start):
        self.facts, self.start = facts, start
        self.ways, self.normal_forms, self.numbers = {start: None}, [], count()
        self.waiting = [(0, 0, start)]

    def grow(self):
        """Goes on with one term; the terms that are new, or None where none waits."""
        if not self.waiting:
            return None
        steps, _, term = heapq.heappop(self.waiting)
        new, is_normal = [], True
        for step, after in reducts(self.facts, term):
            is_normal = False
            if after not in self.ways and size(after) <= MOST_NODES:
                self.ways[after] = (term, step)
                new.append(after)
                heapq.heappush(self.waiting, (steps + 1 + size(after) // 8, next(self.numbers) + 1, after))
        if is_normal:
            self.normal_forms.append(term)
        return new

    def path(self, term):
        """The steps that lead to a term."""
        found = []
        while self.ways[term] is not None:
            term, step = self.ways[term]
            found.append(step)
        return tuple(reversed(found))


def reducts(facts, term):
    """The steps of a term, with what each leads to."""
    for place, part in symbol_places(term):
        for number, rule in facts.rules_by_root.get(part[0], ()):
            found = match(rule.left, part)
            if found is not None:
                yield Step(place, number), put(term, place, apply(found, rule.right))


def joined(facts, left, right, clock, most_terms):
    """Two paths to one term, by growing from both sides in turn; None where none is found."""
    sides = [Reach(facts, left), Reach(facts, right)]
    if left == right:
        return (), ()
    for turn in range(most_terms):
        clock.check()
        side, other = sides[turn % 2], sides[1 - turn % 2]
        for term in side.grow() or ():
            if term in other.ways:
                return tuple(it.path(term) for it in sides)
        if not any(it.waiting for it in sides):
            return None
    return None


def fork_from(facts, start, clock, most_terms, wants_normal):
    """Two paths from a term to different normal forms, or else, unless these are wanted, to terms whose caps do not unify."""
    reach = Reach(facts, start)
    for _ in range(most_terms):
        clock.check()
        if reach.grow() is None:
            break
        if len(reach.normal_forms) > 1:
            return Fork(start, *map(reach.path, reach.normal_forms[:2]), "normal")
    return None if wants_normal else parted(facts, reach, clock)


def parted(facts, reach, clock):
    """Two of the first terms and of the last ones, and the normal forms, that are never joined."""
    terms = list(reach.ways)
    chosen = list(dict.fromkeys(reach.normal_forms + terms[:12] + terms[-12:]))
    for k, term in enumerate(chosen):
        for other in chosen[:k]:
            clock.check()
            if facts.are_apart(term, other):
                return Fork(reach.start, reach.path(term), reach.path(other), "apart")
    return None


def starts(facts, most):
    """Terms to fork from: the tops of critical peaks, then instances of left sides by small terms."""
    for peak in facts.peaks[0]:
        yield peak.top
    yield from islice(instances(facts), most)


def instances(facts):
    """Left sides with small terms in place of their variables, by the sizes of these."""
    terms = small_terms(facts)
    for most in (1, 2, 4, 8, 16, 32):
        for rule in facts.rules:
            names = list(dict.fromkeys(variables(rule.left)))
            for chosen in islice(product(terms[:most], repeat=len(names)), 200):
                yield apply(dict(zip(names, chosen)), rule.left)


def small_terms(facts):
    """Constants, those first that a rule rewrites, then symbols over them, and terms that stand in left sides."""
    arities = facts.system.arities
    constants = sorted(((f,) for f in arities if not arities[f]), key=lambda term: term[0] not in facts.defined)
    over = [(f,) + parts for f in arities if 0 < arities[f] <= 2 for parts in product(constants[:3], repeat=arities[f])]
    ground = [part for rule in facts.rules for side in rule for _, part in subterms(side) if not variables(part)]
    return list(dict.fromkeys([*constants, *ground, *over, 0]))
