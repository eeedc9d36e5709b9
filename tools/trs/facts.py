"""What follows from a system: its dependency pairs and their graph, its critical peaks, and caps of terms."""
from collections import defaultdict, namedtuple
from functools import cached_property

from plain_prover.overlaps import mark
from plain_prover.rewriting import Fresh, cap, defined
from plain_prover.terms import in_order, is_linear, put, symbol_places, symbols, variables

from .notation import Notation
from .unifying import constants, shifted, unified

MOST_NODES = 65_536
GREATEST_DEPTH = 1_024
MOST_NODES_OF_PEAKS = 4_194_304

Pair = namedtuple("Pair", "left right rule place")

TOO_LARGE, TOO_MANY = 24, 25


class Peak:
    """A critical peak: its rules and its place, and its terms, which are made where they are asked for."""

    def __init__(self, outer, place, inner, unifier, sides):
        self.outer, self.place, self.inner, self.unifier, self.sides = outer, place, inner, unifier, sides

    @cached_property
    def terms(self):
        return in_order(*(self.unifier.instance(side) for side in self.sides))

    @property
    def top(self):
        return self.terms[0]

    @property
    def left(self):
        return self.terms[1]

    @property
    def right(self):
        return self.terms[2]


class Facts:
    """A problem, and what is made of it once where it is asked for."""

    def __init__(self, problem):
        self.problem, self.system, self.rules = problem, problem.system, problem.system.rules

    @cached_property
    def defined(self):
        return defined(self.rules)

    @cached_property
    def rules_by_root(self):
        found = defaultdict(list)
        for number, rule in enumerate(self.rules):
            found[rule.left[0]].append((number, rule))
        return found

    def rules_for(self, terms):
        """The rules that may apply somewhere in instances of what stands in these terms."""
        roots = {f for term in terms for f in symbols(term)}
        return [rule for rule in self.rules if rule.left[0] in roots]

    # ---- names

    def notation_of_rule(self, number):
        return Notation(self.system, self.problem.variables[number])

    def rule_text(self, number):
        return self.notation_of_rule(number).arrow(*self.rules[number])

    def pair_text(self, number):
        pair = self.pairs[number]
        return self.notation_of_rule(pair.rule).arrow(pair.left, pair.right)

    # ---- dependency pairs

    @cached_property
    def pairs(self):
        """By rules, and by the places of the right side in preorder. (Arts and Giesl, 2000.)"""
        return [
            Pair(mark(rule.left), mark(part), number, place)
            for number, rule in enumerate(self.rules)
            for place, part in symbol_places(rule.right)
            if part[0] in self.defined
        ]

    @cached_property
    def capped_rights(self):
        """For each pair the cap of its right side, with the marked root kept."""
        return [self.capped_pair(pair) for pair in self.pairs]

    def capped_pair(self, pair):
        fresh = Fresh(1 + max(variables(pair.left), default=-1))
        rules = self.rules_for([pair.right])
        return (pair.right[0],) + tuple(cap(rules, part, fresh) for part in pair.right[1:])

    def has_edge(self, number, other):
        """Whether the one pair may be followed by the other one: the cap unifies with its left side."""
        capped, left = self.capped_rights[number], self.pairs[other].left
        if capped[0] != left[0]:
            return False
        return unified(capped, shifted(left, 1 + max(variables(capped), default=-1))) is not None

    def edges(self, numbers):
        """For each of these pairs those of them that may follow."""
        by_root = defaultdict(list)
        for number in numbers:
            by_root[self.pairs[number].left[0]].append(number)
        return {m: [n for n in by_root[self.pairs[m].right[0]] if self.has_edge(m, n)] for m in numbers}

    # ---- critical peaks

    @cached_property
    def peaks(self):
        """The critical peaks in order, and the number of the limit that one passes, if any. (Section 6.2.)"""
        found, nodes = [], 0
        for outer, rule in enumerate(self.rules):
            for place, part in symbol_places(rule.left):
                for inner, other in self.rules_by_root[part[0]]:
                    if outer == inner and not place:
                        continue
                    by = 1 + max(variables(rule.left), default=-1)
                    unifier = unified(part, shifted(other.left, by))
                    if unifier is None:
                        continue
                    sides = (rule.left, put(rule.left, place, shifted(other.right, by)), rule.right)
                    measures = [unifier.measure(side) for side in sides]
                    if any(size > MOST_NODES or depth > GREATEST_DEPTH for size, depth in measures):
                        return found, TOO_LARGE
                    nodes += sum(size for size, _ in measures)
                    if nodes > MOST_NODES_OF_PEAKS:
                        return found, TOO_MANY
                    found.append(Peak(outer, place, inner, unifier, sides))
        return found, None

    # ---- other

    def first_not_linear(self, sides):
        """The least rule with a side of these ("left", "right") that has a variable twice."""
        return next((k for k, rule in enumerate(self.rules) if not all(is_linear(getattr(rule, side)) for side in sides)), None)

    def caps(self, s, t):
        """The caps of two terms, where the variables of both count as constants."""
        fixed = set(variables(s) + variables(t))
        fresh = Fresh(1 + max(fixed, default=-1))
        rules = self.rules_for([s, t])
        return cap(rules, s, fresh, fixed), cap(rules, t, fresh, fixed), fixed

    def are_apart(self, s, t):
        first, second, fixed = self.caps(s, t)
        return unified(constants(first, fixed), constants(second, fixed)) is None

    def usable_rules(self, numbers):
        """The numbers of the rules that are usable for these pairs. (Hirokawa and Middeldorp, 2007.)"""
        waiting = [f for n in numbers for part in self.pairs[n].right[1:] for f in symbols(part) if f in self.defined]
        usable = set(waiting)
        while waiting:
            for _, rule in self.rules_by_root[waiting.pop()]:
                more = {f for f in symbols(rule.right) if f in self.defined} - usable
                usable |= more
                waiting += more
        return [number for number, rule in enumerate(self.rules) if rule.left[0] in usable]
