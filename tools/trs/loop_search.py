"""Loops by narrowing: a closure is two terms with a path from the one to the other; it grows at its end (forwards) and at its
beginning (backwards). (Guttag, Kapur and Musser, On proving uniform termination and restricted termination, 1983.)"""
import heapq
from collections import namedtuple
from itertools import count

from plain_prover.rewriting import Step
from plain_prover.terms import depth, in_order, is_instance, is_variable, put, size, subterms, symbol_places, variables

from .path_steps import StepFault, run
from .unifying import shifted, unified

Closure = namedtuple("Closure", "left right path")
Loop = namedtuple("Loop", "start path place")

MOST_NODES = 60
GREATEST_DEPTH = 30
LONGEST_PATH = 60


class LoopSearch:
    def __init__(self, facts, clock):
        self.facts, self.rules, self.clock = facts, facts.rules, clock
        self.waiting, self.known, self.numbers = [], set(), count()

    def loop(self):
        """The first loop that is found, the small closures first; None where no closure is left."""
        for number, rule in enumerate(self.rules):
            found = self.add(Closure(*in_order(*rule), (Step((), number),)))
            if found:
                return found
        while self.waiting:
            closure = heapq.heappop(self.waiting)[-1]
            for longer in self.longer(closure):
                self.clock.check()
                found = self.add(longer)
                if found:
                    return found
        return None

    def add(self, closure):
        """Keeps a new closure, and answers a loop of it, if it has one."""
        if (closure.left, closure.right) in self.known or not is_small(closure):
            return None
        self.known.add((closure.left, closure.right))
        nodes = size(closure.left) + size(closure.right)
        heapq.heappush(self.waiting, (nodes + 2 * len(closure.path), next(self.numbers), closure))
        return self.loop_of(closure)

    def longer(self, closure):
        yield from self.forwards(closure)
        yield from self.backwards(closure)

    def forwards(self, closure):
        """A part of the right side is narrowed by a rule."""
        by = 1 + max(variables(closure.left) + variables(closure.right), default=-1)
        for place, part in symbol_places(closure.right):
            for number, rule in self.facts.rules_by_root[part[0]]:
                unifier = unified(part, shifted(rule.left, by))
                if unifier:
                    right = put(closure.right, place, shifted(rule.right, by))
                    yield from self.instance(unifier, closure.left, right, closure.path + (Step(place, number),))

    def backwards(self, closure):
        """A part of the left side is what a rule leads to."""
        by = 1 + max(variables(closure.left) + variables(closure.right), default=-1)
        for place, part in symbol_places(closure.left):
            for number, rule in enumerate(self.rules):
                unifier = unified(part, shifted(rule.right, by))
                if unifier:
                    left = put(closure.left, place, shifted(rule.left, by))
                    yield from self.instance(unifier, left, closure.right, (Step(place, number),) + closure.path)

    def instance(self, unifier, left, right, path):
        """The closure under a unifier, unless it is too large."""
        if all(is_within(unifier.measure(side)) for side in (left, right)):
            yield Closure(*in_order(unifier.instance(left), unifier.instance(right)), path)

    def loop_of(self, closure):
        """A loop, if an instance of the left side stands in the right one, or can be made to."""
        for place, part in subterms(closure.right):
            if is_instance(closure.left, part):
                return self.checked(Loop(closure.left, closure.path, place))
            if not is_variable(part) and part[0] == closure.left[0]:
                unifier = unified(closure.left, part)
                if unifier and is_within(unifier.measure(closure.left)):
                    return self.checked(Loop(*in_order(unifier.instance(closure.left)), closure.path, place))
        return None

    def checked(self, loop):
        """The loop, if its path runs."""
        try:
            run(self.rules, loop.start, loop.path)
            return loop
        except StepFault:
            return None


def is_within(measure):
    return measure is not None and measure[0] <= MOST_NODES and measure[1] <= GREATEST_DEPTH


def is_small(closure):
    return len(closure.path) <= LONGEST_PATH and all(size(side) <= MOST_NODES and depth(side) <= GREATEST_DEPTH for side in closure[:2])
