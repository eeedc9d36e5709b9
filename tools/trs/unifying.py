"""Unification by classes of equal terms, which takes no exponential time and room, and the sizes of instances. (Baader and
Nipkow, section 4.8.)"""
from plain_prover.terms import apply, is_variable


class Unifier:
    """What makes two terms equal. Terms that must be equal lie in one class, which has a term that stands for it."""

    def __init__(self):
        self.classes, self.measures, self.instances = {}, {}, {}

    def find(self, term):
        while term in self.classes:
            term = self.classes[term]
        return term

    def measure(self, term):
        """The nodes and the depth of the instance of a term, or None where it would have to contain itself."""
        term = self.find(term)
        if term not in self.measures:
            self.measures[term] = None
            self.measures[term] = self.measure_of_symbol(term)
        return self.measures[term]

    def measure_of_symbol(self, term):
        if is_variable(term):
            return 1, 1
        parts = [self.measure(part) for part in term[1:]]
        if None in parts:
            return None
        return 1 + sum(size for size, _ in parts), 1 + max((depth for _, depth in parts), default=0)

    def instance(self, term):
        """The instance of a term, in which equal parts are shared."""
        term = self.find(term)
        if is_variable(term):
            return term
        if term not in self.instances:
            self.instances[term] = (term[0],) + tuple(self.instance(part) for part in term[1:])
        return self.instances[term]


def unified(s, t):
    """A most general unifier of two terms, or None where there is none."""
    found, waiting = Unifier(), [(s, t)]
    while waiting:
        s, t = (found.find(term) for term in waiting.pop())
        if s == t:
            continue
        if is_variable(t):
            s, t = t, s
        if not is_variable(s):
            if s[0] != t[0] or len(s) != len(t):
                return None
            waiting += zip(s[1:], t[1:])
        found.classes[s] = t
    is_finite = all(found.measure(term) for term in list(found.classes))
    return found if is_finite else None


def shifted(term, by):
    """The term with this number added to each of its variables."""
    if is_variable(term):
        return term + by
    return (term[0],) + tuple(shifted(part, by) for part in term[1:])


def constants(term, fixed):
    """The term with each fixed variable as a constant of its own."""
    return apply({v: (("constant", v),) for v in fixed}, term)
