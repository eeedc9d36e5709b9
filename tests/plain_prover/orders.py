"""The searches for orders. Each is over slots that are named by a symbol and a part, and its constraints are that rules
and pairs fall weakly, and some pair strictly."""
from collections import Counter

from .rewriting import symbols_of
from .search import Constraint, first_solution
from .terms import is_variable, subterms, symbols, variables


def is_marked(symbol):
    return isinstance(symbol, tuple)


def plain(symbol):
    return symbol[1] if is_marked(symbol) else symbol


def roots(system, pairs):
    """The marked roots of the sides, in the order of the symbols."""
    found = {side[0] for pair in pairs for side in pair}
    return sorted(found, key=lambda f: system.names.index(plain(f)))


def needed_symbols(system, terms, pairs):
    """Those of the terms in order, and behind them the marked roots."""
    found = symbols_of(terms)
    return [f for f in system.names if f in found] + roots(system, pairs)


def arity(system, symbol):
    return system.arities[plain(symbol)]


class Order:
    """A family of orders: the parts of a symbol with the numbers of their values, and what values say of two terms."""

    def __init__(self, system):
        self.arity = lambda symbol: arity(system, symbol)

    def own_constraints(self, slots, chosen):
        """Constraints beside those on rules and pairs, for these symbols."""
        return []


def search(order, chosen, rules, pairs, budget):
    """The values of each part of the symbols, or how the search fails."""
    slots = [(f, part) for f in chosen for part in range(len(order.parts(f)))]
    table = lambda prefix: dict(zip(slots, prefix))
    of = lambda terms: [i for i, (f, _) in enumerate(slots) if f in symbols_of(terms)]
    weak = [Constraint(of(falls), lambda v, falls=falls: order.weak(table(v), *falls)) for falls in rules + pairs]
    some_strict = Constraint(range(len(slots)), lambda v: any(order.strict(table(v), *pair) for pair in pairs))
    constraints = order.own_constraints(slots, chosen) + weak + [some_strict]
    found = first_solution([order.parts(f)[part] for f, part in slots], constraints, budget)
    return found if isinstance(found, bool) else table(found)


class Linear(Order):
    """Linear interpretations with coefficients 0 to 2. (Section 5.3.)"""

    def parts(self, symbol):
        return [3] * (self.arity(symbol) + 1)

    def polynomial(self, table, term):
        """The constant, and the coefficient of each variable."""
        if is_variable(term):
            return 0, Counter([term])
        constant, coefficients = table[term[0], 0], Counter()
        for i, part in enumerate(term[1:], 1):
            factor = table[term[0], i]
            own, more = self.polynomial(table, part)
            constant += factor * own
            for v, n in more.items():
                coefficients[v] += factor * n
        return constant, coefficients

    def weak(self, table, s, t):
        (c, p), (d, q) = self.polynomial(table, s), self.polynomial(table, t)
        return c >= d and all(p[v] >= n for v, n in q.items())

    def strict(self, table, s, t):
        return self.weak(table, s, t) and self.polynomial(table, s)[0] > self.polynomial(table, t)[0]


class Path(Order):
    """Lexicographic path orders with filters and ranks 0 to 7. (Section 5.4.)"""

    def parts(self, symbol):
        return [len(filters(self.arity(symbol))), 8]

    def filtered(self, table, term):
        if is_variable(term):
            return term
        kept = filters(len(term) - 1)[table[term[0], 0]]
        if isinstance(kept, int):
            return self.filtered(table, term[kept])
        return (term[0],) + tuple(self.filtered(table, term[i]) for i in kept)

    def weak(self, table, s, t):
        s, t = self.filtered(table, s), self.filtered(table, t)
        return s == t or self.greater(table, s, t)

    def strict(self, table, s, t):
        return self.greater(table, self.filtered(table, s), self.filtered(table, t))

    def greater(self, table, s, t):
        if is_variable(s):
            return False
        if any(part == t or self.greater(table, part, t) for part in s[1:]):
            return True
        if is_variable(t):
            return False
        if s[0] == t[0]:
            below = greater_lexicographically(lambda a, b: self.greater(table, a, b), s[1:], t[1:])
        else:
            below = table[s[0], 1] > table[t[0], 1]
        return below and all(self.greater(table, s, part) for part in t[1:])


def greater_lexicographically(greater, ss, ts):
    for s, t in zip(ss, ts):
        if s != t:
            return greater(s, t)
    return False


def filters(count):
    """A place to go to, or the places to keep, in the order in which they are tried."""
    places = tuple(range(1, count + 1))
    without = [places[: i - 1] + places[i:] for i in places] if count >= 2 else []
    return [places, *places, *without] + ([()] if count >= 1 else [])


class Knuth(Order):
    """Knuth-Bendix orders with weights 0 to 2 and ranks 0 to 7; a constant weighs 1 or 2. (Section 5.4.)"""

    def parts(self, symbol):
        return [3 if self.arity(symbol) else 2, 8]

    def weight(self, table, symbol):
        return table[symbol, 0] + (0 if self.arity(symbol) else 1)

    def weigh(self, table, term):
        return sum(1 if is_variable(part) else self.weight(table, part[0]) for _, part in subterms(term))

    def own_constraints(self, slots, chosen):
        """Where a symbol with one argument weighs nothing, its rank is above those of all others."""
        both = lambda f, g: [i for i, (h, _) in enumerate(slots) if h in (f, g)]
        is_above = lambda f, g: lambda v: (t := dict(zip(slots, v)))[f, 0] > 0 or t[f, 1] > t[g, 1]
        return [Constraint(both(f, g), is_above(f, g)) for f in chosen if self.arity(f) == 1 for g in chosen if g != f]

    def weak(self, table, s, t):
        return s == t or self.strict(table, s, t)

    def strict(self, table, s, t):
        if Counter(variables(t)) - Counter(variables(s)):
            return False
        v, w = self.weigh(table, s), self.weigh(table, t)
        if v != w or is_variable(s):
            return v > w
        if is_variable(t):
            return set(symbols(s)) == {s[0]} and all(len(part) == 2 for _, part in subterms(s) if not is_variable(part))
        if s[0] != t[0]:
            return table[s[0], 1] > table[t[0], 1]
        return greater_lexicographically(lambda a, b: self.strict(table, a, b), s[1:], t[1:])


def first_projection(system, pairs, budget):
    """A place for each marked root by which the subterm criterion holds, or how the search fails."""
    slots = roots(system, pairs)
    both = lambda v, pair: [side[1 + v[slots.index(side[0])]] for side in pair]
    is_proper = lambda s, t: any(place and part == t for place, part in subterms(s))
    weak = lambda pair: lambda v: (lambda s, t: s == t or is_proper(s, t))(*both(v, pair))
    constraints = [Constraint([slots.index(side[0]) for side in pair], weak(pair)) for pair in pairs]
    constraints.append(Constraint(range(len(slots)), lambda v: any(is_proper(*both(v, pair)) for pair in pairs)))
    found = first_solution([arity(system, f) for f in slots], constraints, budget)
    return found if isinstance(found, bool) else (list(zip(slots, (n + 1 for n in found))), lambda pair: is_proper(*both(found, pair)))
