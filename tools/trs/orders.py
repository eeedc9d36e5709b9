"""The orders of certificates, given by tables of entries: what they say of two terms, and how they see a term."""
from collections import Counter

from plain_prover.terms import is_variable, variables

from .notation import symbol_text

GREATEST = 2**63 - 1


class TooBig(Exception):
    """A value of some subterm is above 2^63 - 1."""


def lexicographically(greater, ss, ts):
    """Whether the first parts that differ are greater."""
    for s, t in zip(ss, ts):
        if s != t:
            return greater(s, t)
    return False


def polynomial_text(constant, factors):
    """A linear polynomial; the factors are pairs of a number and what it stands before."""
    parts = [what if factor == 1 else f"{factor} {what}" for factor, what in factors if factor]
    if constant or not parts:
        parts.append(str(constant))
    return " + ".join(parts)


class LinearOrder:
    """Linear interpretations: `table[f]` is the list of coefficients of a symbol. (Section 5.3.)"""

    name = "linear interpretation"

    def __init__(self, table):
        self.table, self.known = table, {}

    def polynomial(self, term):
        """The constant, and the coefficient of each variable."""
        if is_variable(term):
            return 0, {term: 1}
        if term not in self.known:
            self.known[term] = self.polynomial_of_symbol(term)
        return self.known[term]

    def polynomial_of_symbol(self, term):
        constant, coefficients = self.table[term[0]][0], Counter()
        for factor, part in zip(self.table[term[0]][1:], term[1:]):
            own, more = self.polynomial(part)
            constant += factor * own
            for variable, count in more.items():
                coefficients[variable] += factor * count
        if max(constant, *coefficients.values(), 0) > GREATEST:
            raise TooBig()
        return constant, coefficients

    def weak(self, s, t):
        (c, p), (d, q) = self.polynomial(s), self.polynomial(t)
        return c >= d and all(p.get(v, 0) >= count for v, count in q.items())

    def strict(self, s, t):
        return self.weak(s, t) and self.polynomial(s)[0] > self.polynomial(t)[0]

    def seen(self, notation, term):
        constant, coefficients = self.polynomial(term)
        return polynomial_text(constant, [(coefficients[v], notation.variable(v)) for v in sorted(coefficients)])

    def entry_text(self, symbol, names):
        """The polynomial of a symbol."""
        constant, *factors = self.table[symbol]
        head = f"[{symbol_text(symbol)}]" + (f"({', '.join(names)})" if names else "")
        return f"{head} = {polynomial_text(constant, zip(factors, names))}"


class PathOrder:
    """Lexicographic path orders with argument filters: `table[f]` is the rank and the filter. (Section 5.4.)"""

    name = "lexicographic path order"

    def __init__(self, table):
        self.table, self.answers = table, {}

    def filtered(self, term):
        if is_variable(term):
            return term
        kept = self.table[term[0]][1]
        if isinstance(kept, int):
            return self.filtered(term[kept])
        return (term[0],) + tuple(self.filtered(term[i]) for i in kept)

    def weak(self, s, t):
        s, t = self.filtered(s), self.filtered(t)
        return s == t or self.greater(s, t)

    def strict(self, s, t):
        return self.greater(self.filtered(s), self.filtered(t))

    def greater(self, s, t):
        """On filtered terms. Answers are kept, so that the time is no more than the product of the sizes asks for."""
        if (s, t) not in self.answers:
            self.answers[s, t] = self.is_greater(s, t)
        return self.answers[s, t]

    def is_greater(self, s, t):
        if is_variable(s):
            return False
        if any(part == t or self.greater(part, t) for part in s[1:]):
            return True
        if is_variable(t):
            return False
        if s[0] == t[0]:
            is_above = lexicographically(self.greater, s[1:], t[1:])
        else:
            is_above = self.table[s[0]][0] > self.table[t[0]][0]
        return is_above and all(self.greater(s, part) for part in t[1:])

    def seen(self, notation, term):
        return notation.term(self.filtered(term))

    def entry_text(self, symbol, names):
        rank, kept = self.table[symbol]
        text = f"{symbol_text(symbol)}: rank {rank}"
        if isinstance(kept, int):
            return f"{text}, counts as its argument {kept}"
        if len(kept) == len(names):
            return text
        return text + (", keeps no argument" if not kept else f", keeps the arguments {', '.join(map(str, kept))}")

    def precedence(self):
        """The symbols by falling ranks."""
        ranks = sorted({rank for rank, kept in self.table.values() if not isinstance(kept, int)}, reverse=True)
        of = lambda rank: [symbol_text(f) for f, (r, kept) in self.table.items() if r == rank and not isinstance(kept, int)]
        return " > ".join(", ".join(of(rank)) for rank in ranks)


class KnuthOrder:
    """Knuth-Bendix orders: `table[f]` is the weight and the rank. (Section 5.4.)"""

    name = "Knuth-Bendix order"

    def __init__(self, table):
        self.table, self.known = table, {}

    def weigh(self, term):
        if is_variable(term):
            return 1
        if term not in self.known:
            weight = self.table[term[0]][0] + sum(self.weigh(part) for part in term[1:])
            if weight > GREATEST:
                raise TooBig()
            self.known[term] = weight
        return self.known[term]

    def weak(self, s, t):
        self.weigh(s), self.weigh(t)
        return s == t or self.strict(s, t)

    def strict(self, s, t):
        v, w = self.weigh(s), self.weigh(t)
        if Counter(variables(t)) - Counter(variables(s)):
            return False
        if v != w or is_variable(s):
            return v > w
        if is_variable(t):
            return is_tower(s, t)
        if s[0] != t[0]:
            return self.table[s[0]][1] > self.table[t[0]][1]
        return lexicographically(self.strict, s[1:], t[1:])

    def seen(self, notation, term):
        return f"{notation.term(term)} of weight {self.weigh(term)}"

    def entry_text(self, symbol, names):
        weight, rank = self.table[symbol]
        return f"{symbol_text(symbol)}: weight {weight}, rank {rank}"


def is_tower(s, variable):
    """Whether one symbol with one argument stands, once or more, around the variable."""
    root = s[0]
    while not is_variable(s) and s[0] == root and len(s) == 2:
        s = s[1]
    return s == variable
