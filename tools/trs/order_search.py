"""Orders for a problem of dependency pairs, as constraints for z3. Each family has unknowns for its symbols, says when terms
fall as a formula, and reads a table off a model. What is found is checked by the program's certifier, not here."""
from collections import Counter

from plain_prover.terms import is_variable, variables

from .orders import is_tower
from .solver import Z3 as z3
from .solver import model_of

# Coefficients 0 to 3; values of terms in so many bits.
BITS_OF_COEFFICIENT, BITS_OF_VALUE = 2, 20
GREATEST_WEIGHT = 31


def conjunction(parts):
    return z3.And(*parts) if parts else z3.BoolVal(True)


def disjunction(parts):
    return z3.Or(*parts) if parts else z3.BoolVal(False)


class Family:
    """Unknowns of symbols and formulas on terms, made where they are asked for, within a time."""

    def __init__(self, arity, clock):
        self.arity, self.clock, self.unknowns, self.known = arity, clock, {}, {}

    def unknown(self, symbol, part, make):
        if (symbol, part) not in self.unknowns:
            self.unknowns[symbol, part] = make(f"{part} of {symbol}")
        return self.unknowns[symbol, part]

    def once(self, key, make):
        """A formula that is made once."""
        self.clock.check()
        if key not in self.known:
            self.known[key] = make()
        return self.known[key]

    def side_conditions(self, symbols):
        return []


class Linear(Family):
    """Linear interpretations with coefficients 0 to 3, as numbers of bits."""

    def solver(self):
        return z3.SolverFor("QF_BV")

    def coefficient(self, symbol, i):
        more = BITS_OF_VALUE - BITS_OF_COEFFICIENT
        return self.unknown(symbol, i, lambda name: z3.ZeroExt(more, z3.BitVec(name, BITS_OF_COEFFICIENT)))

    def polynomial(self, term):
        if is_variable(term):
            return z3.BitVecVal(0, BITS_OF_VALUE), {term: z3.BitVecVal(1, BITS_OF_VALUE)}
        return self.once(term, lambda: self.polynomial_of_symbol(term))

    def polynomial_of_symbol(self, term):
        constant, found = self.coefficient(term[0], 0), {}
        for i, part in enumerate(term[1:], 1):
            factor = self.coefficient(term[0], i)
            own, more = self.polynomial(part)
            constant = constant + factor * own
            for v, n in more.items():
                found[v] = found[v] + factor * n if v in found else factor * n
        return constant, found

    def weak(self, s, t):
        (c, p), (d, q) = self.polynomial(s), self.polynomial(t)
        zero = z3.BitVecVal(0, BITS_OF_VALUE)
        return conjunction([z3.UGE(c, d)] + [z3.UGE(p.get(v, zero), n) for v, n in q.items()])

    def strict(self, s, t):
        return z3.And(self.weak(s, t), z3.UGT(self.polynomial(s)[0], self.polynomial(t)[0]))

    def values(self, model, symbol):
        return [model.eval(self.coefficient(symbol, i), model_completion=True).as_long() for i in range(self.arity(symbol) + 1)]


class Path(Family):
    """Lexicographic path orders with argument filters. (Codish and others, Solving partial order constraints, 2006.)"""

    def __init__(self, arity, clock, count):
        super().__init__(arity, clock)
        self.bits = max(3, count.bit_length() + 1)

    def solver(self):
        return z3.SolverFor("QF_BV")

    def rank(self, symbol):
        return self.unknown(symbol, "rank", lambda name: z3.BitVec(name, self.bits))

    def is_list(self, symbol):
        return self.unknown(symbol, "list", z3.Bool)

    def keeps(self, symbol, i):
        return self.unknown(symbol, i, z3.Bool)

    def side_conditions(self, symbols):
        """A symbol that is no list goes to one argument."""
        return [z3.Or(self.is_list(f), z3.PbEq([(self.keeps(f, i), 1) for i in range(1, self.arity(f) + 1)], 1))
                if self.arity(f) else self.is_list(f) for f in symbols]

    def weak(self, s, t):
        return z3.Or(self.equal(s, t), self.strict(s, t))

    def parts(self, term):
        return list(enumerate(term[1:], 1))

    def through(self, term, test):
        """That a term goes to an argument of which the test holds."""
        cases = [z3.And(self.keeps(term[0], i), test(part)) for i, part in self.parts(term)]
        return z3.And(z3.Not(self.is_list(term[0])), disjunction(cases))

    def equal(self, s, t):
        if is_variable(s):
            return z3.BoolVal(s == t) if is_variable(t) else self.through(t, lambda part: self.equal(s, part))
        return self.once(("=", s, t), lambda: z3.Or(
            self.through(s, lambda part: self.equal(part, t)), z3.And(self.is_list(s[0]), self.list_equals(s, t))))

    def list_equals(self, s, t):
        if is_variable(t):
            return z3.BoolVal(False)
        same = [z3.Implies(self.keeps(s[0], i), self.equal(a, b)) for (i, a), b in zip(self.parts(s), t[1:])]
        whole = z3.And(self.is_list(t[0]), conjunction(same)) if s[0] == t[0] else z3.BoolVal(False)
        return self.once(("list =", s, t), lambda: z3.Or(self.through(t, lambda part: self.list_equals(s, part)), whole))

    def strict(self, s, t):
        if is_variable(s):
            return z3.BoolVal(False)
        return self.once((">", s, t), lambda: z3.Or(
            self.through(s, lambda part: self.strict(part, t)), z3.And(self.is_list(s[0]), self.list_is_above(s, t))))

    def list_is_above(self, s, t):
        """That a term whose root is a list is above another term."""
        return self.once(("list >", s, t), lambda: self.list_is_above_by_cases(s, t))

    def list_is_above_by_cases(self, s, t):
        by_argument = [z3.And(self.keeps(s[0], i), self.weak(part, t)) for i, part in self.parts(s)]
        if is_variable(t):
            return disjunction(by_argument)
        above_all = conjunction([z3.Implies(self.keeps(t[0], j), self.list_is_above(s, part)) for j, part in self.parts(t)])
        by_root = self.lexicographically(s, t, 1) if s[0] == t[0] else z3.UGT(self.rank(s[0]), self.rank(t[0]))
        whole = z3.And(self.is_list(t[0]), by_root, above_all)
        return disjunction(by_argument + [self.through(t, lambda part: self.list_is_above(s, part)), whole])

    def lexicographically(self, s, t, i):
        if i >= len(s):
            return z3.BoolVal(False)
        rest = self.lexicographically(s, t, i + 1)
        here = z3.Or(self.strict(s[i], t[i]), z3.And(self.equal(s[i], t[i]), rest))
        return z3.If(self.keeps(s[0], i), here, rest)

    def values(self, model, symbol):
        is_true = lambda unknown: z3.is_true(model.eval(unknown, model_completion=True))
        kept = tuple(i for i in range(1, self.arity(symbol) + 1) if is_true(self.keeps(symbol, i)))
        rank = model.eval(self.rank(symbol), model_completion=True).as_long()
        return rank, (kept if is_true(self.is_list(symbol)) else kept[0])


class Knuth(Family):
    """Knuth-Bendix orders."""

    def solver(self):
        return z3.Solver()

    def weight(self, symbol):
        return self.unknown(symbol, "weight", z3.Int)

    def rank(self, symbol):
        return self.unknown(symbol, "rank", z3.Int)

    def side_conditions(self, symbols):
        found = []
        for f in symbols:
            found += [self.rank(f) >= 0, self.weight(f) >= (0 if self.arity(f) else 1), self.weight(f) <= GREATEST_WEIGHT]
            if self.arity(f) == 1:
                found += [z3.Or(self.weight(f) > 0, self.rank(f) > self.rank(g)) for g in symbols if g != f]
        return found

    def weigh(self, term):
        if is_variable(term):
            return z3.IntVal(1)
        return self.once(term, lambda: z3.Sum(self.weight(term[0]), *(self.weigh(part) for part in term[1:])))

    def weak(self, s, t):
        return z3.BoolVal(True) if s == t else self.strict(s, t)

    def strict(self, s, t):
        if is_variable(s) or Counter(variables(t)) - Counter(variables(s)):
            return z3.BoolVal(False)
        v, w = self.weigh(s), self.weigh(t)
        return self.once((s, t), lambda: z3.Or(v > w, z3.And(v == w, self.breaks_tie(s, t))))

    def breaks_tie(self, s, t):
        if is_variable(t):
            return z3.BoolVal(is_tower(s, t))
        if s[0] != t[0]:
            return self.rank(s[0]) > self.rank(t[0])
        first = next(((a, b) for a, b in zip(s[1:], t[1:]) if a != b), None)
        return self.strict(*first) if first else z3.BoolVal(False)

    def values(self, model, symbol):
        value = lambda unknown: model.eval(unknown, model_completion=True).as_long()
        return value(self.weight(symbol)), value(self.rank(symbol))


def found_table(family, symbols, rules, pairs, most_seconds):
    """A table by which the rules and the pairs fall weakly and some pair strictly; None where none is found."""
    solver = family.solver()
    solver.add(*family.side_conditions(symbols))
    for falls in [*rules, *pairs]:
        solver.add(family.weak(*falls))
    solver.add(disjunction([family.strict(*pair) for pair in pairs]))
    model = model_of(solver, family.clock, most_seconds)
    return model and {f: family.values(model, f) for f in symbols}

