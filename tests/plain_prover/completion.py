"""Completion of equations by a path order that keeps all arguments. (Knuth and Bendix, 1970; section 7.1.) No rule is dropped
or reduced. Each rewrite step and each new rule is one unit."""
from .orders import Path
from .overlaps import critical_peaks
from .rewriting import Rule, System, redexes, reduct
from .terms import depth, in_order, size, within_limits
from .text import member, problem_text, term_text

MOST_RULES = 4_095
MOST_NODES_OF_RULES = 65_536
DEEPEST_SIDE = 256


class Ended(Exception):
    """How a run ends that gives no system: its line."""


class KeepingPath(Path):
    """The order, which remembers what it compared."""

    def __init__(self, system):
        super().__init__(system)
        self.compared = {}

    def greater(self, table, s, t):
        if (s, t) not in self.compared:
            self.compared[s, t] = super().greater(table, s, t)
        return self.compared[s, t]


class Completion:
    """A run on its way: the rules so far, and the units that are left."""

    def __init__(self, equations, ranks, budget):
        self.equations, self.rules, self.left = equations, [], budget
        self.path, self.ranks = KeepingPath(equations), {(f, 1): rank for f, rank in ranks.items()}

    def greater(self, s, t):
        return self.path.greater(self.ranks, s, t)

    def spend(self):
        if self.left == 0:
            raise Ended("SPENT")
        self.left -= 1

    def normal_form(self, term):
        while found := redexes(self.rules, term):
            self.spend()
            term = reduct(self.rules, term, found[0])
            if not within_limits(term):
                raise Ended("LIMIT")
        return term

    def treat(self, left, right):
        """Whether the pair gives a rule."""
        s = self.normal_form(left)
        t = self.normal_form(right)
        if s == t:
            return False
        if self.greater(s, t):
            self.add(s, t)
        elif self.greater(t, s):
            self.add(t, s)
        else:
            _, s, t = in_order(("pair", s, t))[0]
            raise Ended(f"UNORIENTABLE {term_text(self.equations, s)} {term_text(self.equations, t)}")
        return True

    def add(self, greater, smaller):
        self.spend()
        self.rules.append(Rule(*in_order(greater, smaller)))
        nodes = sum(size(side) for rule in self.rules for side in rule)
        deepest = max(depth(side) for side in self.rules[-1])
        if len(self.rules) > MOST_RULES or nodes > MOST_NODES_OF_RULES or deepest > DEEPEST_SIDE:
            raise Ended("LIMIT")

    def run(self):
        for equation in self.equations.rules:
            self.treat(*equation)
        while self.finds_rule():
            pass

    def finds_rule(self):
        """Whether some critical peak gives a rule; the first that does."""
        peaks = critical_peaks(self.rules)
        if peaks is None:
            raise Ended("LIMIT")
        return any(self.treat(peak.left, peak.right) for peak in peaks)


def text_of_completion(equations, ranks, budget):
    """What is printed, and how many units are left."""
    completion = Completion(equations, ranks, budget)
    try:
        completion.run()
    except Ended as ending:
        return f"{ending}\n", completion.left
    return "COMPLETE\n" + problem_text(System(equations.names, equations.arities, completion.rules)), completion.left


def order_text(ranks):
    return member("order", *(member("sym", f, rank) for f, rank in ranks.items())) + "\n"
