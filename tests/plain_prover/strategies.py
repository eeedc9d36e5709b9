"""What each strategy answers to a problem: a step as a text with the problems that it leaves, or `none`, or `spent`."""
from . import labels, orders, overlaps
from .rewriting import Step, are_apart, defined, follows, is_normal, reach, redexes, reduct, symbols_of
from .terms import in_order, is_linear, is_variable, symbols, within_limits
from .text import entry, filter_text, join, member, path_text, place_text, steps_text, term_text

NONE, SPENT = "none", "spent"

STRATEGIES = {
    "sn": ["dp"],
    "dp": ["graph", "subterm", "poly", "lpo", "kbo", "usable"],
    "loop": ["loop"],
    "cr": ["parallel", "strong", "label"],
    "cr-newman": ["newman"],
    "fork": ["fork"],
    "unr": ["confluence"],
    "unr-newman": ["confluence"],
    "split": ["split"],
}


class Run:
    """A system and a budget; peaks and pairs are made once."""

    def __init__(self, system, budget):
        self.system, self.rules, self.budget = system, system.rules, budget
        self.pairs = overlaps.dependency_pairs(system.rules)
        self.peaks = overlaps.critical_peaks(system.rules)

    def answer(self, strategy, problem):
        return getattr(self, "by_" + strategy)(*problem[1:])

    def text(self, term):
        return term_text(self.system, term)

    # ---- termination

    def by_dp(self):
        return "(dp)", [("dp", tuple(range(len(self.pairs))))]

    def by_graph(self, numbers):
        items = overlaps.components(self.rules, self.pairs, numbers)
        if items == [("group", list(numbers))]:
            return NONE
        return member("graph", *(member(word, *members) for word, members in items)), [("dp", tuple(ms)) for word, ms in items if word == "group"]

    def by_subterm(self, numbers):
        found = orders.first_projection(self.system, self.of(numbers), self.budget)
        if isinstance(found, bool):
            return failed(found)
        places, is_strict = found
        return member("subterm", *(member(f[1], n) for f, n in places)), self.without(numbers, is_strict)

    def by_poly(self, numbers):
        return self.by_linear("poly", numbers, self.rules, [side for rule in self.rules for side in rule])

    def by_usable(self, numbers):
        rules = self.usable_rules(numbers)
        below = [part for pair in self.of(numbers) for side in pair for part in side[1:]]
        return self.by_linear("usable-poly", numbers, rules, [side for rule in rules for side in rule] + below)

    def by_linear(self, word, numbers, rules, terms):
        order = orders.Linear(self.system)
        coefficients = lambda table, f: [table[f, i] for i in range(order.arity(f) + 1)]
        return self.by_order(order, word, coefficients, numbers, rules, terms)

    def by_lpo(self, numbers):
        order = orders.Path(self.system)
        words = lambda table, f: [table[f, 1], filter_text(orders.filters(order.arity(f))[table[f, 0]])]
        return self.by_order(order, "lpo", words, numbers, self.rules, [side for rule in self.rules for side in rule])

    def by_kbo(self, numbers):
        order = orders.Knuth(self.system)
        words = lambda table, f: [order.weight(table, f), table[f, 1]]
        return self.by_order(order, "kbo", words, numbers, self.rules, [side for rule in self.rules for side in rule])

    def by_order(self, order, word, words, numbers, rules, terms):
        """The order of some family by which these rules and the pairs fall, over the symbols of the terms and the roots."""
        pairs = self.of(numbers)
        chosen = orders.needed_symbols(self.system, terms, pairs)
        table = orders.search(order, chosen, rules, pairs, self.budget)
        if isinstance(table, bool):
            return failed(table)
        entries = (entry(f, *words(table, f)) for f in chosen)
        return member(word, *entries), self.without(numbers, lambda pair: order.strict(table, *pair))

    def of(self, numbers):
        return [self.pairs[n] for n in numbers]

    def without(self, numbers, is_strict):
        """The problem of the pairs that stay, if there are any."""
        left = tuple(n for n in numbers if not is_strict(self.pairs[n]))
        return [("dp", left)] if left else []

    def usable_rules(self, numbers):
        """The rules of the symbols that the right sides need, directly or through rules. (Hirokawa and Middeldorp, 2007.)"""
        roots = defined(self.rules)
        usable = symbols_of([part for pair in self.of(numbers) for part in pair.right[1:]]) & roots
        while True:
            more = {f for rule in self.rules if rule.left[0] in usable for f in symbols(rule.right)} & roots
            if more <= usable:
                return [rule for rule in self.rules if rule.left[0] in usable]
            usable |= more

    def by_loop(self):
        found = overlaps.first_loop(self.rules, self.budget)
        if isinstance(found, bool):
            return failed(found)
        closure, place = found
        (start,) = in_order(closure.left)
        return member("loop", self.text(start), path_text(closure.path), place_text(place)), []

    # ---- confluence

    def by_newman(self):
        return self.on_peaks(self.join_of, lambda items: (member("newman", *items), [("sn",)]))

    def join_of(self, peak):
        lefts, rights = self.reached(peak.left), self.reached(peak.right)
        return next((join("join", path, rights[end]) for end, path in lefts.items() if end in rights), None)

    def by_strong(self):
        if not self.are_linear():
            return NONE
        return self.on_peaks(self.four_of, lambda items: (member("strong", *items), []))

    def four_of(self, peak):
        first, second = self.half(peak.left, peak.right), self.half(peak.right, peak.left)
        return first and second and join("pair", *first, *second)

    def half(self, start, other):
        """A path from the start to a term that the other one is, or reaches in one step, with that step."""
        near = {other: ()}
        for step in redexes(self.rules, other):
            after = reduct(self.rules, other, step)
            if within_limits(after):
                near.setdefault(after, (step,))
        return next(((path, near[end]) for end, path in self.reached(start).items() if end in near), None)

    def reached(self, term):
        return dict(reach(self.rules, term, 16, 256, 4_096))

    def by_parallel(self):
        if not all(is_linear(rule.left) for rule in self.rules):
            return NONE
        return self.on_peaks(self.closing_of, lambda items: (member("parallel", *items), []))

    def closing_of(self, peak):
        steps = self.parallel_step(peak.left, peak.right, ())
        if steps is None or follows(self.rules, peak.left, steps) is None:
            return None
        return member("par", *steps_text(steps))

    def parallel_step(self, s, t, place):
        """The steps of one parallel step from s to t, or None."""
        if s == t:
            return ()
        for step in redexes(self.rules, s):
            if not step.place and reduct(self.rules, s, step) == t:
                return (step._replace(place=place),)
        if is_variable(s) or is_variable(t) or s[0] != t[0]:
            return None
        steps = [self.parallel_step(a, b, place + (i,)) for i, (a, b) in enumerate(zip(s[1:], t[1:]), 1)]
        return None if None in steps else sum(steps, ())

    def by_label(self):
        if not self.are_linear() or self.peaks is None:
            return NONE
        found = labels.first_ranks(self.rules, self.peaks, self.budget)
        if isinstance(found, bool):
            return failed(found)
        ranks, items = found
        return member("label", member("ranks", *ranks), *(join("pair", *paths) for paths in items)), []

    def are_linear(self):
        return all(is_linear(side) for rule in self.rules for side in rule)

    def on_peaks(self, item_of, step_of):
        items = None if self.peaks is None else [item_of(peak) for peak in self.peaks]
        return NONE if items is None or None in items else step_of(items)

    def by_fork(self):
        return self.by_parted(lambda u, v: are_apart(self.rules, u, v))

    def by_split(self):
        return self.by_parted(lambda u, v: u != v and self.are_normal(u, v))

    def by_parted(self, are_parted):
        """At the first peak that has them, terms of both sides that never meet."""
        for peak in self.peaks or []:
            lefts, rights = (reach(self.rules, side, 8, 32, 4_096) for side in (peak.left, peak.right))
            for u, left in lefts:
                for v, right in rights:
                    if are_parted(u, v):
                        return self.fork(peak, left, right, self.are_normal(u, v)), []
        return NONE

    def fork(self, peak, left, right, is_normal):
        inner, outer = Step(peak.place, peak.inner), Step((), peak.outer)
        paths = path_text((inner,) + left), path_text((outer,) + right)
        return member("fork", self.text(peak.top), *paths, "normal" if is_normal else "apart")

    def are_normal(self, *terms):
        return all(is_normal(self.rules, term) for term in terms)


def failed(is_spent):
    return SPENT if is_spent else NONE
