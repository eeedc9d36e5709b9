"""Proofs that no endless chain is made of some dependency pairs: the graph, the subterm criterion, and orders by z3."""
from itertools import product

from plain_prover.terms import subterms
from plain_prover.text import entry, filter_text, member

from . import order_search
from .orders import KnuthOrder, LinearOrder, PathOrder
from .pair_steps import needed_symbols, roots_of, sides
from .account import Node, PAIRS
from .solver import Z3

MOST_PROJECTIONS = 20_000

# Seconds for one search, in the first round and in the second one.
ROUNDS = (1.5, 20)


def components(edges, numbers):
    """The pairs on cycles as groups, the others as singles, in an order in which no edge leads back."""
    reached = {m: reached_from(edges, m) for m in numbers}
    items, placed = [], set()
    for m in numbers:
        if m not in placed:
            group = [n for n in numbers if n == m or (n in reached[m] and m in reached[n])]
            placed.update(group)
            items.append(("group" if m in reached[m] else "single", group))
    # An item that reaches another one reaches more: so it stands before it.
    return sorted(items, key=lambda item: -len(set(item[1]) | reached[item[1][0]]))


def reached_from(edges, start):
    found, waiting = set(), list(edges[start])
    while waiting:
        n = waiting.pop()
        if n not in found:
            found.add(n)
            waiting += edges[n]
    return found


class Proved:
    """A step with the proofs of the nodes that it leaves."""

    def __init__(self, method, left=()):
        self.method, self.left = method, list(left)


def steps_text(proof):
    """The steps of a proof, with their nodes numbered as the certifier does."""
    nodes, lines = [proof], []
    for number, node in enumerate(nodes):
        lines.append(member("step", number, node.method))
        nodes += node.left
    return lines


class PairSearch:
    """A search for one system."""

    def __init__(self, facts, clock):
        self.facts, self.clock = facts, clock
        self.arity = lambda f: facts.system.arities[f[1] if isinstance(f, tuple) else f]

    def terminating(self):
        """A proof for the node that asks for termination, or None."""
        numbers = tuple(range(len(self.facts.pairs)))
        below = self.proof(numbers)
        return below and Proved("(dp)", [below])

    def proof(self, numbers):
        """A proof for a node with these pairs: by the graph, then each group."""
        self.clock.check()
        items = components(self.facts.edges(numbers), numbers)
        if items == [("group", list(numbers))]:
            return self.proof_of_group(numbers)
        left = []
        for word, members in items:
            if word == "group":
                found = self.proof_of_group(tuple(members))
                if found is None:
                    return None
                left.append(found)
        return Proved(member("graph", *(member(word, *members) for word, members in items)), left)

    def proof_of_group(self, numbers):
        """Steps that remove pairs of a group; what stays is proved in turn."""
        for seconds in ROUNDS:
            for way in (self.by_projection, self.by_usable, self.by_path, self.by_knuth, self.by_linear):
                self.clock.check()
                found = way(numbers, seconds)
                if found:
                    method, removed = found
                    stay = tuple(n for n in numbers if n not in removed)
                    below = [self.proof(stay)] if stay else []
                    return None if None in below else Proved(method, below)
        return None

    def by_projection(self, numbers, seconds):
        """The subterm criterion."""
        roots = roots_of(self.facts, numbers)
        for count, places in enumerate(product(*(range(1, self.arity(f) + 1) for f in roots))):
            if count >= MOST_PROJECTIONS:
                return None
            place = dict(zip(roots, places))
            removed = self.projected(numbers, place)
            if removed:
                return member("subterm", *(member(f[1], place[f]) for f in roots)), removed
        return None

    def projected(self, numbers, place):
        """The pairs that a projection removes, or None where one does not fall."""
        removed = []
        for n in numbers:
            s, t = (side[place[side[0]]] for side in sides(self.facts, n))
            if s != t:
                if not any(part == t for _, part in subterms(s)):
                    return None
                removed.append(n)
        return removed

    def by_usable(self, numbers, seconds):
        below = [part for n in numbers for side in sides(self.facts, n) for part in side[1:]]
        return self.by_order("usable-poly", numbers, self.facts.usable_rules(numbers), below, seconds)

    def by_linear(self, numbers, seconds):
        return self.by_order("poly", numbers, range(len(self.facts.rules)), [], seconds)

    def by_path(self, numbers, seconds):
        return self.by_order("lpo", numbers, range(len(self.facts.rules)), [], seconds)

    def by_knuth(self, numbers, seconds):
        return self.by_order("kbo", numbers, range(len(self.facts.rules)), [], seconds)

    def by_order(self, word, numbers, rules, below, seconds):
        if Z3 is None:
            return None
        symbols = needed_symbols(self.facts, Node(PAIRS, numbers), rules, below)
        pairs = [sides(self.facts, n) for n in numbers]
        family = self.family(word, len(symbols))
        table = order_search.found_table(family, symbols, [self.facts.rules[k] for k in rules], pairs, seconds)
        if table is None:
            return None
        order = ORDERS[word](table)
        removed = [n for n in numbers if order.strict(*sides(self.facts, n))]
        return (member(word, *(entry(f, *WORDS[word](table[f])) for f in symbols)), removed) if removed else None

    def family(self, word, count):
        if word == "lpo":
            return order_search.Path(self.arity, self.clock, count)
        return (order_search.Knuth if word == "kbo" else order_search.Linear)(self.arity, self.clock)


ORDERS = {"poly": LinearOrder, "usable-poly": LinearOrder, "lpo": PathOrder, "kbo": KnuthOrder}
WORDS = {
    "poly": lambda values: values, "usable-poly": lambda values: values, "kbo": lambda values: values,
    "lpo": lambda values: [values[0], filter_text(values[1])],
}
