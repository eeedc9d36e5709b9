"""Critical peaks, dependency pairs and their estimated graph, and forward closures."""
from collections import namedtuple

from .rewriting import Fresh, Rule, Step, cap, defined, follows, unify_apart
from .terms import apply, depth, in_order, is_instance, put, renamed_apart, size, subterms, symbol_places, unify, variables, within_limits

Peak = namedtuple("Peak", "outer place inner top left right")
Closure = namedtuple("Closure", "left right path")

MOST_NODES_OF_PEAKS = 4_194_304


def critical_peaks(rules):
    """By outer rule, place in preorder and inner rule; None where they pass a limit. (Section 6.2.)"""
    found, nodes = [], 0
    for outer, rule in enumerate(rules):
        for place, part in symbol_places(rule.left):
            for inner, other in enumerate(rules):
                if outer == inner and not place:
                    continue
                apart = renamed_apart(other.left, variables(rule.left))
                unifier = unify(part, apply(apart, other.left))
                if unifier is None:
                    continue
                left = put(rule.left, place, apply(apart, other.right))
                terms = in_order(*(apply(unifier, term) for term in (rule.left, left, rule.right)))
                nodes += sum(size(term) for term in terms)
                if not all(within_limits(term) for term in terms) or nodes > MOST_NODES_OF_PEAKS:
                    return None
                found.append(Peak(outer, place, inner, *terms))
    return found


def mark(term):
    """The term with its root marked."""
    return (("mark", term[0]),) + term[1:]


def dependency_pairs(rules):
    """By rules, and by the places of the right side in preorder. (Arts and Giesl, 2000.)"""
    roots = defined(rules)
    return [Rule(mark(rule.left), mark(part)) for rule in rules for _, part in symbol_places(rule.right) if part[0] in roots]


def has_edge(rules, pair, other):
    fresh = Fresh(1 + max(variables(pair.left) + variables(pair.right), default=-1))
    right = (pair.right[0],) + tuple(cap(rules, part, fresh) for part in pair.right[1:])
    return unify_apart(right, other.left) is not None


def components(rules, pairs, numbers):
    """The groups of pairs that lie on cycles and the single pairs, as lists with a word. Next comes always, of those with no
    edge from a remaining other one, the one with the least pair."""
    edges = {m: {n for n in numbers if has_edge(rules, pairs[m], pairs[n])} for m in numbers}
    reached = {m: reached_from(edges, m) for m in numbers}
    items = []
    for m in numbers:
        if m not in reached[m]:
            items.append(("single", [m]))
        elif not any(m in members for _, members in items):
            items.append(("group", [n for n in numbers if n in reached[m] and m in reached[n]]))
    ordered = []
    while items:
        ready = [item for item in items if not any(edges[m] & set(item[1]) for other in items if other is not item for m in other[1])]
        ordered.append(min(ready, key=lambda item: item[1][0]))
        items.remove(ordered[-1])
    return ordered


def reached_from(edges, start):
    """The pairs to which a path of one edge or more leads."""
    found, waiting = set(), list(edges[start])
    while waiting:
        n = waiting.pop()
        if n not in found:
            found.add(n)
            waiting += edges[n]
    return found


def first_loop(rules, budget):
    """The first forward closure that loops with its place, or whether the budget was spent. (Lankford and Musser, 1978.)"""
    closures, attempts = [Closure(rule.left, rule.right, (Step((), k),)) for k, rule in enumerate(rules)], 0
    for closure in closures:
        if (place := loops(rules, closure)) is not None:
            return closure, place
    for closure in closures:
        for place, part in symbol_places(closure.right):
            for k, rule in enumerate(rules):
                if attempts >= budget:
                    return True
                attempts += 1
                longer = narrowed(closure, place, part, k, rule)
                if longer is not None:
                    closures.append(longer)
                    if (found := loops(rules, longer)) is not None:
                        return longer, found
    return attempts >= budget


def narrowed(closure, place, part, k, rule):
    apart = renamed_apart(rule.left, variables(closure.left) + variables(closure.right))
    unifier = unify(part, apply(apart, rule.left))
    if unifier is None:
        return None
    left, right = in_order(apply(unifier, closure.left), apply(unifier, put(closure.right, place, apply(apart, rule.right))))
    if any(size(side) > 256 or depth(side) > 1_024 for side in (left, right)):
        return None
    return Closure(left, right, closure.path + (Step(place, k),))


def loops(rules, closure):
    """The first place of the right side at which an instance of the left side stands, where the path runs."""
    place = next((place for place, part in subterms(closure.right) if is_instance(closure.left, part)), None)
    if place is None or follows(rules, closure.left, closure.path) is None:
        return None
    return place


