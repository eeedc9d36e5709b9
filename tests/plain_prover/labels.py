"""Ranks of the rules by which each critical peak is decreasing. (Van Oostrom, Confluence by decreasing diagrams, 2008.)"""
from .rewriting import paths
from .search import Constraint, first_solution


def fits(ranks, a, b, path):
    """Steps with ranks below a, then at most one of rank b, then steps with ranks below a or below b."""
    found = [ranks[step.rule] for step in path]
    while found and found[0] < a:
        found.pop(0)
    if found and found[0] == b:
        found.pop(0)
    return all(rank < a or rank < b for rank in found)


def closing(ranks, peak, lefts, rights):
    """The first two paths to one term whose ranks fit."""
    a, b = ranks[peak.inner], ranks[peak.outer]
    for end, left in lefts:
        if fits(ranks, a, b, left):
            for other, right in rights:
                if end == other and fits(ranks, b, a, right):
                    return left, right
    return None


def first_ranks(rules, peaks, budget):
    """The first ranks with two paths for each peak, or how the search fails."""
    listed = [(peak, paths(rules, peak.left), paths(rules, peak.right)) for peak in peaks]
    constraints = []
    for peak, lefts, rights in listed:
        used = {peak.inner, peak.outer} | {step.rule for _, path in lefts + rights for step in path}
        # Of a prefix only the ranks that are used are looked at.
        constraints.append(Constraint(used, lambda v, of=(peak, lefts, rights): closing(v, *of) is not None))
    found = first_solution([4] * len(rules), constraints, budget)
    return found if isinstance(found, bool) else (found, [closing(found, *of) for of in listed])
