"""Ranks of rules by which critical peaks are decreasing, as constraints for z3. (Van Oostrom, 2008; Hirokawa and Middeldorp,
Decreasing diagrams and relative termination, 2011.)"""
from plain_prover.terms import size

from .reach_search import reducts
from .peak_steps import fits
from .solver import Z3 as z3
from .solver import model_of

LONGEST_PATH = 6
MOST_PATHS = 400
MOST_NODES = 400


def paths_from(facts, start):
    """The first paths from a term, by their length."""
    listed = [(start, ())]
    for term, path in listed:
        if len(path) >= LONGEST_PATH or len(listed) >= MOST_PATHS:
            break
        listed += [(after, path + (step,)) for step, after in reducts(facts, term) if size(after) <= MOST_NODES]
    return listed[:MOST_PATHS]


def fitting(rank, low, once, labels):
    """The formula that labels fit: some below `low`, at most one `once`, then each below one of the two."""
    is_low = [rank[k] < low for k in labels]
    is_either = [z3.Or(rank[k] < low, rank[k] < once) for k in labels]
    cases = []
    for cut in range(len(labels) + 1):
        cases.append(z3.And(*is_low[:cut], *is_either[cut:]))
        if cut < len(labels):
            cases.append(z3.And(*is_low[:cut], rank[labels[cut]] == once, *is_either[cut + 1:]))
    return z3.Or(*cases)


def decreasing(rank, a, b, words, clock):
    """For each pair of paths, as lists of rules, the formula that both fit."""
    for left, right in words:
        clock.check()
        yield z3.And(fitting(rank, a, b, left), fitting(rank, b, a, right))


def labelled(facts, clock, most_seconds):
    """The ranks of the rules, and for each critical peak two paths; None where none are found."""
    peaks, limit = facts.peaks
    if z3 is None or limit is not None or facts.first_not_linear(("left", "right")) is not None:
        return None
    solver = z3.SolverFor("QF_IDL")
    rank = [z3.Int(f"rank {k}") for k in range(len(facts.rules))]
    solver.add(*(unknown >= 0 for unknown in rank))
    options = []
    for peak in peaks:
        clock.check()
        options.append(meetings(facts, peak))
        a, b = rank[peak.inner], rank[peak.outer]
        words = {tuple(tuple(step.rule for step in path) for path in pair) for pair in options[-1]}
        solver.add(z3.Or(*decreasing(rank, a, b, words, clock)))
    model = model_of(solver, clock, most_seconds)
    if model is None:
        return None
    ranks = [model.eval(unknown, model_completion=True).as_long() for unknown in rank]
    return ranks, [chosen(ranks, peak, pairs) for peak, pairs in zip(peaks, options)]


def meetings(facts, peak):
    """Pairs of paths from both sides of a peak to one term, the short ones first."""
    rights = {}
    for end, path in paths_from(facts, peak.right):
        rights.setdefault(end, []).append(path)
    return [(left, right) for end, left in paths_from(facts, peak.left) for right in rights.get(end, ())][:2_000]


def chosen(ranks, peak, pairs):
    """The first two paths that fit."""
    a, b = ranks[peak.inner], ranks[peak.outer]
    labels = lambda path: [ranks[step.rule] for step in path]
    return next(pair for pair in pairs if fits(labels(pair[0]), a, b) and fits(labels(pair[1]), b, a))
