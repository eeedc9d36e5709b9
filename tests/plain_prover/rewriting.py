"""Steps, what they reach, and what no step can change."""
from collections import namedtuple

from .terms import apply, at, is_variable, match, put, renamed_apart, size, subterms, symbols, unify, variables, within_limits

Rule = namedtuple("Rule", "left right")
System = namedtuple("System", "names arities rules")
Step = namedtuple("Step", "place rule")


def defined(rules):
    return {rule.left[0] for rule in rules}


def redexes(rules, term):
    """By places in preorder, and at one place by the numbers of the rules."""
    return [Step(place, k) for place, part in subterms(term) for k, rule in enumerate(rules) if match(rule.left, part) is not None]


def reduct(rules, term, step):
    rule = rules[step.rule]
    return put(term, step.place, apply(match(rule.left, at(term, step.place)), rule.right))


def is_normal(rules, term):
    return not redexes(rules, term)


def reach(rules, start, steps, count, nodes):
    """The terms that the start reaches, each once with the first path to it, level by level."""
    listed, known = [(start, ())], {start}
    for term, path in listed:
        if len(path) >= steps:
            break
        for step in redexes(rules, term):
            if len(listed) >= max(count, 1):
                return listed
            after = reduct(rules, term, step)
            if after not in known and size(after) <= nodes and within_limits(after):
                listed.append((after, path + (step,)))
                known.add(after)
    return listed


def paths(rules, start):
    """The first 256 paths of at most 4 steps; paths to one term all count."""
    listed = [(start, ())]
    for term, path in listed:
        if len(path) >= 4 or len(listed) >= 256:
            break
        for step in redexes(rules, term):
            after = reduct(rules, term, step)
            if size(after) <= 4_096 and within_limits(after):
                listed.append((after, path + (step,)))
    return listed[:256]


def follows(rules, start, path):
    """The end of the path, or None where a term on the way passes a limit."""
    for step in path:
        start = reduct(rules, start, step)
        if not within_limits(start):
            return None
    return start


class Fresh:
    """Numbers for variables that occur nowhere else."""

    def __init__(self, first):
        self.next = first

    def variable(self):
        self.next += 1
        return self.next - 1


def cap(rules, term, fresh, fixed=()):
    """What stays of the term whatever steps are made in its instances: a part that may be rewritten is a variable of its
    own. The fixed variables stay."""
    if is_variable(term):
        return term if term in fixed else fresh.variable()
    whole = (term[0],) + tuple(cap(rules, part, fresh, fixed) for part in term[1:])
    return fresh.variable() if meets_left_side(rules, whole, fixed) else whole


def meets_left_side(rules, term, fixed):
    return any(unify_apart(constants(fixed, term), rule.left) is not None for rule in rules)


def unify_apart(term, other):
    """A most general unifier of the term and the other one, renamed apart."""
    return unify(term, apply(renamed_apart(other, variables(term)), other))


def constants(fixed, term):
    """The term with each fixed variable as a constant of its own."""
    return apply({v: (("constant", v),) for v in fixed}, term)


def are_apart(rules, s, t):
    """The caps do not unify, where the variables of both terms count as constants."""
    fixed = set(variables(s) + variables(t))
    fresh = Fresh(1 + max(fixed, default=-1))
    first, second = cap(rules, s, fresh, fixed), cap(rules, t, fresh, fixed)
    return unify(constants(fixed, first), constants(fixed, second)) is None


def symbols_of(terms):
    return {f for term in terms for f in symbols(term)}
