"""Terms: a variable is a number, and a symbol with arguments is a tuple of its name and the arguments. (Baader and Nipkow,
chapter 3.)"""

MOST_NODES = 65_536
GREATEST_DEPTH = 1_024


def is_variable(term):
    return isinstance(term, int)


def size(term):
    return 1 if is_variable(term) else 1 + sum(size(part) for part in term[1:])


def depth(term):
    return 1 if is_variable(term) or len(term) == 1 else 1 + max(depth(part) for part in term[1:])


def within_limits(term):
    return size(term) <= MOST_NODES and depth(term) <= GREATEST_DEPTH


def variables(term):
    """The variables in the order of their occurrences, each as often as it occurs."""
    if is_variable(term):
        return [term]
    return [v for part in term[1:] for v in variables(part)]


def symbols(term):
    """The symbols in preorder, each as often as it occurs."""
    if is_variable(term):
        return []
    return [term[0]] + [f for part in term[1:] for f in symbols(part)]


def is_linear(term):
    found = variables(term)
    return len(found) == len(set(found))


def subterms(term, place=()):
    """The places in preorder, with what stands there."""
    yield place, term
    if not is_variable(term):
        for i, part in enumerate(term[1:], 1):
            yield from subterms(part, place + (i,))


def symbol_places(term):
    """The places that are no variables, in preorder, with what stands there."""
    return [(place, part) for place, part in subterms(term) if not is_variable(part)]


def at(term, place):
    for i in place:
        term = term[i]
    return term


def put(term, place, by):
    """The term with another one at the place."""
    if not place:
        return by
    i, rest = place[0], place[1:]
    return term[:i] + (put(term[i], rest, by),) + term[i + 1 :]


def apply(bindings, term):
    """The instance; a variable that is not bound stays."""
    if is_variable(term):
        return bindings.get(term, term)
    return (term[0],) + tuple(apply(bindings, part) for part in term[1:])


def match(pattern, term, bindings=None):
    """What takes the pattern to the term, or None."""
    bindings = {} if bindings is None else bindings
    if is_variable(pattern):
        return bindings if bindings.setdefault(pattern, term) == term else None
    if is_variable(term) or pattern[0] != term[0]:
        return None
    for p, t in zip(pattern[1:], term[1:]):
        if match(p, t, bindings) is None:
            return None
    return bindings


def is_instance(pattern, term):
    return match(pattern, term) is not None


def unify(s, t):
    """A most general unifier, or None. (Section 4.6.)"""
    unifier, equations = {}, [(s, t)]
    while equations:
        s, t = equations.pop()
        s, t = resolve(unifier, s), resolve(unifier, t)
        if s == t:
            continue
        if is_variable(t) and not is_variable(s):
            s, t = t, s
        if is_variable(s):
            if s in variables(t):
                return None
            unifier = {v: apply({s: t}, u) for v, u in unifier.items()}
            unifier[s] = t
        elif s[0] == t[0]:
            equations += zip(s[1:], t[1:])
        else:
            return None
    return unifier


def resolve(unifier, term):
    return apply(unifier, term)


def renamed_apart(term, other_variables):
    """The renaming that gives each variable of the term a number above those of the others."""
    above = 1 + max(other_variables, default=-1)
    return {v: above + v for v in variables(term)}


def in_order(first, *others):
    """The terms with their variables numbered in the order of their first occurrences in the first one."""
    numbers = {}
    for term in (first, *others):
        for v in variables(term):
            numbers.setdefault(v, len(numbers))
    return tuple(apply(numbers, term) for term in (first, *others))
