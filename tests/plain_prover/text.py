"""Texts of systems, certificates and reports."""
from .terms import is_variable


def member(*words):
    return "(" + " ".join(str(word) for word in words) + ")"


def term_text(system, term):
    underscores = 1 + max((len(name) - len(name.lstrip("_")) for name in system.names), default=0)
    if is_variable(term):
        return "_" * underscores + str(term)
    return term[0] if len(term) == 1 else member(term[0], *(term_text(system, part) for part in term[1:]))


def problem_text(system):
    lines = ["(format TRS)"]
    lines += [member("fun", name, system.arities[name]) for name in system.names]
    lines += [member("rule", term_text(system, rule.left), term_text(system, rule.right)) for rule in system.rules]
    return "".join(line + "\n" for line in lines)


def place_text(place):
    return member(*place)


def steps_text(steps):
    return [member("at", place_text(step.place), step.rule) for step in steps]


def path_text(path):
    return member("path", *steps_text(path))


def join(word, *paths):
    return member(word, *(path_text(path) for path in paths))


def filter_text(kept):
    return kept if isinstance(kept, int) else member(*kept)


def entry(symbol, *words):
    """An entry of a symbol, marked or not."""
    return member("mark", symbol[1], *words) if isinstance(symbol, tuple) else member("sym", symbol, *words)
