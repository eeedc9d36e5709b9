"""Systems of other formats, on their way to ARI: what is read of them, and how it is written. A variable is a word of its own
kind, so that it may have the name of a symbol."""
import re
from collections import namedtuple

from .problems import GREATEST_ARITY, GREATEST_DEPTH, MOST_NODES, MOST_RULES, MOST_SYMBOLS

Variable = namedtuple("Variable", "name")
Application = namedtuple("Application", "symbol parts")
ForeignRule = namedtuple("ForeignRule", "left right")

# Words that ARI reads as they stand. Others would need bars, and are renamed.
PLAIN = re.compile(r"[!#-&*-9<-\[\]-{}~']+")
KEYWORDS = {"format", "fun", "rule", "sort", "theory", "define-fun"}


class NotRead(Exception):
    """Why a text is not written as ARI."""


class System:
    """The arities of the symbols, in the order in which they come, and the rules."""

    def __init__(self):
        self.arities, self.rules = {}, []

    def symbol(self, name, arity):
        """A use or a declaration of a symbol; all must have one arity."""
        if self.arities.setdefault(name, arity) != arity:
            raise NotRead(f"{name} has {self.arities[name]} arguments at one place and {arity} at another one")
        if arity > GREATEST_ARITY:
            raise NotRead(f"{name} has more than {GREATEST_ARITY} arguments")

    def rule(self, left, right):
        number = len(self.rules)
        if isinstance(left, Variable):
            raise NotRead(f"the left side of rule {number} is a variable")
        extra = [name for name in names_of(right) if name not in set(names_of(left))]
        if extra:
            raise NotRead(f"rule {number} has the variable {extra[0]} on its right side alone")
        self.rules.append(ForeignRule(left, right))


def names_of(term):
    """The names of the variables."""
    if isinstance(term, Variable):
        return [term.name]
    return [name for part in term.parts for name in names_of(part)]


def check_depth(depth):
    if depth > GREATEST_DEPTH:
        raise NotRead(f"a term is deeper than {GREATEST_DEPTH}")


def check_limits(system):
    nodes = sum(size(side) for rule in system.rules for side in rule)
    if len(system.arities) > MOST_SYMBOLS or len(system.rules) > MOST_RULES or nodes > MOST_NODES:
        raise NotRead(f"at most {MOST_SYMBOLS} symbols, {MOST_RULES} rules and {MOST_NODES} nodes are read by trsprove")


def size(term):
    return 1 if isinstance(term, Variable) else 1 + sum(size(part) for part in term.parts)


# ---- writing


def written(system, source):
    """The text in ARI, with the source and the new names as comments."""
    check_limits(system)
    symbols = new_names(list(system.arities), set())
    variables = new_names(list(dict.fromkeys(name for rule in system.rules for name in names_of(rule.left))), set(symbols.values()))
    lines = ["; written by tools/to-ari from " + shown(source)]
    lines += [f"; the symbol {new} was {shown(old)}" for old, new in symbols.items() if new != old]
    lines += [f"; the variable {new} was {shown(old)}" for old, new in variables.items() if new != old]
    lines.append("(format TRS)")
    lines += [f"(fun {symbols[name]} {arity})" for name, arity in system.arities.items()]
    lines += [f"(rule {term_text(rule.left, symbols, variables)} {term_text(rule.right, symbols, variables)})" for rule in system.rules]
    return "\n".join(lines) + "\n"


def shown(name):
    """A name in a comment, on one line."""
    return name if name.isprintable() and name.isascii() else ascii(name)


def new_names(names, taken):
    """For each name itself, if it can stand in ARI and is free, else a new one."""
    kept = [name for name in names if is_plain(name) and name not in taken]
    found, used = {name: name for name in kept}, taken | set(kept)
    for name in names:
        if name not in found:
            base = re.sub(r"[^A-Za-z0-9_+*/.-]", "_", name) or "_"
            number = 1
            while f"{base}_{number}" in used:
                number += 1
            found[name] = f"{base}_{number}"
            used.add(found[name])
    return {name: found[name] for name in names}


def is_plain(name):
    return bool(PLAIN.fullmatch(name)) and name not in KEYWORDS


def term_text(term, symbols, variables):
    if isinstance(term, Variable):
        return variables[term.name]
    if not term.parts:
        return symbols[term.symbol]
    return f"({symbols[term.symbol]} {' '.join(term_text(part, symbols, variables) for part in term.parts)})"
