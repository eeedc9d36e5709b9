"""The old .trs form of TPDB: (VAR x y) (RULES f(x) -> y ..) (COMMENT ..)."""
import re

from .foreign import Application, NotRead, System, Variable, check_depth

TOKEN = re.compile(r'(?P<blank>\s+)|(?P<mark>->=|->|==|[(),|\\"])|(?P<name>(?:(?!->|==)[^\s(),|\\"])+)')

REFUSED_SECTIONS = {
    "THEORY": "it is equational: (THEORY ..)",
    "FUN": "it is sorted: (FUN ..)",
    "PROBLEM": "it is another kind of problem: (PROBLEM ..)",
    "CONDITIONTYPE": "it is conditional: (CONDITIONTYPE ..)",
    "REPLACEMENT-MAP": "it is context-sensitive: (REPLACEMENT-MAP ..)",
    "STARTTERM": "it asks of some start terms alone: (STARTTERM ..)",
}


class Tokens:
    """The tokens of a text, one after another, with their places."""

    def __init__(self, text):
        self.text, self.place = text, 0

    def peek(self):
        """The kind and the text of the next token; None at the end."""
        while self.place < len(self.text):
            found = TOKEN.match(self.text, self.place)
            if found.lastgroup != "blank":
                return found.lastgroup, found[0]
            self.place = found.end()
        return None, "the end"

    def next(self):
        kind, token = self.peek()
        self.place += len(token) if kind else 0
        return kind, token

    def take(self, mark):
        kind, token = self.next()
        if (kind, token) != ("mark", mark):
            self.fail(f"{mark} is expected, but {token} is there")

    def fail(self, reason):
        raise NotRead(f"line {self.text.count(chr(10), 0, self.place) + 1}: {reason}")

    def skip_section(self):
        """Goes past the bracket that closes the section, whatever stands in it."""
        depth = 1
        for found in re.compile(r"[()]").finditer(self.text, self.place):
            depth += 1 if found[0] == "(" else -1
            if depth == 0:
                self.place = found.end()
                return
        self.fail("a section is never closed")


def read_old_trs(text):
    tokens, system, variables, rules = Tokens(text), System(), set(), []
    while tokens.peek()[0]:
        tokens.take("(")
        kind, word = tokens.next()
        if word == "VAR":
            variables.update(names_until_bracket(tokens))
        elif word == "SIG":
            read_signature(tokens, system)
        elif word == "RULES":
            rules.append(tokens.place)
            tokens.skip_section()
        elif word == "STRATEGY":
            read_strategy(tokens)
        elif word == "COMMENT":
            tokens.skip_section()
        else:
            tokens.fail(REFUSED_SECTIONS.get(word, f"the section {word} is not known"))
    if not rules:
        raise NotRead("it has no (RULES ..)")
    # Variables may be declared after the rules.
    for place in rules:
        tokens.place = place
        read_rules(tokens, system, variables)
    return system


def names_until_bracket(tokens):
    found = []
    while tokens.peek() != ("mark", ")"):
        kind, name = tokens.next()
        if kind != "name":
            tokens.fail(f"a name is expected, but {name} is there")
        found.append(name)
    tokens.take(")")
    return found


def read_signature(tokens, system):
    """(SIG (f 2) (a 0))"""
    while tokens.peek() != ("mark", ")"):
        tokens.take("(")
        words = names_until_bracket(tokens)
        if len(words) != 2 or not words[1].isdecimal():
            tokens.fail("it is sorted: an entry of (SIG ..) is no name with a number")
        system.symbol(words[0], int(words[1][:4]))
    tokens.take(")")


def read_strategy(tokens):
    _, word = tokens.next()
    if word == "CONTEXTSENSITIVE":
        tokens.fail("it is context-sensitive: (STRATEGY CONTEXTSENSITIVE ..)")
    if word != "FULL":
        tokens.fail(f"it asks of {word.lower()} steps alone: (STRATEGY {word})")
    tokens.take(")")


def read_rules(tokens, system, variables):
    while tokens.peek() != ("mark", ")"):
        left = read_term(tokens, system, variables, 1)
        kind, arrow = tokens.next()
        if arrow == "->=":
            tokens.fail("it is relative: a rule with ->=")
        if arrow == "==":
            tokens.fail("it is equational, or conditional: ==")
        if arrow != "->":
            is_string = kind == "name"
            tokens.fail("it is a string rewriting system (.srs)" if is_string else f"-> is expected, but {arrow} is there")
        right = read_term(tokens, system, variables, 1)
        if tokens.peek()[1] in ("|", "<="):
            tokens.fail("it is conditional: a rule with |")
        if tokens.peek() == ("mark", ","):
            tokens.next()
        system.rule(left, right)
    tokens.take(")")


def read_term(tokens, system, variables, depth):
    check_depth(depth)
    kind, name = tokens.next()
    if kind != "name":
        tokens.fail(f"a term is expected, but {name} is there")
    parts = read_parts(tokens, system, variables, depth) if tokens.peek() == ("mark", "(") else ()
    if name in variables:
        if parts:
            tokens.fail(f"the variable {name} has arguments")
        return Variable(name)
    system.symbol(name, len(parts))
    return Application(name, parts)


def read_parts(tokens, system, variables, depth):
    tokens.take("(")
    found = []
    while tokens.peek() != ("mark", ")"):
        if found:
            tokens.take(",")
        found.append(read_term(tokens, system, variables, depth + 1))
    tokens.take(")")
    return tuple(found)
