"""Problem texts (docs/PROBLEM-FORMAT.md): the system that a text says, or its first fault."""
from collections import namedtuple

from plain_prover.rewriting import Rule, System

from .items import TextFault, Group, head_word, is_word, read_items, size_as_written

MOST_OPEN = 300
MOST_SYMBOLS = MOST_RULES = 4_095
MOST_NODES = 65_536
GREATEST_ARITY = 255
GREATEST_DEPTH = 256

TEXT, NO_FORMAT, OTHER_FORMAT, BAD_ITEM, TWICE, BAD_ARITY, UNKNOWN, WRONG_ARITY, LEFT_IS_VARIABLE, EXTRA_VARIABLE, ATTRIBUTE, \
    TOO_MANY, TOO_DEEP = range(1, 14)

# A system as `plain_prover` has it, with the names of the variables of each rule.
Problem = namedtuple("Problem", "system variables")


class ProblemRefused(Exception):
    """A text with no system: the number of the refusal, its place (None where it has none), and the kind of a text fault."""

    def __init__(self, number, place, kind=None):
        super().__init__(number, place, kind)
        self.number, self.place, self.kind = number, place, kind

    def line(self):
        fields = [self.number, self.kind, self.place]
        return " ".join(["problem refused"] + [str(field) for field in fields if field is not None])


def read_problem(data):
    try:
        items = read_items(data, MOST_OPEN)
    except TextFault as fault:
        raise ProblemRefused(TEXT, fault.place, fault.kind) from None
    check_format(items)
    reading = Reading(items[1:])
    if reading.faults:
        place, number = min(reading.faults)
        raise ProblemRefused(number, place)
    return Problem(System(list(reading.arities), reading.arities, reading.rules), reading.variables)


def check_format(items):
    if not items or is_word(items[0]) or head_word(items[0]) != "format":
        raise ProblemRefused(NO_FORMAT, None)
    members = items[0].members
    if len(members) != 2 or not is_word(members[1]) or members[1].text != "TRS":
        raise ProblemRefused(OTHER_FORMAT, items[0].place)


class Reading:
    """The symbols and rules of the items after the format, and all faults as places with numbers."""

    def __init__(self, items):
        self.faults, self.arities, self.rules, self.variables = [], {}, [], []
        self.count_of_symbols = self.count_of_rules = self.nodes = 0
        good = [item for item in items if self.is_item(item)]
        for item in good:
            if head_word(item) == "fun":
                self.read_symbol(item)
        for item in good:
            if head_word(item) == "rule":
                self.read_rule(item)

    def fault(self, place, number):
        self.faults.append((place, number))

    def is_item(self, item):
        if head_word(item) in ("fun", "rule") and has_three_members(item) and not declares_a_list(item):
            return True
        self.fault(item.place, BAD_ITEM)
        return False

    def read_symbol(self, item):
        _, name, arity = item.members[:3]
        self.count_of_symbols += 1
        if self.count_of_symbols == MOST_SYMBOLS + 1:
            self.fault(item.place, TOO_MANY)
        if name.text in self.arities:
            self.fault(name.place, TWICE)
        value = arity_of(arity.text)
        if value is None:
            self.fault(arity.place, BAD_ARITY)
        has_attribute = self.check_attribute(item)
        if value is not None and not has_attribute:
            self.arities.setdefault(name.text, value)

    def check_attribute(self, item):
        if len(item.members) > 3:
            self.fault(item.members[3].place, ATTRIBUTE)
        return len(item.members) > 3

    def read_rule(self, item):
        _, left, right = item.members[:3]
        self.count_of_rules += 1
        before, self.nodes = self.nodes, self.nodes + size_as_written(left) + size_as_written(right)
        if self.count_of_rules == MOST_RULES + 1 or before <= MOST_NODES < self.nodes:
            self.fault(item.place, TOO_MANY)
        known = {}
        left_term = self.read_term(left, known, 1, is_left=True)
        if is_word(left) and left.text not in self.arities:
            self.fault(left.place, LEFT_IS_VARIABLE)
        right_term = self.read_term(right, known, 1, is_left=False)
        self.check_attribute(item)
        self.rules.append(Rule(left_term, right_term))
        self.variables.append(list(known))

    def read_term(self, item, known, depth, is_left):
        """The term of an item. Where it has a fault, that is kept, and the term is not used."""
        if depth == GREATEST_DEPTH + 1:
            self.fault(item.place, TOO_DEEP)
        if is_word(item):
            return self.read_word(item, known, is_left)
        if head_word(item) is None:
            self.fault(item.place, BAD_ITEM)
            return None
        head, parts = item.members[0], item.members[1:]
        if head.text not in self.arities:
            self.fault(head.place, UNKNOWN)
        elif len(parts) != self.arities[head.text]:
            self.fault(item.place, WRONG_ARITY)
        return (head.text,) + tuple(self.read_term(part, known, depth + 1, is_left) for part in parts)

    def read_word(self, word, known, is_left):
        if word.text in self.arities:
            if self.arities[word.text]:
                self.fault(word.place, WRONG_ARITY)
            return (word.text,)
        if word.text not in known and not is_left:
            self.fault(word.place, EXTRA_VARIABLE)
        return known.setdefault(word.text, len(known))


def has_three_members(item):
    if len(item.members) == 3:
        return True
    return len(item.members) > 3 and is_word(item.members[3]) and item.members[3].text.startswith(":")


def declares_a_list(item):
    return head_word(item) == "fun" and any(isinstance(member, Group) for member in item.members[1:3])


def arity_of(text):
    """The value of a run of digits, or None where it is none or too great."""
    if not (text.isascii() and text.isdigit()):
        return None
    digits = text.lstrip("0") or "0"
    return int(digits) if len(digits) <= 3 and int(digits) <= GREATEST_ARITY else None
