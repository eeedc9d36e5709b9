"""Terms, rules, positions and paths as textbooks write them."""
from plain_prover.terms import is_variable, size

LONGEST = 400
FIRST_NAMES = ["x", "y", "z", "u", "v", "w"]


def symbol_text(symbol):
    """A symbol; a marked one with a sharp after its name."""
    return symbol[1] + "#" if isinstance(symbol, tuple) else symbol


def place_text(place):
    return "the root" if not place else ".".join(str(i) for i in place)


def at_place(place):
    return "at the root" if not place else "at " + place_text(place)


def numbers_text(numbers):
    """Some numbers in words: `0, 1 and 2`."""
    words = [str(number) for number in numbers]
    if len(words) < 2:
        return "".join(words)
    return ", ".join(words[:-1]) + " and " + words[-1]


def pairs_text(numbers):
    """Pairs by their numbers."""
    if not numbers:
        return "no pair"
    return ("pair " if len(numbers) == 1 else "pairs ") + numbers_text(numbers)


def count_text(count, word, words=None):
    return f"{count} {word if count == 1 else words or word + 's'}"


def other_names(system):
    """Names for variables that have none: no symbol of the system."""
    yield from (name for name in FIRST_NAMES if name not in system.arities)
    number = 1
    while True:
        if f"x{number}" not in system.arities:
            yield f"x{number}"
        number += 1


class Notation:
    """How terms are written: the names of their variables. A variable with no name gets one that is free."""

    def __init__(self, system, names=()):
        self.names = list(names)
        self.free = (name for name in other_names(system) if name not in names)

    def variable(self, number):
        while number >= len(self.names):
            self.names.append(next(self.free))
        return self.names[number]

    def whole(self, term):
        if is_variable(term):
            return self.variable(term)
        if len(term) == 1:
            return symbol_text(term[0])
        return symbol_text(term[0]) + "(" + ", ".join(self.whole(part) for part in term[1:]) + ")"

    def term(self, term):
        """The term, or its beginning where it is long."""
        text = self.whole(term)
        return text if len(text) <= LONGEST else f"{text[:LONGEST]} .. ({size(term)} nodes)"

    def arrow(self, left, right):
        return f"{self.term(left)} -> {self.term(right)}"
