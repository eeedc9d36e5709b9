"""Symbols and terms of certificates, as their items say them."""
from .items import is_word, size_as_written
from .reading import Bad, check_end, word_in

MOST_NODES = 65_536
GREATEST_DEPTH = 1_024


class Names:
    """The symbols of a system, and the variables of the step that is read."""

    def __init__(self, system):
        self.arities, self.known = system.arities, {}

    def begin_step(self):
        self.known = {}

    def variables(self):
        return list(self.known)

    def symbol(self, item):
        """The declared symbol that a word names."""
        return word_in(item, self.arities)

    def term(self, item):
        """The term of an item. Where it passes a limit, it is refused as a whole."""
        if size_as_written(item) > MOST_NODES or is_deeper(item, GREATEST_DEPTH):
            raise Bad(item.place)
        return self.inner_term(item)

    def inner_term(self, item):
        """A variable is numbered by its first occurrence in the step."""
        if is_word(item):
            if item.text not in self.arities:
                return self.known.setdefault(item.text, len(self.known))
            if self.arities[item.text]:
                raise Bad(item.place)
            return (item.text,)
        if not item.members:
            raise Bad(item.place)
        if is_word(item.members[0]) and len(item.members) - 1 < self.arities.get(item.members[0].text, 0):
            raise Bad(item.place)
        head = self.symbol(item.members[0])
        parts = tuple(self.inner_term(part) for part in item.members[1:1 + self.arities[head]])
        check_end(item, 1 + self.arities[head])
        return (head,) + parts


def is_deeper(item, most):
    """Whether a term as it is written has a greater depth."""
    waiting = [(item, 1)]
    while waiting:
        next_one, level = waiting.pop()
        if level > most:
            return True
        if not is_word(next_one):
            waiting += [(part, level + 1) for part in next_one.members[1:]]
    return False
