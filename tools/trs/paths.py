"""Paths of certificates, and their names in version 2."""
from plain_prover.rewriting import Step

from .items import is_word
from .reading import Bad, check_end, check_length, list_of, number, position, word_in

MOST_RULES = 2**32 - 1
MOST_WEIGHT = 8_388_608
LONGEST_PLACE = 1_024


class Path:
    """Steps and uses of other paths, in order. Long paths are not written out: `steps` goes through them."""

    def __init__(self, parts):
        self.parts = parts
        self.count = sum(part.count for part in parts)
        self.weight = sum(part.weight for part in parts)
        self.longest = max((part.longest for part in parts if part.count), default=0)

    def steps(self):
        for part in self.parts:
            yield from part.steps()


class Single:
    """One step, as a part of a path."""

    def __init__(self, step):
        self.step, self.count, self.weight, self.longest = step, 1, 1 + len(step.place), len(step.place)

    def steps(self):
        yield self.step


class Use:
    """The steps of another path, each below a position."""

    def __init__(self, prefix, path):
        self.prefix, self.path, self.count = prefix, path, path.count
        self.weight = path.weight + path.count * len(prefix)
        self.longest = path.longest + len(prefix)

    def steps(self):
        for step in self.path.steps():
            yield Step(self.prefix + step.place, step.rule)


def read_at(item):
    check_length(item, 3)
    word_in(item.members[0], ("at",))
    step = Step(position(item.members[1]), number(item.members[2], MOST_RULES))
    check_end(item, 3)
    return step


class Definitions:
    """The paths that have names so far, and the weight of all paths so far."""

    def __init__(self, version):
        self.version, self.paths, self.weight = version, {}, 0

    def read(self, item):
        """A definition: (define word path)."""
        check_length(item, 3)
        _, word, path = item.members[:3]
        if not is_word(word) or word.text in self.paths:
            raise Bad(word.place)
        self.paths[word.text] = self.path(path)
        check_end(item, 3)

    def path(self, item):
        """A path, of which the weight is added. A fault of a part is named before what all parts weigh."""
        found = Path([self.part(member) for member in list_of(item, "path")])
        if self.weight + found.weight > MOST_WEIGHT:
            raise Bad(item.place)
        self.weight += found.weight
        return found

    def part(self, item):
        if self.version == 2 and not is_word(item) and item.members and is_word(item.members[0]) and item.members[0].text == "use":
            return self.use(item)
        return Single(read_at(item))

    def use(self, item):
        check_length(item, 3)
        prefix, word = position(item.members[1]), item.members[2]
        if not is_word(word) or word.text not in self.paths:
            raise Bad(word.place)
        found = Use(prefix, self.paths[word.text])
        if prefix and found.count and found.longest > LONGEST_PLACE:
            raise Bad(item.place)
        check_end(item, 3)
        return found
