"""Texts as lists of items, each with its place: a word, or a list in brackets."""
import re
from collections import namedtuple

Word = namedtuple("Word", "place text")
Group = namedtuple("Group", "place members")

# In this order: what separates words, a comment, a bracket, a word, and a byte that stands in no text.
TOKEN = re.compile(rb"(?P<blank>[ \t\n\r]+)|(?P<comment>;[^\n]*)|(?P<bracket>[()])|(?P<word>[^\x00-\x20\x7f();]+)|(?P<control>.)", re.S)

CONTROL, NEVER_CLOSED, NEVER_OPENED, TOO_MANY_OPEN = 1, 2, 3, 4


class TextFault(Exception):
    """The bytes are no list of items: the kind of the fault, and its place."""

    def __init__(self, kind, place):
        super().__init__(kind, place)
        self.kind, self.place = kind, place


def decoded(data):
    return data.decode("utf-8", "surrogateescape")


def read_items(data, most_open):
    """The items of a text in which at most so many lists may be open at once."""
    items, waiting = [], []
    for found in TOKEN.finditer(data):
        kind, place = found.lastgroup, found.start()
        if kind == "control":
            raise TextFault(CONTROL, place)
        if kind == "word":
            items.append(Word(place, decoded(found[0])))
        elif found[0] == b"(":
            if len(waiting) == most_open:
                raise TextFault(TOO_MANY_OPEN, place)
            waiting.append((place, items))
            items = []
        elif found[0] == b")":
            if not waiting:
                raise TextFault(NEVER_OPENED, place)
            (opened, outer), members = waiting.pop(), items
            items = outer
            items.append(Group(opened, members))
    if waiting:
        raise TextFault(NEVER_CLOSED, waiting[0][0])
    return items


def is_word(item):
    return isinstance(item, Word)


def head_word(item):
    """The word that a list begins with, or None."""
    if is_word(item) or not item.members or not is_word(item.members[0]):
        return None
    return item.members[0].text


def size_as_written(item):
    """The nodes of a term as it stands in a text: its words and lists, but for the heads of lists."""
    count, waiting = 0, [item]
    while waiting:
        next_one = waiting.pop()
        count += 1
        if not is_word(next_one):
            waiting += next_one.members[1:]
    return count
