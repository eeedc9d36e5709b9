"""What the readings of items share. A reading goes from the left and asks for the length of a list first, so its first fault
is the one of the least place."""
from .items import is_word


class Bad(Exception):
    """An item that can't stand at this place."""

    def __init__(self, place):
        super().__init__(place)
        self.place = place


def check_length(item, fewest):
    """Refuses a word, and a list with fewer members."""
    if is_word(item) or len(item.members) < fewest:
        raise Bad(item.place)


def check_end(item, most):
    if len(item.members) > most:
        raise Bad(item.members[most].place)


def word_in(item, words):
    if not is_word(item) or item.text not in words:
        raise Bad(item.place)
    return item.text


def list_of(item, word, fewest=1):
    """The members after the head word of a list."""
    check_length(item, fewest)
    word_in(item.members[0], (word,))
    return item.members[1:]


def is_number(text):
    return text.isascii() and text.isdigit() and (text == "0" or text[0] != "0")


def number(item, greatest, least=0):
    if not is_word(item) or not is_number(item.text) or len(item.text) > 20 or not least <= int(item.text) <= greatest:
        raise Bad(item.place)
    return int(item.text)


def position(item, greatest=255):
    """A list of places of arguments."""
    check_length(item, 0)
    return tuple(number(member, greatest, 1) for member in item.members)
