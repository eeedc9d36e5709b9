"""A place of a text as a line, a column and the spot."""

WIDEST = 80


def line_around(text, place):
    """Where the line of a place begins and ends, and its number from 1."""
    start = text.rfind(b"\n", 0, place) + 1
    end = text.find(b"\n", place)
    return start, len(text) if end < 0 else end, text.count(b"\n", 0, place) + 1


def shown(text):
    """Bytes as they can be printed, one character for each."""
    return "".join(chr(byte) if 32 <= byte < 127 else " " if byte == 9 else "?" for byte in text)


def spot(text, place):
    """Three lines: the line and the column, counted from 1 and a column in bytes, what stands there, and a mark below it."""
    start, end, line = line_around(text, place)
    first = max(start, min(place - WIDEST // 2, end - WIDEST))
    return (f"line {line}, column {place - start + 1}", shown(text[first:min(end, first + WIDEST)]), " " * (place - first) + "^")
