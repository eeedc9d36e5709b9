"""Where an order text is refused, and order texts with faults of each kind."""
import os
import random
import re
import sys

sys.path.insert(0, os.path.join(os.path.dirname(os.path.abspath(__file__)), "..", "..", "tools"))

from trs.items import TextFault, is_word, read_items

MOST_OPEN, GREATEST_RANK = 1_040, 2**63 - 1
NUMBER = re.compile(r"0|[1-9][0-9]*", re.ASCII)
ODD_WORDS = (b"sym", b"order", b"(", b")", b"()", b"7", b"007", b"+7", b"-1", b"\xff\xfe", b"\x00", b"\x7f", b"; )\n",
             str(GREATEST_RANK).encode(), str(GREATEST_RANK + 1).encode(), b"9" * 40, b"(" * 1_041)


def is_rank(item):
    return is_word(item) and len(item.text) < 20 and NUMBER.fullmatch(item.text) is not None and int(item.text) <= GREATEST_RANK


def entry_fault(entry, names, seen):
    """The place at which an entry cannot stand, or None; its symbol is then one of those that were seen."""
    if is_word(entry) or len(entry.members) < 3:
        return entry.place
    head, name, rank, *more = entry.members
    if not is_word(head) or head.text != "sym":
        return head.place
    if not is_word(name) or name.text not in names:
        return name.place
    if name.text in seen:
        return entry.place
    seen.add(name.text)
    if not is_rank(rank):
        return rank.place
    return more[0].place if more else None


def refused_at(data, names):
    """The place at which an order text over these names is refused, or None."""
    try:
        items = read_items(data, MOST_OPEN)
    except TextFault as fault:
        return fault.place
    if not items:
        return len(data)
    whole, seen = items[0], set()
    if is_word(whole) or not whole.members:
        return whole.place
    head, *entries = whole.members
    if not is_word(head) or head.text != "order":
        return head.place
    for entry in entries:
        place = entry_fault(entry, names, seen)
        if place is not None:
            return place
    if len(items) > 1:
        return items[1].place
    return whole.place if len(seen) < len(names) else None


def changed(text, chance):
    """A text with one part left out, doubled, or another one in front of it, or two of them exchanged."""
    parts = re.findall(rb"[()]|[^()\s]+|\s+", text)
    i, j = chance.randrange(len(parts)), chance.randrange(len(parts))
    way = chance.randrange(4)
    if way == 0:
        del parts[i]
    elif way == 1:
        parts.insert(i, parts[j])
    elif way == 2:
        parts.insert(i, b" " + chance.choice(ODD_WORDS) + b" ")
    else:
        parts[i], parts[j] = parts[j], parts[i]
    return b"".join(parts)


def large_texts(names):
    """A megabyte of brackets, blanks, words or ranks, and orders of which one symbol lacks, has two entries or too great a rank."""
    entries = [f"(sym {name} {i})".encode() for i, name in enumerate(names)]
    whole = lambda members: b"(order " + b" ".join(members) + b")"
    longest = 1_048_576
    yield from (b"(" * longest, b")" * longest, b" " * longest, b"w" * longest, bytes(range(256)) * 16, b"\xef\xbb\xbf" + whole(entries))
    yield whole([f"(sym {names[0]} ".encode() + b"9" * 1_000_000 + b")"])
    yield whole(entries)
    yield whole(entries[:-1])
    yield whole(entries + entries[:1])
    yield whole(entries[:-1] + [f"(sym {names[-1]} {GREATEST_RANK + 1})".encode()])
    yield whole(entries[:-1] + [f"(sym {names[-1]} {GREATEST_RANK})".encode()])


def order_texts(names, count):
    """Large texts, and so many that a few changes made of a good one."""
    yield from large_texts(names)
    for seed in range(count):
        chance = random.Random(seed)
        few = names[:3]
        text = b"(order " + b" ".join(f"(sym {name} {rank})".encode() for rank, name in enumerate(few)) + b")"
        for _ in range(chance.randrange(1, 4)):
            text = changed(text, chance)
        yield text
