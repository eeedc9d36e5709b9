"""The methods of steps, as their items say them: a reading for each kind."""
from .items import is_word
from .kinds import Confluence, Dp, Fork, Graph, Label, Loop, Newman, Parallel, Strong, Subterm
from .paths import read_at
from .reading import Bad, check_end, check_length, list_of, number, position, word_in
from .tables import read_kbo, read_lpo, read_poly

GREATEST = 2**63 - 1
MOST_PAIRS = 2**32 - 1


def read_method(names, definitions, item):
    """The method of an item: its word says which reading goes on."""
    check_length(item, 1)
    word = word_in(item.members[0], READINGS)
    return READINGS[word](names, definitions, item)


def plain(kind):
    """A method that is one word."""
    def read(names, definitions, item):
        check_end(item, 1)
        return kind()
    return read


def read_graph(names, definitions, item):
    return Graph([read_group(member) for member in item.members[1:]])


def read_group(item):
    check_length(item, 2)
    word = word_in(item.members[0], ("group", "single"))
    if word == "single":
        found = [number(item.members[1], MOST_PAIRS)]
        check_end(item, 2)
        return word, found
    found = []
    for member in item.members[1:]:
        found.append(number(member, MOST_PAIRS, found[-1] + 1 if found else 0))
    return word, found


def read_subterm(names, definitions, item):
    places = {}
    for member in item.members[1:]:
        check_length(member, 2)
        name = member.members[0]
        if is_word(name) and ("mark", name.text) in places:
            raise Bad(member.place)
        symbol = names.symbol(name)
        places["mark", symbol] = number(member.members[1], min(255, names.arities[symbol]), 1)
        check_end(member, 2)
    return Subterm(places)


def read_loop(names, definitions, item):
    check_length(item, 4)
    found = Loop(names.term(item.members[1]), definitions.path(item.members[2]), position(item.members[3]))
    check_end(item, 4)
    return found


def paths_in(definitions, item, word, count):
    check_length(item, 1 + count)
    word_in(item.members[0], (word,))
    found = [definitions.path(member) for member in item.members[1:1 + count]]
    check_end(item, 1 + count)
    return found


def read_newman(names, definitions, item):
    return Newman([paths_in(definitions, member, "join", 2) for member in item.members[1:]])


def read_parallel(names, definitions, item):
    return Parallel([[read_at(step) for step in list_of(member, "par")] for member in item.members[1:]])


def read_strong(names, definitions, item):
    return Strong([paths_in(definitions, member, "pair", 4) for member in item.members[1:]])


def read_label(names, definitions, item):
    check_length(item, 2)
    ranks = [number(member, GREATEST) for member in list_of(item.members[1], "ranks")]
    return Label(ranks, [paths_in(definitions, member, "pair", 2) for member in item.members[2:]])


def read_fork(names, definitions, item):
    check_length(item, 5)
    start, left, right, test = item.members[1:5]
    found = Fork(names.term(start), definitions.path(left), definitions.path(right), word_in(test, ("normal", "apart")))
    check_end(item, 5)
    return found


READINGS = {
    "dp": plain(Dp), "graph": read_graph, "subterm": read_subterm, "poly": read_poly, "usable-poly": read_poly, "lpo": read_lpo,
    "kbo": read_kbo, "loop": read_loop, "newman": read_newman, "parallel": read_parallel, "strong": read_strong,
    "label": read_label, "fork": read_fork, "confluence": plain(Confluence),
}
