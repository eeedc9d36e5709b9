"""The tables of orders, as their items say them: an entry for each symbol, marked or not."""
from .items import is_word
from .kinds import Kbo, Lpo, Poly
from .reading import Bad, check_end, check_length, number, word_in

GREATEST = 2**63 - 1


def table_of(names, item, fewest, values_of):
    """The table of an order: for each entry its symbol and its values."""
    table = {}
    for member in item.members[1:]:
        symbol = symbol_of(names, member, fewest)
        if symbol in table:
            raise Bad(member.place)
        check_entry_head(names, member)
        table[symbol] = values_of(member, arity_of(names, symbol))
    return table


def arity_of(names, symbol):
    """The arity of a symbol, marked or not."""
    return names.arities[symbol[1] if isinstance(symbol, tuple) else symbol]


def symbol_of(names, member, fewest):
    """The symbol of an entry that is long enough; None where it has another head, or a name that is not declared."""
    check_length(member, fewest(0))
    word, name = member.members[:2]
    if not is_word(word) or word.text not in ("sym", "mark") or not is_word(name) or name.text not in names.arities:
        return None
    if len(member.members) < fewest(names.arities[name.text]):
        raise Bad(member.place)
    return name.text if word.text == "sym" else ("mark", name.text)


def check_entry_head(names, member):
    word_in(member.members[0], ("sym", "mark"))
    names.symbol(member.members[1])


def read_poly(names, definitions, item):
    def values(member, arity):
        found = [number(value, GREATEST) for value in member.members[2:3 + arity]]
        check_end(member, 3 + arity)
        return found
    return Poly(item.members[0].text, table_of(names, item, lambda arity: 3 + arity, values))


def read_lpo(names, definitions, item):
    def values(member, arity):
        found = number(member.members[2], GREATEST), read_filter(member.members[3], arity)
        check_end(member, 4)
        return found
    return Lpo(table_of(names, item, lambda arity: 4, values))


def read_filter(item, arity):
    """A place to go to, or the places to keep."""
    if is_word(item):
        return number(item, arity, 1)
    found = []
    for member in item.members:
        found.append(number(member, arity, found[-1] + 1 if found else 1))
    return tuple(found)


def read_kbo(names, definitions, item):
    """As the other tables; but an entry that no Knuth-Bendix order has is refused at its place, before faults after it."""
    fault, table, places = None, {}, {}
    try:
        for member in item.members[1:]:
            symbol = symbol_of(names, member, lambda arity: 4)
            if symbol in table:
                raise Bad(member.place)
            check_entry_head(names, member)
            table[symbol] = number(member.members[2], GREATEST), number(member.members[3], GREATEST)
            places[symbol] = member.place
            check_end(member, 4)
    except Bad as found:
        fault = found
    rest = [entry for entry in (maybe_entry(names, member) for member in item.members[1:]) if entry]
    bad = [places[symbol] for symbol in table if not is_admissible(names, symbol, table[symbol], rest)]
    found = bad + ([fault.place] if fault else [])
    if found:
        raise Bad(min(found))
    return Kbo(table)


def maybe_entry(names, member):
    """The symbol and the rank of an entry that can be read, whatever stands beside it."""
    try:
        symbol = symbol_of(names, member, lambda arity: 4)
        check_entry_head(names, member)
        number(member.members[2], GREATEST)
        return symbol, number(member.members[3], GREATEST)
    except Bad:
        return None


def is_admissible(names, symbol, values, ranks):
    """A constant weighs something, and a symbol with one argument that weighs nothing is above all others."""
    weight, rank = values
    arity = arity_of(names, symbol)
    if weight or arity > 1:
        return True
    return arity == 1 and all(other == symbol or above < rank for other, above in ranks)
