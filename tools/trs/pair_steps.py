"""Steps on dependency pairs: dp, graph, subterm and the orders."""
from plain_prover.terms import subterms, symbols

from .account import PAIRS, TERMINATES, Node, StepRefused, check_asks
from .blocks import Graph as GraphBlock
from .notation import Notation, count_text, numbers_text, pairs_text, place_text, symbol_text
from .orders import KnuthOrder, LinearOrder, PathOrder, TooBig


def explain_dp(facts, node, method, account):
    check_asks(node, TERMINATES)
    numbers = tuple(range(len(facts.pairs)))
    if not numbers:
        account.say("The system has no dependency pairs, so it terminates. The node that is left has no pairs.")
    else:
        account.say(f"The system terminates if no endless chain is made of its {count_text(len(numbers), 'dependency pair')}:")
        account.table([pair_row(facts, n) for n in numbers])
    account.leave(Node(PAIRS, numbers))


def pair_row(facts, number):
    pair = facts.pairs[number]
    place = "the right side" if not pair.place else f"place {place_text(pair.place)} of the right side"
    return f"pair {number}", facts.pair_text(number), f"rule {pair.rule}, {place}"


# ---- the dependency graph


def explain_graph(facts, node, method, account):
    check_asks(node, PAIRS)
    check_members(node, method.items)
    edges = facts.edges(node.pairs)
    account.say("By caps it is estimated which pair may follow which:")
    account.add(GraphBlock(edges, method.items, {n: facts.pair_text(n) for n in node.pairs}))
    check_edges(facts, edges, method.items)
    account.say("No edge leads to an earlier item, so an endless chain stays in one group from some pair on.")
    for word, members in method.items:
        if word == "group":
            account.leave(Node(PAIRS, tuple(members)))


def check_members(node, items):
    seen = set()
    for _, members in items:
        for n in members:
            if n not in node.pairs:
                raise StepRefused([7, n], f"Pair {n} is none of this node, which has {pairs_text(node.pairs)}.")
            if n in seen:
                raise StepRefused([7, n], f"Pair {n} is in two items.")
            seen.add(n)
    for n in node.pairs:
        if n not in seen:
            raise StepRefused([8, n], f"Pair {n} of this node is in no item.")


def check_edges(facts, edges, items):
    earlier = []
    for _, members in items:
        for m in members:
            for n in earlier:
                if n in edges[m]:
                    text = f"Pair {m} may be followed by pair {n}, which is in an earlier item.{why_edge(facts, m, n)}"
                    raise StepRefused([9, m, n], text)
        earlier += members
    for word, members in items:
        if word == "single" and members[0] in edges[members[0]]:
            n = members[0]
            text = f"Pair {n} is said to be single, but it may follow itself.{why_edge(facts, n, n)}"
            raise StepRefused([10, n], text)


def why_edge(facts, number, other):
    """The cap and the left side that unify."""
    cap = Notation(facts.system).term(facts.capped_rights[number])
    left = facts.notation_of_rule(facts.pairs[other].rule).term(facts.pairs[other].left)
    return f" The cap {cap} of its right side unifies with {left}, renamed apart."


# ---- the subterm criterion


def explain_subterm(facts, node, method, account):
    check_asks(node, PAIRS)
    roots = roots_of(facts, node.pairs)
    for f in roots:
        if f not in method.places:
            number = facts.system.names.index(f[1])
            raise StepRefused([11, number], f"{symbol_text(f)} has no entry; it is symbol {number}.")
    account.say("Each marked term is replaced by one of its arguments:")
    account.table([(symbol_text(f), f"argument {method.places[f]}") for f in roots])
    account.say("For each pair the argument of the right side is that of the left side, or a proper subterm of it:")
    removed, rows = [], []
    for n in node.pairs:
        rows.append(project(facts, method, n, removed))
        account.table(rows[-1:])
    conclude(node, removed, account, "In no pair does the argument get smaller: nothing would be removed.")


def roots_of(facts, numbers):
    """The marked roots of the sides, in the order of the symbols."""
    found = {side[0] for n in numbers for side in (facts.pairs[n].left, facts.pairs[n].right)}
    return sorted(found, key=lambda f: facts.system.names.index(f[1]))


def project(facts, method, number, removed):
    pair = facts.pairs[number]
    notation = facts.notation_of_rule(pair.rule)
    left, right = (side[method.places[side[0]]] for side in (pair.left, pair.right))
    words = notation.term(left), notation.term(right)
    if left == right:
        return f"pair {number}", f"{words[0]} = {words[1]}", "stays"
    if not any(part == right for _, part in subterms(left)):
        raise StepRefused([14, number], f"Pair {number}, {facts.pair_text(number)}: {words[1]} is not inside {words[0]}.")
    removed.append(number)
    return f"pair {number}", f"{words[1]} is inside {words[0]}", "removed"


def conclude(node, removed, account, nothing):
    """The pairs that are removed, and the node with those that stay."""
    if not removed:
        raise StepRefused([15], nothing)
    stay = tuple(n for n in node.pairs if n not in removed)
    account.say(f"So no endless chain has {pairs_text(removed)} again and again: removed.")
    if stay:
        account.leave(Node(PAIRS, stay))


# ---- orders


def explain_poly(facts, node, method, account):
    is_usable = method.word == "usable-poly"
    check_asks(node, PAIRS)
    rules = facts.usable_rules(node.pairs) if is_usable else list(range(len(facts.rules)))
    if is_usable:
        usable = "The usable rules are " + numbers_text(rules) if rules else "No rule is usable"
        account.say(usable + "; only usable rules need be weakly above.")
    below = [part for n in node.pairs for side in sides(facts, n) for part in side[1:]] if is_usable else []
    explain_order(facts, node, LinearOrder(method.table), rules, below, account)


def explain_lpo(facts, node, method, account):
    check_asks(node, PAIRS)
    explain_order(facts, node, PathOrder(method.table), list(range(len(facts.rules))), [], account)


def explain_kbo(facts, node, method, account):
    check_asks(node, PAIRS)
    explain_order(facts, node, KnuthOrder(method.table), list(range(len(facts.rules))), [], account)


def sides(facts, number):
    return facts.pairs[number].left, facts.pairs[number].right


def explain_order(facts, node, order, rules, below, account):
    """The conditions of a step by an order: over its symbols, these rules and the pairs of the node."""
    needed = needed_symbols(facts, node, rules, below)
    check_entries(facts, order, needed)
    account.say(f"The order is a {order.name}:")
    account.table([(order.entry_text(f, argument_names(facts, f)),) for f in needed])
    if isinstance(order, PathOrder) and order.precedence():
        account.say(f"The precedence, where symbols of one rank are unrelated: {order.precedence()}.")
    if rules:
        account.say("The left side of each of these rules is weakly above the right side:")
    for k in rules:
        account.table([compared(facts, order, k, f"rule {k}", facts.rules[k], [12, k], [13, k], facts.notation_of_rule(k))])
    account.say("So is that of each pair:")
    removed = []
    for n in node.pairs:
        notation = facts.notation_of_rule(facts.pairs[n].rule)
        row = compared(facts, order, n, f"pair {n}", sides(facts, n), [12, len(facts.rules) + n], [14, n], notation)
        if order.strict(*sides(facts, n)):
            removed.append(n)
        account.table([row + ("removed" if n in removed else "stays",)])
    conclude(node, removed, account, "No pair is strictly above: nothing would be removed.")


def compared(facts, order, number, name, two, too_big, not_weak, notation):
    """A row for the two sides as the order sees them, or the refusal."""
    try:
        is_weak, is_strict = order.weak(*two), order.strict(*two)
    except TooBig:
        raise StepRefused(too_big, f"A value of {name}, {notation.arrow(*two)}, is above 2^63 - 1.") from None
    left, right = (order.seen(notation, side) for side in two)
    if not is_weak:
        raise StepRefused(not_weak, f"{name[0].upper()}{name[1:]}, {notation.arrow(*two)}: {left} is not weakly above {right}.")
    return name, f"{left} {'>' if is_strict else '>='} {right}"


def needed_symbols(facts, node, rules, below):
    """The symbols of the rules and below the roots, in order, and after them the marked roots."""
    terms = [side for k in rules for side in facts.rules[k]] + below
    found = {f for term in terms for f in symbols(term)}
    return [f for f in facts.system.names if f in found] + roots_of(facts, node.pairs)


def check_entries(facts, order, needed):
    for f in needed:
        if f not in order.table:
            number = facts.system.names.index(f[1] if isinstance(f, tuple) else f)
            raise StepRefused([11, number], f"{symbol_text(f)} has no entry; it is symbol {number}.")


def argument_names(facts, symbol):
    """Names for the arguments of a symbol."""
    count = facts.system.arities[symbol[1] if isinstance(symbol, tuple) else symbol]
    notation = Notation(facts.system)
    return [notation.variable(i) for i in range(count)]
