"""An order text for a problem: why it is refused, or what it says of the equations."""
from plain_prover.order_texts import refused_at

from .blocks import Heading, Lines, Say, Table
from .items import read_items
from .orders import PathOrder
from .places import spot

MOST_OPEN = 1_040

USUAL_CAUSES = [
    "A symbol that is not declared in the problem, or one that has two entries.",
    "A symbol without an entry: then the place is that of the whole list.",
    "A filter after the rank: an order text has ranks only.",
    "A missing bracket: the outermost one that is never closed is named.",
]


def order_blocks(facts, text):
    """The blocks of an order text, and the line of its refusal, if it is refused."""
    place = refused_at(text, set(facts.system.names))
    if place is None:
        return said_of_equations(facts, path_order(facts.system, text)), None
    line = f"order refused {place}"
    causes = [Say("* " + cause) for cause in USUAL_CAUSES]
    found = [Heading(1, line), Say("The order text has a fault, which is found here:"), Lines(list(spot(text, place)))]
    return found + [Heading(2, "Usual causes"), *causes], line


def path_order(system, text):
    """The path order of a text that is read: all arguments are kept."""
    entries = read_items(text, MOST_OPEN)[0].members[1:]
    ranks = {name.text: int(rank.text) for _, name, rank in (entry.members for entry in entries)}
    return PathOrder({f: (ranks[f], list(range(1, system.arities[f] + 1))) for f in system.names})


def said_of_equations(facts, order):
    """The precedence, and the direction that each equation gets as it is written."""
    rows = [(f"equation {number}", *direction(facts, order, number)) for number in range(len(facts.rules))]
    found = [Heading(1, "The order"), Say(f"Precedence: {order.precedence() or 'there are no symbols'}."),
             Say("Each equation, as it is written, and how the order directs it:")]
    return found + ([Table(rows)] if rows else [Say("There are no equations.")])


def direction(facts, order, number):
    """Both sides of an equation, and what becomes of it."""
    rule, notation = facts.rules[number], facts.notation_of_rule(number)
    left, right = notation.term(rule.left), notation.term(rule.right)
    if rule.left == rule.right:
        return f"{left} = {right}", "is skipped"
    if order.strict(rule.left, rule.right):
        return f"{left} > {right}", "from left to right"
    if order.strict(rule.right, rule.left):
        return f"{left} < {right}", "from right to left"
    return f"{left} , {right}", "neither side is greater"
