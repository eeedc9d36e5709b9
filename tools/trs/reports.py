"""Reports of what was tried and failed: the text MAYBE with a line for each goal."""
from collections import namedtuple

from .account import NODE_OF_CLAIM, PAIRS, WORDS
from .blocks import Heading, Lines, Say, Table
from .certificates import CLAIMS, read_step
from .certifying import proof_from
from .items import TextFault, head_word, is_word, read_items
from .names import Names

from .paths import Definitions
from .proof_blocks import node_text, proof_blocks
from .reading import Bad

Goal = namedtuple("Goal", "name steps texts stuck asks numbers failed")

# The claim of a goal, and what its name says beside that.
CLAIM_OF = {"confluent-newman": "confluent", "unique-newman": "unique"}

# What ends a search that is not spent: a larger budget changes nothing.
CUT_OFFS = {
    "graph": "the dependency graph is one group of all pairs, so it does not split them",
    "subterm": "no choice of one argument for each marked symbol fits",
    "poly": "there is no linear interpretation with coefficients 0 to 2 by which all rules decrease weakly and some pair strictly",
    "lpo": "there is no path order with ranks 0 to 7 and the filters that are tried (one argument, all, all but one, none)",
    "kbo": "there is no Knuth-Bendix order with weights 0 to 2 and ranks 0 to 7",
    "usable": "there is no linear interpretation with coefficients 0 to 2 by which the usable rules decrease weakly and some pair strictly",
    "loop": "all forward closures with sides of at most 256 nodes are made, and none loops; a loop that no forward closure has is not found",
    "newman": "for some peak the first 256 terms within 16 steps of both sides, of at most 4,096 nodes, have none in common",
    "strong": "a rule is not linear, or for some peak no such join is among the first 256 terms within 16 steps",
    "parallel": "a left side is not linear, or some peak is not closed by one parallel step",
    "label": "a rule is not linear, or no ranks 0 to 3 fit the first 256 paths of at most 4 steps",
    "fork": "at no critical peak the first 32 terms within 8 steps of both sides have two whose caps do not unify",
    "split": "at no critical peak the first 32 terms within 8 steps of both sides have two different normal forms",
}

HELPED = "the budget was spent: a larger one may help (--budget, up to 1000000)"


def report_blocks(facts, text):
    try:
        items = read_items(text, 1_040)[1:]
        goals = [read_goal(facts.system, text, item) for item in items]
    except (TextFault, Bad) as fault:
        return [Heading(1, "MAYBE"), Say(f"This is no report of the program: byte {fault.place} is wrong.")]
    found = [Heading(1, "MAYBE")]
    found.append(Say("No proof was found, and no refutation. Each goal got stuck at a node that no strategy could handle."))
    for goal in goals:
        found += goal_blocks(facts, goal)
    return found


def read_goal(system, text, item):
    """(goal name (step ..) .. (stuck node kind number ..) (failed strategy how) ..)"""
    if head_word(item) != "goal" or len(item.members) < 3 or not is_word(item.members[1]):
        raise Bad(item.place)
    steps = [member for member in item.members if head_word(member) == "step"]
    failed = [member for member in item.members if head_word(member) == "failed"]
    stuck = next((member for member in item.members if head_word(member) == "stuck"), None)
    if stuck is None or len(item.members) != 3 + len(steps) + len(failed):
        raise Bad(item.place)
    node, asks, *numbers = words_of(stuck, 2)
    if not all(word.isdigit() for word in (node, *numbers)):
        raise Bad(stuck.place)
    names, definitions = Names(system), Definitions(1)
    read = [read_step(names, definitions, step) for step in steps]
    texts = texts_of(text, item, steps)
    reasons = [tuple(words_of(member, 2)) for member in failed]
    return Goal(item.members[1].text, read, texts, int(node), asks, [int(n) for n in numbers], reasons)


def words_of(item, fewest):
    """The words after the head of a list of words."""
    if len(item.members) < 1 + fewest or not all(is_word(member) for member in item.members):
        raise Bad(item.place)
    return [member.text for member in item.members[1:]]


def texts_of(text, item, steps):
    """The steps as they stand in the report."""
    places = [member.place for member in item.members[2:]]
    ends = dict(zip(places, places[1:]))
    return [text[step.place:ends[step.place]].decode("utf-8", "surrogateescape").strip() for step in steps]


def goal_blocks(facts, goal):
    claim = CLAIM_OF.get(goal.name, goal.name)
    if claim not in NODE_OF_CLAIM:
        return [Heading(1, f"Goal {goal.name}"), Say("This goal is not known.")]
    way = " by way of termination" if goal.name != claim else ""
    found = [Heading(1, f"Goal {goal.name}: to show {WORDS[NODE_OF_CLAIM[claim]]}{way}")]
    proof = proof_from(facts, NODE_OF_CLAIM[claim], claim, goal.steps)
    found += proof_blocks(proof)
    if not proof.line.startswith("REJECTED open"):
        return found + [Say(f"The steps of this report come to: {proof.line}. It does not belong to this problem.")]
    return found + open_blocks(facts, goal, proof) + [*failure_blocks(goal), *beginning(claim, goal)]


def open_blocks(facts, goal, proof):
    """The nodes that have no step, with their pairs."""
    decided = {made.node for made in proof.steps}
    found = [Heading(2, "Still open")]
    for number, node in enumerate(proof.nodes):
        if number not in decided:
            stuck = "each strategy failed on it" if number == goal.stuck else "it was waiting when the goal was lost"
            found.append(Say(f"Node {number}, to show {node_text(node)}: {stuck}."))
            if node.asks == PAIRS and node.pairs:
                found.append(Table([(f"pair {n}", facts.pair_text(n)) for n in node.pairs]))
    return found


def failure_blocks(goal):
    if not goal.failed:
        return []
    rows = [(name, how, HELPED if how == "spent" else CUT_OFFS.get(name, "nothing is there")) for name, how in goal.failed]
    return [Heading(2, f"What was tried on node {goal.stuck}"), Table(rows)]


def beginning(claim, goal):
    """The certificate as far as it goes; what is open can be added by hand, or by tools/hunt."""
    lines = [CLAIMS[claim], f"(certificate 1 {claim})", *goal.texts]
    advice = "Add a step for each node that is open, by hand or with tools/hunt:"
    return [Heading(2, "The beginning of a certificate"), Say(advice), Lines(lines)]
