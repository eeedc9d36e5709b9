"""What a text means for a problem, as blocks: a certificate, a report, a line of the program, an order, or nothing at all."""
import re

from .account import NODE_OF_CLAIM, WORDS
from .blocks import Graph, Heading, Lines, Say, Table
from .certificates import CLAIMS, CertificateRefused, read_certificate
from .certifying import proved
from .facts import Facts
from .notation import Notation, at_place, count_text
from .order_blocks import order_blocks
from .path_steps import TooManySteps
from .places import spot
from .problems import ProblemRefused, read_problem
from .proof_blocks import node_text, proof_blocks
from .refusals import CAUSES_IN_CERTIFICATES, causes_in_problem, line_blocks, problem_numbers
from .reports import report_blocks

# What an order text begins with, after comments.
ORDER_TEXT = re.compile(rb"(\s|;[^\n]*(\n|$))*\(\s*order\b")

# The lists of a certificate. No list of an order text begins with one of these words.
CERTIFICATE_LIST = re.compile(rb"\(\s*(certificate|define|step)\b")

KNOWN_LINE = re.compile(r"(ACCEPTED|REJECTED|problem refused|order refused|too long|UNORIENTABLE|SPENT|LIMIT|usage:)( |$)")


def explained(problem_text, text):
    """The blocks for a problem and a text (bytes; None where there is none), and the line that they come to, if any."""
    try:
        problem = read_problem(problem_text)
    except ProblemRefused as refused:
        return refused_problem(problem_text, refused), refused.line()
    facts = Facts(problem)
    if text is None:
        return system_blocks(facts) + facts_blocks(facts), None
    words = text.decode("utf-8", "surrogateescape")
    if KNOWN_LINE.match(words):
        return system_blocks(facts) + line_blocks(facts, words.strip()), None
    if words.startswith("COMPLETE\n"):
        return completion_blocks(facts, text), None
    if words.startswith("MAYBE\n(goal "):
        return system_blocks(facts) + report_blocks(facts, text), None
    if is_order_text(text):
        found, line = order_blocks(facts, text)
        return system_blocks(facts) + found, line
    return certificate_blocks(facts, text)


def is_order_text(text):
    """Whether a text is meant for `complete`: a certificate with an order before it is a certificate that has a fault."""
    return ORDER_TEXT.match(text) and not CERTIFICATE_LIST.search(text)


# ---- a problem


def completion_blocks(facts, text):
    """The system that a completion ends with, beside the one that it began with."""
    found = system_blocks(facts) + [Heading(1, "COMPLETE"), Say("The completion ended. The rules that it found:")]
    try:
        return found + system_blocks(Facts(read_problem(text.partition(b"\n")[2])))[2:]
    except ProblemRefused as refused:
        return found + [Say(f"But what it printed is no problem text: {refused.line()}.")]


def refused_problem(text, refused):
    """Why a text has no system, and where."""
    found = [Heading(1, refused.line()), Say(problem_numbers(refused.number, refused.kind))]
    if refused.place is not None:
        found.append(Lines(list(spot(text, refused.place))))
    return found + [Heading(2, "Usual causes"), *(Say("* " + cause) for cause in causes_in_problem(text, refused))]


def system_blocks(facts):
    """The symbols and the rules, by their numbers."""
    arities = facts.system.arities
    found = [Heading(1, "The system")]
    symbols = ", ".join(f"{f}/{arities[f]}" for f in arities) or "none"
    found.append(Say(f"Symbols, each with the number of its arguments: {symbols}."))
    return found + [table_of([(f"rule {k}", facts.rule_text(k)) for k in range(len(facts.rules))], "It has no rules.")]


def table_of(rows, otherwise):
    return Table(rows) if rows else Say(otherwise)


def facts_blocks(facts):
    """The dependency pairs with their graph, and the critical peaks."""
    numbers = range(len(facts.pairs))
    found = [Heading(1, "Dependency pairs")]
    if facts.pairs:
        labels = {n: facts.pair_text(n) for n in numbers}
        found.append(Graph(facts.edges(numbers), [("pair", [n]) for n in numbers], labels))
    else:
        found.append(Say("There are none, so the system terminates."))
    peaks, limit = facts.peaks
    found += [Heading(1, "Critical peaks"), Say(f"{count_text(len(peaks), 'critical peak')}.")]
    if limit:
        found.append(Say("A limit is passed after these: methods on critical peaks are refused."))
    return found + [Table(peak_rows(facts, number, peak)) for number, peak in enumerate(peaks)]


def peak_rows(facts, number, peak):
    notation = Notation(facts.system)
    by = f"rule {peak.inner} {at_place(peak.place)} of rule {peak.outer}"
    return [(f"peak {number}", f"{notation.term(peak.left)} <- {notation.term(peak.top)} -> {notation.term(peak.right)}", by)]


# ---- a certificate


def certificate_blocks(facts, text):
    """The blocks of a certificate and the line of the certifier."""
    found = system_blocks(facts)
    try:
        certificate = read_certificate(facts.system, text)
    except CertificateRefused as refused:
        return found + refused_text(text, refused), refused.line
    found += [Heading(1, f"The certificate claims {WORDS[NODE_OF_CLAIM[certificate.claim]]}")]
    try:
        proof = proved(facts, certificate)
    except TooManySteps as fault:
        return found + [Say(f"{fault} `trsprove certify` does.")], None
    return found + proof_blocks(proof) + ending(proof), proof.line


def refused_text(text, refused):
    found = [Heading(1, refused.line)]
    if refused.place is not None:
        found += [Say("The text is no certificate. Its first fault is here:")]
        found += [Lines(list(spot(text, refused.place)))]
        return found + [Heading(2, "Usual causes"), *(Say("* " + cause) for cause in CAUSES_IN_CERTIFICATES)]
    if refused.line == "REJECTED headline":
        return found + [Say("YES goes with " + claims_of("YES") + ", and NO with " + claims_of("NO") + ".")]
    return found + [Say("Versions 1 and 2 are known.")]


def claims_of(headline):
    return ", ".join(claim for claim, of in CLAIMS.items() if of == headline)


def ending(proof):
    """The line, and for what is not accepted the reason."""
    found = [Heading(1, proof.line)]
    words = proof.line.split()
    if words[0] == "ACCEPTED":
        return found + [Say("All steps hold and no node is left open: it is proved.")]
    if words[1] == "open":
        decided = {made.node for made in proof.steps}
        found.append(Say("All steps hold, and these nodes have no step:"))
        return found + [Table([(f"node {n}", node_text(node)) for n, node in enumerate(proof.nodes) if n not in decided])]
    if words[1] == "no-node":
        last = len(proof.nodes) - 1
        return found + [Say(f"Step {words[2]} is for a node that does not exist: the steps before it make nodes 0 to {last}.")]
    if words[1] == "decided":
        return found + [Say(f"Step {words[2]} is for a node that has a step already.")]
    return found + [Say(f"Step {words[2]} is refused by condition {words[3]}; the reason is given above.")]
