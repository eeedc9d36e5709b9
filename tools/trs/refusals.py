"""The numbers of refusals in words, and their usual causes."""
from .blocks import Heading, Say
from .notation import symbol_text
from .path_steps import FAULTS

STEP_NUMBERS = {
    1: "the method is not for what the node asks",
    2: "a list has the wrong length",
    3: "a step of a path can't be made",
    4: "the path of a loop is empty",
    5: "the position of a loop is not in the last term",
    6: "the subterm there is no instance of the starting term",
    7: "a number in an item of graph is that of no pair of the node, or occurs twice",
    8: "a pair of the node is in no item of graph",
    9: "an edge leads from a later item to an earlier one",
    10: "a single pair has an edge to itself",
    11: "a symbol has no entry",
    12: "a value is too great",
    13: "a rule is not weakly above",
    14: "a pair is not weakly above",
    15: "no pair is strictly above",
    16: "a side of a rule has a variable twice",
    17: "the positions of a parallel step are not parallel, or do not ascend",
    18: "two ends that must be equal differ",
    19: "a path that may have at most one step has more",
    20: "the labels of a path do not fit",
    21: "the end of a path of a fork is no normal form",
    22: "the two ends of a fork are equal",
    23: "the caps of the two ends of a fork unify",
    24: "a critical peak has a term past the limits",
    25: "the critical peaks together have too many nodes",
}

PROBLEM_NUMBERS = {
    2: "There is no format: the first item must be (format TRS).",
    3: "The format is not TRS.",
    4: "An item or a term is not of a known form.",
    5: "A name is declared again.",
    6: "An arity is no number up to 255, written in digits.",
    7: "The head of a term's list is not declared.",
    8: "A term has a wrong number of arguments.",
    9: "A left side is a variable.",
    10: "A variable of the right side does not occur in the left side.",
    11: "An item has an attribute, and attributes are not read.",
    12: "There are too many symbols, rules or nodes.",
    13: "A side is too deep: 256 levels are the limit.",
}

TEXT_KINDS = {
    1: "There is a control byte outside a comment.",
    2: "This bracket is never closed.",
    3: "No list is open that this bracket could close.",
    4: "Too many lists are open here.",
}

CAUSES_IN_CERTIFICATES = [
    "A place within a position counted from 0: places count the arguments from 1.",
    "A missing bracket: the outermost one that is never closed is named, though the mistake may be far after it.",
    "A symbol in a term with too many or too few arguments, or a misspelt one with arguments.",
    "A byte order mark at the beginning, which editors do not show, or lines that end with carriage returns alone.",
    "A use or a define in version 1, or a define after a step or after its use.",
    "Another kind of certificate, such as the XML of other tools: only the format of docs/CERTIFICATE-FORMAT.md is read.",
]

CAUSES_BY_NUMBER = {
    1: ["A missing bracket, or one too many. The outermost bracket that is never closed is named; the mistake may be far after it.",
        "A semicolon before a closing bracket: the rest of the line is a comment."],
    4: ["A quoted name with a blank in it: it is read as two words.", "(VAR ..) or (var ..): variables are not declared."],
    5: ["The same (fun ..) line twice, or one name with two arities."],
    6: ["More than 255 arguments, or a word in place of the number of arguments."],
    7: ["A declaration that is missing or misspelt. Bars are part of a name: |f| and f are two names."],
    8: ["The number in (fun ..) does not fit the uses, or an argument was forgotten."],
    9: ["A constant that was not declared is read as a variable."],
    10: ["A constant that was not declared is read as a variable: add (fun name 0).",
         "Rules with new variables on the right side are not allowed."],
    11: ["Sorts, costs and other attributes of the ARI format: remove them."],
    12: ["At most 4,095 symbols, 4,095 rules and 65,536 nodes are read."],
    13: ["Numbers written as towers of s: at most 256 levels are read."],
}


def problem_numbers(number, kind):
    """A refusal of a problem text in words."""
    return TEXT_KINDS[kind] if kind is not None else PROBLEM_NUMBERS[number]


def causes_in_problem(text, refused):
    """The usual causes, those first that this text shows."""
    found = []
    if text.startswith(b"\xef\xbb\xbf"):
        found.append("The text begins with a byte order mark, which editors do not show. Save it without one.")
    if b"(RULES" in text or b"(VAR" in text:
        found.append("This is the old .trs form: `tools/to-ari FILE` writes it as ARI.")
    if text.lstrip(b"\xef\xbb\xbf \t\r\n").startswith(b"<"):
        found.append("This is XML: `tools/to-ari FILE` writes TPDB's XML as ARI.")
    if refused.number in (2, 3):
        found.append("Another format of ARI (CTRS, CSTRS, MSTRS, LCTRS, ..): conditional, context-sensitive, sorted and constrained "
                     "systems are not read. The word is TRS in upper case, with nothing after it.")
    return found + CAUSES_BY_NUMBER.get(refused.number, [])


def line_blocks(facts, line):
    """A line of the program, without the text that it is about."""
    words = line.split()
    found = [Heading(1, line)]
    if words[:2] == ["REJECTED", "step"] and len(words) > 3 and words[3].isdigit() and int(words[3]) in STEP_NUMBERS:
        number, fields = int(words[3]), words[4:]
        found.append(Say(f"Step {words[2]}, counted from 0, is refused: {STEP_NUMBERS[number]}."))
        found += [Say(text) for text in field_texts(facts, number, [int(field) for field in fields if field.isdigit()])]
    elif words[0] == "ACCEPTED":
        found.append(Say("The certificate is accepted, and what it claims is true of this system."))
    else:
        found.append(Say(next((text for start, text in LINES.items() if line.startswith(start)), "It is no line of `certify`.")))
    return found + [Say("To see the place and the reason, give the text itself in place of the line: tools/explain PROBLEM TEXT.")]


LINES = {
    "REJECTED text": "The certificate does not follow the grammar. The number is a place: the number of bytes before it.",
    "REJECTED version": "The version of the certificate is neither 1 nor 2.",
    "REJECTED headline": "YES or NO does not go with the claim.",
    "REJECTED no-node": "This step, counted from 0, is for a node that the steps before it do not make.",
    "REJECTED decided": "This step, counted from 0, is for a node that has a step already.",
    "REJECTED open": "All steps hold, but this node has no step.",
    "REJECTED too-heavy": "The certificate is accepted, but in version 2 its paths would weigh more than 8,388,608.",
    "problem refused": "That problem text was refused, but this one can be read. Is it the same text?",
    "order refused": "The order text has a fault. The number is a place: the number of bytes before it.",
    "too long": "A text passes its limit: 1,048,576 bytes for a problem, 8,388,608 for a certificate.",
    "UNORIENTABLE": "Completion found an equation that the order does not orient.",
    "SPENT": "The completion did not end within the budget.",
    "LIMIT": "The completion passed a limit.",
    "usage:": "The command line is invalid: see the table of actions in README.md.",
}


def field_texts(facts, number, fields):
    """What the numbers after the condition point to."""
    if number == 2 and len(fields) == 2:
        yield f"{fields[0]} are needed, and there are {fields[1]}."
    elif number == 3 and len(fields) == 4:
        yield f"Item {fields[0]}, path {fields[1]}, step {fields[2]}, each counted from 0: {FAULTS.get(fields[3], 'an unknown fault')}."
    elif number in (7, 8, 9, 10, 14):
        yield from (f"Pair {n}: {facts.pair_text(n)}" if n < len(facts.pairs) else f"There is no pair {n}." for n in fields)
    elif number == 11:
        yield from (f"Symbol {n}: {symbol_text(facts.system.names[n])}" for n in fields if n < len(facts.system.names))
    elif number == 12 and fields and fields[0] >= len(facts.rules):
        yield from (f"Pair {n}: {facts.pair_text(n)}" for n in [fields[0] - len(facts.rules)] if n < len(facts.pairs))
    elif number in (12, 13, 16):
        yield from (f"Rule {n}: {facts.rule_text(n)}" for n in fields if n < len(facts.rules))
    elif number in (17, 18, 19, 20):
        yield f"Critical peak {fields[0]}." if fields else ""
