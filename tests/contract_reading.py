"""The public calls of the crates with their contracts, as they stand in the sources of a commit or of the tree."""
import re
import subprocess
from collections import namedtuple

# A call is known by its crate, its type (empty for a function) and its name.
Call = namedtuple("Call", "crate type name")
# What it answers, and its clauses; a clause is `ensures` or `requires`, with a name or none, and its words.
Contract = namedtuple("Contract", "answers clauses")
Clause = namedtuple("Clause", "kind name words")

HEAD = re.compile(r" *(?P<open>pub )?(?:const )?fn (?P<name>\w+)")
IMPL = re.compile(r"impl\b(?:<[^{]*?>)? (?:[\w:]+(?:<[^{]*?>)? for )?(?P<type>\w+)")
TRAIT = re.compile(r"pub trait (?P<type>\w+)")
CLAUSE = re.compile(r"\b(ensures|requires)\s*(\w+)?\s*\{")
BODY = re.compile(r"\n *\{\n|\{\}|;\n| \{\n")
SOURCE = re.compile(r"crates/\w+(?<!_tests)/src/.*\.rt")


def git(*words):
    return subprocess.run(["git", *words], check=True, capture_output=True, text=True).stdout


def sources(commit=None):
    """The text of each source file, but for crates of tests."""
    names = git("ls-files", "crates") if commit is None else git("ls-tree", "-r", "--name-only", commit, "crates")
    for name in filter(SOURCE.fullmatch, names.splitlines()):
        yield name, (open(name, encoding="utf-8").read() if commit is None else git("show", f"{commit}:{name}"))


def inside(text, start):
    """The text between the bracket that opens before this place and the one that closes it, and the place behind that."""
    depth, place = 1, start
    while depth:
        depth += {"{": 1, "}": -1}.get(text[place], 0)
        place += 1
    return text[start:place - 1], place


def contract_at(text, place):
    """The contract of the call whose head begins at this place."""
    found, first = [], None
    while True:
        clause, body = CLAUSE.search(text, place), BODY.search(text, place)
        first = first or min(it.start() for it in (clause, body) if it)
        if not clause or body and body.start() < clause.start():
            return found, first
        words, place = inside(text, clause.end())
        found.append(Clause(clause[1], clause[2] or "", " ".join(words.split())))


def answer_in(head):
    """The type behind the arrow of a head, if there is one."""
    arrow = head.rpartition("->")
    return " ".join(arrow[2].split()) if arrow[1] and ")" not in arrow[2].replace("()", "").partition("<")[0] else ""


def calls_of(commit=None):
    """Each public call, with its contract."""
    found = {}
    for name, text in sources(commit):
        crate, of, is_trait, place = name.split("/")[1], "", False, 0
        for line in text.splitlines(keepends=True):
            kind = IMPL.match(line) or TRAIT.match(line)
            if kind:
                of, is_trait = kind["type"], bool(TRAIT.match(line))
            elif line.startswith("}"):
                of, is_trait = "", False
            head = HEAD.match(line)
            if head and (head["open"] or is_trait):
                clauses, end = contract_at(text, place)
                found[Call(crate, of, head["name"])] = Contract(answer_in(text[place:end]), clauses)
            place += len(line)
    return found
