"""Paths from a term, and the steps loop, fork and confluence."""
from plain_prover.rewriting import is_normal, redexes
from plain_prover.terms import apply, at, is_variable, match, put

from .account import CONFLUENT, FORKS, LOOPS, SPLITS, UNIQUE, Node, StepRefused, check_asks
from .blocks import Diagram, Lines, Link
from .notation import at_place, count_text, place_text

MOST_NODES = 65_536
GREATEST_DEPTH = 1_024

# Of a longer path the steps in the middle are left out.
MOST_SHOWN = 60

FAULTS = {
    1: "the position is not in the term",
    2: "the subterm there is no instance of the rule's left side",
    3: "the system has no rule of this number",
    4: "the result would have more than 65,536 nodes or a depth above 1,024",
}


# A longer path is not gone through: the certifier takes millions of steps, and this would take hours.
MOST_STEPS = 200_000


class TooManySteps(Exception):
    """A path that is too long for this tool, with its number of steps."""


def steps_of(path):
    if path.count > MOST_STEPS:
        raise TooManySteps(f"A path has {path.count} steps, and this tool does not go through more than {MOST_STEPS}.")
    return path.steps()


class StepFault(Exception):
    """Why a step can't be made (1 to 4), its number in the path, the step, and the term before it."""

    def __init__(self, fault, number, step, term):
        super().__init__(fault, number)
        self.fault, self.number, self.step, self.term = fault, number, step, term


def subterm_at(term, place):
    """The subterm at a position, or None if it is not in the term."""
    for i in place:
        if is_variable(term) or i >= len(term):
            return None
        term = term[i]
    return term


class Sizes:
    """The nodes and the depth of terms. A term is measured once, so that a step costs what it changes."""

    def __init__(self):
        self.known = {}

    def of(self, term):
        if is_variable(term):
            return 1, 1
        if id(term) not in self.known:
            parts = [self.of(part) for part in term[1:]]
            measure = 1 + sum(nodes for nodes, _ in parts), 1 + max((levels for _, levels in parts), default=0)
            # The term is kept, so that no other one gets its identity.
            self.known[id(term)] = measure, term
        return self.known[id(term)][0]

    def of_instance(self, term, found):
        """Those of an instance, from those of what stands for the variables."""
        if is_variable(term):
            return self.of(found[term])
        parts = [self.of_instance(part, found) for part in term[1:]]
        return 1 + sum(nodes for nodes, _ in parts), 1 + max((levels for _, levels in parts), default=0)


def made(rules, term, step, number, sizes):
    """The term after a step."""
    if step.rule >= len(rules):
        raise StepFault(3, number, step, term)
    part = subterm_at(term, step.place)
    if part is None:
        raise StepFault(1, number, step, term)
    found = match(rules[step.rule].left, part)
    if found is None:
        raise StepFault(2, number, step, term)
    # What stays beside the place is no deeper than it was.
    nodes, levels = sizes.of_instance(rules[step.rule].right, found)
    if sizes.of(term)[0] - sizes.of(part)[0] + nodes > MOST_NODES or len(step.place) + levels > GREATEST_DEPTH:
        raise StepFault(4, number, step, term)
    return put(term, step.place, apply(found, rules[step.rule].right))


def run(rules, start, steps):
    """The links of a path from a term: each step with the term after it. Only the first ones and the last are kept."""
    first, last, term, count = [], [], start, 0
    sizes = Sizes()
    for number, step in enumerate(steps):
        term = made(rules, term, step, number, sizes)
        count += 1
        (first if count <= MOST_SHOWN // 2 else last).append((step, term))
        del last[: -(MOST_SHOWN // 2)]
    return Walk(start, first, last, count, term)


class Walk:
    """A path that was run: its start, its first and last links, how many steps it has, and its end."""

    def __init__(self, start, first, last, count, end):
        self.start, self.first, self.last, self.count, self.end = start, first, last, count, end

    def links(self, notation):
        """The links in words, with one for those that are left out."""
        found = [Link(step_words(step), notation.term(term)) for step, term in self.first]
        missing = self.count - len(self.first) - len(self.last)
        if missing:
            found.append(Link(f"{count_text(missing, 'step')} left out here", ".."))
        return found + [Link(step_words(step), notation.term(term)) for step, term in self.last]

    def lines(self, notation):
        return [notation.term(self.start)] + [f"  -> {link.term}    ({link.step})" for link in self.links(notation)]


def step_words(step):
    return f"rule {step.rule} {at_place(step.place)}"


def run_or_refuse(facts, notation, start, steps, numbers, name):
    """The walk of a path, or refusal 3 with the numbers of the item and the path."""
    try:
        return run(facts.rules, start, steps)
    except StepFault as fault:
        raise StepRefused([3, *numbers, fault.number, fault.fault], fault_text(facts, notation, fault, name)) from None


def fault_text(facts, notation, fault, name):
    step, before = fault.step, notation.term(fault.term)
    text = f"Step {fault.number} of {name}, rule {step.rule} {at_place(step.place)}, can't be made in {before}: {FAULTS[fault.fault]}."
    if fault.fault == 3:
        return f"{text} It has {count_text(len(facts.rules), 'rule')}, counted from 0."
    if fault.fault == 2:
        part = notation.term(at(fault.term, step.place))
        return f"{text} The subterm there is {part}, and rule {step.rule} is {facts.rule_text(step.rule)}."
    return text


# ---- loops


def explain_loop(facts, node, method, notation, account):
    check_asks(node, LOOPS)
    if not method.path.count:
        raise StepRefused([4], "The path has no steps.")
    walk = run_or_refuse(facts, notation, method.start, steps_of(method.path), [0, 0], "the path")
    account.add(Lines(walk.lines(notation)))
    part = subterm_at(walk.end, method.place)
    if part is None:
        text = f"The position {place_text(method.place)} is not in the last term, {notation.term(walk.end)}."
        raise StepRefused([5], text)
    found = match(method.start, part)
    if found is None:
        words = notation.term(part), notation.term(method.start)
        text = f"The subterm {at_place(method.place)} of the last term, {words[0]}, is no instance of the starting term, {words[1]}."
        raise StepRefused([6], text)
    account.say(f"{at_place(method.place).capitalize()} of the last term there is {notation.term(part)}, an instance of the starting term"
                + substitution_text(notation, found) + ". So the steps can be made again and again.")


def substitution_text(notation, found):
    changed = [f"{notation.term(t)} for {notation.variable(v)}" for v, t in sorted(found.items()) if t != v]
    return f", with {', '.join(changed)}" if changed else ""


# ---- forks


def explain_fork(facts, node, method, notation, account):
    check_asks(node, *((FORKS, SPLITS) if method.test == "normal" else (FORKS,)))
    left = run_or_refuse(facts, notation, method.start, steps_of(method.left), [0, 0], "path 0")
    right = run_or_refuse(facts, notation, method.start, steps_of(method.right), [0, 1], "path 1")
    account.say(f"From {notation.term(method.start)} both sides are reached:")
    account.add(Diagram(notation.term(method.start), left.links(notation), right.links(notation), False))
    if method.test == "normal":
        explain_normal_ends(facts, notation, left.end, right.end, account)
    else:
        explain_apart(facts, notation, left.end, right.end, account)


def explain_normal_ends(facts, notation, u, v, account):
    for number, end in enumerate((u, v)):
        if not is_normal(facts.rules_for([end]), end):
            step = redexes(facts.rules, end)[0]
            text = f"The end of path {number}, {notation.term(end)}, is no normal form: {step_words(step)} applies."
            raise StepRefused([21, number], text)
    if u == v:
        raise StepRefused([22], f"Both paths end in {notation.term(u)}.")
    account.say("The two ends are different normal forms: they are never joined.")


def explain_apart(facts, notation, u, v, account):
    first, second, fixed = facts.caps(u, v)
    words = [capped_text(facts, notation, cap, fixed) for cap in (first, second)]
    if not facts.are_apart(u, v):
        raise StepRefused([23], f"The caps of the two ends, {words[0]} and {words[1]}, unify.")
    account.say(f"The caps of the two ends, {words[0]} and {words[1]}, do not unify: whatever steps are made, the two never meet.")


def capped_text(facts, notation, term, fixed):
    """A cap, with a dash for each part that may be rewritten."""
    if is_variable(term):
        return notation.variable(term) if term in fixed else "_"
    if len(term) == 1:
        return term[0]
    return term[0] + "(" + ", ".join(capped_text(facts, notation, part, fixed) for part in term[1:]) + ")"


def explain_confluence(facts, node, method, account):
    check_asks(node, UNIQUE)
    account.say("Where a system is confluent, no term reaches two different normal forms.")
    account.leave(Node(CONFLUENT, None))
