"""Steps on critical peaks: newman, parallel, strong and label."""
from .account import CONFLUENT, TERMINATES, Node, StepRefused, check_asks
from .blocks import Diagram, Heading, Link
from .notation import Notation, at_place, count_text, place_text
from .path_steps import run_or_refuse, step_words, steps_of

LIMITS = {
    24: "A critical peak has a term of more than 65,536 nodes or a depth above 1,024.",
    25: "The critical peaks together have more than 4,194,304 nodes.",
}


def checked_peaks(facts):
    peaks, limit = facts.peaks
    if limit is not None:
        raise StepRefused([limit], LIMITS[limit])
    return peaks


def check_linear(facts, *sides):
    rule = facts.first_not_linear(sides)
    if rule is not None:
        where = "the left side" if sides == ("left",) else "a side"
        raise StepRefused([16, rule], f"In rule {rule}, {facts.rule_text(rule)}, {where} has a variable twice.")


def check_count(wanted, given, what):
    if wanted != given:
        raise StepRefused([2, wanted, given], f"The system has {wanted} {what[0]}, and there are {given} {what[1]} here.")


def explain_peaks(facts, items, account, name, explain_item):
    """The items of a method, one for each peak."""
    peaks = checked_peaks(facts)
    check_count(len(peaks), len(items), ("critical peaks", "items"))
    if not peaks:
        account.say("The system has no critical peaks.")
        return
    account.say(f"The system has {count_text(len(peaks), 'critical peak')}. {name}")
    for number, (peak, item) in enumerate(zip(peaks, items)):
        notation = Notation(facts.system)
        account.add(Heading(2, f"Peak {number}: rule {peak.inner} {at_place(peak.place)} of rule {peak.outer}"))
        explain_item(facts, notation, number, peak, item, account)


def peak_diagram(notation, peak, left, right, is_joined=True):
    """The peak, with walks or links from both sides."""
    sides = [side if isinstance(side, list) else side.links(notation) for side in (left, right)]
    first = Link(f"rule {peak.inner} {at_place(peak.place)}", notation.term(peak.left))
    second = Link(f"rule {peak.outer} at the root", notation.term(peak.right))
    return Diagram(notation.term(peak.top), [first, *sides[0]], [second, *sides[1]], is_joined)


def joined(facts, notation, number, starts, paths, numbers):
    """The walks of two paths that must end in one term."""
    walks = [run_or_refuse(facts, notation, start, steps_of(path), [number, n], f"path {n} of item {number}")
             for start, path, n in zip(starts, paths, numbers)]
    if walks[0].end != walks[1].end:
        ends = [notation.term(walk.end) for walk in walks]
        raise StepRefused([18, number], f"The two ends differ: {ends[0]} and {ends[1]}.")
    return walks


def explain_newman(facts, node, method, account):
    check_asks(node, CONFLUENT)
    explain_peaks(facts, method.joins, account, "Each is joined:", explain_join)
    account.say("A terminating system whose critical peaks are joined is confluent. That it terminates is left to show.")
    account.leave(Node(TERMINATES, None))


def explain_join(facts, notation, number, peak, item, account):
    account.add(peak_diagram(notation, peak, *joined(facts, notation, number, (peak.left, peak.right), item, (0, 1))))


def explain_parallel(facts, node, method, account):
    check_asks(node, CONFLUENT)
    check_linear(facts, "left")
    explain_peaks(facts, method.items, account, "One parallel step leads from the left of each to its right:", explain_closing)
    account.say("A left-linear system whose critical peaks are closed by parallel steps is confluent (Huet, 1980).")


def explain_closing(facts, notation, number, peak, steps, account):
    places = [step.place for step in steps]
    for one, next_one in zip(places, places[1:]):
        if not (one < next_one and next_one[: len(one)] != one):
            text = f"The positions {place_text(one)} and {place_text(next_one)} are not parallel, or do not ascend."
            raise StepRefused([17, number], text)
    walk = run_or_refuse(facts, notation, peak.left, steps, [number, 0], f"the parallel step of item {number}")
    if walk.end != peak.right:
        ends = notation.term(walk.end), notation.term(peak.right)
        raise StepRefused([18, number], f"The parallel step ends in {ends[0]}, and the right of the peak is {ends[1]}.")
    words = ", ".join(step_words(step) for step in steps) or "nothing to be done"
    account.add(peak_diagram(notation, peak, [Link(f"in parallel: {words}", notation.term(walk.end))], []))


def explain_strong(facts, node, method, account):
    check_asks(node, CONFLUENT)
    check_linear(facts, "left", "right")
    name = "From each side of each, steps lead to what the other side is, or reaches in one step:"
    explain_peaks(facts, method.items, account, name, explain_four)
    account.say("A linear system whose critical peaks are joined so from both sides is confluent (Huet, 1980).")


def explain_four(facts, notation, number, peak, paths, account):
    for first, start, other in ((0, peak.left, peak.right), (2, peak.right, peak.left)):
        if paths[first + 1].count > 1:
            text = f"Path {first + 1} of item {number} may have one step, and has {paths[first + 1].count}."
            raise StepRefused([19, number, first + 1], text)
        walks = joined(facts, notation, number, (start, other), paths[first : first + 2], (first, first + 1))
        account.add(peak_diagram(notation, peak, *(walks if first == 0 else reversed(walks))))


def explain_label(facts, node, method, account):
    check_asks(node, CONFLUENT)
    check_linear(facts, "left", "right")
    checked_peaks(facts)
    check_count(len(facts.rules), len(method.ranks), ("rules", "ranks"))
    account.say("The label of a step is the rank of its rule:")
    account.table([(f"rule {k}", f"rank {rank}") for k, rank in enumerate(method.ranks)])
    explain_item = lambda *of: explain_decreasing(*of, ranks=method.ranks)
    explain_peaks(facts, method.items, account, "Each is joined by paths whose labels decrease:", explain_item)
    account.say("A linear system whose critical peaks are decreasing is confluent (van Oostrom, 2008).")


def explain_decreasing(facts, notation, number, peak, paths, account, ranks):
    walks = joined(facts, notation, number, (peak.left, peak.right), paths, (0, 1))
    a, b = ranks[peak.inner], ranks[peak.outer]
    for n, (path, low, once) in enumerate(zip(paths, (a, b), (b, a))):
        labels = [ranks[step.rule] for step in path.steps()]
        if not fits(labels, low, once):
            raise StepRefused([20, number, n], label_text(number, n, labels, low, once))
    account.add(peak_diagram(notation, peak, *walks))
    account.say(f"The inner step has label {a}, the outer one {b}; the labels of the paths are "
                + " and ".join(labels_text([ranks[step.rule] for step in path.steps()]) for path in paths) + ".")


def fits(labels, low, once):
    """A run below `low`, then at most one label `once`, then labels below one of the two."""
    place = 0
    while place < len(labels) and labels[place] < low:
        place += 1
    if place < len(labels) and labels[place] == once:
        place += 1
    return all(label < low or label < once for label in labels[place:])


def labels_text(labels):
    return ", ".join(map(str, labels)) if labels else "none"


def label_text(number, path, labels, low, once):
    return (f"The labels of path {path} of item {number} are {labels_text(labels)}. They must begin with labels below {low}; then one "
            f"label {once} may come; and each after it must be below {low} or below {once}.")
