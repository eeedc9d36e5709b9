"""Small systems at random, each from its seed."""
import random

from .rewriting import Rule, System
from .terms import is_variable, variables


def random_system(question, seed):
    """A system on which the question is seldom answered at once."""
    chosen = random.Random(f"{question} {seed}")
    return chosen.choice(KINDS[question])(chosen)


def system(arities, rules):
    return System(list(arities), arities, rules)


def between_constants(chosen):
    """Rules between constants: many peaks, and loops."""
    names = "abcde"[: chosen.randint(3, 5)]
    rules = [Rule((chosen.choice(names),), (chosen.choice(names),)) for _ in range(chosen.randint(2, 5))]
    return system(dict.fromkeys(names, 0), rules)


def below_symbols(chosen):
    """The same below a symbol with one argument or two."""
    arities = {"a": 0, "b": 0, "c": 0, "f": chosen.choice([1, 1, 2])}
    side = lambda: term(chosen, arities, chosen.choice([0, 1]), [])
    left = lambda: side() if chosen.random() < 0.7 else term(chosen, arities, 1, [0, 1], "f")
    return system(arities, [rule(chosen, arities, left(), 1) for _ in range(chosen.randint(2, 4))])


def by_constructors(chosen):
    """Rules for one or two symbols by cases of 0 and s."""
    arities = {"0": 0, "s": 1, "f": chosen.choice([1, 2, 2]), "g": chosen.choice([1, 2])}
    pattern = lambda v: chosen.choice([v, ("0",), ("s", v), ("s", v)])
    left = lambda f: (f,) + tuple(pattern(v) for v in range(arities[f]))
    rules = [rule(chosen, arities, left(chosen.choice("ffg")), 2) for _ in range(chosen.randint(1, 4))]
    return system(arities, rules)


def of_strings(chosen):
    """Rules on strings, as terms over symbols with one argument."""
    letters = chosen.choice(["f", "fg", "fg", "fgh"])
    word = lambda fewest, most: [chosen.choice(letters) for _ in range(chosen.randint(fewest, most))]
    rules = [Rule(string(word(1, 3)), string(word(0, 3))) for _ in range(chosen.randint(1, 2))]
    return system(dict.fromkeys(letters, 1), rules)


def of_hard_strings(chosen):
    """One rule on strings for which orders are left, or longer loops."""
    return system({"f": 1, "g": 1}, [hard_rule(chosen, "fg")])


def of_two_parts(chosen):
    """Two of them on strings of different letters: the rule of each is not usable for the other."""
    return system(dict.fromkeys("pqfg", 1), [hard_rule(chosen, "pq"), hard_rule(chosen, "fg")])


def hard_rule(chosen, letters):
    """A rule on strings with a dependency pair whose right side is no subterm, and no left side in the right one."""
    while True:
        left, right = ([chosen.choice(letters) for _ in range(chosen.randint(2, 4))] for _ in range(2))
        tails = [right[i + 1 :] for i, letter in enumerate(right) if letter == left[0]]
        is_easy = all(left[-len(tail) :] == tail for tail in tails if tail)
        if tails and not is_easy and "".join(left) not in "".join(right):
            return Rule(string(left), string(right))


def string(word):
    t = 0
    for letter in reversed(word):
        t = (letter, t)
    return t


def of_terms(chosen):
    """Rules on any terms."""
    arities = chosen.choice([{"a": 0, "f": 1}, {"a": 0, "f": 2}, {"f": 1, "g": 1}, {"a": 0, "f": 1, "g": 2}])
    left = lambda: term(chosen, arities, 2, [0, 1], chosen.choice([f for f in arities if arities[f]]))
    return system(arities, [rule(chosen, arities, left(), 2) for _ in range(chosen.randint(1, 3))])


def of_towers(chosen):
    """A tower of symbols that are towers themselves, by which a rule can get too deep."""
    tower = lambda f, height, t: t if height == 0 else (f, tower(f, height - 1, t))
    links = [Rule(("h", 0), tower("s", chosen.choice([1, 14]), 0)), Rule(("a",), tower("h", chosen.choice([1, 20, 20]), ("b",)))]
    return system({"a": 0, "h": 1, "s": 1, "b": 0}, chosen.sample(links, 2))


def random_ranks(seed, names):
    """The rank of each symbol in an order; those of half of the seeds fall."""
    chosen = random.Random(f"ranks {seed}")
    falls = chosen.random() < 0.5
    return {name: len(names) - i if falls else chosen.randint(0, 3) for i, name in enumerate(names)}


def rule(chosen, arities, left, depth):
    """With variables in the order of their first occurrences, and a right side of at most this depth."""
    known = list(dict.fromkeys(variables(left)))
    right = term(chosen, arities, chosen.randint(0, depth), known)
    return Rule(renumbered(known, left), renumbered(known, right))


def renumbered(known, t):
    return known.index(t) if is_variable(t) else (t[0],) + tuple(renumbered(known, part) for part in t[1:])


def term(chosen, arities, depth, known, root=None):
    """A term over these variables, with this root if one is given."""
    constants = [f for f in arities if arities[f] == 0]
    if root is None and known and (chosen.random() < 0.5 if depth else chosen.random() < 0.8 or not constants):
        return chosen.choice(known)
    f = root or chosen.choice(list(arities) if depth else constants)
    return (f,) + tuple(term(chosen, arities, max(depth - 1, 0), known) for _ in range(arities[f]))


KINDS = {
    "termination": [by_constructors, of_strings, of_hard_strings, of_hard_strings, of_two_parts, of_terms],
    "confluence": [between_constants, below_symbols, by_constructors, of_strings, of_terms],
    "unique": [between_constants, below_symbols, of_strings],
    "complete": [between_constants, below_symbols, of_strings, of_terms, of_towers, of_towers],
}
