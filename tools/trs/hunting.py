"""Searches for an answer to a question, each for a part of the time, and certificates of what they find."""
import signal

from plain_prover.text import join, member, path_text, place_text, term_text

from .certificates import CLAIMS
from .clock import TimeUp
from .loop_search import LoopSearch
from .pair_search import PairSearch, Proved, steps_text
from .rank_search import labelled
from .reach_search import fork_from, joined, starts

# Seconds that each search gets before the others have had their turn.
FIRST_SECONDS = 2

# Seconds after which a search that does not ask the clock is ended.
GRACE = 5

# How far searches go.
TERMS_OF_FORKS = (150, 3_000)
TERMS_OF_JOINS = 20_000
MOST_STARTS = 20_000


def certificate(claim, proof):
    return "\n".join([CLAIMS[claim], f"(certificate 1 {claim})", *steps_text(proof)]) + "\n"


class Hunt:
    """The searches for one problem within a time."""

    def __init__(self, facts, clock):
        self.facts, self.clock = facts, clock

    def answers(self, question):
        """Certificates, as they are found. Each search comes first for a short time, and then once more for what is left."""
        for seconds in (FIRST_SECONDS, self.clock.left()):
            for claim, search in self.searches(question):
                if self.clock.left() <= 0:
                    return
                found = within(search, self.clock.part(min(seconds, self.clock.left())))
                if found:
                    yield certificate(claim, found)

    def searches(self, question):
        if question == "termination":
            return [("terminating", self.by_pairs), ("nonterminating", self.by_loop)]
        if question == "confluence":
            fork = lambda clock: self.by_fork(clock, False)
            return [("nonconfluent", fork), ("confluent", self.by_joins), ("confluent", self.by_ranks)]
        split = lambda clock: self.by_fork(clock, True)
        return [("nonunique", split), *(("unique", confluence_of(search)) for search in (self.by_joins, self.by_ranks))]

    def text(self, term):
        return term_text(self.facts.system, term)

    def by_pairs(self, clock):
        return PairSearch(self.facts, clock).terminating()

    def by_loop(self, clock):
        loop = LoopSearch(self.facts, clock).loop()
        return loop and Proved(member("loop", self.text(loop.start), path_text(loop.path), place_text(loop.place)))

    def by_fork(self, clock, wants_normal):
        """A fork from some start: with few terms from each first."""
        for most in TERMS_OF_FORKS:
            for start in starts(self.facts, MOST_STARTS):
                found = fork_from(self.facts, start, clock, most, wants_normal)
                if found:
                    paths = path_text(found.left), path_text(found.right)
                    return Proved(member("fork", self.text(found.start), *paths, found.test))
        return None

    def by_joins(self, clock):
        """Joined critical peaks, and a proof of termination."""
        peaks, limit = self.facts.peaks
        if limit is not None:
            return None
        items = []
        for peak in peaks:
            found = joined(self.facts, peak.left, peak.right, clock, TERMS_OF_JOINS)
            if found is None:
                return None
            items.append(join("join", *found))
        below = self.by_pairs(clock)
        return below and Proved(member("newman", *items), [below])

    def by_ranks(self, clock):
        found = labelled(self.facts, clock, clock.left())
        if found is None:
            return None
        ranks, items = found
        return Proved(member("label", member("ranks", *ranks), *(join("pair", *paths) for paths in items)))


def confluence_of(search):
    """The same, for unique normal forms."""
    def found(clock):
        below = search(clock)
        return below and Proved("(confluence)", [below])
    return found


def within(search, clock):
    """What a search finds within its time; a signal ends it where it forgets to ask the clock."""
    before = signal.signal(signal.SIGALRM, end_of_time)
    signal.setitimer(signal.ITIMER_REAL, clock.left() + GRACE)
    try:
        return search(clock)
    except TimeUp:
        return None
    except Exception:
        # What a signal raises within a call of z3 comes as another fault.
        if clock.left() > 0:
            raise
        return None
    finally:
        signal.setitimer(signal.ITIMER_REAL, 0)
        signal.signal(signal.SIGALRM, before)


def end_of_time(number, frame):
    raise TimeUp()
