"""The account of a step: what it says for its node, and whether its conditions hold."""
from collections import namedtuple

from .blocks import Failure, Say, Table

# What a node asks for. Pairs are the numbers of its pairs, and None where it asks for something else.
Node = namedtuple("Node", "asks pairs")

TERMINATES, LOOPS, CONFLUENT, FORKS, UNIQUE, SPLITS, PAIRS = "sn", "loop", "cr", "fork", "unr", "split", "dp"

# The problems of reports. By way of termination (`cr-newman`, `unr-newman`) the same is asked for.
NODE_OF_CLAIM = {
    "terminating": TERMINATES, "nonterminating": LOOPS, "confluent": CONFLUENT, "nonconfluent": FORKS,
    "unique": UNIQUE, "nonunique": SPLITS,
}

WORDS = {
    TERMINATES: "that the system terminates", LOOPS: "that it does not terminate", CONFLUENT: "that it is confluent",
    FORKS: "that it is not confluent", UNIQUE: "that its normal forms are unique", SPLITS: "that a term has two normal forms",
}


class StepRefused(Exception):
    """A condition that fails: the numbers of the line `REJECTED step`, and what they mean here."""

    def __init__(self, numbers, text):
        super().__init__(numbers, text)
        self.numbers, self.text = numbers, text


class Account:
    """The blocks of a step, the nodes that it leaves, and the numbers of its refusal, if it is refused."""

    def __init__(self):
        self.blocks, self.left, self.refusal = [], [], None

    def say(self, text):
        self.blocks.append(Say(text))

    def table(self, rows):
        if rows:
            self.blocks.append(Table(rows))

    def add(self, block):
        self.blocks.append(block)

    def leave(self, node):
        self.left.append(node)

    def refuse(self, refused):
        self.refusal, self.left = refused.numbers, []
        self.blocks.append(Failure(refused.text))


def check_asks(node, *kinds):
    """Condition 1 of each method."""
    if node.asks not in kinds:
        raise StepRefused([1], "This method is not for what the node asks.")
