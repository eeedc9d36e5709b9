"""The steps of a proof as blocks: what each has to show, its account, and what it leaves open."""
from .account import PAIRS, WORDS
from .blocks import Heading, Say
from .notation import pairs_text

METHOD_NAMES = {
    "Dp": "dependency pairs", "Graph": "the dependency graph", "Subterm": "the subterm criterion", "Poly": "a linear interpretation",
    "Lpo": "a path order", "Kbo": "a Knuth-Bendix order", "Loop": "a loop", "Newman": "joined peaks, where the system terminates",
    "Parallel": "peaks closed by parallel steps", "Strong": "strongly joined peaks", "Label": "decreasing peaks", "Fork": "a fork",
    "Confluence": "unique normal forms by confluence",
}


def node_text(node):
    """What a node asks for."""
    if node.asks == PAIRS:
        if not node.pairs:
            return "nothing of any pair; a node with no pairs is closed by an empty (graph)"
        return f"that {pairs_text(node.pairs)} make{'s' if len(node.pairs) == 1 else ''} no endless chain"
    return WORDS[node.asks]


def proof_blocks(proof):
    """A section for each step that was looked at."""
    found = []
    for made in proof.steps:
        node = proof.nodes[made.node]
        found.append(Heading(2, f"Step {made.number}, on node {made.node}: {METHOD_NAMES[type(made.method).__name__]}"))
        found.append(Say(f"To show {node_text(node)}."))
        found += made.account.blocks
        if not made.account.refusal:
            found += left_blocks(made)
    return found


def left_blocks(made):
    if not made.account.left:
        return [Say("Nothing is left open by this step.")]
    return [Say(f"Left open: node {made.first_left + place}, {node_text(node)}.") for place, node in enumerate(made.account.left)]
