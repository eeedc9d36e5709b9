"""A plain certifier that gives its reasons: the account of each step of a certificate, and the line that it comes to."""
from collections import namedtuple

from . import kinds, pair_steps, path_steps, peak_steps
from .account import NODE_OF_CLAIM, Account, Node, StepRefused
from .notation import Notation

# The nodes by their numbers; what became of each step, in order: its node, its kind, its account, and the first number of
# the nodes that it leaves; and the line.
Proof = namedtuple("Proof", "claim nodes steps line")
Made = namedtuple("Made", "number node method account first_left")

# The accounts of steps that say terms need names for the variables of the step.
ON_FACTS = {
    kinds.Dp: pair_steps.explain_dp, kinds.Graph: pair_steps.explain_graph, kinds.Subterm: pair_steps.explain_subterm,
    kinds.Poly: pair_steps.explain_poly, kinds.Lpo: pair_steps.explain_lpo, kinds.Kbo: pair_steps.explain_kbo,
    kinds.Newman: peak_steps.explain_newman, kinds.Parallel: peak_steps.explain_parallel,
    kinds.Strong: peak_steps.explain_strong, kinds.Label: peak_steps.explain_label,
    kinds.Confluence: path_steps.explain_confluence,
}
ON_TERMS = {kinds.Loop: path_steps.explain_loop, kinds.Fork: path_steps.explain_fork}


def account_of(facts, node, step):
    """What a step says on a node."""
    account = Account()
    try:
        if type(step.method) in ON_TERMS:
            notation = Notation(facts.system, step.variables)
            ON_TERMS[type(step.method)](facts, node, step.method, notation, account)
        else:
            ON_FACTS[type(step.method)](facts, node, step.method, account)
    except StepRefused as refused:
        account.refuse(refused)
    return account


def proved(facts, certificate):
    """The proof of a certificate, as far as its steps hold."""
    return proof_from(facts, NODE_OF_CLAIM[certificate.claim], certificate.claim, certificate.steps)


def proof_from(facts, asks, claim, steps):
    nodes, decided, made = [Node(asks, None)], set(), []
    for number, step in enumerate(steps):
        if step.node >= len(nodes):
            return Proof(claim, nodes, made, f"REJECTED no-node {number}")
        if step.node in decided:
            return Proof(claim, nodes, made, f"REJECTED decided {number}")
        account = account_of(facts, nodes[step.node], step)
        made.append(Made(number, step.node, step.method, account, len(nodes)))
        if account.refusal:
            return Proof(claim, nodes, made, " ".join(map(str, ["REJECTED step", number, *account.refusal])))
        nodes += account.left
        decided.add(step.node)
    open_nodes = [number for number in range(len(nodes)) if number not in decided]
    return Proof(claim, nodes, made, f"REJECTED open {open_nodes[0]}" if open_nodes else f"ACCEPTED {claim}")
