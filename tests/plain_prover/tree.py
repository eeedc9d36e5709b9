"""The proof tree of one worker: the least node that waits is asked by its first strategy that has not failed, until a goal
is won or each is lost."""
from .strategies import NONE, SPENT, STRATEGIES, Run
from .text import member

GOALS = {
    "termination": [("terminating", "terminating", ("sn",)), ("nonterminating", "nonterminating", ("loop",))],
    "confluence": [("confluent", "confluent", ("cr",)), ("confluent-newman", "confluent", ("cr-newman",)), ("nonconfluent", "nonconfluent", ("fork",))],
    "unique": [("unique", "unique", ("unr",)), ("unique-newman", "unique", ("unr-newman",)), ("nonunique", "nonunique", ("split",))],
}


class Node:
    def __init__(self, goal, problem):
        self.goal, self.problem, self.step, self.children, self.failed = goal, problem, None, [], {}

    def next_strategy(self):
        return next((s for s in STRATEGIES[self.problem[0]] if s not in self.failed), None)


class Tree:
    def __init__(self, question):
        self.goals = GOALS[question]
        self.nodes = [Node(g, problem) for g, (_, _, problem) in enumerate(self.goals)]

    def is_closed(self, node):
        return node.step is not None and all(self.is_closed(child) for child in node.children)

    def is_stuck(self, node):
        return node.step is None and node.next_strategy() is None

    def is_lost(self, goal):
        return any(node.goal == goal and self.is_stuck(node) for node in self.nodes)

    def winner(self):
        return next((g for g in range(len(self.goals)) if self.is_closed(self.nodes[g])), None)

    def next_node(self):
        return next((n for n in self.nodes if n.step is None and not self.is_lost(n.goal) and n.next_strategy()), None)

    def walked(self, goal):
        """The nodes of a goal, the children of each behind all that came before."""
        order = [self.nodes[goal]]
        for node in order:
            order += node.children
        return order

    def steps(self, order):
        return [member("step", number, node.step) for number, node in enumerate(order) if node.step is not None]


def text_of_answer(system, question, budget):
    """What the program prints for the question about the system."""
    tree, run = Tree(question), Run(system, budget)
    while tree.winner() is None and (node := tree.next_node()):
        strategy = node.next_strategy()
        answer = confluence_step(node.problem) if strategy == "confluence" else run.answer(strategy, node.problem)
        if answer in (NONE, SPENT):
            node.failed[strategy] = answer
        else:
            node.step, left = answer
            node.children = [Node(node.goal, problem) for problem in left]
            tree.nodes += node.children
    winner = tree.winner()
    lines = report_lines(tree) if winner is None else certificate_lines(tree, winner)
    return "".join(line + "\n" for line in lines)


def confluence_step(problem):
    return "(confluence)", [("cr",) if problem == ("unr",) else ("cr-newman",)]


def certificate_lines(tree, winner):
    claim = tree.goals[winner][1]
    headline = "NO" if claim.startswith("non") else "YES"
    return [headline, member("certificate", 1, claim), *tree.steps(tree.walked(winner))]


def report_lines(tree):
    return ["MAYBE", *(goal_line(tree, g, word) for g, (word, _, _) in enumerate(tree.goals))]


def goal_line(tree, goal, word):
    order = tree.walked(goal)
    number, stuck = next((k, node) for k, node in enumerate(order) if tree.is_stuck(node))
    name, *numbers = stuck.problem
    failed = [member("failed", strategy, stuck.failed[strategy]) for strategy in STRATEGIES[name]]
    return member("goal", word, *tree.steps(order), member("stuck", number, name, *(numbers[0] if numbers else [])), *failed)
