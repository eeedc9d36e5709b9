"""What an explanation is made of. It is written as a text (`as_text`) or as a page (`as_page`)."""
from collections import namedtuple

# A heading of a section, of level 1 or 2; a sentence; rows of cells; and lines that are shown as they stand.
Heading = namedtuple("Heading", "level text")
Say = namedtuple("Say", "text")
Table = namedtuple("Table", "rows")
Lines = namedtuple("Lines", "lines")

# What fails, in words.
Failure = namedtuple("Failure", "text")

# A graph with the groups of its nodes: a picture in a page, lines in a text. `labels` says for each node what it is.
Graph = namedtuple("Graph", "edges groups labels")

# A peak with its two sides: chains of terms, each with the step that led there, and whether the two ends are one term.
Diagram = namedtuple("Diagram", "top left right is_joined")
Link = namedtuple("Link", "step term")


def merged(found):
    """The blocks, with rows that follow each other as one table, so that their columns stand below each other."""
    result = []
    for block in found:
        if isinstance(block, Table) and result and isinstance(result[-1], Table):
            result[-1] = Table(result[-1].rows + block.rows)
        else:
            result.append(block)
    return result
