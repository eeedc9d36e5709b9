"""Explanations as texts, at most 120 columns wide where words allow it."""
import textwrap

from . import blocks

WIDTH = 118


def written(found):
    """The lines of some blocks."""
    lines = [line for block in blocks.merged(found) for line in WRITINGS[type(block)](block)]
    return "\n".join(lines) + "\n"


def heading(block):
    return ["", block.text, ("=" if block.level == 1 else "-") * len(block.text)]


def said(block):
    indent = "  " if block.text.startswith("* ") else ""
    return textwrap.wrap(block.text, WIDTH, subsequent_indent=indent, break_long_words=False, break_on_hyphens=False)


def failed(block):
    return said(blocks.Say("FAILS: " + block.text))


def rows_of(block):
    """The rows, with their columns below each other."""
    widths = [max(len(row[i]) for row in block.rows if i < len(row)) for i in range(max(map(len, block.rows)))]
    return ["    " + "   ".join(cell.ljust(width) for cell, width in zip(row, widths)).rstrip() for row in block.rows]


def plain_lines(block):
    return ["    " + line for line in block.lines]


def graph(block):
    rows = []
    for word, members in block.groups:
        for n in members:
            follow = ", ".join(map(str, block.edges[n])) or "none"
            group = [f"{word} {', '.join(map(str, members))}"] if word != "pair" else []
            rows.append((*group, f"pair {n}", block.labels[n], f"followed by {follow}"))
    return rows_of(blocks.Table(rows))


def diagram(block):
    """The two sides of a peak, one below the other."""
    lines = [block.top]
    for name, links in (("left", block.left), ("right", block.right)):
        lines += [f"  {name + ':' if place == 0 else '':7}-> {link.term}    ({link.step})" for place, link in enumerate(links)]
    if block.is_joined:
        lines.append("  the two ends are one term")
    return ["    " + line for line in lines]


WRITINGS = {
    blocks.Heading: heading, blocks.Say: said, blocks.Table: rows_of, blocks.Lines: plain_lines, blocks.Failure: failed,
    blocks.Graph: graph, blocks.Diagram: diagram,
}
