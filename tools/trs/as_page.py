"""Explanations as a page: one HTML file that needs nothing from outside."""
from . import blocks
from .as_text import graph as graph_rows
from .pictures import NO_GRAPHVIZ, escaped, graph_svg, peak_svg

STYLE = """body { font-family: sans-serif; max-width: 75em; margin: 2em auto; padding: 0 1em; }
td, pre, .term { font-family: monospace; font-size: 14px; } td { padding: 0 1.5em 0 0; white-space: pre-wrap; }
.step { font-family: sans-serif; font-size: 12px; fill: #555; paint-order: stroke; stroke: white; stroke-width: 4px; } svg { max-width: 100%; height: auto; }
.failure { color: #a00; font-weight: bold; } h1 { font-size: 1.4em; } h2 { font-size: 1.1em; }"""


def page(name, line, found):
    """The page of some blocks. The line is that of the certifier, if there is one."""
    title = escaped(f"{name}: {line}" if line else name)
    body = "\n".join(WRITINGS[type(block)](block) for block in blocks.merged(found))
    head = f'<head><meta charset="utf-8"/><title>{title}</title><style>{STYLE}</style></head>'
    return f'<!DOCTYPE html>\n<html lang="en">\n{head}\n<body>\n{body}\n</body>\n</html>\n'


def heading(block):
    return f"<h{block.level}>{escaped(block.text)}</h{block.level}>"


def said(block):
    return f"<p>{escaped(block.text)}</p>"


def failed(block):
    return f'<p class="failure">{escaped(block.text)}</p>'


def rows(block):
    cells = lambda row: "".join(f"<td>{escaped(cell)}</td>" for cell in row)
    return "<table>" + "".join(f"<tr>{cells(row)}</tr>" for row in block.rows) + "</table>"


def plain_lines(block):
    return "<pre>" + escaped("\n".join(block.lines)) + "</pre>"


def graph(block):
    """The picture, and the same as lines."""
    return (graph_svg(block) or said(blocks.Say(NO_GRAPHVIZ))) + plain_lines(blocks.Lines(graph_rows(block)))


WRITINGS = {
    blocks.Heading: heading, blocks.Say: said, blocks.Table: rows, blocks.Lines: plain_lines, blocks.Failure: failed,
    blocks.Graph: graph, blocks.Diagram: peak_svg,
}
