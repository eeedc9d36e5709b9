"""Pictures as SVG: peaks by a drawing of its own, graphs by Graphviz where it is there."""
import html
import re
import shutil
import subprocess

NO_GRAPHVIZ = "A picture of the graph needs Graphviz (Debian's package graphviz)."

LETTER, LINE = 8, 22


def peak_svg(diagram):
    """The top, the two sides below it, each as a chain of terms with the steps between them."""
    chains = [diagram.left, diagram.right]
    widths = [max([12] + [max(len(link.term), len(link.step)) for link in chain]) * LETTER + 40 for chain in chains]
    width, rows = sum(widths), max(map(len, chains), default=0)
    centres = [widths[0] // 2, widths[0] + widths[1] // 2]
    top = width // 2
    parts = [text(top, 18, diagram.top)]
    for chain, centre in zip(chains, centres):
        above = (top, 24)
        for row, link in enumerate(chain):
            y = 18 + (row + 1) * 3 * LINE
            middle = (above[0] + centre) // 2
            parts += [arrow(*above, centre, y - 14), text(middle, y - LINE - 10, link.step, "step"), text(centre, y, link.term)]
            above = (centre, y + 6)
    bottom = 18 + rows * 3 * LINE + LINE
    if diagram.is_joined:
        ends = [chain[-1].term for chain in chains if chain]
        parts.append(text(top, bottom + 6, f"both end in {ends[0]}" if ends else "", "step"))
    height = bottom + LINE
    size = f'viewBox="0 0 {width} {height}" width="{width}" height="{height}"'
    return f'<svg xmlns="http://www.w3.org/2000/svg" {size}>{"".join(parts)}</svg>'


def text(x, y, words, kind="term"):
    return f'<text class="{kind}" x="{x}" y="{y}" text-anchor="middle">{escaped(words)}</text>'


def arrow(x1, y1, x2, y2):
    """A line with a small head."""
    head = f'<path d="M {x2 - 4} {y2 - 7} L {x2} {y2} L {x2 + 4} {y2 - 7}" fill="none" stroke="black"/>'
    return f'<line x1="{x1}" y1="{y1}" x2="{x2}" y2="{y2}" stroke="black"/>{head}'


def escaped(words):
    return html.escape(words.encode("utf-8", "replace").decode("utf-8"))


def dot_text(graph):
    """The graph in Graphviz' language; a group is a box around its pairs."""
    lines = ["digraph pairs {", "  node [shape=box, fontname=monospace, fontsize=11];"]
    for number, (word, members) in enumerate(graph.groups):
        nodes = " ".join(f'{n} [label="{n}: {dot_escaped(graph.labels[n])}"];' for n in members)
        lines.append(f"  subgraph cluster_{number} {{ style=rounded; {nodes} }}" if word == "group" else "  " + nodes)
    lines += [f"  {m} -> {n};" for m, others in graph.edges.items() for n in others]
    return "\n".join(lines + ["}"]) + "\n"


def dot_escaped(words):
    return words.encode("utf-8", "replace").decode("utf-8").replace("\\", "\\\\").replace('"', '\\"')


def graph_svg(graph):
    """A picture of a graph, or None where Graphviz is not there or finds no layout within ten seconds."""
    if shutil.which("dot") is None:
        return None
    try:
        done = subprocess.run(["dot", "-Tsvg"], input=dot_text(graph), capture_output=True, text=True, timeout=10)
    except subprocess.TimeoutExpired:
        return None
    found = re.search(r"<svg.*</svg>", done.stdout, re.S)
    return found[0] if done.returncode == 0 and found else None
