"""Pictures of games, by Graphviz."""

# mypy: ignore-errors

import html
import shutil

from . import FILE, Refused, called, child, of_form, printable, write

MOST_DRAWN, MOST_LETTERS = 200, 30
KINDS = ("dot", "svg", "png", "pdf")
# (with less between vertices, edges in and out of one may end at the same place)
HEAD = [
    "    graph [nodesep=0.5];",
    '    node [fontname="DejaVu Sans" width=0.7 height=0.5 margin=0.05];',
    '    edge [fontname="DejaVu Sans"];',
]
STYLES = {
    None: 'style="filled,dashed" fillcolor="white"',
    0: 'style="filled" fillcolor="#fde68a"',
    1: 'style="filled" fillcolor="#2563a8" fontcolor="white" peripheries=2',
}


path = of_form(rf"(.*\.)?({'|'.join(KINDS)})", "picture (.dot, .svg, .png or .pdf)")


def add_option(parser, what):
    said = f"draw {what}, in .dot, .svg, .png or .pdf"
    parser.add_argument("--picture", metavar="FILE", type=path, help=said)


def quoted(text):
    """A text as Graphviz takes it between quotes, with what doesn't print spelled out."""
    text = "\n".join(map(printable, text.split("\n")))
    return '"' + text.replace("\\", "\\\\").replace('"', '\\"') + '"'


def label(id, priority, name):
    """What a vertex shows, as Graphviz reads it, who would replace words after a backslash."""
    text = printable(name.encode("utf-8", "surrogateescape").decode("utf-8", "replace"))
    text = html.escape(text[:MOST_LETTERS] + "..." * (len(text) > MOST_LETTERS)).replace("\\", "\\\\")
    return f'{priority}<br/>{text}{"<br/>" * bool(text)}<font point-size="9">id {id}</font>'


def vertex(game, id, winner, more=""):
    _, owner, _, name = game.rows[id]
    shape = "box" if owner else "diamond"
    text = label(id, game.priority(id), name)
    return f"    {id} [shape={shape} label=<{text}> {STYLES[winner]}{more}];"


def edge(id, to, style=""):
    return f"    {id} -> {to} [{style}];" if style else f"    {id} -> {to};"


def graph(vertices, edges):
    return "\n".join(["digraph game {", *HEAD, *vertices, *edges, "}", ""])


def of_game(game, solution):
    edges = []
    for id, (_, owner, _, _) in sorted(game.rows.items()):
        winner, choice = solution.get(id, (None, None))
        edges += [
            edge(id, to, "style=bold penwidth=2.5" if winner == owner and to == choice else "")
            for to in sorted(game.successors(id))
        ]
    return graph([vertex(game, id, solution.get(id, [None])[0]) for id in sorted(game.rows)], edges)


def draw_machine(path, count, first, arrows, states=()):
    """Writes a picture of a machine of so many states: of its arrows, (from, to, what it shows), and of
    states that may have none.
    """
    lines = ['node [fontname="DejaVu Sans"]', 'edge [fontname="DejaVu Sans"]', "rankdir=LR"]
    lines += ["node [shape=circle]", "first [shape=point]", f"first -> {first}", *map(str, states)]
    lines += [f"{state} -> {to} [label={quoted(shown)}]" for state, to, shown in arrows]
    write_picture(path, count, "\n".join(["digraph {", *(f"    {it};" for it in lines), "}", ""]))


def write_picture(path, count, text):
    """Writes Graphviz text of so many vertices where the path ends in .dot, else what `dot` makes of it."""
    check_count(path, count)
    kind = path.rpartition(".")[2]
    try:
        made = text if kind == "dot" else made_by_dot(text, kind)
    except Refused as refused:
        raise Refused(f"{path}: {refused}", FILE) from None
    write(path, made)


def check_count(path, count):
    if count > MOST_DRAWN:
        raise Refused(
            f"{called(path)}: {count} vertices are too many for a picture: at most {MOST_DRAWN} are drawn"
        )


def made_by_dot(text, kind):
    if not shutil.which("dot"):
        raise Refused("no picture without Graphviz: the command dot is not on the PATH", FILE)
    status, made, said = child(["dot", f"-T{kind}"], text.encode("utf-8", "surrogateescape"))
    if status:
        raise Refused(f"the command dot ended with status {status}", FILE, said=said.encode())
    return made
