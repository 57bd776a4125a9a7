"""Reads printed graphs for tools/picture and tools/film, and writes them for Graphviz."""
import re
import shutil
import subprocess

LINE = re.compile(r"^@(\d+) (\*|#*)('[ -~]'|[A-Za-z0-9_-]+)(?:\[([^\]]*)\])?$")


def nodes_of(lines):
    """Number, mark, label, arguments (waits, number) of each node line; other lines are passed over."""
    for line in lines:
        found = LINE.match(line.rstrip("\n"))
        if found:
            words = (found[4] or "").split()
            arguments = [(word.startswith("^"), int(word.lstrip("^@"))) for word in words]
            yield int(found[1]), found[2], found[3], arguments


def dot_of(nodes, title):
    """The lines of a graph for `dot`: marks by colour, flags by red and dashed arcs, shared nodes by a double border."""
    into = {}
    for _, _, _, arguments in nodes:
        for _, target in arguments:
            into[target] = into.get(target, 0) + 1
    yield "digraph graph_of_a_run {"
    yield f'  label="{title}"; node [shape=box style="filled,rounded" fontname="monospace"]; edge [fontname="monospace"];'
    for number, mark, label, _ in nodes:
        colour = "palegreen" if mark == "*" else "orange" if mark else "white"
        border = 2 if into.get(number, 0) > 1 else 1
        width = 3 if number == 1 else 1
        look = f"fillcolor={colour} peripheries={border} penwidth={width}"
        shown = label.replace("\\", r"\\").replace('"', r'\"')
        yield f'  n{number} [label="{mark}{shown}" tooltip="@{number}" {look}];'
    for number, _, _, arguments in nodes:
        for at, (waits, target) in enumerate(arguments, 1):
            text = ("^" if waits else "") + (str(at) if len(arguments) > 1 else "")
            style = ' color=red fontcolor=red style=dashed' if waits else ""
            yield f'  n{number} -> n{target} [label="{text}"{style}];'
    yield "}"


class NoDot(Exception):
    """Graphviz's `dot` is not installed."""
    def __str__(self):
        return "`dot` is not installed (package graphviz)"


def svgs_of(graphs):
    """An SVG for each graph of nodes with its title, all drawn by one run of `dot`."""
    dot = shutil.which("dot")
    if not dot:
        raise NoDot
    text = "\n".join("\n".join(dot_of(nodes, title)) for nodes, title in graphs)
    drawn = subprocess.run([dot, "-Tsvg"], input=text.encode(), capture_output=True, check=True).stdout.decode()
    drawn = re.sub(r"<!--.*?-->\n|<title>.*?</title>\n", "", drawn, flags=re.DOTALL)
    return re.findall(r"<svg.*?</svg>", drawn, re.DOTALL)
