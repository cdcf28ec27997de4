#!/usr/bin/env python3
"""layers.py: compares docs/layers.svg, the map of the crates, with crates.txt.

    checks/layers.py [--write]      with --write it draws the picture again

Each crate is in a row above all crates that it uses. An arrow leads to each of those that other arrows do not reach.
Crates that only test, measure or show the others are left out.
"""
import pathlib
import re
import sys

TOP = pathlib.Path(__file__).resolve().parent.parent
CRATES, PICTURE = TOP / "crates.txt", TOP / "docs/layers.svg"
LEFT_OUT = re.compile(r"dw_(tests|bench|example)$")
WIDTH, HEIGHT = 132, 32  # of a box, in pixels
ACROSS, DOWN = 24, 40  # between boxes
EDGE = 16
STYLE = """\
rect { fill: #fdf6e3; stroke: #586e75; rx: 4px; } .program rect { fill: #eee8d5; stroke-width: 2px; }
text { font: 14px sans-serif; fill: #073642; text-anchor: middle; } path { fill: none; stroke: #93a1a1; }
marker path { fill: #93a1a1; stroke: none; }"""


def graph():
    """For each crate all crates that it names."""
    lines = (line.partition("#")[0].partition(":") for line in CRATES.read_text().splitlines())
    named = {name.split()[0]: libraries.split() for name, _, libraries in lines if name.strip()}
    kept = {name for name in named if not LEFT_OUT.match(name)}
    return {name: {library for library in named[name] if library in kept} for name in sorted(kept)}


def reached(named, name):
    """All crates below a crate."""
    return set().union(*({below} | reached(named, below) for below in named[name]))


def arrows(named):
    """Of what a crate names, that which it does not reach by another crate that it names."""
    return {name: sorted(below for below in libraries
                         if not any(below in reached(named, other) for other in libraries - {below}))
            for name, libraries in named.items()}


def rows(named):
    """The crates of each row, from the lowest on: a crate stands right above the highest that it names."""
    height = {}

    def of(name):
        if name not in height:
            height[name] = 1 + max((of(below) for below in named[name]), default=-1)
        return height[name]

    found = [[] for _ in range(1 + max(of(name) for name in named))]
    for name in named:
        found[height[name]].append(name)
    return found


def bends(height, direct):
    """The way of each arrow: a place in each row between its ends, and then its end."""
    ways = {}
    for name, libraries in direct.items():
        for below in libraries:
            ways[name, below] = [(name, below, row) for row in range(height[name] - 1, height[below], -1)] + [below]
    return ways


def places(named, direct):
    """The middle of each box and of each bend, and the size of the picture.

    A row is in the order of what it leads to.
    """
    all_rows = rows(named)
    height = {name: number for number, row in enumerate(all_rows) for name in row}
    leads = {name: [] for name in named}
    items = [list(row) for row in all_rows]
    for (name, _), way in bends(height, direct).items():
        for here, there in zip([name, *way], way):
            leads.setdefault(here, []).append(there)
        for bend in way[:-1]:
            items[bend[2]].append(bend)
    widths = [sum(width_of(item) + ACROSS for item in row) - ACROSS for row in items]
    found = {}
    for number, row in enumerate(items):
        def lean(item):
            below = [found[other][0] for other in leads[item]]
            return sum(below) / len(below) if below else 0
        x = EDGE + (max(widths) - widths[number]) / 2
        for item in sorted(row, key=lambda item: (lean(item), str(item))):
            found[item] = (x + width_of(item) / 2, EDGE + (len(items) - 1 - number) * (HEIGHT + DOWN) + HEIGHT / 2)
            x += width_of(item) + ACROSS
    return found, EDGE * 2 + max(widths), EDGE * 2 + len(items) * (HEIGHT + DOWN) - DOWN


def width_of(item):
    return WIDTH if isinstance(item, str) else 0


def box(name, x, y):
    kind = "program" if (TOP / "crates" / name / "src/main.rt").exists() else "library"
    return (f'<g class="{kind}"><rect x="{x - WIDTH / 2:g}" y="{y - HEIGHT / 2:g}" width="{WIDTH}" height="{HEIGHT}"/>'
            f'<text x="{x:g}" y="{y + 5:g}">{name}</text></g>')


def arrow(points):
    """An arrow from the lower edge of a box, straight through the rows that it passes, to the upper edge of another."""
    x, y = points[0]
    words = [f"M{x:g},{y + HEIGHT / 2:g}"]
    for number, (to, below) in enumerate(points[1:], 2):
        top, bottom = y + HEIGHT / 2, below - HEIGHT / 2 - (3 if number == len(points) else 0)
        middle = (top + bottom) / 2
        words.append(f"C{x:g},{middle:g} {to:g},{middle:g} {to:g},{bottom:g}")
        if number < len(points):
            words.append(f"V{below + HEIGHT / 2:g}")
        x, y = to, below
    return f'<path d="{" ".join(words)}" marker-end="url(#end)"/>'


def picture():
    named = graph()
    direct = arrows(named)
    at, width, height = places(named, direct)
    ways = bends({name: number for number, row in enumerate(rows(named)) for name in row}, direct)
    lines = [f'<svg xmlns="http://www.w3.org/2000/svg" viewBox="0 0 {width:g} {height:g}" role="img" '
             'aria-label="The crates, each above those that it stands on">',
             f"<style>\n{STYLE}\n</style>",
             '<marker id="end" viewBox="0 0 8 8" refX="6" refY="4" markerWidth="7" markerHeight="7" orient="auto">'
             '<path d="M0,0 L8,4 L0,8 z"/></marker>',
             *(arrow([at[name], *(at[item] for item in way)]) for (name, _), way in ways.items()),
             *(box(name, *at[name]) for name in named),
             "</svg>"]
    return "\n".join(lines) + "\n"


def main():
    if sys.argv[1:] == ["--write"]:
        PICTURE.write_text(picture())
    elif sys.argv[1:]:
        sys.exit(__doc__)
    assert PICTURE.read_text() == picture(), "docs/layers.svg is not the map of crates.txt: checks/layers.py --write"
    print(f"docs/layers.svg: {len(graph())} crates, as in crates.txt")


if __name__ == "__main__":
    main()
