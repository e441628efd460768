#!/usr/bin/env python3
"""Reads a report from standard input, and draws one of its shots as SVG: the correction, and the cuts as regions.

usage: examples/draw.py GRAPH POSITIONS SHOT [PLAN]

POSITIONS lists the column, the row and the sheet of each vertex. A cut covers as much of each edge that leaves it as it is
worth, beginning inside, after the cuts within it. What is covered from end to end can't be crossed for less, and each
edge of the correction is. A region of one defect is blue; a blossom, which holds three or more, is orange; the correction is
red, below. With a plan, vertices have a colour for each unit and one for all seams. If the report has a trace, the text says
which worker took what.
"""

import json
import signal
import sys

from read_report import read_rows

COLUMN, ROW, SHEET, MARGIN = (64, 0), (30, 22), (0, 150), 40
EDGE, CORRECTION, REGION, BLOSSOM = ("#e2e8f0", 1), ("#e53e3e", 11), ("#2b6cb0", 4), ("#dd6b20", 4)
DEFECT, VIRTUAL, UNITS, SEAM = "black", "white", ["#c6e8d2", "#cfdcf7"], "#fbe7a1"


def places_of(positions):
    """Where each vertex is drawn; the last sheet is on top."""
    top = max(sheet for _, _, sheet in positions)
    for column, row, sheet in positions:
        yield tuple(MARGIN + COLUMN[k] * column + ROW[k] * row + SHEET[k] * (top - sheet) for k in (0, 1))


def defects_of(graph, row):
    """The real vertices at which the correction has an odd number of edges."""
    defects = set()
    for edge in row["edges"]:
        defects ^= set(graph["weighted_edges"][edge][:2])
    return defects - set(graph["virtual_vertices"])


def covered(graph, cuts):
    """What each cut covers: the cut's vertices, an edge's end inside and the other, and the shares from where to where."""
    used = {}
    for value, vertices in sorted(cuts, key=lambda cut: len(cut[1])):
        inside = set(vertices)
        for edge, (u, v, weight) in enumerate(graph["weighted_edges"]):
            if (u in inside) != (v in inside):
                end, other = (u, v) if u in inside else (v, u)
                first = used.get((edge, end), 0)
                used[edge, end] = first + value
                yield inside, end, other, first / abs(weight), (first + value) / abs(weight)


def colours_of(graph, plan):
    """The colour of each vertex, for a plan whose parts are lists of ranges of vertices."""
    parts = [(UNITS[k % len(UNITS)], ranges) for k, ranges in enumerate(plan["units"])]
    parts += [(SEAM, fusion["interface"]) for fusion in plan["fusions"]]
    colours = {v: colour for colour, ranges in parts for first, last in ranges for v in range(first, last)}
    return {**colours, **dict.fromkeys(graph["virtual_vertices"], VIRTUAL)}


def path(lines, style):
    """Lines of one style, each between two points."""
    steps = "".join(f"M{a:.1f} {b:.1f}L{c:.1f} {d:.1f}" for (a, b), (c, d) in lines)
    return f'<path d="{steps}" stroke="{style[0]}" stroke-width="{style[1]}"/>'


def picture(graph, places, row, colours):
    """The parts of the picture, the lowest first."""
    edges, defects, regions = graph["weighted_edges"], defects_of(graph, row), {REGION: [], BLOSSOM: []}
    for inside, end, other, first, last in covered(graph, row["cuts"]):
        a, b = places[end], places[other]
        piece = [tuple(p + (q - p) * share for p, q in zip(a, b)) for share in (first, last)]
        regions[BLOSSOM if len(inside & defects) > 1 else REGION].append(piece)
    yield path([(places[u], places[v]) for u, v, _ in edges], EDGE)
    yield path([[places[v] for v in edges[edge][:2]] for edge in row["edges"]], CORRECTION)
    yield from (path(lines, style) for style, lines in regions.items())
    for v, (x, y) in enumerate(places):
        colour = DEFECT if v in defects else colours.get(v, UNITS[0])
        yield f'<circle cx="{x}" cy="{y}" r="{3 if colour == VIRTUAL else 5}" fill="{colour}" stroke="#718096"/>'


def main():
    if len(sys.argv) not in (4, 5):
        raise SystemExit(__doc__)
    signal.signal(signal.SIGPIPE, signal.SIG_DFL)
    graph, positions, *plans = [json.load(open(name)) for name in sys.argv[1:3] + sys.argv[4:]]
    shot, plan, lines = int(sys.argv[3]), (plans or [{"units": [], "fusions": []}])[0], sys.stdin.readlines()
    row = list(read_rows(lines))[shot]
    texts = [f"shot {shot}: weight {row['weight']}, {len(defects_of(graph, row))} defects, {len(row['cuts'])} cuts"]
    for word, worker, of, node in (line.split() for line in lines if line.startswith("took ")):
        if int(of) == shot:
            texts.append(f"worker {worker} took {'unit' if int(node) < len(plan['units']) else 'fusion'} {node}")
    places = list(places_of(positions))
    width, height = (max(axis) + MARGIN for axis in zip(*places))
    print(f'<svg xmlns="http://www.w3.org/2000/svg" viewBox="0 0 {width} {height + 18 * len(texts)}">')
    print('<rect width="100%" height="100%" fill="white"/>')
    print(*picture(graph, places, row, colours_of(graph, plan)), sep="\n")
    for number, text in enumerate(texts):
        print(f'<text x="{MARGIN}" y="{height + 18 * number}" font-family="sans-serif" font-size="14">{text}</text>')
    print("</svg>")


if __name__ == "__main__":
    main()
