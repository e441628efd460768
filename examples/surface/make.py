#!/usr/bin/env python3
"""Makes the files of this folder, but for the plan, the report and the drawing: a surface code of distance 5, where its
vertices are drawn, and shots of five rounds.

usage: examples/surface/make.py FOLDER

Each round has a sheet of 5 rows and 6 columns; the first and the last column are the boundary. Edges within a sheet are
errors of data qubits, edges to the next sheet are wrong measurements. Each happens by itself, with the rate below.
"""

import json
import math
import random
import sys
from pathlib import Path

DISTANCE = ROUNDS = 5
COLUMNS = DISTANCE + 1
DATA_RATE, MEASUREMENT_RATE = 0.02, 0.01
SHOTS, FEW_SHOTS = 1000, 4
SCALE = 1000


def vertex_at(sheet, row, column):
    return (sheet * DISTANCE + row) * COLUMNS + column


def is_virtual(vertex):
    return vertex % COLUMNS in (0, DISTANCE)


def edges():
    """Each edge's ends and rate."""
    for sheet in range(ROUNDS):
        for row in range(DISTANCE):
            for column in range(COLUMNS):
                vertex = vertex_at(sheet, row, column)
                if column + 1 < COLUMNS:
                    yield vertex, vertex + 1, DATA_RATE
                if not is_virtual(vertex) and row + 1 < DISTANCE:
                    yield vertex, vertex + COLUMNS, DATA_RATE
                if not is_virtual(vertex) and sheet + 1 < ROUNDS:
                    yield vertex, vertex_at(sheet + 1, row, column), MEASUREMENT_RATE


def even_weight(rate):
    """The logarithm of the odds against an error, times the scale, as the nearest even whole number."""
    return 2 * round(SCALE * math.log((1 - rate) / rate) / 2)


def main():
    if len(sys.argv) != 2:
        raise SystemExit(__doc__)
    folder = Path(sys.argv[1])
    vertices = ROUNDS * DISTANCE * COLUMNS
    virtuals = [v for v in range(vertices) if is_virtual(v)]
    all_edges = list(edges())
    # The logical observable is flipped by the edges at the first column. `fusion` ignores this member.
    flipping = [e for e, (u, _, _) in enumerate(all_edges) if u % COLUMNS == 0]
    graph = {
        "vertex_num": vertices,
        "weighted_edges": [[u, v, even_weight(rate)] for u, v, rate in all_edges],
        "virtual_vertices": virtuals,
        "observables": [flipping],
    }
    # Column, row and sheet of each vertex.
    positions = [[v % COLUMNS, v // COLUMNS % DISTANCE, v // COLUMNS // DISTANCE] for v in range(vertices)]
    for name, value in [("graph.json", graph), ("positions.json", positions)]:
        (folder / name).write_text(json.dumps(value, separators=(",", ":")) + "\n")

    draw = random.Random(1)
    detectors = [v for v in range(vertices) if v not in virtuals]
    packed, lines, flips = b"", [], []
    for _ in range(SHOTS):
        hit = [e for e, (_, _, rate) in enumerate(all_edges) if draw.random() < rate]
        ends = [end for e in hit for end in all_edges[e][:2]]
        fired = [k for k, v in enumerate(detectors) if ends.count(v) % 2 == 1]
        packed += sum(1 << k for k in fired).to_bytes((len(detectors) + 7) // 8, "little")
        lines.append(" ".join(["shot", *(f"D{k}" for k in fired)]) + "\n")
        flips.append(f"{len(set(hit) & set(flipping)) % 2}\n")
    (folder / "shots.b8").write_bytes(packed)
    (folder / "few.dets").write_text("".join(lines[:FEW_SHOTS]))
    (folder / "flips.01").write_text("".join(flips))


if __name__ == "__main__":
    main()
