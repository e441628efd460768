#!/usr/bin/env python3
"""Makes a surface code of distance 5 and shots of five rounds in which qubits and outcomes are lost, with heralds that say
which.

usage: examples/erasures/make.py FOLDER

The lattice is that of examples/surface. What an edge stands for, a data qubit in a round or an outcome, is flipped at one
rate, and lost at another: then it is flipped in every second shot, and a herald fires. A shot has a bit for each detector
and then one for each herald. The tables say which edge a herald erases: the right one (known.json), none (unknown.json), or
that of another herald (wrong.json).
"""

import json
import math
import random
import sys
from pathlib import Path

DISTANCE = ROUNDS = 5
COLUMNS = DISTANCE + 1
SHEET = DISTANCE * COLUMNS
VERTICES = ROUNDS * SHEET
FLIP_RATE, LOSS_RATE = 0.01, 0.04
SHOTS = 20_000
SCALE = 1000


def is_virtual(vertex):
    return vertex % COLUMNS in (0, DISTANCE)


def edges():
    """The ends of each edge: along a row, to the next row, to the next round."""
    for vertex in range(VERTICES):
        if vertex % COLUMNS < DISTANCE:
            yield vertex, vertex + 1
        if not is_virtual(vertex) and vertex % SHEET + COLUMNS < SHEET:
            yield vertex, vertex + COLUMNS
        if not is_virtual(vertex) and vertex + SHEET < VERTICES:
            yield vertex, vertex + SHEET


def shots(draw, effects):
    """The edges that are lost in each shot, as bits, and what those that are flipped flip together."""
    for _ in range(SHOTS):
        lost = flipped = 0
        for edge, effect in enumerate(effects):
            is_lost = draw.random() < LOSS_RATE
            lost |= is_lost << edge
            if draw.random() < (0.5 if is_lost else FLIP_RATE):
                flipped ^= effect
        yield lost, flipped


def main():
    if len(sys.argv) != 2:
        raise SystemExit(__doc__)
    folder, all_edges, draw = Path(sys.argv[1]), list(edges()), random.Random(1)
    detectors = [v for v in range(VERTICES) if not is_virtual(v)]
    # The logical observable is flipped by the edges at the first column.
    flipping = [e for e, (u, _) in enumerate(all_edges) if u % COLUMNS == 0]
    # All edges weigh the same, so they do so too where losses aren't known.
    weight = 2 * round(SCALE * math.log((1 - FLIP_RATE) / FLIP_RATE) / 2)
    graph = {
        "vertex_num": VERTICES,
        "weighted_edges": [[u, v, weight] for u, v in all_edges],
        "virtual_vertices": [v for v in range(VERTICES) if is_virtual(v)],
        "observables": [flipping],
    }
    others = draw.sample(range(len(all_edges)), len(all_edges))
    tables = {
        "known": [[e] for e in range(len(all_edges))],
        "unknown": [[] for _ in all_edges],
        "wrong": [[e] for e in others],
    }
    for name, value in [("graph", graph), *((name, {"heralds": table}) for name, table in tables.items())]:
        (folder / f"{name}.json").write_text(json.dumps(value, separators=(",", ":")) + "\n")

    # What an edge flips: the detectors at its ends, bit by bit, and above them the observable.
    bits = {v: 1 << k for k, v in enumerate(detectors)}
    effects = [bits.get(u, 0) ^ bits.get(v, 0) for u, v in all_edges]
    for edge in flipping:
        effects[edge] |= 1 << len(detectors)
    size = (len(detectors) + len(all_edges) + 7) // 8
    with open(folder / "shots.b8", "wb") as packed, open(folder / "flips.01", "w") as flips:
        for lost, flipped in shots(draw, effects):
            flip, fired = divmod(flipped, 1 << len(detectors))
            packed.write((lost << len(detectors) | fired).to_bytes(size, "little"))
            flips.write(f"{flip}\n")


if __name__ == "__main__":
    main()
