"""The inputs of the race: graphs and shots, the same each time.

flat     a lattice of a distance and as many rounds, with one rate for all edges
circuit  the same vertices, with diagonals to the next round and a rate of its own for each edge, as circuit noise gives
         them; a weight is the log-likelihood ratio of the rate, scaled and made even
grown    always 20 defects, on lattices of distance 5 with about 3,000 to 1,000,000 vertices
line     a long stream: the lattice of distance 5 with 10,000 rounds
"""

import math
import random
import sys
from collections import namedtuple
from pathlib import Path

sys.path.insert(0, str(Path(__file__).resolve().parent.parent))
from measuring import DISTANCES, FEW_DEFECTS, RATES, Graph, flipped_edges, write_graph

from lattices import lattice

GROWN_ROUNDS = [100, 333, 1_000, 3_333, 10_000, 33_333]
LINE_ROUNDS = 10_000
LONG_ROUNDS = 10_000
NARROW = 5
# There are so many shots that edges are hit this often in all, or that they have so many bytes.
HITS = 200_000
MOST_BYTES = 2**26
SCALE = 1_000
FACTORS_OF_EDGES = [0.5, 0.75, 1, 1, 1.5, 2]

Input = namedtuple("Input", "kind distance rounds rate name")
# What was written: the vertices of the graph, the shots, and the defects in each of them.
Written = namedtuple("Written", "vertices shots defects")


def inputs(quick):
    """All inputs, or with `quick` those that aren't large."""
    for kind in ["flat", "circuit"]:
        for rate in RATES:
            for distance in DISTANCES:
                yield Input(kind, distance, distance, rate, f"{kind}-d{distance}-p{rate}")
    for rounds in GROWN_ROUNDS:
        if not quick or rounds < LONG_ROUNDS:
            yield Input("grown", NARROW, rounds, None, f"grown-{rounds}")
    for rate in RATES:
        if not quick:
            yield Input("line", NARROW, LINE_ROUNDS, rate, f"line-p{rate}")


def write(given, part, folder):
    """Writes the graph and a part of the shots of an input to graph.json and shots."""
    draw = random.Random(given.name)
    graph, rates = with_rates(draw, given)
    write_graph(graph, folder / "graph.json")
    numbers = detectors_of(graph)
    hits = sum(rates) if rates else FEW_DEFECTS
    count = max(1, math.ceil(part * min(HITS / hits, MOST_BYTES / size_of(numbers))))
    shots = hit_shots(draw, graph, numbers, rates, count) if rates else few_defects_anywhere(draw, numbers, count)
    (folder / "shots").write_bytes(shots)
    return Written(graph.vertices, count, int.from_bytes(shots, "little").bit_count() / count)


# Graphs.


def with_rates(draw, given):
    """The graph of an input, and the rate of each edge, if edges have rates."""
    graph = lattice(given.distance, given.rounds)
    if given.kind == "circuit":
        return circuit_lattice(draw, graph, given)
    return graph, [given.rate] * len(graph.edges) if given.rate else []


def circuit_lattice(draw, graph, given):
    """A lattice with diagonals, and the rates of its edges."""
    columns, sheet = given.distance + 1, given.distance * (given.distance + 1)
    factors = {1: 2.7, columns: 2.7, sheet: 2.0, sheet + 1: 0.6, sheet + columns: 0.5, sheet + columns + 1: 0.3}
    edges, rates = [], []
    for u, v in [(u, v) for u, v, _ in graph.edges] + list(diagonals(graph, columns, sheet)):
        rate = given.rate * factors[v - u] * draw.choice(FACTORS_OF_EDGES)
        edges.append((u, v, 2 * round(SCALE / 2 * math.log((1 - rate) / rate))))
        rates.append(rate)
    return Graph(graph.vertices, edges, graph.virtuals), rates


def diagonals(graph, columns, sheet):
    """From each real vertex that has a next round: to the next column there, the next row, and both."""
    virtuals = set(graph.virtuals)
    for v in range(graph.vertices - sheet):
        if v not in virtuals:
            yield v, v + sheet + 1
            if v % sheet + columns < sheet:
                yield v, v + sheet + columns
                yield v, v + sheet + columns + 1


# Shots in format b8.


def detectors_of(graph):
    """The number of each real vertex among them."""
    virtuals = set(graph.virtuals)
    return {v: k for k, v in enumerate(v for v in range(graph.vertices) if v not in virtuals)}


def size_of(numbers):
    return (len(numbers) + 7) // 8


def hit_shots(draw, graph, numbers, rates, count):
    """Shots in which each edge is hit at its rate. Edges of the same rate are drawn together, in all shots."""
    size = size_of(numbers)
    shots = bytearray(count * size)
    ends_at = {}
    for (u, v, _), rate in zip(graph.edges, rates):
        ends_at.setdefault(rate, []).append([numbers[end] for end in (u, v) if end in numbers])
    for rate, ends in ends_at.items():
        for hit in flipped_edges(draw, count * len(ends), rate):
            shot, edge = divmod(hit, len(ends))
            for detector in ends[edge]:
                shots[shot * size + detector // 8] ^= 1 << detector % 8
    return shots


def few_defects_anywhere(draw, numbers, count):
    """Shots of as many defects each, whatever the graph's size."""
    size = size_of(numbers)
    shots = bytearray(count * size)
    for shot in range(count):
        for detector in draw.sample(range(len(numbers)), FEW_DEFECTS):
            shots[shot * size + detector // 8] |= 1 << detector % 8
    return shots
