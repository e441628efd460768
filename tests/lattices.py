"""Lattices of a distance and rounds, their plans by time, and shots drawn on them, as `sample` makes them.

Nothing here is shared with the program.
"""

from matching import Matchings
from readers import MOST_VERTICES, Graph, Refused

FACTOR, INCREMENT = 6364136223846793005, 1442695040888963407


def sheets(rows, columns, rounds, weight, weight_of_time):
    """A sheet of rows and columns for each round, with an edge from each real vertex to the next sheet's. The first and the
    last column are virtual."""
    size = rows * columns
    edges, virtuals = [], []
    for v in range(rounds * size):
        row, column = divmod(v % size, columns)
        inner = 0 < column < columns - 1
        if not inner:
            virtuals.append(v)
        if column + 1 < columns:
            edges.append((v, v + 1, weight))
        if inner and row + 1 < rows:
            edges.append((v, v + columns, weight))
        if inner and v + size < rounds * size:
            edges.append((v, v + size, weight_of_time))
    return Graph(rounds * size, edges, virtuals)


def lattice(distance, rounds):
    """The lattice of `sample`."""
    if rounds * distance * (distance + 1) > MOST_VERTICES:
        raise Refused("LatticeTooLarge")
    return sheets(distance, distance + 1, rounds, 20, 28)


def fusions_of(rounds, units):
    """The number of fusions of a plan of `units` units, with a round between each two."""
    if rounds < 2 * units - 1:
        raise Refused("TooFewRounds")
    return units - 1


def draws(state):
    """Numbers from 0 to 1,048,575, without end."""
    while True:
        state = (state * FACTOR + INCREMENT) % 2**64
        yield state >> 44


def drawn_shots(graph, numbers, rate, count):
    """The defects of shots in which each edge is hit at a rate in 2^20."""
    virtuals = set(graph.virtuals)
    for _ in range(count):
        defects = set()
        for u, v, _ in graph.edges:
            if next(numbers) < rate:
                defects ^= {end for end in (u, v) if end not in virtuals}
        yield sorted(defects)


def sample_text(distance, rounds, units, rate, start, shots):
    """What `sample` writes."""
    graph = lattice(distance, rounds)
    fusions = fusions_of(rounds, units)
    weights = Matchings(*graph)
    drawn = list(drawn_shots(graph, draws(start), rate, shots))
    defects = sum(map(len, drawn))
    weight = sum(weights.least_weight(shot) for shot in drawn)
    return (
        "fusion-sample 1\n"
        f"distance {distance} rounds {rounds} units {units} rate {rate} start {start}\n"
        f"shots {shots} defects {defects} weight {weight}\n"
        f"done units {units * shots} fusions {fusions * shots}\n"
    ).encode()
