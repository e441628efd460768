"""The part of bench/run on graphs in which a tenth of the edges is negative."""

import random

from measuring import (
    LEAST_SECONDS,
    RATES,
    decode,
    defects_of,
    flipped_edges,
    instructions,
    least_in_turn,
    print_head,
    print_line,
    rounds_lattice,
    run_once,
    write_graph,
    write_packed,
)

NEGATIVE_SHARE = 0.1
DISTANCES, QUICK_DISTANCES = [13, 21], [7]
SHOTS, QUICK_SHOTS = 20, 4


def signed(graph):
    """The graph with a tenth of its edges negative."""
    negatives = set(random.Random(2).sample(range(len(graph.edges)), round(NEGATIVE_SHARE * len(graph.edges))))
    edges = [(u, v, -weight if e in negatives else weight) for e, (u, v, weight) in enumerate(graph.edges)]
    return graph._replace(edges=edges), negatives


class Input:
    """A folder with a graph, shots on it, and none."""

    def __init__(self, folder, graph, virtuals, shots):
        self.folder = folder
        self.bare = folder / "bare"
        for place, some in [(folder, shots), (self.bare, [])]:
            place.mkdir()
            write_graph(graph, place / "graph.json")
            write_packed(graph, virtuals, some, place / "shots")

    def seconds(self):
        return run_once(decode(self.folder, "b8"), self.folder).processor_seconds

    def bare_seconds(self):
        return run_once(decode(self.bare, "b8"), self.bare).processor_seconds

    def instructions(self):
        """What the shots take beyond the reading of the graph; none where callgrind is absent."""
        counts = [instructions(decode(place, "b8")) for place in (self.folder, self.bare)]
        return None if None in counts else counts[0] - counts[1]


def measure(name, folder, distance, rate, count):
    """Shots on a graph with negative edges, beside those of its shifted defects on the graph without signs: the program
    solves the same for both."""
    graph, draw = rounds_lattice(distance, distance), random.Random(1)
    virtuals = set(graph.virtuals)
    with_signs, negatives = signed(graph)
    left = defects_of(graph, virtuals, negatives)
    shifted = [defects_of(graph, virtuals, flipped_edges(draw, len(graph.edges), rate)) for _ in range(count)]
    folder.mkdir()
    one = Input(folder / "signed", with_signs, virtuals, [defects ^ left for defects in shifted])
    other = Input(folder / "plain", graph, virtuals, shifted)
    times = least_in_turn([one.seconds, one.bare_seconds, other.seconds, other.bare_seconds])
    seconds = [max(times[0] - times[1], LEAST_SECONDS), max(times[2] - times[3], LEAST_SECONDS)]
    counts = [one.instructions(), other.instructions()]
    defects = max(1, sum(map(len, shifted)))
    cells = [f"{len(negatives):,}", f"{defects / count:,.0f}"]
    cells += [f"{1e6 * each / defects:,.2f}" for each in seconds] + [f"x{seconds[0] / seconds[1]:.2f}"]
    if None not in counts:
        cells += [f"{each / defects:,.0f}" for each in counts] + [f"x{counts[0] / counts[1]:.2f}"]
    print_line(name, cells)


def bench_signs(folder, quick):
    distances, count = (QUICK_DISTANCES, QUICK_SHOTS) if quick else (DISTANCES, SHOTS)
    heads = ["negative", "shifted", "us/defect", "plain", "of plain", "instr", "plain", "of plain"]
    print_head(f"a tenth negative, {count} shots", heads)
    for distance in distances:
        for rate in RATES:
            measure(f"distance {distance}, rate {rate}", folder / f"{distance}-{rate}", distance, rate, count)
