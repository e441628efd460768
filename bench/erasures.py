"""The part of bench/run on shots that erase edges or change weights."""

import json
import random
from collections import namedtuple

from measuring import (
    LEAST_SECONDS,
    MEGABYTE,
    WEIGHT,
    Graph,
    decode,
    defects_of,
    few_defects,
    flipped_edges,
    least_run,
    print_head,
    print_line,
    rounds_lattice,
    write_graph,
)

from graphs import weightless_tree

# The defects of a shot, and its further members.
Shot = namedtuple("Shot", "defects members")

FLIP_RATE = 0.001
DISTANCE, QUICK_DISTANCE = 41, 21
POOL = 200


def write_lines(shots, file):
    """The shots as JSON lines, and how many bytes they are."""
    with open(file, "w") as out:
        for shot in shots:
            members = {"defect_vertices": list(shot.defects), **shot.members}
            out.write(json.dumps(members, separators=(",", ":")) + "\n")
    return file.stat().st_size


def plain(shots):
    """The same shots without changes."""
    return [shot._replace(members={}) for shot in shots]


def seconds_of_shots(shots, folder):
    """What shots take beyond the reading of their graph."""
    write_lines([], folder / "shots")
    bare = least_run(decode(folder, "json"), folder).processor_seconds
    write_lines(shots, folder / "shots")
    return max(least_run(decode(folder, "json"), folder).processor_seconds - bare, LEAST_SECONDS)


# Erased edges.


def erased_shots(graph, erased_edges, count):
    """Shots in which some edges are erased: every second of them is flipped, and of the others a few."""
    draw, virtuals = random.Random(1), set(graph.virtuals)
    for _ in range(count):
        erased = set(erased_edges(draw))
        flipped = {e for e in erased if draw.random() < 0.5}
        flipped |= set(flipped_edges(draw, len(graph.edges), FLIP_RATE)) - erased
        yield Shot(defects_of(graph, virtuals, flipped), {"erasures": sorted(erased)})


def everywhere(graph, rate):
    """What draws each edge at a rate."""
    return lambda draw: flipped_edges(draw, len(graph.edges), rate)


def in_block(graph, distance, side, rate):
    """What draws each edge of a block in the middle at a rate."""
    first = (distance - side) // 2

    def is_inside(v):
        sheet, place = divmod(v, distance * (distance + 1))
        return all(first <= k < first + side for k in (sheet, *divmod(place, distance + 1)))

    edges = [e for e, (u, v, _) in enumerate(graph.edges) if is_inside(u) and is_inside(v)]
    return lambda draw: [e for e in edges if draw.random() < rate]


def measure_erased(name, shots, folder, base=None, has_twin=False):
    """Microseconds a defect of shots with erased edges, beside others, and beside the same shots without them."""
    defects = max(1, sum(len(shot.defects) for shot in shots))
    erased = sum(len(shot.members["erasures"]) for shot in shots)
    seconds = seconds_of_shots(shots, folder)
    cost = 1e6 * seconds / defects
    cells = [f"{erased / len(shots):,.0f}", f"{defects / len(shots):,.0f}", f"{cost:,.2f}"]
    cells.append(f"x{seconds / seconds_of_shots(plain(shots), folder):.2f}" if has_twin else "-")
    cells.append(f"x{cost / base:.1f}" if base else "-")
    print_line(name, cells)
    return cost


def bench_erased(folder, quick):
    distance, count = (QUICK_DISTANCE, 4) if quick else (DISTANCE, 20)
    print_head(f"distance {distance}, {count} shots", ["erased", "defects", "us/defect", "of the same", "of 3 %"])
    graph = rounds_lattice(distance, distance)
    write_graph(graph, folder / "graph.json")
    base = None
    for percent in [3, 10, 20, 30]:
        shots = list(erased_shots(graph, everywhere(graph, percent / 100), count))
        cost = measure_erased(f"{percent} % erased", shots, folder, base, percent <= 10)
        base = base or cost
    for side in [9] if quick else [15, 21]:
        for percent in [100, 35]:
            shots = list(erased_shots(graph, in_block(graph, distance, side, percent / 100), count))
            measure_erased(f"{percent} % of a block of {side}^3", shots, folder, base)


# A few changes on graphs of more and more edges.


def few_changes(graph, count):
    """Shots of few defects, in which five edges have other weights."""
    draw, virtuals = random.Random(1), set(graph.virtuals)
    for _ in range(count):
        pairs = [[e, WEIGHT + 2 * k] for k, e in enumerate(draw.sample(range(len(graph.edges)), 5))]
        yield Shot(few_defects(draw, graph, virtuals), {"dynamic_weights": pairs})


def bench_few_changes(folder, quick):
    print_head("five changes", ["edges", "shots", "us/shot", "without", "of without"])
    for distance in [7, 15] if quick else [7, 15, 33, 70]:
        graph = rounds_lattice(distance, distance)
        write_graph(graph, folder / "graph.json")
        shots = list(few_changes(graph, POOL)) * (10 if quick else 100)
        costs = [1e6 * seconds_of_shots(each, folder) / len(shots) for each in (shots, plain(shots))]
        cells = [f"{len(graph.edges):,}", f"{len(shots):,}", *(f"{cost:.2f}" for cost in costs)]
        print_line(f"distance {distance}", [*cells, f"x{costs[0] / costs[1]:.2f}"])


# Weightless edges of the graph.


def bench_tree(folder, quick):
    print_head("weightless random tree", ["defects", "reading s", "shot s", "of reading"])
    for vertices in [10_000] if quick else [20_000, 80_000]:
        graph = weightless_tree(random.Random(1), vertices)
        write_graph(graph, folder / "graph.json")
        write_lines([], folder / "shots")
        reading = least_run(decode(folder, "json"), folder).processor_seconds
        shot = Shot(random.Random(1).sample(range(vertices), vertices // 80), {})
        seconds = seconds_of_shots([shot], folder)
        cells = [f"{len(shot.defects):,}", f"{reading:.3f}", f"{seconds:.3f}", f"x{seconds / reading:.1f}"]
        print_line(f"{vertices:,} vertices", cells)


# Lines of JSON. Their rows are odd, so that it is reading that is timed.


def bench_lines(folder, quick):
    print_head("JSON lines of 10,000 edges", ["megabytes", "processor s", "MB/s", "of without"])
    vertices, draw = 10_001, random.Random(1)
    write_graph(Graph(vertices, [(v, v + 1, WEIGHT) for v in range(vertices - 1)], []), folder / "graph.json")
    shots, rates = [], []
    for _ in range(POOL):
        erasures = {"erasures": sorted(draw.sample(range(vertices - 1), 3 * vertices // 100))}
        shots.append(Shot(sorted(draw.sample(range(vertices), vertices // 200 * 2 + 1)), erasures))
    for name, each in [("without changes", plain(shots)), ("3 % erased", shots)]:
        megabytes = write_lines(each * (5 if quick else 100), folder / "shots") / MEGABYTE
        seconds = least_run(decode(folder, "json"), folder).processor_seconds
        rates.append(megabytes / seconds)
        print_line(name, [f"{megabytes:,.1f}", f"{seconds:.3f}", f"{rates[-1]:,.1f}", f"x{rates[-1] / rates[0]:.2f}"])


def bench_erasures(folder, quick):
    for bench in [bench_erased, bench_few_changes, bench_tree, bench_lines]:
        bench(folder, quick)
