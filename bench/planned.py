"""The parts of bench/run on plans."""

import json
import os
import random
import subprocess
import sys

from measuring import (
    FEW_DEFECTS,
    FUSION,
    LEAST_SECONDS,
    ROOT,
    Graph,
    decode,
    defects_of,
    few_defects,
    flipped_edges,
    instructions,
    least_in_turn,
    least_run,
    plan_by_rounds,
    print_head,
    print_line,
    print_remark,
    rounds_lattice,
    run_once,
    seconds_of,
    write_graph,
    write_hit_shots,
    write_packed,
)

sys.path.insert(0, str(ROOT / "python"))
from busvroh.codes import surface_code
from busvroh.models import graph_text, read_model
from busvroh.plans import plan_by_time, plan_text

# Plans.

UNITS = [1, 2, 4, 8, 16, 32]


def bench_fusions(folder, quick):
    distance, rounds, rate, shots = 7, 63, 0.005, 20 if quick else 200
    graph = rounds_lattice(distance, rounds)
    write_graph(graph, folder / "graph.json")
    defects = write_hit_shots(graph, rate, shots, folder)
    print_head(f"distance {distance}, {rounds} rounds at {100 * rate:.1f} %", ["units", "us/shot", "of no plan", "peak MB"])
    whole = least_run(decode(folder, "b8"), folder)
    print_remark(f"{shots} shots of {defects / shots:.1f} defects")
    for is_chain in [False, True]:
        for units in UNITS:
            plan = plan_by_rounds(distance * (distance + 1), rounds, units, is_chain)
            (folder / "plan.json").write_text(json.dumps(plan))
            best = least_run([*decode(folder, "b8"), "--plan", folder / "plan.json"], folder)
            cells = [f"{units}", f"{1e6 * best.processor_seconds / shots:,.1f}"]
            cells += [f"x{best.processor_seconds / whole.processor_seconds:.2f}", f"{best.memory:,.1f}" if best.memory else "-"]
            print_line("chain" if is_chain else "balanced", cells)


# Plans of many units.

MANY_UNITS = [1, 4, 16, 64, 256, 4_096]
MORE_DEFECTS = 50


def measure_plans(name, graph, distance, rounds, make, shots, is_chain, folder):
    """What a shot takes by plans of more and more units, and what each further item of a plan costs: in time, and in
    instructions. All plans have the same shots, and what the first one takes, which sets everything up, isn't counted."""
    virtuals, draw = set(graph.virtuals), random.Random(1)
    first, *more = [make(draw, graph, virtuals) for _ in range(shots + 1)]
    costs, counts = [], []
    for units in MANY_UNITS:
        if 2 * units - 1 > rounds:
            continue
        words = decode(folder, "b8")
        if units > 1:
            plan = plan_by_rounds(distance * (distance + 1), rounds, units, is_chain)
            (folder / "plan.json").write_text(json.dumps(plan))
            words += ["--plan", folder / "plan.json"]
        write_packed(graph, virtuals, [first], folder / "shots")
        bare, bare_count = least_run(words, folder), instructions(words)
        write_packed(graph, virtuals, [first, *more], folder / "shots")
        best, count = least_run(words, folder), instructions(words)
        costs.append(max(best.processor_seconds - bare.processor_seconds, LEAST_SECONDS) / shots)
        each = 1e6 * max(costs[-1] - costs[0], 0) / (2 * units - 1)
        cells = [f"{units:,}", f"{1e6 * costs[-1]:,.1f}", f"x{costs[-1] / costs[0]:.2f}", f"{each:,.2f}"]
        cells.append(f"{best.memory:,.1f}" if best.memory else "-")
        if count:
            counts.append((count - bare_count) / shots)
            each = max(counts[-1] - counts[0], 0) / (2 * units - 1)
            cells += [f"{counts[-1]:,.0f}", f"x{counts[-1] / counts[0]:.2f}", f"{each:,.0f}"]
        print_line(name, cells)


def bench_plans(folder, quick):
    distance, rounds = (10, 511) if quick else (10, 8_191)
    graph = rounds_lattice(distance, rounds)
    write_graph(graph, folder / "graph.json")
    heads = ["units", "us/shot", "of no plan", "us/item", "peak MB", "instructions/shot", "of no plan", "/item"]
    print_head(f"{graph.vertices:,} vertices, {len(graph.edges):,} edges", heads)

    def more_defects(draw, graph, virtuals):
        return few_defects(draw, graph, virtuals, MORE_DEFECTS)

    def hit_at(rate):
        return lambda draw, graph, virtuals: defects_of(graph, virtuals, flipped_edges(draw, len(graph.edges), rate))

    for is_chain in [False, True]:
        shape = "chain" if is_chain else "balanced"
        measure_plans(f"{FEW_DEFECTS} defects, {shape}", graph, distance, rounds, few_defects, 20, is_chain, folder)
        measure_plans(f"{MORE_DEFECTS} defects, {shape}", graph, distance, rounds, more_defects, 20, is_chain, folder)
        for rate in [0.001, 0.005]:
            shots = 8 if quick else 2
            measure_plans(f"{100 * rate:.1f} %, {shape}", graph, distance, rounds, hit_at(rate), shots, is_chain, folder)
    bench_gains(folder, quick)


# When a plan pays: by workers alone. What counts is the time that goes by.

GAIN_UNITS = [2, 4, 16]
GAIN_WINDOWS = [1, 64]


def write_plan(units, file, folder):
    """Has the program make a plan of the graph, and gives the options that name it; one unit is no plan."""
    if units == 1:
        return []
    with open(file, "wb") as out:
        subprocess.run([FUSION, "plan", "--graph", folder / "graph.json", "--units", str(units)], stdout=out, check=True)
    return ["--plan", file]


def shots_instead(words, file, folder):
    """The same words with another file of shots."""
    return [file if word == folder / "shots" else word for word in words]


def processor_seconds_of(words, folder):
    """The seconds that a run takes of the processor."""
    return run_once(words, folder).processor_seconds


def shot_seconds(ways, folder, measure=seconds_of):
    """The seconds that go by in each way to decode the shots, without those that reading the graph and the plan takes."""
    calls = []
    for words in ways:
        bare = shots_instead(words, os.devnull, folder)
        calls += [lambda words=each: measure(words, folder) for each in (bare, words)]
    times = least_in_turn(calls)
    return [max(full - empty, LEAST_SECONDS) for empty, full in zip(times[::2], times[1::2])]


def measure_gains(distance, rounds, rate, shots, folder):
    """What a shot takes one worker without a plan, and how much faster four workers are, without a plan and by plans."""
    graph = rounds_lattice(distance, rounds)
    write_graph(graph, folder / "graph.json")
    defects = write_hit_shots(graph, rate, shots, folder)
    plans = [write_plan(units, folder / f"plan-{units}.json", folder) for units in [1, *GAIN_UNITS] if 2 * units - 1 <= rounds]
    words = decode(folder, "b8")
    for window in GAIN_WINDOWS:
        crew = ["--workers", "4", "--window", str(window)]
        alone, *by_crew = shot_seconds([words, *([*words, *crew, *plan] for plan in plans)], folder)
        cells = [f"{window}", f"{defects / shots:,.0f}", f"{1e6 * alone / shots:,.0f}"]
        print_line(f"distance {distance} rounds {rounds} at {100 * rate:.1f} %", cells + [f"x{alone / each:.2f}" for each in by_crew])


def bench_gains(folder, quick):
    heads = ["window", "defects", "us/shot", "no plan", *(f"{units} units" for units in GAIN_UNITS)]
    print_head("faster by four workers", heads)
    for distance, rounds, shots in [(9, 90, 1_024), (9, 1_025, 128), (21, 210, 64)]:
        measure_gains(distance, rounds, 0.005, shots, folder)
    if not quick:
        measure_gains(9, 90, 0.001, 4_096, folder)
        measure_gains(9, 4_097, 0.005, 128, folder)


# Plans that the program makes.

MOST_VERTICES = 1_048_576
NEAR, FAR = [1, 2, 3, 4], [1, 2, 1_000, 30_000]


def edges_to_later(vertices, steps=FAR):
    """Edges from each vertex to four later ones."""
    for v in range(vertices):
        for step in steps:
            yield v, (v + step) % vertices, 2 * (v % 512)


def measure_making(name, steps, units, folder, vertices):
    """What making a plan takes, beside reading the graph with `decode`; in instructions too, but for the largest graph."""
    write_graph(Graph(vertices, edges_to_later(vertices, steps), range(0, vertices, 1_024)), folder / "graph.json")
    (folder / "shots").write_bytes(b"")
    make = [FUSION, "plan", "--graph", folder / "graph.json", "--units"]
    ways = [decode(folder), *([*make, str(each)] for each in units)]
    calls = [lambda words=each: run_once(words, folder).processor_seconds for each in ways]
    read, *made = least_in_turn(calls)
    counted, *counts = [instructions(words) if vertices < MOST_VERTICES else None for words in ways]
    for each, seconds, count in zip(units, made, counts):
        cells = [f"{vertices:,}", f"{len(steps) * vertices:,}", f"{each:,}", f"{read:.2f}", f"x{seconds / read:.2f}"]
        print_line(name, [*cells, *([f"x{count / counted:.2f}"] if count else [])])


LAYER_UNITS = [4, 16, 64]
# Callgrind takes some fifty times as long, so it is given fewer shots.
COUNTED_SHOTS = 64


def decoding_instructions(words, folder):
    """The instructions of the first shots without those of reading the graph and the plan; none where callgrind is absent."""
    counts = [instructions(shots_instead(words, file, folder)) for file in (os.devnull, folder / "first")]
    return counts[1] - counts[0] if counts[0] else None


def measure_layers(name, units, plan, folder):
    """Decoding by a plan by layers beside one by time: four workers' time, and one worker's on the processor and in
    instructions."""
    (folder / "time.json").write_text(plan)
    words = decode(folder, "b8")
    ways = [[*words, "--plan", folder / "time.json"], [*words, *write_plan(units, folder / "layers.json", folder)]]
    by_time, by_layers = shot_seconds([[*way, "--workers", "4", "--window", "64"] for way in ways], folder)
    alone = shot_seconds(ways, folder, processor_seconds_of)
    cells = [f"{units}", f"{1e3 * by_time:,.1f}", f"x{by_layers / by_time:.2f}", f"x{alone[1] / alone[0]:.2f}"]
    before, count = (decoding_instructions(way, folder) for way in ways)
    print_line(name, [*cells, *([f"x{count / before:.3f}"] if count else [])])


def write_first_shots(detectors, folder):
    """Writes the shots of which instructions are counted."""
    with open(folder / "shots", "rb") as shots:
        (folder / "first").write_bytes(shots.read(COUNTED_SHOTS * ((detectors + 7) // 8)))


def measure_lattice(distance, rounds, shots, most_units, folder):
    """Plans of a lattice with up to so many units, if it has the rounds for them."""
    graph = rounds_lattice(distance, rounds)
    write_graph(graph, folder / "graph.json")
    write_hit_shots(graph, 0.005, shots, folder)
    write_first_shots(graph.vertices - len(graph.virtuals), folder)
    for units in LAYER_UNITS:
        if units <= most_units and 2 * units - 1 <= rounds:
            plan = json.dumps(plan_by_rounds(distance * (distance + 1), rounds, units, False))
            measure_layers(f"distance {distance} rounds {rounds}", units, plan, folder)


def measure_model(distance, rounds, shots, most_units, folder):
    """A surface code's model in Stim's form."""
    code = surface_code(distance, rounds, 0.005)
    model = read_model(code.model_text().splitlines(), coordinates=True)
    (folder / "graph.json").write_text(graph_text(model.graph()))
    size = (code.detectors + 7) // 8
    (folder / "shots").write_bytes(b"".join(fired.to_bytes(size, "little") for fired, _ in code.shots(shots, 1)))
    write_first_shots(code.detectors, folder)
    for units in LAYER_UNITS:
        if units <= most_units:
            measure_layers(f"model: {distance}, {rounds} rounds", units, plan_text(plan_by_time(model, units)), folder)


def bench_planning(folder, quick):
    print_head("a plan beside reading the graph", ["vertices", "edges", "units", "reading s", "plan", "instructions"])
    for vertices in [MOST_VERTICES // 16] if quick else [MOST_VERTICES // 16, MOST_VERTICES]:
        measure_making("edges to near vertices", NEAR, [2, 4_096], folder, vertices)
        measure_making("edges to far vertices", FAR, [2], folder, vertices)
    most_units, shots = (16, 512) if quick else (64, 1_024)
    print_head("plans by layers beside time", ["units", "by time ms", "by layers", "one worker", "instructions"])
    for distance in [9, 13] if quick else [9, 13, 21]:
        measure_lattice(distance, max(10 * distance, 2 * most_units), shots, most_units, folder)
    for distance in [9] if quick else [9, 13, 21]:
        measure_lattice(distance, 2 * distance, shots, most_units, folder)
    measure_model(9, max(90, 2 * most_units), shots, most_units, folder)
