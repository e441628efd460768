"""The parts of bench/run on workers, and the race against copying."""

import json
import os
import random
import statistics
import subprocess
import time

from measuring import (
    DISTANCES,
    FEW_DEFECTS,
    LEAST_SECONDS,
    RATES,
    decode,
    defects_of,
    few_defects,
    flipped_edges,
    instructions,
    least_in_turn,
    plan_by_rounds,
    print_growth_power,
    print_head,
    print_line,
    print_remark,
    rounds_lattice,
    run_once,
    seconds_of,
    write_graph,
    write_hit_shots,
    write_packed,
)

# Workers. What counts is the time that goes by, and not that of all processors together.

CREWS = [(1, 1), (1, 64), (2, 64), (4, 1), (4, 64)]
PROCESSES = 4


def seconds_together(words):
    """The seconds that go by until as many processes as `PROCESSES`, which begin together, have ended."""
    start = time.perf_counter()
    runs = [subprocess.Popen(words, stdout=subprocess.DEVNULL) for _ in range(PROCESSES)]
    statuses = [run.wait() for run in runs]
    if set(statuses) - {0, 1}:
        raise SystemExit(f"{words} ended with statuses {statuses}")
    return time.perf_counter() - start


def measure_workers(name, graph, rate, units, shots, folder):
    """How much faster each crew is than one worker with windows of one shot, and then processes side by side, each with one
    worker: what the machine gives. All without reading the graph."""
    write_graph(graph, folder / "graph.json")
    write_hit_shots(graph, rate, shots, folder)
    words = decode(folder, "b8")
    bare = [os.devnull if word == folder / "shots" else word for word in words]
    if units > 1:
        distance, rounds = name
        (folder / "plan.json").write_text(json.dumps(plan_by_rounds(distance * (distance + 1), rounds, units, False)))
        words += ["--plan", folder / "plan.json"]
    crews = [[*words, "--workers", str(workers), "--window", str(window)] for workers, window in CREWS]
    calls = [lambda words=each: seconds_of(words, folder) for each in [bare, *crews]]
    nothing, *seconds, together = least_in_turn([*calls, lambda: seconds_together([*words, "--window", "64"])])
    seconds = [max(each - nothing, LEAST_SECONDS) for each in seconds]
    seconds.append(max(together - nothing, LEAST_SECONDS) / PROCESSES)
    cells = [f"{units}", f"{1e6 * seconds[0] / shots:,.1f}", *(f"x{seconds[0] / each:.2f}" for each in seconds[1:])]
    print_line("distance {} rounds {}".format(*name) + f" at {100 * rate:.1f} %", cells)


def bench_workers(folder, quick):
    crews = [f"{workers}w {window}" for workers, window in CREWS[1:]]
    print_head("faster by workers and window", ["units", "us/shot", *crews, f"{PROCESSES} runs"])
    for distance in [9] if quick else [9, 13, 21]:
        for rate in [0.001, 0.005]:
            shots = max(64, round((300_000 if quick else 60_000_000) * 0.001 / (rate * distance**3)))
            for units in [1, 4]:
                graph = rounds_lattice(distance, distance)
                measure_workers((distance, distance), graph, rate, units, shots, folder)
    for units in [1, 4, 16, 64]:
        graph = rounds_lattice(9, 63 if quick else 513)
        shots = 16 if quick else 256
        measure_workers((9, 63 if quick else 513), graph, 0.005, units if not quick else min(units, 16), shots, folder)


# Two programs in turn.

BESIDE_UNITS = [1, 4, 16, 64]
BESIDE_WORKERS = [1, 4]
BESIDE_TURNS = 21


def medians_in_turn(calls):
    """The median of what each call gives, in turns."""
    turns = [[call() for call in calls] for _ in range(BESIDE_TURNS)]
    return [statistics.median(times) for times in zip(*turns)]


def measure_beside(units, workers, words, old, folder):
    """A whole run of another program, and in times of that: of the same once more, and of this one."""
    words = [*words, "--workers", str(workers), "--window", "64"]
    other = [old, *words[1:]]
    before, again, now = medians_in_turn([lambda words=each: seconds_of(words, folder) for each in [other, other, words]])
    cells = [f"{units}", f"{workers}", f"{1e3 * before:,.1f}", f"x{again / before:.3f}", f"x{now / before:.3f}"]
    counted = instructions(other)
    if counted:
        cells += [f"{counted / 1e6:,.1f}", f"x{instructions(words) / counted:.4f}"]
    print_line("", cells)


def bench_beside(folder, quick, old):
    distance, rounds, shots = (9, 129, 64) if quick else (9, 513, 128)
    graph = rounds_lattice(distance, rounds)
    write_graph(graph, folder / "graph.json")
    defects = write_hit_shots(graph, 0.005, shots, folder)
    heads = ["units", "workers", "ms", "the same", "this one", "M instr.", "this one"]
    print_head(f"distance {distance} rounds {rounds}", heads)
    print_remark(f"{old}: medians of {BESIDE_TURNS} runs; {shots} shots of {defects / shots:.1f} defects")
    for units in BESIDE_UNITS:
        words = decode(folder, "b8")
        if units > 1:
            (folder / "plan.json").write_text(json.dumps(plan_by_rounds(distance * (distance + 1), rounds, units, False)))
            words += ["--plan", folder / "plan.json"]
        for workers in BESIDE_WORKERS:
            measure_beside(units, workers, words, old, folder)


# A race against copying: the seconds that go by, in times of those that copying shots and report takes.

RACE_UNITS = [16, 64]


def measure_race(name, distance, rounds, make, shots, folder):
    """What a shot takes, without the time to read the graph, in times of copying its bytes and its rows; and with plans, and
    with four workers, in times of that."""
    graph, draw = rounds_lattice(distance, rounds), random.Random(1)
    virtuals = set(graph.virtuals)
    write_graph(graph, folder / "graph.json")
    write_packed(graph, virtuals, (make(draw, graph, virtuals) for _ in range(shots)), folder / "shots")
    words = [*decode(folder, "b8"), "--window", "64"]
    run_once(words, folder, folder / "report")
    bare = [os.devnull if word == folder / "shots" else word for word in words]
    ways = [bare, words, [*words, "--workers", "4"], ["cat", os.devnull], ["cat", folder / "shots", folder / "report"]]
    for units in RACE_UNITS:
        if 2 * units - 1 <= rounds:
            plan = plan_by_rounds(distance * (distance + 1), rounds, units, False)
            (folder / f"plan-{units}.json").write_text(json.dumps(plan))
            ways += [[*way, "--plan", folder / f"plan-{units}.json"] for way in (bare, words)]
    nothing, whole, crew, *rest = least_in_turn([lambda words=way: seconds_of(words, folder) for way in ways])
    alone, by_crew = (max(seconds - nothing, LEAST_SECONDS) for seconds in (whole, crew))
    copied, *planned = (max(full - empty, LEAST_SECONDS) for empty, full in zip(rest[::2], rest[1::2]))
    cells = [f"{graph.vertices:,}", f"{1e6 * alone / shots:,.1f}", f"x{alone / copied:.1f}", f"x{by_crew / alone:.2f}"]
    print_line(name, [*cells, *(f"x{seconds / alone:.2f}" for seconds in planned)])
    return graph.vertices, alone / shots


def bench_race(folder, quick):
    plans = [f"{units} units" for units in RACE_UNITS]
    print_head("beside copying", ["vertices", "us/shot", "of copying", "4 workers", *plans])
    for rate in RATES:

        def hit(draw, graph, virtuals):
            return defects_of(graph, virtuals, flipped_edges(draw, len(graph.edges), rate))

        for distance in DISTANCES[:2] if quick else DISTANCES:
            shots = max(64, round((1_000_000 if quick else 20_000_000) * 0.001 / (rate * distance**4)))
            measure_race(f"distance {distance} at {100 * rate:.1f} %", distance, distance, hit, shots, folder)
    runs = [
        measure_race(f"{FEW_DEFECTS} defects", 10, rounds, few_defects, 64 if quick else 1_000, folder)
        for rounds in ([127, 511] if quick else [127, 511, 2_047, 8_191])
    ]
    print_growth_power(runs)
