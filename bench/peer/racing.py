"""The race between the program, the peer and a program that reads and writes alone: see `race`."""

import itertools
import json
import math
import os
from collections import defaultdict, namedtuple

import peers
from inputs import inputs, write
from measuring import LEAST_SECONDS, decode, least_in_turn, plan_by_rounds, print_head, print_line, run_once

QUICK_PART = 1 / 4
# How the program runs: with how many workers, windows and units of a plan, where that is said; and whether runs are small.
Ways = namedtuple("Ways", "workers window units quick", defaults=[None, None, None, False])
HEADS = ["vertices", "defects", "program us", "peer us", "r/w us", "of the peer", "of r/w", "program MB", "peer MB"]


def contestants(asked, given, folder):
    """The words that call each program."""
    words = decode(folder, "b8")
    files = words[2:]
    for name in ["workers", "window"]:
        if value := getattr(asked, name):
            words += [f"--{name}", str(value)]
    if asked.units and given.rounds >= 2 * asked.units - 1:
        plan = plan_by_rounds(given.distance * (given.distance + 1), given.rounds, asked.units, False)
        (folder / "plan.json").write_text(json.dumps(plan))
        words += ["--plan", folder / "plan.json"]
    peer = [folder / "sparse_blossom", *files]
    return {"program": words, "peer": peer, "read_write": [folder / "read_write", *files, "--report", folder / "peer.report"]}


def took(words, folder, out, clock):
    """The seconds and the megabytes of a run."""
    spent = run_once(words, folder, out)
    return getattr(spent, clock), spent.memory or 0


def measure(ways, clock, folder):
    """The seconds of each way, less those without shots, and its megabytes. NAME.report keeps what it wrote."""
    calls = []
    for name, words in ways.items():
        bare = [os.devnull if word in (folder / "shots", folder / "peer.report") else word for word in words]
        calls.append(lambda words=words, name=name: took(words, folder, folder / f"{name}.report", clock))
        calls.append(lambda words=bare: took(words, folder, folder / "bare.report", clock))
    run_once(ways["peer"], folder, folder / "peer.report")
    times = least_in_turn(calls)
    pairs = zip(times[::2], times[1::2])
    return {name: (max(full[0] - bare[0], LEAST_SECONDS), full[1]) for name, (full, bare) in zip(ways, pairs)}


def answers(report):
    """The lines of a report on which two decoders must agree."""
    with open(report, "rb") as lines:
        return [line.split(b" units")[0] for line in lines if line.startswith((b"shot ", b"weight ", b"done "))]


def first_difference(folder):
    """The first shot on which the program and the peer differ; None where they don't."""
    shot = -1
    both = itertools.zip_longest(*(answers(folder / f"{name}.report") for name in ["program", "peer"]), fillvalue=b"")
    for answer, wanted in both:
        shot += wanted.startswith(b"shot ")
        if answer != wanted:
            return shot
    return None


def compete(asked, given, folder):
    """Prints the line of an input. Gives the seconds of a shot, of the program and the peer; None where their weights differ."""
    written = write(given, QUICK_PART if asked.quick else 1, folder)
    clock = "seconds" if asked.workers and asked.workers > 1 else "processor_seconds"
    taken = measure(contestants(asked, given, folder), clock, folder)
    program, peer, bytes_alone = (taken[name][0] / written.shots for name in ["program", "peer", "read_write"])
    cells = [f"{written.vertices:,}", f"{written.defects:,.1f}"]
    cells += [f"{1e6 * seconds:,.2f}" for seconds in (program, peer, bytes_alone)]
    cells += [f"x{program / peer:.2f}", f"x{program / bytes_alone:.1f}"]
    cells += [f"{taken[name][1] or math.nan:,.1f}" for name in ["program", "peer"]]
    shot = first_difference(folder)
    print_line(given.name, cells if shot is None else [*cells, f"  WRONG: shot {shot}"])
    return (program, peer) if shot is None else None


def power(points):
    """The slope of the line that fits the logarithms of pairs best."""
    xs, ys = ([math.log(value) for value in values] for values in zip(*points))
    mean_x, mean_y = sum(xs) / len(xs), sum(ys) / len(ys)
    return sum((x - mean_x) * (y - mean_y) for x, y in zip(xs, ys)) / sum((x - mean_x) ** 2 for x in xs)


def print_powers(found):
    """By which powers the seconds of shots grow, where there are several sizes of a kind."""
    print_head("a shot's time grows by the power", ["program", "peer"])
    for (kind, rate), results in found.items():
        if len(results) > 1:
            programs, others = ([(size, times[k]) for size, times in results] for k in (0, 1))
            size = "vertices" if rate is None else f"distance, p {rate}"
            print_line(f"{kind}: {size}", [f"{power(programs):.2f}", f"{power(others):.2f}"])


def compete_on(asked, chosen, folder):
    """Builds both programs, and prints the lines of these inputs and how their times grow. Whether all weights are the same."""
    found, are_same = defaultdict(list), True
    peers.build(folder)
    print_head("microseconds a shot", HEADS)
    for given in chosen:
        if result := compete(asked, given, folder):
            size = given.rounds if given.kind == "grown" else given.distance
            found[given.kind, given.rate].append((size, result))
        are_same = are_same and result is not None
    print_powers(found)
    return are_same


def bench_peer(folder, quick):
    """The part of bench/run on the peer, with one worker."""
    if not peers.compiler():
        print_head("no C++ compiler, so no peer", [])
        return
    if not compete_on(Ways(quick=quick), inputs(quick), folder):
        raise SystemExit("the program's weights differ from the peer's")
