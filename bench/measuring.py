"""What the parts of bench/run share: runs of the built program and what they take, graphs of many rounds, and shots on them."""

import math
import os
import random
import re
import resource
import shutil
import subprocess
import sys
import time
from collections import namedtuple
from pathlib import Path

ROOT = Path(__file__).resolve().parent.parent
sys.path.insert(0, str(ROOT / "tests"))
from lattices import sheets

FUSION = Path(os.environ.get("FUSION") or ROOT / "crates/fusion/out/fusion").resolve()
GNU_TIME = shutil.which("time")
VALGRIND = shutil.which("valgrind")
WEIGHT = 20
RUNS = 3
# Threads and processes side by side vary more, as the processors of a virtual machine are lent to others too.
TURNS = 5
LONG_RUN_SECONDS = 2
LEAST_SECONDS = 0.001
LEAST_MEGABYTES = 0.1
MEGABYTE = 1_000_000

Graph = namedtuple("Graph", "vertices edges virtuals")
Spent = namedtuple("Spent", "processor_seconds seconds memory")
Run = namedtuple("Run", "vertices shots processor_seconds memory report_bytes")


def write_graph(graph, file):
    with open(file, "w") as out:
        virtuals = ",".join(map(str, graph.virtuals))
        out.write(f'{{"vertex_num":{graph.vertices},"virtual_vertices":[{virtuals}],"weighted_edges":[')
        separator = ""
        for u, v, weight in graph.edges:
            out.write(f"{separator}[{u},{v},{weight}]")
            separator = ","
        out.write("]}\n")


def spent():
    """Seconds of the processor in ended children."""
    usage = resource.getrusage(resource.RUSAGE_CHILDREN)
    return usage.ru_utime + usage.ru_stime


def run_once(words, folder, out=os.devnull):
    """What a run took: seconds of the processor, seconds that passed, and the peak of memory in megabytes."""
    measured = [GNU_TIME, "-f", "%M", "-o", folder / "memory", *words] if GNU_TIME else words
    with open(out, "wb") as report:
        start, spent_before = time.perf_counter(), spent()
        status = subprocess.run(measured, stdout=report).returncode
        seconds, processor_seconds = time.perf_counter() - start, max(spent() - spent_before, LEAST_SECONDS)
    if status > 1:
        raise SystemExit(f"{words} ended with status {status}")
    memory = int((folder / "memory").read_text().split()[-1]) / 1024 if GNU_TIME else None
    return Spent(processor_seconds, seconds, memory)


def least_run(words, folder, out=os.devnull):
    """The least time of a few runs; of a long run, its own."""
    best = run_once(words, folder, out)
    for _ in range(RUNS - 1):
        if best.processor_seconds < LONG_RUN_SECONDS:
            best = min(best, run_once(words, folder, out))
    return best


def decode(folder, form="01"):
    return [FUSION, "decode", "--graph", folder / "graph.json", "--shots", folder / "shots", "--format", form]


class Tables:
    """Prints tables: in columns, or as Markdown, in which the remarks on a table follow it as a list."""

    def __init__(self):
        self.are_markdown = False
        self.is_open = False
        self.remarks = []

    def head(self, name, heads):
        if not self.are_markdown:
            return self.line(name, heads)
        self.end()
        self.is_open = True
        self.line(name, heads)
        print("|---|" + "--:|" * len(heads), flush=True)

    def line(self, name, cells):
        if self.are_markdown:
            print("| " + " | ".join([name, *cells]) + " |", flush=True)
        else:
            print(name.ljust(34) + "".join(cell.rjust(12) for cell in cells), flush=True)

    def remark(self, text):
        if self.are_markdown:
            self.remarks.append(text)
        else:
            print(f"  {text}", flush=True)

    def end(self):
        """Ends a table of Markdown, if one is open, with the remarks on it."""
        if self.is_open:
            print("\n" + "".join(f"- {text}\n" for text in self.remarks), flush=True)
            self.is_open = False
            self.remarks = []


TABLES = Tables()
print_head, print_line, print_remark = TABLES.head, TABLES.line, TABLES.remark


def seconds_of(words, folder):
    """The seconds that go by in a run."""
    return run_once(words, folder).seconds


def least_in_turn(calls):
    """The least of what each call gives, in turns, so that a machine that is slow for a while is so for all calls."""
    turns = [[call() for call in calls] for _ in range(TURNS)]
    return [min(times) for times in zip(*turns)]


def instructions(words):
    """The instructions of a run, or none where callgrind is absent."""
    if not VALGRIND:
        return None
    run = [VALGRIND, "--tool=callgrind", "--callgrind-out-file=/dev/null", *words]
    said = subprocess.run(run, stdout=subprocess.DEVNULL, stderr=subprocess.PIPE, text=True).stderr
    return int(re.search(r"Collected : (\d+)", said)[1])


def print_growth_power(runs):
    """How the time of a shot grows with the vertices, from each run to the next."""
    for (before, cost), (after, grown) in zip(runs, runs[1:]):
        power = math.log(grown / cost) / math.log(after / before)
        print_remark(f"vertices x{after / before:.1f}: time x{grown / cost:.1f}, the power {power:.2f}")


# Shots of many defects.

DISTANCES = [5, 9, 13, 17, 21]
RATES = [0.001, 0.005, 0.01]
FEW_DEFECTS = 20


def rounds_lattice(distance, rounds):
    """A lattice for each round, and an edge from each of its real vertices to the next round's."""
    return sheets(distance, distance + 1, rounds, WEIGHT, WEIGHT)


def flipped_edges(draw, count, rate):
    """Each of so many edges at this rate."""
    edge = -1
    while True:
        edge += 1 + int(math.log(1 - draw.random()) / math.log(1 - rate))
        if edge >= count:
            return
        yield edge


def defects_of(graph, virtuals, edges):
    """The vertices at which an odd number of the edges ends."""
    defects = set()
    for e in edges:
        defects ^= {v for v in graph.edges[e][:2] if v not in virtuals}
    return defects


def few_defects(draw, graph, virtuals, count=FEW_DEFECTS):
    """The ends of so many edges that they are the wanted number of vertices."""
    defects = set()
    while len(defects) < count:
        u, v, _ = draw.choice(graph.edges)
        if not {u, v} & (defects | virtuals):
            defects |= {u, v}
    return defects


def write_packed(graph, virtuals, shots, file):
    """The shots as b8, and the number of their defects."""
    places = [0] * graph.vertices
    for k, v in enumerate(v for v in range(graph.vertices) if v not in virtuals):
        places[v] = k
    size, count = (graph.vertices - len(virtuals) + 7) // 8, 0
    with open(file, "wb") as out:
        for defects in shots:
            record = bytearray(size)
            for v in defects:
                record[places[v] // 8] |= 1 << places[v] % 8
            out.write(record)
            count += len(defects)
    return count


def write_hit_shots(graph, rate, shots, folder):
    """Shots in which each edge is hit at this rate, and the number of their defects."""
    virtuals, draw = set(graph.virtuals), random.Random(1)
    hit = (defects_of(graph, virtuals, flipped_edges(draw, len(graph.edges), rate)) for _ in range(shots))
    return write_packed(graph, virtuals, hit, folder / "shots")


def plan_by_rounds(size, rounds, units, is_chain):
    """A plan whose units are runs of rounds, with a round between each two as the seam: joined level by level, or each
    with all before it."""
    length = rounds - (units - 1)
    ends, start = [], 0
    for j in range(units):
        end = start + length // units + (j < length % units)
        ends.append((start * size, end * size))
        start = end + 1
    fusions, level = [], [(j, ends[j]) for j in range(units)]
    while len(level) > 1:
        pairs = [level[:2]] if is_chain else [level[i : i + 2] for i in range(0, len(level) - 1, 2)]
        joined = []
        for (a, left), (b, right) in pairs:
            fusions.append({"of": [a, b], "interface": [[left[1], right[0]]]})
            joined.append((units + len(fusions) - 1, (left[0], right[1])))
        level = joined + level[2 * len(pairs) :]
    return {"units": [[end] for end in ends], "fusions": fusions}
