#!/usr/bin/env python3
"""States in plain loops what the program answers to words and files, and judges its answers by it.

Nothing here is shared with the program. A graph is a list of edges, a correction a list of edge numbers, a cut a value
and a list of vertices; each definition is a loop over them, and the least weight of a correction is found by trying
every set of edges. That an odd-cut packing bounds every correction from below is Edmonds' theorem (1965) in the form of
Edmonds and Johnson (1973). Where weights are negative, it bounds the sets of edges that differ from the negative ones.

Run as a program, it judges rows and texts whose answers are known, and fails where it finds another.
"""

import re
import sys

sys.dont_write_bytecode = True
from lattices import sample_text
from layers import plan_text
from predictions import TEXTS, predictions_text, read_observables
from readers import RECORDS, Refused, read_graph, read_plan, read_report, read_shots, whole_plan
from traces import trace_complaints

HEAD = b"fusion-report 2\n"
MOST_TRIED_EDGES = 12
MOST_TRIED_VERTICES = 100


# Corrections and their weight.


def odd_vertices(graph, edges):
    """The vertices that aren't virtual at which an odd number of the edges ends."""
    ends = [vertex for e in edges for vertex in graph.edges[e][:2] if vertex not in graph.virtuals]
    return sorted(vertex for vertex in set(ends) if ends.count(vertex) % 2 == 1)


def weight_of(graph, edges):
    """What some edges weigh, with sign."""
    total = 0
    for e in edges:
        total += graph.edges[e][2]
    return total


def negative_edges(graph):
    return [e for e, (_, _, weight) in enumerate(graph.edges) if weight < 0]


def base_of(graph):
    """The sum of the negative weights: no set of edges weighs less."""
    return weight_of(graph, negative_edges(graph))


def shifted_defects(graph, defects):
    """The vertices that aren't virtual at which the negative edges and the defect are together odd in number."""
    return sorted(set(defects) ^ set(odd_vertices(graph, negative_edges(graph))))


def shot_graph(graph, shot):
    """The graph with the weights of a shot."""
    if not shot.changes:
        return graph
    edges = list(graph.edges)
    for e, weight in shot.changes:
        u, v, _ = edges[e]
        edges[e] = (u, v, weight)
    return graph._replace(edges=edges)


class LeastWeights:
    """The least weights of corrections in one graph, by trying every set of edges."""

    def __init__(self, graph):
        self.graph, self.corrections, self.found = graph, {}, {}
        for chosen in range(2 ** len(graph.edges)):
            edges = [e for e in range(len(graph.edges)) if chosen >> e & 1]
            self.corrections.setdefault(tuple(odd_vertices(graph, edges)), []).append(edges)

    def of(self, shot):
        """The least weight of a correction, with the weights of the shot; None where there is no correction."""
        key = tuple(shot.defects), shot.changes
        if key not in self.found:
            graph, corrections = shot_graph(self.graph, shot), self.corrections.get(key[0], [])
            self.found[key] = min((weight_of(graph, edges) for edges in corrections), default=None)
        return self.found[key]


# Components.


def joined_to(graph, start):
    """The vertices that a list of edges joins to a vertex, itself included."""
    joined = {start}
    grew = True
    while grew:
        grew = False
        for u, v, _ in graph.edges:
            if (u in joined) != (v in joined):
                joined |= {u, v}
                grew = True
    return joined


def odd_component(graph, defects):
    """The least vertex joined to no virtual vertex and to an odd number of defects; None where there is none."""
    odd = []
    for defect in defects:
        joined = joined_to(graph, defect)
        if joined.isdisjoint(graph.virtuals) and sum(other in joined for other in defects) % 2 == 1:
            odd.append(min(joined))
    return min(odd, default=None)


# Certificates.


def crosses(cut, edge):
    _, vertices = cut
    u, v, _ = edge
    return (u in vertices) != (v in vertices)


def load(graph, cuts, e):
    """The sum of the values of the cuts that hold exactly one end of an edge."""
    total = 0
    for cut in cuts:
        if crosses(cut, graph.edges[e]):
            total += cut[0]
    return total


def first_overloaded(graph, cuts):
    """The first edge whose load is above its weight without sign; None where there is none."""
    for e in range(len(graph.edges)):
        if load(graph, cuts, e) > abs(graph.edges[e][2]):
            return e
    return None


def rises(numbers):
    return all(a < b for a, b in zip(numbers, numbers[1:]))


def verdict(graph, defects, row):
    """The first rule that a row breaks, else Good."""
    if row[0] == "odd":
        return "Good" if odd_component(graph, defects) == row[1] else f"OddWrong {row[1]}"
    _, edges, base, weight, cuts = row
    fault = edges_verdict(graph, defects, edges, weight)
    if not fault and base != base_of(graph):
        fault = f"BaseDiffers {base} {base_of(graph)}"
    shifted = shifted_defects(graph, defects)
    for j in range(len(cuts)):
        fault = fault or cut_verdict(graph, shifted, cuts, j)
    if fault:
        return fault
    overloaded = first_overloaded(graph, cuts)
    if overloaded is not None:
        return f"Overloaded {overloaded}"
    total = base + sum(value for value, _ in cuts)
    if total != weight:
        return f"SumDiffers {weight} {total}"
    return "Good"


def edges_verdict(graph, defects, edges, weight):
    for e in edges:
        if e >= len(graph.edges):
            return f"EdgeOutOfRange {e}"
    for before, e in zip(edges, edges[1:]):
        if e <= before:
            return f"EdgesNotRising {e}"
    wrong = set(odd_vertices(graph, edges)) ^ set(defects)
    if wrong:
        return f"WrongParity {min(wrong)}"
    if weight != weight_of(graph, edges):
        return f"WeightNotSum {weight} {weight_of(graph, edges)}"
    return None


def cut_verdict(graph, shifted, cuts, j):
    _, vertices = cuts[j]
    if not vertices:
        return f"CutEmpty {j}"
    for vertex in vertices:
        if vertex >= graph.vertices:
            return f"VertexOutOfRange {vertex}"
    if not rises(vertices) or (j > 0 and vertices <= cuts[j - 1][1]):
        return f"CutsNotRising {j}"
    for vertex in vertices:
        if vertex in graph.virtuals:
            return f"CutHoldsVirtual {vertex}"
    if sum(vertex in vertices for vertex in shifted) % 2 == 0:
        return f"CutEven {j}"
    return None


# The rows of decode.


def complaint(graph, shot, row, least):
    """What is wrong with a row; None where it is right. `least` has the least weights, where they are known."""
    odd = odd_component(graph, shot.defects)
    if odd is not None:
        return None if row == ["odd", odd] else f"{row} where {odd} is odd"
    if row[0] != "best":
        return f"{row} where there is a correction"
    answer = verdict(shot_graph(graph, shot), shot.defects, row)
    if answer != "Good":
        return f"{answer}: {row}"
    if least is not None and row[3] != least.of(shot):
        return f"weight {row[3]} where the least is {least.of(shot)}"
    return None


def report_complaints(graph, shots, is_whole, text, items=(1, 0)):
    """What is wrong with a report of shots; where it isn't whole, it ends after their rows. `items` are how many units and
    fusions each correction counts."""
    odd = sum(odd_component(graph, shot.defects) is not None for shot in shots)
    last = b"" if is_whole else b"done %d odd %d units 0 fusions 0\n" % (len(shots), odd)
    if not text.startswith(HEAD):
        return ["no report of version 2"]
    try:
        report = read_report(text + last)
    except Refused as fault:
        return [f"no report: {fault}"]
    if len(report.rows) != len(shots):
        return [f"{len(report.rows)} rows for {len(shots)} shots"]
    is_small = len(graph.edges) <= MOST_TRIED_EDGES and graph.vertices <= MOST_TRIED_VERTICES
    least = LeastWeights(graph) if is_small else None
    found = [complaint(graph, shot, row, least) for shot, row in zip(shots, report.rows)]
    complaints = [f"shot {k}: {wrong}" for k, wrong in enumerate(found) if wrong]
    best = sum(row[0] == "best" for row in report.rows)
    if is_whole and (report.units, report.fusions) != (best * items[0], best * items[1]):
        complaints.append(f"units {report.units} fusions {report.fusions}")
    return complaints


def decode_status(graph, shots):
    """The status of a run that reads its input to its end."""
    return 1 if any(odd_component(graph, shot.defects) is not None for shot in shots) else 0


# The text of check.


def check_text(graph, rows, shots, is_whole):
    """The text that judges the rows of a report; where it isn't whole, the shots were read up to a refusal."""
    out = ["check-report 1"]
    bad = 0
    for k, (shot, row) in enumerate(zip(shots, rows)):
        answer = verdict(shot_graph(graph, shot), shot.defects, row)
        bad += answer != "Good"
        out.append(f"shot {k} good" if answer == "Good" else f"shot {k} bad {answer}")
    if is_whole:
        out.append(f"rows {len(rows)} shots {len(shots)} bad {bad}")
    return "".join(f"{line}\n" for line in out).encode(), 0 if bad == 0 and len(rows) == len(shots) else 1


# Words.

OPTIONS = {
    "decode": ["--graph", "--shots", "--format"],
    "check": ["--graph", "--shots", "--format", "--report"],
    "sample": ["--distance", "--rounds", "--units", "--rate", "--start", "--shots"],
    "plan": ["--graph", "--units"],
    "predict": ["--graph", "--observables", "--report", "--to"],
}
FREE = {"decode": ["--plan", "--workers", "--window"], "sample": ["--workers", "--window"]}
FLAGS = {"decode": ["--trace"]}
NAMES = ["--graph", "--plan", "--shots", "--observables", "--report"]
FORMATS = {"--format": RECORDS, "--to": TEXTS}
RANGES = {
    "--workers": (1, 64),
    "--window": (1, 64),
    "--distance": (2, 255),
    "--rounds": (1, 1_048_576),
    "--units": (1, 4096),
    "--rate": (0, 1_048_576),
    "--start": (0, 2**64 - 1),
}
MOST_SAMPLED_SHOTS = 1_000_000


class Usage(Exception):
    """Words without a reading, with the line for standard error; None for a text of the words' reader."""


def number_within(word, least, most):
    if not re.fullmatch(r"\+?[0-9]+", word) or not least <= int(word) <= most:
        raise Usage(None)
    return int(word)


def read_words(words):
    """The command and its options, each of them once, as a name and a value or joined by an equals sign."""
    try:
        command, *rest = [word.decode() for word in words] or [""]
    except UnicodeDecodeError:
        raise Usage(None) from None
    if command not in OPTIONS:
        raise Usage(None)
    if rest[-1:] == ["--"]:
        rest.pop()
    options = {}
    while rest:
        name, equals, value = rest.pop(0).partition("=")
        if name in FLAGS.get(command, []) and not equals and name not in options:
            options[name] = ""
            continue
        if not equals:
            if not rest or (rest[0].startswith("-") and rest[0] != "-"):
                raise Usage(None)
            value = rest.pop(0)
        if name not in OPTIONS[command] + FREE.get(command, []) or name in options:
            raise Usage(None)
        options[name] = value
    if any(name not in options for name in OPTIONS[command]):
        raise Usage(None)
    ranges = {**RANGES, "--shots": (1, MOST_SAMPLED_SHOTS)} if command == "sample" else RANGES
    for name in options.keys() & ranges.keys():
        options[name] = number_within(options[name], *ranges[name])
    if any(options[name] not in FORMATS[name] for name in options.keys() & FORMATS.keys()):
        raise Usage(b"fusion: unknown format\n")
    if [options.get(name) for name in NAMES].count("-") > 1:
        raise Usage(b"fusion: two names for standard input\n")
    return command, options


# Whole answers. An answer has stdout, stderr and a status; files are bytes by name, with standard input as `-`.


class NoFile(Exception):
    """A name that can't be opened and read."""


def opened(files, name):
    if name not in files:
        raise NoFile
    return files[name]


def complaints_of(words, files, answer):
    """What is wrong with the program's answer to words and files."""
    try:
        command, options = read_words(words)
    except Usage as usage:
        [said] = usage.args
        return differences(answer, b"", answer.stderr or b"some text" if said is None else said, 6)
    answers = {
        "decode": decode_complaints,
        "check": check_complaints,
        "sample": sample_complaints,
        "plan": plan_complaints,
        "predict": predict_complaints,
    }
    try:
        return answers[command](options, files, answer)
    except Refused as fault:
        return differences(answer, b"", refusal(fault), 2)
    except NoFile:
        return differences(answer, b"", b"fusion: read fault\n", 3)


def refusal(fault):
    return f"fusion: refused {fault}\n".encode()


def decode_complaints(options, files, answer):
    graph = read_graph(opened(files, options["--graph"]))
    plan = read_plan(opened(files, options["--plan"]), graph) if "--plan" in options else whole_plan(graph)
    if options["--shots"] not in files:
        return differences(answer, HEAD, b"fusion: read fault\n", 3)
    shots, fault = read_shots(options["--format"], files[options["--shots"]], graph)
    complaints = report_complaints(graph, shots, fault is None, answer.stdout, (plan.units, plan.fusions))
    complaints += events_complaints(options, plan, graph, shots, answer.stdout)
    stderr = refusal(fault) if fault else b""
    status = 2 if fault else decode_status(graph, shots)
    return complaints + differences(answer, answer.stdout, stderr, status)


def events_complaints(options, plan, graph, shots, text):
    """What is wrong with the events that a report lists: all of them if they are asked for, else none."""
    if "--trace" not in options:
        found = any(line.startswith((b"took ", b"gave ")) for line in text.splitlines())
        return ["events that weren't asked for"] if found else []
    best = {k for k, shot in enumerate(shots) if odd_component(graph, shot.defects) is None}
    workers, window = options.get("--workers", 1), options.get("--window", 1)
    return trace_complaints(plan, workers, window, best, len(shots), text)


def sample_complaints(options, files, answer):
    numbers = [options[name] for name in OPTIONS["sample"]]
    return differences(answer, sample_text(*numbers), b"", 0)


def plan_complaints(options, files, answer):
    graph = read_graph(opened(files, options["--graph"]))
    return differences(answer, plan_text(graph, options["--units"]), b"", 0)


def predict_complaints(options, files, answer):
    graph = read_graph(opened(files, options["--graph"]))
    observables = read_observables(opened(files, options["--observables"]), graph)
    report = read_report(opened(files, options["--report"]))
    text = predictions_text(observables, report.rows, options["--to"])
    return differences(answer, text, b"", 1 if any(row[0] == "odd" for row in report.rows) else 0)


def check_complaints(options, files, answer):
    graph = read_graph(opened(files, options["--graph"]))
    report = read_report(opened(files, options["--report"]))
    if options["--shots"] not in files:
        return differences(answer, b"check-report 1\n", b"fusion: read fault\n", 3)
    shots, fault = read_shots(options["--format"], files[options["--shots"]], graph)
    text, status = check_text(graph, report.rows, shots, fault is None)
    if fault:
        return differences(answer, text, refusal(fault), 2)
    return differences(answer, text, b"", status)


def differences(answer, stdout, stderr, status):
    """How an answer differs from the one that is right."""
    parts = [
        ("stdout", answer.stdout, stdout),
        ("stderr", answer.stderr, stderr),
        ("status", answer.status, status),
    ]
    return [f"{part} {shown(found)} in place of {shown(wanted)}" for part, found, wanted in parts if found != wanted]


def shown(value):
    text = repr(value)
    return text if len(text) <= 400 else text[:400] + ".."


if __name__ == "__main__":
    import known

    sys.exit(known.main())
