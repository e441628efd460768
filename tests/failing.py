"""Runs the program while the system fails it, and judges what it has written by then; for the scripts beside this file.

The oracle judges the answers without faults. A run under a fault must have such an answer, or report the fault and have
written a prefix of it that isn't whole.
"""

import itertools
import json
import os
import re
import shutil
import subprocess
import threading
from collections import namedtuple
from concurrent.futures import ThreadPoolExecutor
from pathlib import Path

import oracle
import program
import readers
from traces import trace_complaints

# A line with a boundary, and a triangle without one, so that some shots have no correction; a negative edge in each, of
# which the one ends at a seam.
GRAPH = {
    "vertex_num": 11,
    "weighted_edges": [[v, v + 1, 2 + 2 * (v % 3)] for v in range(7)] + [[8 + v, 8 + (v + 1) % 3, 4] for v in range(3)],
    "virtual_vertices": [0, 7],
}
GRAPH["weighted_edges"][2][2], GRAPH["weighted_edges"][8][2] = -6, -4
PLAN = {
    "units": [[[0, 3]], [[4, 8]], [[8, 11]]],
    "fusions": [{"of": [0, 1], "interface": [[3, 4]]}, {"of": [3, 2], "interface": []}],
}
DETECTORS = [v for v in range(11) if v not in GRAPH["virtual_vertices"]]
SHOTS = [[], [3], [1, 2, 5], [8], [2, 3, 4, 9, 10], [1, 8, 9, 10], [1, 6, 8, 10]]


def runs(hits):
    """The bytes of a shot in `r8`, by the detectors that fired: how many didn't before each, and after the last."""
    starts, ends = [0, *(k + 1 for k in hits)], [*hits, len(DETECTORS)]
    return bytes(end - start for start, end in zip(starts, ends))


# What every third shot changes, in json: the negative edges are erased, and another one turns.
CHANGES = {"erasures": [2, 8], "dynamic_weights": [[5, 4], [0, 8], [5, -2]]}
HITS = [[DETECTORS.index(v) for v in shot] for shot in SHOTS]
RECORDS = {
    "01": ["".join("01"[v in shot] for v in DETECTORS).encode() + b"\n" for shot in SHOTS],
    "b8": [sum(1 << k for k, v in enumerate(DETECTORS) if v in shot).to_bytes(2, "little") for shot in SHOTS],
    "dets": [" ".join(["shot", *(f"D{k}" for k in hits)]).encode() + b"\n" for hits in HITS],
    "hits": [",".join(map(str, hits)).encode() + b"\n" for hits in HITS],
    "r8": [runs(hits) for hits in HITS],
    "json": [
        json.dumps({"defect_vertices": shot, **(CHANGES if k % 3 == 2 else {})}).encode() + b"\n"
        for k, shot in enumerate(SHOTS)
    ],
}
OBSERVABLES = [[0], [1, 2, 7], [], [*range(10)]]
# As many workers as a window of two shots has units, so that each unit has a worker.
CREW = 2 * len(PLAN["units"])
SAMPLE = {"distance": 3, "rounds": 3, "units": 2, "rate": 200_000, "start": 5, "shots": 4}

SAID = {3: b"fusion: read fault\n", 4: b"fusion: write fault\n", 5: b"fusion: out of memory\n"}

# A command with its files; what it writes and its status where nothing fails; and what it writes for the first shots,
# by how many they are, without its last line. Where the order of its events isn't known, `replay` says what is wrong
# with those of a text.
Command = namedtuple("Command", "name words files whole status texts replay", defaults=[None, None, None, None])
Outcome = namedtuple("Outcome", "answer log")


# What is right.


def remember_least_weights():
    """Lets the oracle find the least weights of a graph once."""
    find, found = oracle.LeastWeights, {}

    def least_weights(graph):
        key = (graph.vertices, tuple(graph.edges), tuple(graph.virtuals))
        if key not in found:
            found[key] = find(graph)
        return found[key]

    oracle.LeastWeights = least_weights


def oracle_complaints(command, files, answer, words=None):
    words = [word.encode() for word in words or command.words]
    return oracle.complaints_of(words, files, answer)


def known(command, text):
    """What is known of a text: all of it, or all but its events."""
    if command.replay is None:
        return text
    lines = text.splitlines(keepends=True)
    return b"".join(line for line in lines if line[:1] not in (b"t", b"g"))


def is_proper_prefix(command, text):
    """Whether a text is a prefix of what a command writes, and not all of it."""
    whole, text = known(command, command.whole), known(command, text)
    return whole.startswith(text) and text != whole


def whole_complaints(command, answer):
    """What is wrong with an answer where nothing fails."""
    events = command.replay(answer.stdout) if command.replay else []
    answer = answer._replace(stdout=known(command, answer.stdout))
    return events + oracle.differences(answer, known(command, command.whole), b"", command.status)


def fault_complaints(command, answer, status):
    """What is wrong with an answer that reports a fault."""
    found = oracle.differences(answer, answer.stdout, SAID[status], status)
    return found + ([] if is_proper_prefix(command, answer.stdout) else [f"no prefix: {oracle.shown(answer.stdout)}"])


def memory_complaints(command, answer):
    """What is wrong with an answer that may report want of memory."""
    if answer.status == 5:
        return fault_complaints(command, answer, 5)
    return whole_complaints(command, answer)


# Runs.


class Workspace:
    """A folder for each command, with its files, and the library that makes calls fail."""

    def __init__(self, folder, every):
        self.folder = folder
        self.every = every
        self.logs = itertools.count()
        self.placing = threading.Lock()
        self.library = self.built_library()

    def built_library(self):
        compiler = shutil.which("cc")
        if compiler is None:
            return None
        library = self.folder / "failing_calls.so"
        source = Path(__file__).resolve().parent / "failing_calls.c"
        subprocess.run([compiler, "-O1", "-shared", "-fPIC", "-o", library, source], check=True)
        return library

    def place(self, command):
        """The folder of a command, whose files are whole: runs side by side wait for the one that writes them."""
        folder = self.folder / command.name.replace(" ", "_")
        with self.placing:
            if not folder.is_dir():
                folder.mkdir()
                for name, text in command.files.items():
                    (folder / name).write_bytes(text)
        return folder

    def run(self, command, prefix=(), words=None, faults=None, **more):
        """What a command answers, perhaps to other words, with the words of another before it."""
        variables, log = {}, self.folder / f"log-{next(self.logs)}"
        if faults is not None:
            variables = {f"FAULT_{name.upper()}": str(value) for name, value in faults.items()}
            variables |= {"FAULT_PROGRAM": program.FUSION.name, "FAULT_LOG": str(log), "LD_PRELOAD": str(self.library)}
        given = [*prefix, program.FUSION, *(words or command.words)]
        streams = {"stdin": subprocess.DEVNULL, "stdout": subprocess.PIPE, **more}
        streams |= {"stderr": subprocess.PIPE, "cwd": self.place(command), "env": os.environ | variables}
        done = subprocess.run(given, timeout=program.SECONDS, **streams)
        lines = []
        if log.exists():
            lines = log.read_text().splitlines()
            log.unlink()
        return Outcome(program.Answer(done.stdout or b"", done.stderr, done.returncode), lines)

    def each(self, run, parts):
        """Some parts, each with what it leads to. As many run at once as there are processors."""
        parts = list(parts)[:: self.every]
        with ThreadPoolExecutor(os.cpu_count()) as pool:
            return list(zip(parts, pool.map(run, parts)))

    def start(self, command, **more):
        streams = {"stdin": subprocess.DEVNULL, "stderr": subprocess.PIPE, **more}
        return subprocess.Popen([program.FUSION, *command.words], cwd=self.place(command), **streams)


# The commands.


def judged(space, command):
    """A command with what it writes where nothing fails, which the oracle must find right."""
    answer = space.run(command).answer
    if wrong := oracle_complaints(command, command.files, answer):
        raise SystemExit(f"{command.name}: {'; '.join(wrong)}")
    return command._replace(whole=answer.stdout, status=answer.status)


def decode_command(space, form, workers):
    """Decodes all shots; what it writes for the first of them is seen by decoding no more than these."""
    words = ["decode", "--graph", "graph.json", "--plan", "plan.json", "--shots", "shots", "--format", form]
    words += ["--workers", str(workers), "--window", "2", "--trace"]
    files = {"graph.json": json.dumps(GRAPH).encode(), "plan.json": json.dumps(PLAN).encode()}
    replay = None if workers == 1 else replay_of(files, SHOTS, workers, 2)
    texts = []
    for count in range(len(SHOTS) + 1):
        name = f"decode {form} by {workers}" + (f" of {count}" if count < len(SHOTS) else "")
        shots = b"".join(RECORDS[form][:count])
        command = judged(space, Command(name, words, {**files, "shots": shots}, replay=replay))
        texts.append(b"".join(command.whole.splitlines(keepends=True)[:-1]))
    return command._replace(texts=texts)


def replay_of(files, shots, workers, window):
    """Tells what is wrong with the events of a whole report."""
    graph = readers.read_graph(files["graph.json"])
    plan = readers.read_plan(files["plan.json"], graph)
    best = {k for k, defects in enumerate(shots) if oracle.odd_component(graph, defects) is None}
    return lambda text: trace_complaints(plan, workers, window, best, len(shots), text)


def check_command(space, name, decode, change):
    """Checks the changed report of a decoding command."""
    report = re.sub(rb"^(took|gave) .*\n", b"", decode.whole, flags=re.MULTILINE)
    files = {"graph.json": decode.files["graph.json"], "report": change(report), "shots": decode.files["shots"]}
    words = ["check", "--graph", "graph.json", "--shots", "shots", "--format", "01", "--report", "report"]
    graph, rows = readers.read_graph(files["graph.json"]), readers.read_report(files["report"]).rows
    shots = [readers.Shot(defects) for defects in SHOTS]
    texts = [oracle.check_text(graph, rows, shots[:count], False)[0] for count in range(len(SHOTS) + 1)]
    return judged(space, Command(name, words, files, texts=texts))


def predict_command(space, decode):
    """Predicts what the rows of a decoding command flip. Nothing is written before all files are read."""
    observables = json.dumps({"observables": OBSERVABLES}).encode()
    files = {"graph.json": decode.files["graph.json"], "observables.json": observables, "report": decode.whole}
    words = ["predict", "--graph", "graph.json", "--observables", "observables.json", "--report", "report", "--to", "01"]
    return judged(space, Command("predict", words, files))


def sample_command(space, numbers=SAMPLE):
    words = ["sample", "--workers", "4", "--window", "2"]
    for name, number in numbers.items():
        words += [f"--{name}", str(number)]
    return judged(space, Command("sample", words, {}))


class Commands(dict):
    """The commands by a short name, each made where it is first used."""

    def __init__(self, space):
        super().__init__()
        self.space = space

    def __missing__(self, name):
        self[name] = self.made(name)
        return self[name]

    def made(self, name):
        if name == "crew":
            return decode_command(self.space, "01", CREW)
        if name == "good":
            return check_command(self.space, "check good", self["01"], lambda report: report)
        if name == "bad":
            wrong = lambda report: report.replace(b"weight 0\n", b"weight 2\n", 1)
            return check_command(self.space, "check bad", self["01"], wrong)
        if name == "predict":
            return predict_command(self.space, self["01"])
        if name == "sample":
            return sample_command(self.space)
        return decode_command(self.space, name, 1)


def files_of(command):
    """The files of a command in the order in which it opens them."""
    return [name for name in ["graph.json", "plan.json", "observables.json", "report", "shots"] if name in command.files]


def form_of(command):
    return command.words[command.words.index("--format") + 1]


def text_after(command, name, count):
    """What a command has written where so many bytes of a file are read, and all of those before it."""
    if name != "shots":
        return b""
    ends = itertools.accumulate(len(record) for record in RECORDS[form_of(command)])
    return command.texts[sum(end <= count for end in ends)]
