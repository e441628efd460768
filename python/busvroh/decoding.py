"""Decodes many shots of a model, a part of them by each run of `fusion decode`; its report goes to `fusion predict`."""

import contextlib
import math
import re
import subprocess
import tempfile
from collections import deque, namedtuple
from concurrent.futures import ThreadPoolExecutor
from dataclasses import dataclass
from pathlib import Path

from busvroh.bits import bytes_of
from busvroh.flips import Observables
from busvroh.models import DEFAULT_SCALE, graph_text, read_model
from busvroh.program import abandon, judge_end, start
from busvroh.rows import ReportError, ReportTooLong, Unfinished

DECODE_OPTIONS = ["--shots", "-", "--format", "b8", "--window", "64"]
PREDICT_OPTIONS = ["--report", "-", "--to", "b8"]
GRAPH = "graph.json"
MOST_REPORT_BYTES = 1 << 30
PIECE_BYTES = 1 << 16
LAST_LINE = re.compile(rb"done (\d+) odd (\d+) units \d+ fusions \d+\n\Z")
MOST_LAST_LINE = 128

# Some shots in the format b8: how many there are, and their bytes.
Part = namedtuple("Part", "shots bits")
# The shots of a part, the observables that each flips, packed, the lowest bit first, and how many had no correction.
Flips = namedtuple("Flips", "shots bits odd")


@dataclass(frozen=True)
class Settings:
    """How shots are decoded: by which program, and how many parts at once, each by one process that works at a time.

    A part has at most `part_bytes`, or one shot. One whose report is longer than `most_report_bytes` is halved. Memory
    grows with the parts and not with their number: `fusion predict` keeps the report of a part.

    If `correlated` each shot is decoded a second time, by weights that a `rule` of `busvroh.correlations` gives; with
    `second_pass_below` only where the bound of `busvroh.confidence`, divided by the scale, is below that.
    """

    program: str
    processes: int = 1
    scale: float = DEFAULT_SCALE
    skip_hyperedges: bool = False
    part_bytes: int = 1 << 18
    most_report_bytes: int = MOST_REPORT_BYTES
    correlated: bool = False
    rule: str = "bayes"
    second_pass_below: float = math.inf

    def __post_init__(self):
        if self.processes < 1:
            raise ValueError(f"{self.processes} processes: it has to be at least 1")


class Decoding:
    """A model that is ready to be decoded."""

    def __init__(self, lines, settings):
        model = read_model(lines, settings.skip_hyperedges, mechanisms=settings.correlated)
        graph = model.graph(settings.scale)
        self.settings, self.detectors, self.edges = settings, model.detectors, graph["weighted_edges"]
        self.observables, self.graph_text = Observables(graph["observables"]), graph_text(graph)
        self.prepare(model, graph)

    def prepare(self, model, graph):
        """What else is made of the model."""

    def write_graphs(self, folder):
        """Writes the graphs that the runs read."""
        (folder / GRAPH).write_text(self.graph_text)

    @property
    def shot_bytes(self):
        return bytes_of(self.detectors)

    @property
    def part_shots(self):
        """How many shots a part has."""
        return max(1, self.settings.part_bytes // max(1, self.shot_bytes))

    def parts(self, file, shots):
        """A number of shots of a file in the format b8, which has no further ones, in parts."""
        for first in range(0, shots, self.part_shots):
            count = min(self.part_shots, shots - first)
            bits = file.read(count * self.shot_bytes)
            if len(bits) < count * self.shot_bytes:
                raise ValueError(f"the file ends in shot {first + len(bits) // self.shot_bytes} of {shots}")
            yield Part(count, bits)
        if file.read(1):
            raise ValueError(f"the file goes on after {shots} shots of {self.detectors} detectors")

    def flips(self, parts, folder=None):
        """The flips of each part, one after another. As many parts are held at a time as there are processes."""
        with tempfile.TemporaryDirectory(dir=folder) as inner:
            folder = Path(inner)
            self.write_graphs(folder)
            if self.settings.processes == 1:
                yield from (self.flips_of_part(folder, part) for part in parts)
                return
            with ThreadPoolExecutor(self.settings.processes) as pool:
                under_way = deque()
                for part in parts:
                    under_way.append(pool.submit(self.flips_of_part, folder, part))
                    if len(under_way) == self.settings.processes:
                        yield under_way.popleft().result()
                while under_way:
                    yield under_way.popleft().result()

    def flips_of_part(self, folder, part):
        if self.detectors == 0:
            return Flips(part.shots, bytearray(part.shots * self.observables.size), 0)
        try:
            return self.flips_by_run(folder, part)
        except ReportTooLong:
            if part.shots < 2:
                raise
        half = part.shots // 2
        cut = half * self.shot_bytes
        one = self.flips_of_part(folder, Part(half, part.bits[:cut]))
        other = self.flips_of_part(folder, Part(part.shots - half, part.bits[cut:]))
        return Flips(part.shots, one.bits + other.bits, one.odd + other.odd)

    def flips_by_run(self, folder, part):
        """The flips of a part by a run of `decode`, and one of `predict` that reads its report."""
        with contextlib.ExitStack() as runs:
            shots = runs.enter_context(tempfile.TemporaryFile(dir=folder))
            shots.write(part.bits)
            shots.seek(0)
            words = [self.settings.program, "decode", "--graph", folder / GRAPH, *DECODE_OPTIONS]
            decode = runs.enter_context(start(words, shots))
            predict = self.start_predict(folder, runs)
            return self.predicted(predict, decode.stdout, lambda: judge_end(decode), lambda: part.shots)

    def start_predict(self, folder, runs):
        """Starts a run of `predict` that ends with `runs`."""
        names = ["--graph", folder / GRAPH, "--observables", folder / GRAPH]
        predict = runs.enter_context(start([self.settings.program, "predict", *names, *PREDICT_OPTIONS], subprocess.PIPE))
        runs.callback(abandon, predict)
        return predict

    def predicted(self, predict, report, judge, shots):
        """The flips that a run of `predict` finds in a report. At the report's end `judge` judges the run that wrote it, and
        then `shots` says how many rows it has to have."""
        rows, odd = rows_of_report(self.report_to(predict, report, judge))
        bits = predict.stdout.read()
        judge_end(predict)
        if (rows, len(bits)) != (shots(), shots() * self.observables.size):
            raise ReportError(f"a report of {rows} rows, and {len(bits)} bytes of flips, for {shots()} shots")
        return Flips(rows, bits, odd)

    def report_to(self, predict, report, judge):
        """Copies a report to a run of `predict`, and returns its end, which has the last line."""
        size, end, most = 0, b"", self.settings.most_report_bytes
        try:
            while piece := report.read1(PIECE_BYTES):
                size += len(piece)
                if size > most:
                    raise ReportTooLong(f"the report has more than {most} bytes")
                predict.stdin.write(piece)
                end = (end + piece)[-MOST_LAST_LINE:]
            judge()
            predict.stdin.close()
        except BrokenPipeError:
            judge_end(predict)
            raise
        return end


def rows_of_report(end):
    """How many rows a report has, and how many of them are odd, by its last line. If that is wrong `predict` refuses it."""
    last = LAST_LINE.search(end)
    if last is None:
        raise Unfinished("the report has no done line, so its run didn't come to its end")
    return map(int, last.groups())
