"""Decoding in two passes: a shot is decoded, and then once more by the weights that edges have where its first correction is.

    decoding = decoding_of(lines, Settings(program, correlated=True))

The first pass is one run of `fusion decode`, the second another that reads JSON shots with `dynamic_weights`
(`busvroh.correlations`); both work at the same time. The correction of each pass is one of least weight over its own weights.
"""

import contextlib
import math

from busvroh.chains import Copied, Fed, json_shot, ones, write_graph
from busvroh.confidence import Residues, Sides
from busvroh.correlations import Correlations
from busvroh.decoding import GRAPH, Decoding, Flips
from busvroh.program import judge_end
from busvroh.rows import ODD, ReportError, RowsWithCuts

SECOND_GRAPH = "second.json"


def decoding_of(lines, settings):
    """A model that is ready to be decoded, in one pass or in two."""
    if not settings.correlated:
        return Decoding(lines, settings)
    return TwoPasses(lines, settings) if settings.second_pass_below == math.inf else SomeTwice(lines, settings)


class TwoPasses(Decoding):
    """A model whose shots are decoded twice each."""

    def prepare(self, model, graph):
        self.correlations = Correlations(model, self.settings.scale, self.settings.rule)
        self.second_graph = {**graph, "weighted_edges": self.correlations.weighted_edges}

    def write_graphs(self, folder):
        super().write_graphs(folder)
        write_graph(folder / SECOND_GRAPH, self.second_graph)

    def flips_by_run(self, folder, part):
        with contextlib.ExitStack() as runs:
            first = runs.enter_context(Fed(self.settings.program, folder / GRAPH, "b8", [part.bits]))
            shots = self.second_shots(first, part)
            second = runs.enter_context(Fed(self.settings.program, folder / SECOND_GRAPH, "json", shots))
            predict = self.start_predict(folder, runs)
            return self.predicted(predict, second.stdout, second.finish, lambda: part.shots)

    def second_shots(self, first, part):
        """The shots of the second pass, by the rows of the first."""
        for number, row in enumerate(first.rows()):
            yield self.second_shot(part, number, row)

    def second_shot(self, part, number, row):
        """A shot of a part for the second pass, whose row in the first is given."""
        record = part.bits[number * self.shot_bytes : (number + 1) * self.shot_bytes]
        changes = "[]" if row is ODD else self.correlations.changes(map(int, row.edges))
        return json_shot(ones(int.from_bytes(record, "little")), changes)


class SomeTwice(TwoPasses):
    """A model of whose shots those are decoded twice that may well be decoded wrongly."""

    def prepare(self, model, graph):
        super().prepare(model, graph)
        self.residues = Residues(Sides(graph))
        self.limit = self.settings.second_pass_below * self.settings.scale

    def flips_by_run(self, folder, part):
        picked, size = Picked(), self.observables.size
        with contextlib.ExitStack() as runs:
            first = runs.enter_context(Fed(self.settings.program, folder / GRAPH, "b8", [part.bits]))
            predict_first = self.start_predict(folder, runs)
            shots = self.unsure_shots(first, predict_first, part, picked)
            second = runs.enter_context(Fed(self.settings.program, folder / SECOND_GRAPH, "json", shots))
            predict = self.start_predict(folder, runs)
            again = self.predicted(predict, second.stdout, second.finish, lambda: len(picked.numbers))
            bits = bytearray(predict_first.stdout.read())
            judge_end(predict_first)
        if len(bits) != part.shots * size:
            raise ReportError(f"{len(bits)} bytes of flips, for {part.shots} shots")
        for place, number in enumerate(picked.numbers):
            bits[number * size : (number + 1) * size] = again.bits[place * size : (place + 1) * size]
        return Flips(part.shots, bits, picked.odd)

    def unsure_shots(self, first, predict, part, picked):
        """The shots of the second pass, which are noted. The report of the first goes on to a run of `predict`."""
        first.stdout = Copied(first.stdout, predict.stdin, self.settings.most_report_bytes)
        for number, row in enumerate(first.rows(RowsWithCuts)):
            if row is ODD:
                picked.odd += 1
            elif self.residues.bound(self.residues.loads(row.cuts), self.limit) < self.limit:
                picked.numbers.append(number)
                yield self.second_shot(part, number, row)
        predict.stdin.close()


class Picked:
    """The shots that are decoded twice, and how many had no correction."""

    def __init__(self):
        self.numbers, self.odd = [], 0
