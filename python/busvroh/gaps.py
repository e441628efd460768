"""The gap of each shot, by a run that decodes it once in each class, or its bound by the cuts of one correction.

    gaps = Gaps(lines, Settings(program))
    for each in gaps.of_shots(shots, folder):
        print(each.flips, each.weights, each.gap)

Shots are numbers whose bit k is 1 if detector k fired. They may be decoded in two passes: then both classes have the weights
of the second pass. Memory doesn't grow with the shots. `busvroh.confidence` says what a gap is.
"""

import contextlib
import math
from collections import deque, namedtuple

from busvroh.chains import Fed, json_shot, ones, write_graph
from busvroh.confidence import Residues, Sides, chosen
from busvroh.decoding import GRAPH, Decoding
from busvroh.correlations import Correlations
from busvroh.flips import Observables
from busvroh.models import ModelError
from busvroh.rows import ODD, RowsWithCuts

SIDES_GRAPH, BOUND_GRAPH = "sides.json", "doubled.json"


class Gap(namedtuple("Gap", "weights")):
    """The least weight of corrections that don't flip the observable, and of those that do; None where there are none."""

    @property
    def is_odd(self):
        return self.weights == (None, None)

    @property
    def flips(self):
        """Whether a lightest correction flips the observable. If both classes are as light it doesn't."""
        kept, flipped = self.weights
        return flipped is not None and (kept is None or flipped < kept)

    @property
    def gap(self):
        """Infinity where one class alone has corrections, and 0 where none has."""
        if self.is_odd:
            return 0
        return math.inf if None in self.weights else abs(self.weights[0] - self.weights[1])


# A shot without correction has None in place of each number but the gap. A shot whose corrections are all in one class has
# an infinite bound, and its JSON has no correction.
Bound = namedtuple("Bound", "flips weight bound shot")
ODD_BOUND = Bound(None, None, 0, None)

# The shots of a part, the observables that each flips, packed, how many had no correction, and the gap of each.
SureFlips = namedtuple("SureFlips", "shots bits odd gaps")


class Gaps(Decoding):
    """A model whose shots are decoded in both classes of an observable, which is the only one unless its number is given."""

    def __init__(self, lines, settings, observable=None):
        self.observable = observable
        super().__init__(lines, settings)

    def prepare(self, model, graph):
        if self.detectors == 0:
            raise ModelError("a model without detectors: there is nothing to be sure of")
        self.sides, self.weights = Sides(graph, self.observable), None
        self.flipping = Observables([chosen(graph["observables"], self.observable)])
        if self.settings.correlated:
            self.correlations = Correlations(model, self.settings.scale, self.settings.rule)
            self.weights = [weight for _, _, weight in self.correlations.weighted_edges]

    def write_graphs(self, folder):
        if self.settings.correlated:
            super().write_graphs(folder)
        write_graph(folder / SIDES_GRAPH, self.sides.graph(self.weights))

    # Gaps.

    def of_shots(self, shots, folder, keep=False):
        """The gap of each shot. The graphs are written to a folder, and the shots and reports of all runs too on request."""
        self.write_graphs(folder)
        return self.gaps(shots, folder, keep)

    def gaps(self, shots, folder, keep=False):
        waiting, program = deque(), self.settings.program
        place = lambda name: folder / name if keep else None
        with contextlib.ExitStack() as runs:
            if self.settings.correlated:
                noted = deque()
                records = self.records(shots, noted)
                first = runs.enter_context(Fed(program, folder / GRAPH, "b8", records, place("first")))
                lines = self.lines_of_both(first, noted, waiting)
                both = runs.enter_context(Fed(program, folder / SIDES_GRAPH, "json", lines, place("classes")))
            else:
                records = self.records_of_both(shots, waiting)
                both = runs.enter_context(Fed(program, folder / SIDES_GRAPH, "b8", records, place("classes")))
            rows = both.rows()
            for without, with_defect in zip(rows, rows):
                detectors = waiting.popleft()
                weights = without.weight, with_defect.weight
                yield Gap(weights[::-1] if self.sides.flips(detectors) else weights)

    def records(self, shots, noted):
        for detectors in shots:
            noted.append(detectors)
            yield detectors.to_bytes(self.shot_bytes, "little")

    def records_of_both(self, shots, noted):
        """Each shot without a defect at the other side of the boundary, and with one."""
        defect, size = 1 << self.detectors, (self.detectors + 8) // 8
        for detectors in shots:
            noted.append(detectors)
            yield detectors.to_bytes(size, "little") + (detectors | defect).to_bytes(size, "little")

    def lines_of_both(self, first, shots, noted):
        """The same by the weights of the second pass."""
        for row in first.rows():
            noted.append(shots.popleft())
            changes = "[]" if row is ODD else self.correlations.changes(map(int, row.edges))
            vertices = ones(noted[-1])
            yield json_shot(vertices, changes) + json_shot([*vertices, self.sides.other_side], changes)

    # Bounds.

    def bounds_of_shots(self, shots, folder, keep=False):
        """The bound of each shot, by the cuts of its correction."""
        super().write_graphs(folder)
        residues = Residues(self.sides)
        write_graph(folder / BOUND_GRAPH, residues.graph())
        place = lambda name: folder / name if keep else None
        noted, program = deque(), self.settings.program
        with contextlib.ExitStack() as runs:
            records = (detectors.to_bytes(self.shot_bytes, "little") for detectors in shots)
            first = runs.enter_context(Fed(program, folder / GRAPH, "b8", records, place("first")))
            lines = self.lines_of_bounds(first, residues, noted)
            second = runs.enter_context(Fed(program, folder / BOUND_GRAPH, "json", lines, place("bound")))
            for row in second.rows():
                bound = noted.popleft()
                if bound is not ODD_BOUND:
                    bound = bound._replace(bound=math.inf if row is ODD else row.weight // 2)
                yield bound

    def lines_of_bounds(self, first, residues, noted):
        for row in first.rows(RowsWithCuts):
            if row is ODD:
                noted.append(ODD_BOUND)
                yield b'{"defect_vertices":[]}\n'
                continue
            shot = residues.shot(residues.loads(row.cuts))
            noted.append(Bound(bool(self.flipping.flipped_by(row.edges)), row.weight, None, shot))
            yield f"{shot}\n".encode()

    # Parts, for counts.

    def flips_by_run(self, folder, part):
        size = self.shot_bytes
        shots = (int.from_bytes(part.bits[k : k + size], "little") for k in range(0, part.shots * size, size))
        found = list(self.gaps(shots, folder))
        bits = bytes(each.flips for each in found)
        return SureFlips(part.shots, bits, sum(each.is_odd for each in found), [each.gap for each in found])
