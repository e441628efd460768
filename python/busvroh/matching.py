"""Decoding shot by shot, under the names that PyMatching has.

    with Matching.from_detector_error_model(model) as matching:
        flips = matching.decode(syndrome)
"""

import contextlib
import select
import subprocess
import tempfile
from array import array
from itertools import repeat
from pathlib import Path

from busvroh.bits import array_of, demand_packed, is_array, packed, rows_of, unpacked, values_of
from busvroh.decoding import GRAPH, Part, Settings
from busvroh.models import DEFAULT_SCALE
from busvroh.program import find_program, judge_end, start
from busvroh.rows import ODD, Row, Rows, Unfinished
from busvroh.two_passes import SECOND_GRAPH, decoding_of

BOUNDARY = -1


class Answering:
    """A run of `decode` that gives the row of each shot before the next one has to be written."""

    def __init__(self, program, graph, form):
        words = [program, "decode", "--graph", graph, "--shots", "-", "--format", form, "--window", "1"]
        self.run = start(words, subprocess.PIPE)
        # The first line of the report comes once the graph is read.
        self.report = self.answer(lambda: Rows(self.run.stdout))

    def write(self, data):
        self.answer(lambda: self._write(data))

    def _write(self, data):
        self.run.stdin.write(data)
        self.run.stdin.flush()

    def next_row(self):
        return self.answer(self.report.next_row)

    def answer(self, call):
        """What a call returns that speaks with the program. Where this has ended, it says why."""
        try:
            return call()
        except (Unfinished, BrokenPipeError):
            judge_end(self.run)
            raise

    def close(self):
        if not self.run.stdout.closed:
            self.run.stdin.close()
            self.run.stdout.read()
            judge_end(self.run)


class NoCorrection(ValueError):
    """A shot that no set of edges explains."""


class Matching:
    """A model whose shots are decoded as they come, by one run of the program, or by one for each of two passes. `close` ends
    them, and so does `with`."""

    def __init__(self, decoding):
        self._decoding, self._observables, self._scale = decoding, decoding.observables, decoding.settings.scale
        program, self._second = decoding.settings.program, None
        with tempfile.TemporaryDirectory() as folder, contextlib.ExitStack() as started:
            decoding.write_graphs(Path(folder))
            self._first = Answering(program, Path(folder) / GRAPH, "b8")
            started.callback(self._first.close)
            if decoding.settings.correlated:
                self._second = Answering(program, Path(folder) / SECOND_GRAPH, "json")
            started.pop_all()

    @classmethod
    def from_detector_error_model(cls, model, *, program=None, scale=DEFAULT_SCALE, skip_hyperedges=False, correlated=False):
        """Of a detector error model, that is, any object of which `str` is one. If `correlated` shots are decoded in two passes
        (`busvroh.two_passes`)."""
        settings = Settings(find_program(program), scale=scale, skip_hyperedges=skip_hyperedges, correlated=correlated)
        return cls(decoding_of(str(model).splitlines(), settings))

    @property
    def num_detectors(self):
        return self._decoding.detectors

    @property
    def num_fault_ids(self):
        """The number of observables."""
        return self._observables.count

    def decode(self, syndrome, return_weight=False):
        """The observables that the lightest correction flips, a 0 or 1 for each.

        The syndrome has a 0 or 1 for each detector. If it is an array, so is what is returned, and else that is a list. The
        weight is that of the graph, divided by the scale, so about the sum of ln((1 - p) / p) over the correction; in two passes
        it is by the weights of the second. Raises `NoCorrection` where there is no correction.
        """
        row = self._row(syndrome)
        flips = unpacked(self._observables.flipped_by(row.edges), self.num_fault_ids)
        flips = array_of(flips, (len(flips),)) if is_array(syndrome) else list(flips)
        return (flips, row.weight / self._scale) if return_weight else flips

    def decode_to_edges(self, syndrome):
        """The edges of the lightest correction: pairs of detectors, where -1 is the boundary."""
        ends = (self._decoding.edges[int(edge)][:2] for edge in self._row(syndrome).edges)
        return [(u, v if v < self.num_detectors else BOUNDARY) for u, v in ends]

    def decode_batch(self, shots, *, return_weights=False, bit_packed_shots=False, bit_packed_predictions=False):
        """Decodes shots that have a row each. An array gives an array; otherwise rows are lists, and packed ones bytes.

        Raises `NoCorrection` where some shot has no correction.
        """
        flips, weights, odd = [], array("d"), []
        count, data = self._packed_shots(shots, bit_packed_shots)
        for number, row in enumerate(self._rows(count, data)):
            if row is ODD:
                odd.append(number)
            else:
                flips.append(self._observables.flipped_by(row.edges))
                weights.append(row.weight / self._scale)
        if odd:
            raise NoCorrection(f"shot {odd[0]} has no correction")
        predictions = self._predictions(flips, bit_packed_predictions, is_array(shots))
        if not return_weights:
            return predictions
        return predictions, array_of(weights.tobytes(), (count,), "float64") if is_array(shots) else list(weights)

    def close(self):
        """Ends the runs. After this nothing can be decoded."""
        self._first.close()
        if self._second:
            self._second.close()

    def __enter__(self):
        return self

    def __exit__(self, *_):
        self.close()

    def _packed_shots(self, shots, are_packed):
        """How many shots there are, and their packed bits."""
        size = self._decoding.shot_bytes
        if not are_packed:
            rows = [self._packed_shot(values) for values in rows_of(shots)]
            return len(rows), b"".join(rows)
        if is_array(shots):
            demand_packed(shots, size)
            return shots.shape[0], shots.tobytes()
        if len(shots) % max(1, size):
            raise ValueError(f"{len(shots)} bytes of shots that have {size} each")
        return len(shots) // max(1, size), bytes(shots)

    def _packed_shot(self, values):
        if len(values) != self.num_detectors:
            raise ValueError(f"a shot of {len(values)} detectors, in place of {self.num_detectors}")
        return packed(values)

    def _predictions(self, flips, are_packed, as_array):
        """Numbers whose bits are the flips of a shot, in the form that the caller wants."""
        width = self._observables.size if are_packed else self.num_fault_ids
        rows = [each.to_bytes(width, "little") if are_packed else unpacked(each, width) for each in flips]
        if as_array:
            return array_of(b"".join(rows), (len(rows), width))
        return b"".join(rows) if are_packed else [list(row) for row in rows]

    def _row(self, syndrome):
        (row,) = self._rows(1, self._packed_shot(values_of(syndrome)))
        if row is ODD:
            raise NoCorrection("the shot has no correction")
        return row

    def _rows(self, count, data):
        """The rows of packed shots. What is written at once fits in a pipe, so no side waits for the other."""
        size = self._decoding.shot_bytes
        if size == 0:
            yield from repeat(Row([], 0), count)
            return
        step = max(1, select.PIPE_BUF // size) * size
        for at in range(0, len(data), step):
            some = data[at : at + step]
            self._first.write(some)
            for place in range(0, len(some), size):
                row = self._first.next_row()
                yield row if self._second is None or row is ODD else self._second_row(some[place : place + size], row)

    def _second_row(self, record, row):
        """The row of the second pass, of a shot whose row in the first is given."""
        self._second.write(self._decoding.second_shot(Part(1, record), 0, row))
        return self._second.next_row()
