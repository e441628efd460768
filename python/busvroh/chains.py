"""Runs of `fusion decode` that are written to by threads of their own, so that one can be given what the rows of another
lead to while that one still runs.

    with Fed(program, graph, "b8", records) as first, Fed(program, again, "json", lines_of(first.rows())) as second:
        for row in second.rows():
            ..

Between them are pipes, so memory doesn't grow with the shots.
"""

import contextlib
import json
import math
import subprocess
import threading

from busvroh.program import judge_end, start
from busvroh.rows import ReportTooLong, Rows, Unfinished

WINDOW = "64"


class Fed:
    """A run of `decode` that is given shots, lines or records, from an iterator. `stdout` has its report.

    If a place is given to `keep` files beside it get the shots and the report.
    """

    def __init__(self, program, graph, form, shots, keep=None):
        words = [program, "decode", "--graph", graph, "--shots", "-", "--format", form, "--window", WINDOW]
        self.files = [open(f"{keep}.{ending}", "wb") for ending in (form, "report")] if keep else []
        self.run, self.shots, self.error = start(words, subprocess.PIPE), shots, None
        self.stdout = Copied(self.run.stdout, self.files[1]) if keep else self.run.stdout
        self.thread = threading.Thread(target=self._feed, daemon=True)
        self.thread.start()

    def _feed(self):
        try:
            for shot in self.shots:
                self.run.stdin.write(shot)
                if self.files:
                    self.files[0].write(shot)
        except BrokenPipeError:
            pass  # how it ended is told by its status
        except Exception as error:
            self.error = error
        finally:
            with contextlib.suppress(BrokenPipeError):
                self.run.stdin.close()

    def rows(self, kind=Rows):
        """The rows of the report; then the run is judged. If the report isn't whole, how the run ended is told first."""
        try:
            yield from kind(self.stdout)
        except Unfinished:
            self.finish()
            raise
        self.finish()

    def finish(self):
        """Waits for the end, once the report is read. What went wrong with the shots goes before how the run ended."""
        self.thread.join()
        if self.error:
            raise self.error
        judge_end(self.run)

    def __enter__(self):
        return self

    def __exit__(self, *_):
        self.run.kill()
        self.thread.join()
        self.run.__exit__(None, None, None)
        for file in self.files:
            file.close()


class Copied:
    """A report that is read line by line, and each line is written to another file too. `most` is the limit of its bytes."""

    def __init__(self, report, file, most=math.inf):
        self.report, self.file, self.left, self.most = report, file, most, most

    def readline(self):
        line = self.report.readline()
        self.left -= len(line)
        if self.left < 0:
            raise ReportTooLong(f"the report has more than {self.most} bytes")
        self.file.write(line)
        return line


def ones(number):
    """The places of the bits of a number that are 1, rising."""
    places = []
    while number:
        low = number & -number
        places.append(low.bit_length() - 1)
        number ^= low
    return places


def json_shot(vertices, changes):
    """A shot as a line of JSON, with the changed weights as JSON."""
    return b'{"defect_vertices":%s,"dynamic_weights":%s}\n' % (str(vertices).encode(), changes.encode())


def write_graph(place, graph):
    """Writes a graph, or another value of JSON, and returns its place."""
    place.write_text(json.dumps(graph, separators=(",", ":")) + "\n")
    return place
