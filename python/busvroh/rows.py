"""Reads the rows of a report one by one, also while it is written: a row ends where its base and cuts add up to its
weight.

A report of version 1 has no lines of a base, which is 0.
"""

from collections import namedtuple

HEADS = {b"fusion-report 1\n": 1, b"fusion-report 2\n": 2}

# The words of a row's edges, and its weight; both None where the shot has no correction.
Row = namedtuple("Row", "edges weight")
ODD = Row(None, None)
# The same with the cuts: their values, each with the vertices.
RowWithCuts = namedtuple("RowWithCuts", "edges weight cuts")


class ReportError(ValueError):
    """A text that isn't a whole report."""


class Unfinished(ReportError):
    """A report that ends before its last line, so its run didn't come to its end."""


class ReportTooLong(ReportError):
    """A report of more bytes than may be read."""


class Rows:
    """The rows of a report that is open for reading; how many came, and how many of them were odd."""

    def __init__(self, report):
        self.report = report
        self.shots = self.odd = 0
        self.version = HEADS.get(self.next_line())
        if self.version is None:
            raise ReportError("not a report of version 1 or 2")

    def next_line(self):
        line = self.report.readline()
        if line[-1:] != b"\n":
            raise Unfinished("the report has no done line, so its run didn't come to its end")
        return line

    def next_row(self):
        """The next row; None at the report's last line."""
        line = self.next_line()
        if line == b"shot %d\n" % self.shots:
            self.shots += 1
            return self.correction()
        if line.startswith(b"shot %d odd " % self.shots):
            self.shots += 1
            self.odd += 1
            return ODD
        if line.startswith(b"done %d odd %d " % (self.shots, self.odd)):
            return None
        raise self.wrong(line)

    def correction(self):
        """What follows the first line of a row: its edges, its base, its weight and its cuts."""
        line = self.next_line()
        word, *edges = line.split()
        if word != b"edges":
            raise self.wrong(line)
        base = self.number(b"base") if self.version == 2 else 0
        weight = self.number(b"weight")
        left = weight - base
        while left > 0:
            line = self.next_line()
            name, value, *_ = line.split(None, 2)
            if name != b"cut":
                raise self.wrong(line)
            left -= int(value)
            self.take_cut(line)
        if left < 0:
            raise self.wrong(line)
        return self.row(edges, weight)

    def number(self, word):
        """The number of the next line, which has this word before it."""
        line = self.next_line()
        name, _, number = line.partition(b" ")
        if name != word:
            raise self.wrong(line)
        return int(number)

    def take_cut(self, line):
        """Takes a line of a cut."""

    def row(self, edges, weight):
        """The row whose lines have come."""
        return Row(edges, weight)

    def wrong(self, line):
        return ReportError(f"shot {self.shots} of the report: a line that begins with {line[:40]!r}")

    def __iter__(self):
        return iter(self.next_row, None)


class RowsWithCuts(Rows):
    """The rows of a report with their cuts."""

    def __init__(self, report):
        self.cuts = []
        super().__init__(report)

    def take_cut(self, line):
        _, value, *vertices = line.split()
        self.cuts.append((int(value), [*map(int, vertices)]))

    def row(self, edges, weight):
        cuts, self.cuts = self.cuts, []
        return RowWithCuts(edges, weight, cuts)
