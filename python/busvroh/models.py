"""Detector error models in Stim's form, and the decoding graphs that they give.

    model = read_model(lines)
    text = graph_text(model.graph(scale=1000))

Vertex k of the graph is detector k, and the last vertex is the boundary. An error of two detectors is an edge between
them, an error of one an edge to the boundary; parts that are split by `^` count as errors of their own. Errors with the
same detectors and observables become one edge, in the place of the first of them: it stands for an odd number of them.
Coordinates of detectors are read only on request: `busvroh.plans` makes plans by them. So is which edges come together in
an error, for `busvroh.correlations`.
"""

import itertools
import json
import math
import re
from array import array
from collections import namedtuple

MOST_VERTICES = 1_048_576
MOST_DETECTORS = MOST_VERTICES - 1  # one vertex is the boundary
MOST_EDGES = 4_194_304
MOST_OBSERVABLES = 1_024
MOST_WEIGHT = 2**30
DEFAULT_SCALE = 1000

# An instruction with its tag, arguments and targets, up to the end of the line or a brace; or a closing brace.
STATEMENT = re.compile(
    r"""\s* (?: (\})
      | ([a-z_]+) (?:\s*\[[^\]]*\])? (?:\s*\(([-+.0-9e,\ \t]*)\))? ((?:\s+(?:[dl]?[0-9]{1,19}|\^))*)
        (?: \s*(\{) | (?=\s*(?:\#|$)) )
    ) \s*""",
    re.VERBOSE | re.IGNORECASE | re.ASCII,
)
# An error as Stim writes it: each part names one or two detectors, and then its observables. Most lines are, so that they
# are read by a way of their own, which is several times as fast.
NUMBER = "[0-9]{1,19}"
USUAL_PART = re.compile(rf" D({NUMBER})(?: D({NUMBER}))?((?: L{NUMBER})*)")
PLAIN_PART = rf" D{NUMBER}(?: D{NUMBER})?(?: L{NUMBER})*"
USUAL_ERROR = re.compile(rf"\s*error\(([^()]*)\)({PLAIN_PART}(?: \^{PLAIN_PART})*)\s*")
RATE = re.compile(r"\s*(\+?(?:[0-9]+\.?[0-9]*|\.[0-9]+)(?:e[-+]?[0-9]+)?)\s*", re.IGNORECASE | re.ASCII)

# The key of an edge is one number: its observables' place in a list, its two detectors, the lower one first, and an edge
# to the boundary has its detector twice. So a shift of both detectors is a sum.
BITS = 21
DETECTOR_MASK = (1 << BITS) - 1
ONE_LATER = (1 << BITS) + 1


class ModelError(ValueError):
    """A model that can't be read, or that has no graph. The text names the line."""


def error_at(line, text):
    return ModelError(f"line {line}: {text}")


def odd_rate(one, other):
    """The rate at which exactly one of two independent errors happens."""
    return one * (1 - other) + other * (1 - one)


def repeated_rate(rate, count):
    """The rate at which an odd number of `count` independent errors happens."""
    if rate > 1 / 2:
        kept = repeated_rate(1 - rate, count)
        return 1 - kept if count % 2 else kept
    return rate if count == 1 or rate == 1 / 2 else -math.expm1(count * math.log1p(-2 * rate)) / 2


# The last coordinate of a detector: its place among the coordinates, its value, and the line that it stands at.
Time = namedtuple("Time", "place value line")


def moved(coordinates, step, count=1):
    """Coordinates after `count` steps. Those that aren't named are 0."""
    return [start + count * by for start, by in itertools.zip_longest(coordinates, step, fillvalue=0)]


class Model:
    """The edges of a model, with the rate of each; how many detectors and observables it has, and how many parts with
    more than two detectors were skipped."""

    def __init__(self, block, flips, observables):
        self.detectors, self.observables, self.skipped = block.detectors, observables, block.skipped
        self._block, self._flips = block, flips

    def edges(self):
        """Each edge: its detectors, one or two, the observables that it flips, its rate, and the line of its first error."""
        for (key, rate), line in zip(self._block.rates.items(), self._block.lines):
            low, high = key >> BITS & DETECTOR_MASK, key & DETECTOR_MASK
            if rate > 0:
                yield (low,) if low == high else (low, high), self._flips[key >> 2 * BITS], rate, line

    def mechanisms(self):
        """Each error by the numbers of its edges, rising, and its rate, if the model was read with them. Errors with the same
        edges are one."""
        numbers = itertools.count()
        number_of = {key: next(numbers) for key, rate in self._block.rates.items() if rate > 0}
        for keys, rate in self._block.mechanisms.items():
            yield tuple(sorted(number_of[key] for key in keys if key in number_of)), rate

    def times(self):
        """The last coordinate of each detector, if the model was read with its coordinates."""
        times = self._block.times
        for detector in range(self.detectors):
            if detector not in times:
                raise error_at(self._line_of(detector), f"detector {detector} has no coordinate")
        return [times[detector].value for detector in range(self.detectors)]

    def _line_of(self, detector):
        """The line of the first error of a detector; if it has none, that of the last detector."""
        return min((line for ends, _, _, line in self.edges() if detector in ends), default=self._block.last_line)

    def graph(self, scale=DEFAULT_SCALE):
        """The graph as `fusion` reads it, whose member `observables` lists the edges of each observable.

        A weight is the logarithm of the odds against an error, times the scale, as the nearest even whole number. It is
        below 0 where the error is likelier than not, so that a correction gains by it, and 0 at a rate of 1/2.
        """
        if not 0 < scale < math.inf:
            raise ModelError(f"a scale of {scale}: it has to be above 0")
        boundary, edges, observables = self.detectors, [], [[] for _ in range(self.observables)]
        for ends, flips, rate, line in self.edges():
            for observable in flips:
                observables[observable].append(len(edges))
            edges.append([ends[0], ends[1] if len(ends) == 2 else boundary, weight_of(rate, scale, line)])
        return {
            "vertex_num": boundary + 1,
            "weighted_edges": edges,
            "virtual_vertices": [boundary],
            "observables": observables,
        }


def weight_of(rate, scale, line):
    """The weight of an edge whose first error is at a line."""
    if rate == 1:
        raise error_at(line, "a rate of 1 in all: an error that always happens has no weight")
    half = scale * (math.log1p(-rate) - math.log(rate)) / 2
    if abs(half) > MOST_WEIGHT // 2 + 1 / 2:
        beyond = f"above {MOST_WEIGHT}" if half > 0 else f"below {-MOST_WEIGHT}"
        raise error_at(line, f"a weight {beyond}, the limit: take a smaller scale than {scale:g}")
    return 2 * round(half)


def graph_text(graph):
    """A graph as JSON, a line for each member."""
    members = (f'"{name}":{json.dumps(value, separators=(",", ":"))}' for name, value in graph.items())
    return "{" + ",\n ".join(members) + "}\n"


class Block:
    """What the lines of a model, or of a `repeat`, come to. Detectors are counted from where the block begins."""

    def __init__(self, line=0, count=1):
        self.line, self.count = line, count
        self.rates, self.lines, self.mechanisms = {}, array("I"), {}
        self.shift = self.detectors = self.skipped = 0
        self.times, self.step, self.last_line = {}, [], 0

    def count_detector(self, detector, line):
        if detector >= self.detectors:
            if detector >= MOST_DETECTORS:
                limit = f"a graph has at most {MOST_VERTICES} vertices with the boundary"
                raise error_at(line, f"more than {MOST_DETECTORS} detectors: {limit}")
            self.detectors, self.last_line = detector + 1, line

    def set_time(self, detector, time):
        """Sets the last coordinate of a detector, once for all."""
        if not math.isfinite(time.value):
            raise error_at(time.line, "coordinates are numbers, separated by commas")
        before = self.times.setdefault(detector, time)
        if before[:2] != time[:2]:
            differs = f"the last coordinate of a detector is {time.value:g}, and at line {before.line} {before.value:g}"
            raise error_at(time.line, differs)

    def add(self, key, rate, line):
        """Adds an error to its edge. One that never happens gets none."""
        if rate == 0:
            return
        before = self.rates.get(key)
        if before is not None:
            self.rates[key] = odd_rate(before, rate)
            return
        self.rates[key] = rate
        self.lines.append(line)
        if len(self.lines) > MOST_EDGES:
            raise error_at(line, f"more than {MOST_EDGES} edges, the limit of a graph")

    def add_mechanism(self, keys, rate):
        """Adds an error to those of the same edges."""
        if rate > 0:
            self.mechanisms[keys] = odd_rate(self.mechanisms.get(keys, 0), rate)

    def add_repeated(self, body):
        """Adds a block as often as it is repeated.

        A block that shifts no detector adds to the same edges each time, so this takes no longer for more repetitions.
        """
        self.skipped += body.count * body.skipped
        if body.detectors:
            last = self.shift + (body.count - 1) * body.shift + body.detectors - 1
            self.count_detector(last, body.line)
        if body.shift == 0:
            self.add_edges(body, 0, body.count)
        elif body.rates:
            for turn in range(body.count):
                self.add_edges(body, turn * body.shift, 1)
        if body.times:
            self.add_times(body)
        self.shift += body.count * body.shift
        self.step = moved(self.step, body.step, body.count)

    def add_edges(self, body, shift, count):
        """Adds each edge of a block `count` times, its detectors shifted."""
        step = (self.shift + shift) * ONE_LATER
        for (key, rate), line in zip(body.rates.items(), body.lines):
            self.add(key + step, repeated_rate(rate, count), line)
        for keys, rate in body.mechanisms.items():
            self.add_mechanism(tuple(key + step for key in keys), repeated_rate(rate, count))

    def add_times(self, body):
        """Sets the times of a block as often as it is repeated. If no detector is shifted, a second time tells as much as
        all."""
        for turn in range(body.count if body.shift else min(body.count, 2)):
            step = moved(self.step, body.step, turn)
            for detector, (place, value, line) in body.times.items():
                value += step[place] if place < len(step) else 0
                self.set_time(self.shift + turn * body.shift + detector, Time(place, value, line))


class Reader:
    """Reads the lines of a model one by one."""

    def __init__(self, skip_hyperedges, coordinates, mechanisms):
        self.skip_hyperedges, self.has_coordinates, self.has_mechanisms = skip_hyperedges, coordinates, mechanisms
        self.line, self.blocks, self.observables = 0, [Block()], 0
        self.flips, self.place_of_flips = [()], {(): 0}
        # What the texts of rates and of observables mean; a model has few different ones.
        self.rate_of_text, self.place_of_text = {}, {}

    def read(self, text):
        self.line += 1
        usual = USUAL_ERROR.fullmatch(text)
        if usual:
            self.take_usual_error(usual[1], usual[2])
            return
        at, end = 0, len(text)
        while at < end:
            found = STATEMENT.match(text, at)
            if found is None:
                rest = text[at:].strip()
                if rest and rest[0] != "#":
                    raise self.error(f"{shortened(rest)}: not an instruction of a detector error model")
                return
            self.take(*found.groups())
            at = found.end()

    def take(self, closing, name, arguments, targets, opening):
        if closing:
            self.close_block()
            return
        name, targets = name.lower(), targets.upper()
        if bool(opening) != (name == "repeat"):
            raise self.error("a `{` stands after `repeat` and a number, and nowhere else")
        if name == "error":
            self.take_error(arguments, targets)
        elif name == "detector":
            self.take_detectors(arguments, self.numbers("D", targets.split()))
        elif name == "logical_observable":
            for observable in self.numbers("L", targets.split()):
                self.count_observable(observable)
        elif name == "shift_detectors":
            self.blocks[-1].shift += self.one_number(targets)
            if self.has_coordinates:
                self.blocks[-1].step = moved(self.blocks[-1].step, self.coordinates(arguments))
        elif name == "repeat":
            self.open_block(self.one_number(targets))
        else:
            raise self.error(f"{name}: not an instruction of a detector error model")

    def take_detectors(self, arguments, detectors):
        coordinates = self.coordinates(arguments) if self.has_coordinates else []
        if self.has_coordinates and not coordinates:
            raise self.error("a detector without coordinates")
        block, place = self.blocks[-1], len(coordinates) - 1
        for detector in map(self.count_detector, detectors):
            if coordinates:
                block.set_time(detector, Time(place, moved(coordinates, block.step)[place], self.line))

    def coordinates(self, text):
        try:
            return [float(number) for number in text.split(",")] if (text or "").strip() else []
        except ValueError:
            raise self.error("coordinates are numbers, separated by commas") from None

    def open_block(self, count):
        if count == 0:
            raise self.error("a block is repeated at least once")
        self.blocks.append(Block(self.line, count))

    def close_block(self):
        body = self.blocks.pop()
        if not self.blocks:
            raise self.error("a `}` without a `repeat`")
        self.blocks[-1].add_repeated(body)

    def take_usual_error(self, arguments, targets):
        block, rate, keys = self.blocks[-1], self.rate(arguments), []
        for one, other, observables in USUAL_PART.findall(targets):
            low = block.shift + int(one)
            high = block.shift + int(other or one)
            if other and low == high:
                self.take_part(f"D{one} D{other}{observables}", rate)
                continue
            if low > high:
                low, high = high, low
            if high >= block.detectors:
                block.count_detector(high, self.line)
            place = self.place_of_text.get(observables)
            if place is None:
                place = self.place_of_text[observables] = self.place(self.numbers("L", observables.split()))
            keys.append(place << 2 * BITS | low << BITS | high)
            block.add(keys[-1], rate, self.line)
        if self.has_mechanisms:
            self.take_mechanism(keys, rate)

    def take_error(self, arguments, targets):
        rate, parts, keys = self.rate(arguments), targets.split("^"), []
        for part in parts:
            if not part.strip() and len(parts) > 1:
                raise self.error("a `^` has targets before it and after it")
            keys += self.take_part(part, rate)
        if self.has_mechanisms:
            self.take_mechanism(keys, rate)

    def take_mechanism(self, keys, rate):
        if keys:
            self.blocks[-1].add_mechanism(tuple(sorted(set(keys))), rate)

    def take_part(self, targets, rate):
        """Adds a part to its edge, and returns the edge's key in a list, which is empty for a part without an edge."""
        tokens = targets.split()
        detectors = self.numbers("D", [token for token in tokens if token[0] != "L"])
        observables = self.numbers("L", [token for token in tokens if token[0] == "L"])
        ends, place = odd_ones(map(self.count_detector, detectors)), self.place(observables)
        block = self.blocks[-1]
        if len(ends) > 2 and not self.skip_hyperedges:
            raise self.error(
                f"a part of {len(ends)} detectors: use stim analyze_errors --decompose_errors, or skip such parts "
                "(skip_hyperedges)"
            )
        if len(ends) > 2:
            block.skipped += 1
        elif ends:
            key = place << 2 * BITS | ends[0] << BITS | ends[-1]
            block.add(key, rate, self.line)
            return [key]
        elif place:
            raise self.error(f"a part that flips observable {self.flips[place][0]} and no detector, which no decoder can see")
        return []

    def place(self, observables):
        """The place of the set that is flipped by some observables, in the list of all such sets."""
        flips = odd_ones(map(self.count_observable, observables))
        place = self.place_of_flips.setdefault(flips, len(self.flips))
        if place == len(self.flips):
            self.flips.append(flips)
        return place

    def count_detector(self, detector):
        """The number of a detector in its block."""
        detector += self.blocks[-1].shift
        self.blocks[-1].count_detector(detector, self.line)
        return detector

    def count_observable(self, observable):
        if observable >= MOST_OBSERVABLES:
            raise self.error(f"more than {MOST_OBSERVABLES} observables, the limit")
        self.observables = max(self.observables, observable + 1)
        return observable

    def rate(self, text):
        if text in self.rate_of_text:
            return self.rate_of_text[text]
        found = RATE.fullmatch(text or "")
        rate = float(found[1]) if found else math.nan
        if not 0 <= rate <= 1:
            raise self.error("an error has one rate, from 0 to 1")
        self.rate_of_text[text] = rate
        return rate

    def numbers(self, kind, tokens):
        """The numbers of targets that are all of one kind."""
        for token in tokens:
            if token[0] != kind:
                raise self.error(f"{token}: in place of a target {kind} and its number")
        return [int(token[1:]) for token in tokens]

    def one_number(self, targets):
        tokens = targets.split()
        if len(tokens) != 1 or not tokens[0].isdigit():
            raise self.error("one number has to stand here, without a letter")
        return int(tokens[0])

    def error(self, text):
        return error_at(self.line, text)

    def finish(self):
        if len(self.blocks) > 1:
            raise error_at(self.blocks[-1].line, "a `repeat` that isn't closed by `}`")
        return Model(self.blocks[0], self.flips, self.observables)


def odd_ones(numbers):
    """The numbers that come an odd number of times, rising."""
    odd = set()
    for number in numbers:
        odd ^= {number}
    return tuple(sorted(odd))


def shortened(text):
    return text if len(text) <= 60 else text[:57] + "..."


def read_model(lines, skip_hyperedges=False, coordinates=False, mechanisms=False):
    """Reads a model, as the lines of an open file or of `str(model).splitlines()`, with the coordinates of its detectors and
    the edges of its errors on request.

    Parts with more than two detectors are an error, unless they are skipped and counted. So are a part that flips an
    observable and no detector, and whatever exceeds the limits of a graph. Raises `ModelError`.
    """
    reader = Reader(skip_hyperedges, coordinates, mechanisms)
    for line in lines:
        reader.read(line)
    return reader.finish()
