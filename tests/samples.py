"""Shots of codes, and the observables that their lightest corrections flip, found by every set of edges."""

import collections
import sys

import program

sys.path.insert(0, str(program.ROOT / "python"))
from busvroh import codes, models


def lines_of(text):
    return text.splitlines(keepends=True)


def uneven(draw, code):
    """A code with the same errors at rates that differ, so that no two corrections of a shot weigh the same."""
    errors = [codes.Error(rate * draw.uniform(0.5, 1.5), *effect) for rate, *effect in code.errors]
    return codes.Code(errors, code.coordinates, code.observables)


def likely(draw, code):
    """A code of whose errors some are as likely as they were unlikely before."""
    errors = [codes.Error(draw.choice([rate, rate, 1 - rate]), *effect) for rate, *effect in code.errors]
    return codes.Code(errors, code.coordinates, code.observables)


class EveryCorrection:
    """The least weight of a correction of each set of detectors that flips each set of observables, by every set of edges."""

    def __init__(self, graph):
        boundary, detectors = graph["virtual_vertices"][0], graph["vertex_num"] - 1
        flips = collections.Counter()
        for observable, edges in enumerate(graph["observables"]):
            for edge in edges:
                flips[edge] += 1 << detectors + observable
        self.detectors, self.observables, self.least = detectors, len(graph["observables"]), {0: 0}
        for edge, (u, v, weight) in enumerate(graph["weighted_edges"]):
            effect = flips[edge] + sum(1 << end for end in (u, v) if end != boundary)
            for reached, total in list(self.least.items()):
                self.least[reached ^ effect] = min(total + weight, self.least.get(reached ^ effect, total + weight))

    def weights(self, shot):
        """The least weight for each set of observables that can be flipped."""
        every = ((flips, self.least.get(shot | flips << self.detectors)) for flips in range(1 << self.observables))
        return {flips: weight for flips, weight in every if weight is not None}

    def flips(self, shot):
        """The observables that the lightest correction flips, and whether only corrections that flip these are so light."""
        weights = self.weights(shot)
        least = min(weights.values())
        return min(weights, key=weights.get), list(weights.values()).count(least) == 1


class Sample:
    """A code's shots, with the flips of their lightest corrections."""

    def __init__(self, code, count, model=None):
        self.code, self.model = code, model or code.model_text()
        self.shots = list(code.shots(count, 1))
        exact = EveryCorrection(models.read_model(lines_of(self.model)).graph())
        found = [exact.flips(shot) for shot, _ in self.shots]
        self.are_unique, self.flips = all(unique for _, unique in found), [flips for flips, _ in found]
        self.errors = sum(flips != true for flips, (_, true) in zip(self.flips, self.shots))
        self.width = code.detectors + code.observables

    def packed(self):
        return pack([shot for shot, _ in self.shots], self.code.detectors)

    def predictions(self):
        return pack(self.flips, self.code.observables)

    def rows(self):
        return [[shot >> k & 1 for k in range(self.code.detectors)] for shot, _ in self.shots]


def pack(numbers, width):
    return b"".join(number.to_bytes((width + 7) // 8, "little") for number in numbers)


def digits(numbers, width):
    return "".join("".join("01"[number >> k & 1] for k in range(width)) + "\n" for number in numbers).encode()


def samples(draw, count):
    yield "repetition code", Sample(uneven(draw, codes.repetition_code(3, 2, 0.08)), count)
    yield "surface code", Sample(uneven(draw, codes.surface_code(3, 1, 0.05)), count)
    code = likely(draw, uneven(draw, codes.repetition_code(3, 2, 0.08)))
    yield "errors that are likelier than not", Sample(code, count)
    yield "two observables", Sample(uneven(draw, two_observables(codes.repetition_code(5, 1, 0.08))), count)
    yield "a model as Stim writes it", Sample(code_of(REPEATED), count, REPEATED)


# Three rounds, with decomposed errors, tags and coordinates.
REPEATED = """\
error(0.021) D0
error(0.033) D1 L0
detector(1, 0) D0
detector(3, 0) D1
repeat 2 {
    error[round](0.052) D0 D1
    error(0.017) D0 D2 ^ D1 D3
    error(0.041) D1 D3
    error(0.0013) D3 L0 ^ D2
    error(1.1e-2) D0 D3
    shift_detectors(0, 1) 2
}
error(0.072) D0 D1
error(0.029) D1 L0
logical_observable L0
"""


def code_of(text):
    """The code of a model's edges, to draw shots."""
    model = models.read_model(lines_of(text))
    errors = [codes.Error(rate, ends, flips) for ends, flips, rate, _ in model.edges()]
    return codes.Code(errors, [(k,) for k in range(model.detectors)], model.observables)


def two_observables(code):
    """The same code where the errors that fire the last detector flip a second observable."""
    last = code.detectors - 1
    errors = [each._replace(observables=(*each.observables, 1)) if last in each.detectors else each for each in code.errors]
    return codes.Code(errors, code.coordinates, 2)
