"""Repetition and surface codes: their detector error models in Stim's form, and shots drawn from them.

    code = surface_code(distance=5, rounds=5, rate=0.01)
    model = read_model(code.model_text().splitlines())
    for detectors, flips in code.shots(1000, seed=1):
        ..

The noise is phenomenological. In each round each data qubit is flipped at one rate, and then the outcome of each check is
wrong at another. After the last round each data qubit is flipped once more, at the first rate, and measured. All of this
happens independently. A detector compares an outcome of a check with the one before, those of the first round with the
prepared state, and what the measured data qubits give with those of the last round. So there are rounds + 1 layers of
detectors, each in the order of the checks. There is one observable.
"""

import heapq
import math
import random
from collections import defaultdict, namedtuple

# What may happen in a shot: its rate, and the detectors and observables that it flips, rising. If matching has to part it,
# its parts have the detectors and observables of each.
Error = namedtuple("Error", "rate detectors observables parts", defaults=((),))


class Code:
    """Independent errors, the coordinates of the detectors, and the number of observables."""

    def __init__(self, errors, coordinates, observables):
        self.errors, self.coordinates, self.observables = errors, coordinates, observables

    @property
    def detectors(self):
        return len(self.coordinates)

    def model_text(self):
        """The detector error model in Stim's form."""
        lines = []
        for error in self.errors:
            parts = error.parts or [(error.detectors, error.observables)]
            lines.append(" ".join([f"error({error.rate!r})", " ^ ".join(targets_of(*part) for part in parts)]))
        lines += [f"detector({', '.join(map(str, each))}) D{k}" for k, each in enumerate(self.coordinates)]
        lines += [f"logical_observable L{k}" for k in range(self.observables)]
        return "".join(f"{line}\n" for line in lines)

    def shots(self, count, seed):
        """Draws shots: for each a number whose bit k is 1 if detector k fired, and one whose bit k is 1 if observable k
        was flipped.

        The same seed gives the same shots, and a larger count gives more of them. The work grows with the errors that
        happen, not with those that may.
        """
        groups = defaultdict(list)
        for error in self.errors:
            groups[error.rate].append((bits_of(error.detectors), bits_of(error.observables)))
        draws = (happening(rate, effects, random.Random(f"{seed} {rate!r}")) for rate, effects in groups.items())
        happened = heapq.merge(*draws)
        shot_of_next, *effect = next(happened, (count, 0, 0))
        for shot in range(count):
            detectors = flips = 0
            while shot_of_next == shot:
                detectors ^= effect[0]
                flips ^= effect[1]
                shot_of_next, *effect = next(happened, (count, 0, 0))
            yield detectors, flips


def targets_of(detectors, observables):
    return " ".join([*(f"D{k}" for k in detectors), *(f"L{k}" for k in observables)])


def bits_of(numbers):
    return sum(1 << number for number in numbers)


def happening(rate, effects, draw):
    """The errors of one rate that happen, shot after shot without end: for each the number of its shot, and its effect."""
    place = -1
    while rate > 0:
        # How many errors don't happen before the next one that does is distributed geometrically.
        place += 1 if rate == 1 else 1 + int(math.log(1 - draw.random()) / math.log1p(-rate))
        shot, number = divmod(place, len(effects))
        yield (shot, *effects[number])


def repetition_code(distance, rounds, rate, measurement_rate=None):
    """A line of `distance` data qubits, with a check of each two neighbours. The observable is the first qubit."""
    checks = [(qubit, qubit + 1) for qubit in range(distance - 1)]
    coordinates = [(2 * qubit + 1,) for qubit in range(distance - 1)]
    return memory(distance, checks, coordinates, {0}, rounds, rate, measurement_rate)


def surface_code(distance, rounds, rate, measurement_rate=None):
    """A rotated surface code of `distance` rows and columns, with the checks of one kind and the flips that they see.

    A check is every second square of four data qubits, as the black squares of a chessboard, and every second pair at the
    left and the right side. Data qubit (r, c) has the coordinates (2c + 1, 2r + 1), a check those of its centre. The
    observable is the first row.
    """
    checks, coordinates = [], []
    for i in range(1, distance):
        for j in range(i % 2, distance + 1, 2):
            corners = [(r, c) for r in (i - 1, i) for c in (j - 1, j) if 0 <= c < distance]
            checks.append(tuple(r * distance + c for r, c in corners))
            coordinates.append((2 * j, 2 * i))
    return memory(distance**2, checks, coordinates, set(range(distance)), rounds, rate, measurement_rate)


def memory(qubits, checks, coordinates, logical, rounds, rate, measurement_rate=None):
    """A code that keeps a state for some rounds. Each check lists its data qubits, and `logical` those of the observable.

    Where no rate of wrong outcomes is given it is that of flips.
    """
    wrong_outcome = rate if measurement_rate is None else measurement_rate
    for each in (rate, wrong_outcome):
        if not 0 <= each <= 1:
            raise ValueError(f"a rate of {each}: it has to be from 0 to 1")
    checks_of = [[number for number, check in enumerate(checks) if qubit in check] for qubit in range(qubits)]
    errors = []
    for layer in range(rounds + 1):
        first = layer * len(checks)
        for qubit in range(qubits):
            fired = tuple(first + number for number in checks_of[qubit])
            errors.append(Error(rate, fired, (0,) if qubit in logical else ()))
        if layer < rounds:
            errors += [Error(wrong_outcome, (k, k + len(checks)), ()) for k in range(first, first + len(checks))]
    return Code(errors, [(*place, layer) for layer in range(rounds + 1) for place in coordinates], 1)


CODES = {"repetition": repetition_code, "surface": surface_code}
