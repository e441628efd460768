"""A surface code under noise of its circuit: its detector error model, with errors of several parts, and shots.

    code = surface_circuit(distance=5, rounds=5, rate=0.005)

The code is that of `codes.surface_code`, with the checks of both kinds. The qubits of all checks are measured in each round,
and the data qubits at the end, all in the basis in which they were prepared. At one rate
- each prepared qubit is flipped,
- each data qubit before each round, and each qubit after a Hadamard gate, has an X, a Y or a Z, each as likely,
- the two qubits of each CNOT have one of their 15 pairs of these,
and before each measurement the qubit is flipped, at this or another rate. All of this happens independently. The detectors
compare a check with the one before: those that see X errors from the first round to the measured data qubits, those that
see Z errors from the second round on. An error that both kinds see has two parts, so that `fusion` takes them for
independent errors, and `busvroh.correlations` knows more. There is one observable.
"""

from busvroh.codes import Code, Error
from busvroh.models import odd_rate

# The data qubits of a check by the rows and columns from its upper left one, in the order of its CNOTs. An error on the
# check's qubit between the second and the third spreads to the last two, which lie across the chains that it could be part of.
X_ORDER = [(0, 0), (0, 1), (1, 0), (1, 1)]
Z_ORDER = [(0, 0), (1, 0), (0, 1), (1, 1)]

PAULIS = [(1, 0), (0, 1), (1, 1)]
PAIRS = [(one, other) for one in [(0, 0), *PAULIS] for other in [(0, 0), *PAULIS]][1:]


class Check:
    """A check: its qubit, its data qubits in the order of its CNOTs, whether it sees Z errors, and where it is."""

    def __init__(self, qubit, data, sees_z, place):
        self.qubit, self.data, self.sees_z, self.place = qubit, data, sees_z, place


def checks_of(distance):
    """All checks, those that see X errors first."""
    checks = []
    for sees_z, order in [(False, Z_ORDER), (True, X_ORDER)]:
        for i in range(distance + 1):
            for j in range(distance + 1):
                inside = 0 < j < distance if sees_z else 0 < i < distance
                if inside and (i + j) % 2 == sees_z:
                    corners = [(i - 1 + r, j - 1 + c) for r, c in order]
                    data = [r * distance + c if 0 <= r < distance and 0 <= c < distance else None for r, c in corners]
                    checks.append(Check(distance**2 + len(checks), data, sees_z, (2 * j, 2 * i)))
    return checks


class Sensitivity:
    """What an error flips, as bits of a number, found from the circuit's end to its begin.

    `x[q]` is what an X on qubit q flips where the circuit is now, and `z[q]` the same of a Z.
    """

    def __init__(self, qubits):
        self.x, self.z, self.rates = [0] * qubits, [0] * qubits, {}

    def add(self, flipped, rate):
        if flipped and rate:
            self.rates[flipped] = odd_rate(self.rates.get(flipped, 0), rate)

    def flipped(self, qubit, pauli):
        return self.x[qubit] * pauli[0] ^ self.z[qubit] * pauli[1]

    def measure(self, qubit, outcome, rate):
        self.x[qubit] ^= outcome
        self.add(self.x[qubit], rate)

    def prepare(self, qubit, rate):
        """Before a qubit is prepared errors on it do nothing. A Z on a prepared qubit does nothing either."""
        if self.z[qubit]:
            raise ValueError("a detector whose outcomes are random")
        self.add(self.x[qubit], rate)
        self.x[qubit] = 0

    def depolarize(self, qubit, rate):
        share = (1 - (1 - 4 * rate / 3) ** (1 / 2)) / 2
        for pauli in PAULIS:
            self.add(self.flipped(qubit, pauli), share)

    def hadamard(self, qubit, rate):
        self.depolarize(qubit, rate)
        self.x[qubit], self.z[qubit] = self.z[qubit], self.x[qubit]

    def cnot(self, control, target, rate):
        share = (1 - (1 - 16 * rate / 15) ** (1 / 8)) / 2
        for one, other in PAIRS:
            self.add(self.flipped(control, one) ^ self.flipped(target, other), share)
        self.x[control] ^= self.x[target]
        self.z[target] ^= self.z[control]


class Memory:
    """The circuit of a surface code that keeps a state for some rounds, and its detectors."""

    def __init__(self, distance, rounds):
        self.data, self.rounds, self.checks = range(distance**2), rounds, checks_of(distance)
        self.numbers = {}
        for time in range(rounds + 1):
            for check in self.checks:
                if not check.sees_z or 0 < time < rounds:
                    self.numbers[check, time] = len(self.numbers)
        self.observable = 1 << len(self.numbers)
        self.logical = range(distance)

    def detector(self, check, time):
        return 1 << self.numbers[check, time] if (check, time) in self.numbers else 0

    def rates(self, rate, measurement_rate):
        """All that single errors flip, each with its rate."""
        found = Sensitivity(len(self.data) + len(self.checks))
        last = [self.observable if qubit in self.logical else 0 for qubit in self.data]
        for check in self.checks:
            for qubit in check.data:
                if qubit is not None and not check.sees_z:
                    last[qubit] ^= self.detector(check, self.rounds)
        for qubit in self.data:
            found.measure(qubit, last[qubit], measurement_rate)
        for time in reversed(range(self.rounds)):
            self.add_round(found, time, rate, measurement_rate)
        for qubit in self.data:
            found.prepare(qubit, rate)
        return found.rates

    def add_round(self, found, time, rate, measurement_rate):
        """A round from its end: the qubits of the checks are measured, and were prepared at its begin."""
        for check in self.checks:
            found.measure(check.qubit, self.detector(check, time) ^ self.detector(check, time + 1), measurement_rate)
        for check in self.checks:
            if check.sees_z:
                found.hadamard(check.qubit, rate)
        for step in reversed(range(4)):
            for check in self.checks:
                qubit = check.data[step]
                if qubit is not None:
                    found.cnot(*(check.qubit, qubit) if check.sees_z else (qubit, check.qubit), rate)
        for check in self.checks:
            if check.sees_z:
                found.hadamard(check.qubit, rate)
        for check in self.checks:
            found.prepare(check.qubit, rate)
        for qubit in self.data:
            found.depolarize(qubit, rate)

    def coordinates(self):
        return [(*check.place, time) for check, time in self.numbers]

    def error(self, flipped, rate):
        """An error by what it flips: its parts are what each kind of checks sees of it."""
        parts = []
        for sees_z in (False, True):
            detectors = tuple(n for (check, _), n in self.numbers.items() if flipped >> n & 1 and check.sees_z == sees_z)
            if detectors:
                parts.append((detectors, (0,) if flipped & self.observable and not sees_z else ()))
        detectors = tuple(sorted(n for ends, _ in parts for n in ends))
        return Error(rate, detectors, (0,) if flipped & self.observable else (), tuple(parts))


def surface_circuit(distance, rounds, rate, measurement_rate=None):
    """A rotated surface code of `distance` rows and columns, under noise of its circuit."""
    wrong_outcome = rate if measurement_rate is None else measurement_rate
    if not 0 <= rate <= 3 / 4:
        raise ValueError(f"a rate of {rate}: it has to be from 0 to 3/4")
    if rounds < 1:
        raise ValueError(f"{rounds} rounds: a circuit has at least 1")
    memory = Memory(distance, rounds)
    rates = sorted(memory.rates(rate, wrong_outcome).items(), key=lambda each: (each[0] & -each[0], each[0]))
    return Code([memory.error(*each) for each in rates], memory.coordinates(), 1)
