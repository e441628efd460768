"""Replays the events that a report lists by a small model of the board, and judges the order in which they are listed.

Nothing here is shared with the program. A part is a node of the plan for one shot. It is idle, held by a worker, given, or
used by the fusion above it. A fusion may be taken once both its children are given. Events are listed by shot, then node,
and a part is taken before it is given.
"""

IDLE, GIVEN, USED = "idle", "given", "used"


def events_of(text, shots, window):
    """The events after the rows of each window, and what is wrong with where they stand."""
    found, complaints = {}, []
    last = -1
    for number, line in enumerate(text.decode().splitlines(), 1):
        word, *rest = line.split(" ")
        if word == "shot":
            last = int(rest[0])
        if word not in ("took", "gave"):
            continue
        if (last + 1) % window != 0 and last + 1 != shots:
            complaints.append(f"line {number}: an event within a window")
        found.setdefault(last // window, []).append((word, *map(int, rest)))
    return found, complaints


# One more worker takes part in a window for each so many defects, unless each unit has a worker.
DEFECTS_PER_WORKER = 384


def seat_count(workers, units, defects):
    """How many of the workers take part at so many units and defects of all shots of a window."""
    return max(1, units if units <= workers else min(workers, 1 + defects // DEFECTS_PER_WORKER))


def trace_complaints(plan, workers, window, best, shots, text, defects=None):
    """What is wrong with the events of a report of `shots` shots, of which those in `best` have a correction. Where the
    number of defects of each shot is given, no more workers than are worth it may take part."""
    events, complaints = events_of(text, shots, window)
    for place in range((shots + window - 1) // window):
        numbers = [k for k in range(place * window, min(shots, (place + 1) * window)) if k in best]
        seats = workers if defects is None else seat_count(workers, plan.units * len(numbers), sum(defects[k] for k in numbers))
        complaints += Board(plan, numbers).complaints(events.pop(place, []), seats)
    return complaints + [f"events of window {place}" for place in events]


class Board:
    """The parts of some shots by a plan, and how each stands."""

    def __init__(self, plan, shots):
        self.nodes = plan.units + plan.fusions
        self.children = {node: [] for node in range(self.nodes)}
        for child, parent in plan.parents.items():
            self.children[parent].append(child)
        self.parts = [(shot, node) for shot in shots for node in range(self.nodes)]
        self.status = {part: IDLE for part in self.parts}

    def may_be_taken(self, part):
        shot, node = part
        return self.status[part] == IDLE and all(self.status[shot, child] == GIVEN for child in self.children[node])

    def complaints(self, events, workers):
        found = []
        last = ()
        for kind, worker, shot, node in events:
            part = (shot, node)
            if part not in self.status or worker >= workers:
                return [*found, f"{kind} {worker} {shot} {node} is of no part or worker"]
            if (part, kind == "gave") <= last:
                found.append(f"{kind} {worker} {shot} {node} comes too late")
            last = (part, kind == "gave")
            if kind == "took":
                if not self.may_be_taken(part):
                    found.append(f"worker {worker} took {part}, which may not be taken yet")
                self.take(part, worker)
            elif self.status[part] != worker:
                found.append(f"worker {worker} gave {part}, which is {self.status[part]}")
            else:
                self.status[part] = GIVEN
        roots = [(shot, self.nodes - 1) for shot, node in self.parts if node == 0]
        found += [f"{part} is {how}" for part, how in self.status.items() if how != (GIVEN if part in roots else USED)]
        return found

    def take(self, part, worker):
        shot, node = part
        for child in self.children[node]:
            self.status[shot, child] = USED
        self.status[part] = worker
