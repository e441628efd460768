"""Plans by time, of detector error models whose detectors have coordinates.

    model = read_model(lines, coordinates=True)
    text = plan_text(plan_by_time(model, units=4))

The last coordinate of a detector is its time, and detectors of one time are a round. If an edge joins two rounds that are
not neighbours, these and all rounds between them become one. The units share the rounds evenly, as those of `fusion plan`
share layers.
"""

import itertools
import json

from busvroh.models import ModelError

MOST_UNITS = 4_096


def plan_by_time(model, units):
    """A plan of the model's graph: `units` runs of rounds, with one round between two neighbours as the seam of the fusion
    that joins them. Raises `ModelError` if there are too few rounds."""
    if not 1 <= units <= MOST_UNITS:
        raise ModelError(f"{units} units: a plan has 1 to {MOST_UNITS}")
    rounds = rounds_of(model)
    if units > 1 and len(rounds) < 2 * units - 1:
        raise ModelError(f"{len(rounds)} rounds: a plan of {units} units takes {2 * units - 1} of them")
    firsts = first_rounds(len(rounds), units)
    owned = [ranges(rounds[first : end - 1]) for first, end in zip(firsts, firsts[1:])]
    fusions = [{"of": [left, right], "interface": ranges([rounds[firsts[unit] - 1]])} for left, right, unit in fusions_of(units)]
    return {"units": owned, "fusions": fusions}


def plan_text(plan):
    """A plan as JSON, in one line as `fusion plan` writes it."""
    return json.dumps(plan, separators=(",", ":")) + "\n"


def rounds_of(model):
    """The detectors of each round, in the order of time."""
    times = model.times()
    members = {time: [] for time in sorted(set(times))}
    for detector, time in enumerate(times):
        members[time].append(detector)
    rounds, end = [], -1
    for place, (detectors, last) in enumerate(zip(members.values(), last_places(model, times, list(members)))):
        if place > end:
            rounds.append([])
        rounds[-1] += detectors
        end = max(end, last)
    return rounds


def last_places(model, times, order):
    """For each time, the last one that is taken together with it: that to which an edge leads over others, or itself."""
    places = {time: place for place, time in enumerate(order)}
    last = list(range(len(order)))
    for ends, *_ in model.edges():
        low, high = sorted([places[times[ends[0]]], places[times[ends[-1]]]])
        if high > low + 1:
            last[low] = max(last[low], high)
    return last


def first_rounds(rounds, units):
    """The first round of each unit, and where that of one unit more would be."""
    share, more = divmod(rounds - (units - 1), units)
    return [unit * (share + 1) + min(unit, more) for unit in range(units + 1)]


def fusions_of(units):
    """The fusions that join units two and two, level by level, from left to right: their children, and the unit that begins
    right after their seam."""
    level, fusions = [(unit, unit) for unit in range(units)], []
    while len(level) > 1:
        joined = []
        for (left, first), (right, unit) in zip(level[::2], level[1::2]):
            joined.append((units + len(fusions), first))
            fusions.append((left, right, unit))
        level = joined + level[2 * len(joined) :]
    return fusions


def ranges(rounds):
    """The detectors of some rounds as ranges, each up to and without its end, as few as there are."""
    found = []
    for detector in sorted(itertools.chain.from_iterable(rounds)):
        if found and found[-1][1] == detector:
            found[-1][1] = detector + 1
        else:
            found.append([detector, detector + 1])
    return found
