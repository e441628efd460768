"""The layers of a graph, and plans by them, as `plan` writes them.

Nothing here is shared with the program.
"""

import json

from plans import neighbours
from readers import Refused


def layers_of(graph):
    """The layer of each real vertex: how many edges with two real ends lead to it from the least vertex that they
    connect it with."""
    virtuals = set(graph.virtuals)
    real = [v for v in range(graph.vertices) if v not in virtuals]
    near = neighbours(graph, real)
    layers = {}
    for root in real:
        layer, here = 0, [] if root in layers else [root]
        while here:
            layers.update(dict.fromkeys(here, layer))
            here = {w for v in here for w in near[v] if w not in layers}
            layer += 1
    return layers


def runs(vertices):
    """Numbers that rise as ranges, each up to and without its end, as few as there are."""
    found = []
    for v in vertices:
        if found and found[-1][1] == v:
            found[-1][1] = v + 1
        else:
            found.append([v, v + 1])
    return found


def plan_by_layers(graph, units):
    """The units are runs of layers that share them evenly, with a layer between two neighbours: the seam of the fusion
    that joins them. Nodes are joined two and two, level by level."""
    layers = layers_of(graph)
    height = max(layers.values(), default=-1) + 1
    if units > 1 and height < 2 * units - 1:
        raise Refused(f"TooFewLayers {height}")
    members = {}
    for v, layer in sorted(layers.items()):
        members.setdefault(layer, []).append(v)
    share, more = divmod(height - (units - 1), units)
    level, owned, start = [], [], 0
    for unit in range(units):
        end = start + share + (unit < more)
        level.append((unit, end))
        owned.append(runs(sorted(v for layer in range(start, end) for v in members.get(layer, []))))
        start = end + 1
    fusions = []
    while len(level) > 1:
        joined = []
        for (left, seam), (right, end) in zip(level[::2], level[1::2], strict=False):
            joined.append((units + len(fusions), end))
            fusions.append({"of": [left, right], "interface": runs(members[seam])})
        level = joined + level[2 * len(joined) :]
    return {"units": owned, "fusions": fusions}


def plan_text(graph, units):
    """What `plan` writes."""
    return json.dumps(plan_by_layers(graph, units), separators=(",", ":")).encode() + b"\n"
