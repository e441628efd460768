"""How sure a decoding is: the gap between the two classes of corrections, and a bound of it from one certificate.

An observable parts the corrections of a shot in two classes: those that flip it, and those that don't. The gap is the least
weight in the other class less the least weight, so the logarithm of the odds, times the scale, by which the likeliest set
of errors is likelier than the likeliest one of the other class.

If no cycle of inner edges flips the observable, a correction's class is told by where it ends at the boundary. `Sides` parts
the boundary: the edges that end at one side of it flip, those at the other don't. One side stays virtual, and the other
becomes a real vertex. So a shot without a defect there and the same shot with one have corrections of one class each.

What the weight of an edge, without its sign, exceeds the values of the cuts that it crosses by is its residue. Each
correction weighs at least what the base and the cuts add up to and the residues of the edges in which it differs from
the negative ones. A lightest one has none, and one of the other class differs from it by a path from one side to the
other at least. So the shortest such path, with the residues as lengths, is a lower bound of the gap. It is the least
weight of a shot itself, whose only defect is the one side, and so has a certificate of its own.
"""

import heapq
import math
from collections import defaultdict

from busvroh.models import MOST_WEIGHT, ModelError


class Sides:
    """The graph of a model with its boundary parted by an observable.

    The virtual vertex is one side; `other_side` is a real vertex, the last one. So it is a detector more than the model has.
    """

    def __init__(self, graph, observable=None):
        self.boundary, self.edges = graph["virtual_vertices"][0], graph["weighted_edges"]
        self.other_side, self.weights = graph["vertex_num"], [weight for _, _, weight in self.edges]
        flipping = set(chosen(graph["observables"], observable))
        turned = self.turned_vertices(flipping)
        # The detectors that change which class is which, as bits.
        self.mask = sum(1 << vertex for vertex in turned)
        ends = ((edge in flipping) != (u in turned) for edge, (u, _, _) in enumerate(self.edges))
        self.ends = [[u, self.other_side if v == self.boundary and at else v] for (u, v, _), at in zip(self.edges, ends)]

    def turned_vertices(self, flipping):
        """Vertices of which each inner edge that flips has one, and each other one two or none."""
        inner = defaultdict(list)
        for edge, (u, v, _) in enumerate(self.edges):
            if v != self.boundary:
                inner[u].append((v, edge in flipping))
                inner[v].append((u, edge in flipping))
        turned, at_boundary = {}, self.flips_at_boundary(flipping)
        for start in range(self.boundary):
            if start in turned:
                continue
            turned[start], component = False, [start]
            for vertex in component:
                for other, flips in inner[vertex]:
                    if other not in turned:
                        turned[other] = turned[vertex] != flips
                        component.append(other)
                    elif turned[other] != (turned[vertex] != flips):
                        cycle = f"a cycle of edges through detectors {vertex} and {other}"
                        raise ModelError(f"{cycle} flips the observable, so the boundary doesn't tell which corrections do")
            # Either choice is right; by this one few edges end at the other side, and none where the observable isn't flipped.
            ends = [flips != turned[vertex] for vertex in component for flips in at_boundary[vertex]]
            if 2 * sum(ends) > len(ends):
                turned.update((vertex, not turned[vertex]) for vertex in component)
        return {vertex for vertex, turns in turned.items() if turns}

    def flips_at_boundary(self, flipping):
        """For each vertex whether its edges to the boundary flip."""
        found = defaultdict(list)
        for edge, (u, v, _) in enumerate(self.edges):
            if v == self.boundary:
                found[u].append(edge in flipping)
        return found

    def graph(self, weights=None):
        """The graph with these weights, or its own."""
        edges = [[*ends, weight] for ends, weight in zip(self.ends, weights or self.weights)]
        return {"vertex_num": self.other_side + 1, "weighted_edges": edges, "virtual_vertices": [self.boundary]}

    def flips(self, detectors):
        """Whether the observable is flipped by the corrections of a shot without a defect at the other side. Detectors are
        bits."""
        return (detectors & self.mask).bit_count() % 2 == 1


def chosen(observables, number):
    """The edges of the observable whose number is given; none is needed if there is one."""
    if number is None and len(observables) != 1:
        raise ModelError(f"{len(observables)} observables: there is a gap for one at a time, so choose one")
    if number is not None and not 0 <= number < len(observables):
        raise ModelError(f"observable {number} of {len(observables)}, counted from 0")
    return observables[number or 0]


class Residues:
    """The bound from the cuts of a row. Weights are without sign."""

    def __init__(self, sides):
        self.sides, self.weights = sides, [*map(abs, sides.weights)]
        self.incident = [[] for _ in range(sides.other_side + 1)]
        for edge, (u, v) in enumerate(sides.ends):
            self.incident[u].append((self.weights[edge], v, edge))
            self.incident[v].append((self.weights[edge], u, edge))
        for edges in self.incident:
            edges.sort()

    def loads(self, cuts):
        """What the cuts that an edge crosses add up to, for each edge that crosses one."""
        loads = defaultdict(int)
        for value, vertices in cuts:
            inside = set(vertices)
            for vertex in vertices:
                for _, other, edge in self.incident[vertex]:
                    if other not in inside:
                        loads[edge] += value
        return loads

    def graph(self):
        """The graph of doubled weights: residues may be odd, and weights of a graph are even."""
        if 2 * max(self.weights, default=0) > MOST_WEIGHT:
            raise ModelError(f"2 times a weight is above {MOST_WEIGHT}, the limit: take a smaller scale")
        return self.sides.graph([2 * weight for weight in self.weights])

    def shot(self, loads):
        """The shot, as JSON, whose least weight in the graph of doubled weights is twice the bound."""
        changes = (f"[{edge},{2 * (self.weights[edge] - load)}]" for edge, load in sorted(loads.items()))
        return f'{{"defect_vertices":[{self.sides.other_side}],"dynamic_weights":[{",".join(changes)}]}}'

    def bound(self, loads, limit=math.inf):
        """The length of a shortest path from side to side; or infinity, if none is shorter than the limit."""
        loaded = defaultdict(list)
        for edge, load in loads.items():
            for vertex, other in (ends := self.sides.ends[edge], ends[::-1]):
                loaded[vertex].append((self.weights[edge] - load, other))
        lengths, heap = {}, [(0, self.sides.other_side)]
        while heap:
            length, vertex = heapq.heappop(heap)
            if vertex == self.sides.boundary:
                return length
            if vertex in lengths:
                continue
            lengths[vertex] = length
            for residue, other in loaded[vertex]:
                if length + residue < limit and other not in lengths:
                    heapq.heappush(heap, (length + residue, other))
            for weight, other, _ in self.incident[vertex]:
                if length + weight >= limit:
                    break
                if other not in lengths:
                    heapq.heappush(heap, (length + weight, other))
        return math.inf
