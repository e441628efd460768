"""Judges rows of large shots, each in time that grows with its length: the sum of the sizes of its cuts and of the edges at
their vertices.

The rules are those of oracle.py, which goes through all cuts for each edge. Nothing here is shared with the program.
"""

from collections import Counter
from itertools import pairwise


def rises(numbers):
    return all(a < b for a, b in pairwise(numbers))


class Judge:
    """Judges rows in one graph."""

    def __init__(self, graph):
        self.graph = graph
        self.virtuals = set(graph.virtuals)
        self.edges_at = [[] for _ in range(graph.vertices)]
        for e, (u, v, _) in enumerate(graph.edges):
            self.edges_at[u].append(e)
            self.edges_at[v].append(e)
        negative = [e for e, (_, _, weight) in enumerate(graph.edges) if weight < 0]
        self.base, self.flipped = self.weight_of(negative), self.odd_vertices(negative)

    def weight_of(self, edges):
        return sum(self.graph.edges[e][2] for e in edges)

    def odd_vertices(self, edges):
        """The real vertices at which an odd number of the edges ends."""
        counts = Counter(end for e in edges for end in self.graph.edges[e][:2])
        return {v for v, count in counts.items() if count % 2 == 1} - self.virtuals

    def fault(self, defects, row):
        """A rule that the row of a shot with these defects breaks; None where it is good."""
        if row[0] != "best":
            return "no correction"
        _, edges, base, weight, cuts = row
        if not rises(edges) or (edges and edges[-1] >= len(self.graph.edges)):
            return "edges don't rise, or one is out of range"
        if self.odd_vertices(edges) != set(defects):
            return "edges that leave other defects"
        if (base, weight) != (self.base, self.weight_of(edges)):
            return f"base {base} and weight {weight}, not {self.base} and {self.weight_of(edges)}"
        if base + sum(value for value, _ in cuts) != weight:
            return f"cuts that don't add up to {weight}"
        return self.cuts_fault(self.flipped ^ set(defects), cuts)

    def cuts_fault(self, shifted, cuts):
        if not rises([vertices for _, vertices in cuts]):
            return "cuts that don't rise"
        for j, (value, vertices) in enumerate(cuts):
            if value < 1 or not rises(vertices) or (vertices and vertices[-1] >= self.graph.vertices):
                return f"cut {j} of value {value} has vertices that don't rise, or one out of range"
            if len(shifted.intersection(vertices)) % 2 == 0 or not self.virtuals.isdisjoint(vertices):
                return f"cut {j} holds an even number of shifted defects, or a virtual vertex"
        return self.load_fault(cuts)

    def load_fault(self, cuts):
        """The loads of the edges are summed up cut by cut, over the edges with one end in it."""
        loads = [0] * len(self.graph.edges)
        for value, vertices in cuts:
            crossing = set()
            for v in vertices:
                crossing.symmetric_difference_update(self.edges_at[v])
            for e in crossing:
                loads[e] += value
        for e, (_, _, weight) in enumerate(self.graph.edges):
            if loads[e] > abs(weight):
                return f"edge {e} of weight {weight} has the load {loads[e]}"
        return None
