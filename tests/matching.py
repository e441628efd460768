"""The least weight of a correction, found apart from the program: shortest paths, then a matching of the defects.

A correction of least weight is a set of shortest paths that pair some defects with one another and lead the others to
the boundary. Few defects are paired by trying all pairings, many by the blossom algorithm on a dense graph (Edmonds
1965, in the form that takes time cubic in the number of nodes), in which each defect has a copy of its own for the
boundary and all copies can be paired for nothing.

Where edges weigh less than 0, a correction is told by the edges in which it differs from these. To take such an edge
out costs its weight without sign, as to put another one in does. So these edges correct the defects that the negative
ones leave.
"""

import heapq
from functools import lru_cache

MOST_TRIED_DEFECTS = 8


class Matchings:
    """The least weights of corrections in one graph."""

    def __init__(self, vertices, edges, virtuals):
        self.virtuals = set(virtuals)
        self.neighbours = [[] for _ in range(vertices)]
        self.base, self.left = 0, set()
        for u, v, weight in edges:
            self.neighbours[u].append((v, abs(weight)))
            self.neighbours[v].append((u, abs(weight)))
            if weight < 0:
                self.base += weight
                self.left ^= {u, v} - self.virtuals
        self.lengths = {}

    def least_weight(self, defects):
        """The least weight of a correction; None where there is none."""
        least = self.least_of_plain(sorted(self.left ^ set(defects)))
        return None if least is None else self.base + least

    def least_of_plain(self, defects):
        """The same with all weights without sign."""
        reached = [self.lengths_from(defect) for defect in defects]
        pairs = [[lengths.get(other) for other in defects] for lengths in reached]
        alone = [min((lengths[v] for v in self.virtuals if v in lengths), default=None) for lengths in reached]
        return by_trial(pairs, alone) if len(defects) <= MOST_TRIED_DEFECTS else by_blossoms(pairs, alone)

    def lengths_from(self, start):
        """The length of a shortest path to each vertex that is reached; no path goes on from the boundary."""
        if start not in self.lengths:
            self.lengths[start] = self.searched(start)
        return self.lengths[start]

    def searched(self, start):
        lengths, heap = {}, [(0, start)]
        while heap:
            length, vertex = heapq.heappop(heap)
            if vertex in lengths:
                continue
            lengths[vertex] = length
            if vertex in self.virtuals:
                continue
            for other, weight in self.neighbours[vertex]:
                if other not in lengths:
                    heapq.heappush(heap, (length + weight, other))
        return lengths


def by_trial(pairs, alone):
    count = len(alone)

    @lru_cache(maxsize=None)
    def least(left):
        if not left:
            return 0
        first = (left & -left).bit_length() - 1
        rest = left ^ (1 << first)
        found = []
        if alone[first] is not None and (below := least(rest)) is not None:
            found.append(alone[first] + below)
        for other in range(first + 1, count):
            if rest >> other & 1 and pairs[first][other] is not None and (below := least(rest ^ (1 << other))) is not None:
                found.append(pairs[first][other] + below)
        return min(found, default=None)

    return least((1 << count) - 1)


def by_blossoms(pairs, alone):
    """The same by a perfect matching of the defects and their copies, of greatest weight where lengths count as less."""
    count = len(alone)
    known = [length for row in [*pairs, alone] for length in row if length is not None]
    bound = (max(known) + 1) * (2 * count + 1)
    weights = [[0] * (2 * count) for _ in range(2 * count)]
    for i in range(count):
        for j in range(count):
            if i != j and pairs[i][j] is not None:
                weights[i][j] = 2 * (bound - pairs[i][j])
            if i != j:
                weights[count + i][count + j] = 2 * bound
        if alone[i] is not None:
            weights[i][count + i] = weights[count + i][i] = 2 * (bound - alone[i])
    mates = Matcher(weights).solve()
    total = 0
    for i in range(count):
        mate = mates[i]
        if mate is None:
            return None
        if mate == count + i:
            total += alone[i]
        elif i < mate:
            total += pairs[i][mate]
    return total


class Matcher:
    """A matching of greatest weight in a dense graph, given as a table of whole, even weights, 0 where there is no edge.

    Nodes are numbered from 1, and blossoms after them. An edge is its two ends and its weight; between blossoms it is
    the one with the least gap between their nodes. A label is twice the dual value.
    """

    def __init__(self, weights):
        self.count = count = len(weights)
        size = 2 * count + 1
        self.edges = [[(u, v, 0) for v in range(size)] for u in range(size)]
        for u in range(count):
            for v in range(count):
                self.edges[u + 1][v + 1] = (u + 1, v + 1, weights[u][v])
        self.top = count
        greatest = max((weight for row in weights for weight in row), default=0)
        self.label = [greatest] * (count + 1) + [0] * count
        self.mate = [0] * size
        self.slack = [0] * size
        self.outer = [u if u <= count else 0 for u in range(size)]
        self.parent = [0] * size
        self.side = [-1] * size
        self.seen = [0] * size
        self.clock = 0
        self.flower = [[] for _ in range(size)]
        self.within = [[u if u == v else 0 for v in range(count + 1)] for u in range(size)]
        self.queue = []

    def solve(self):
        """The mate of each node; None where it has none."""
        while self.augments():
            pass
        return [self.mate[u] - 1 if self.mate[u] else None for u in range(1, self.count + 1)]

    def gap(self, edge):
        u, v, _ = edge
        return self.label[u] + self.label[v] - 2 * self.edges[u][v][2]

    def note_slack(self, u, x):
        if not self.slack[x] or self.gap(self.edges[u][x]) < self.gap(self.edges[self.slack[x]][x]):
            self.slack[x] = u

    def find_slack(self, x):
        self.slack[x] = 0
        for u in range(1, self.count + 1):
            if self.edges[u][x][2] > 0 and self.outer[u] != x and self.side[self.outer[u]] == 0:
                self.note_slack(u, x)

    def push(self, x):
        if x <= self.count:
            self.queue.append(x)
        else:
            for child in self.flower[x]:
                self.push(child)

    def set_outer(self, x, blossom):
        self.outer[x] = blossom
        if x > self.count:
            for child in self.flower[x]:
                self.set_outer(child, blossom)

    def even_place(self, blossom, child):
        """The child's place, an even one: the blossom's children are turned round where it is odd."""
        place = self.flower[blossom].index(child)
        if place % 2 == 1:
            self.flower[blossom][1:] = self.flower[blossom][:0:-1]
            return len(self.flower[blossom]) - place
        return place

    def set_mate(self, u, v):
        self.mate[u] = self.edges[u][v][1]
        if u <= self.count:
            return
        child = self.within[u][self.edges[u][v][0]]
        place = self.even_place(u, child)
        for i in range(place):
            self.set_mate(self.flower[u][i], self.flower[u][i ^ 1])
        self.set_mate(child, v)
        self.flower[u] = self.flower[u][place:] + self.flower[u][:place]

    def augment(self, u, v):
        while True:
            other = self.outer[self.mate[u]]
            self.set_mate(u, v)
            if not other:
                return
            self.set_mate(other, self.outer[self.parent[other]])
            u, v = self.outer[self.parent[other]], other

    def base_of(self, u, v):
        """Where the paths from two nodes to their roots meet; 0 where they don't."""
        self.clock += 1
        while u or v:
            if u:
                if self.seen[u] == self.clock:
                    return u
                self.seen[u] = self.clock
                u = self.outer[self.mate[u]]
                if u:
                    u = self.outer[self.parent[u]]
            u, v = v, u
        return 0

    def add_blossom(self, u, base, v):
        blossom = self.count + 1
        while blossom <= self.top and self.outer[blossom]:
            blossom += 1
        self.top = max(self.top, blossom)
        self.label[blossom], self.side[blossom] = 0, 0
        self.mate[blossom] = self.mate[base]
        children = [base]
        self.climb(u, base, children)
        children[1:] = children[:0:-1]
        self.climb(v, base, children)
        self.flower[blossom] = children
        self.set_outer(blossom, blossom)
        for x in range(1, self.top + 1):
            self.edges[blossom][x], self.edges[x][blossom] = (blossom, x, 0), (x, blossom, 0)
        self.within[blossom] = [0] * (self.count + 1)
        for child in children:
            for x in range(1, self.top + 1):
                kept, other = self.edges[blossom][x], self.edges[child][x]
                if kept[2] == 0 or self.gap(other) < self.gap(kept):
                    self.edges[blossom][x], self.edges[x][blossom] = other, self.edges[x][child]
            for x in range(1, self.count + 1):
                if self.within[child][x]:
                    self.within[blossom][x] = child
        self.find_slack(blossom)

    def climb(self, x, base, children):
        while x != base:
            children.append(x)
            x = self.outer[self.mate[x]]
            children.append(x)
            self.push(x)
            x = self.outer[self.parent[x]]

    def expand(self, blossom):
        for child in self.flower[blossom]:
            self.set_outer(child, child)
        first = self.within[blossom][self.edges[blossom][self.parent[blossom]][0]]
        place = self.even_place(blossom, first)
        children = self.flower[blossom]
        for i in range(0, place, 2):
            minus, plus = children[i], children[i + 1]
            self.parent[minus] = self.edges[plus][minus][0]
            self.side[minus], self.side[plus] = 1, 0
            self.slack[minus] = 0
            self.find_slack(plus)
            self.push(plus)
        self.side[first], self.parent[first] = 1, self.parent[blossom]
        for child in children[place + 1 :]:
            self.side[child] = -1
            self.find_slack(child)
        self.outer[blossom] = 0

    def meets(self, edge):
        """Whether the edge, which has no gap, leads to a path between two unmatched nodes."""
        u, v = self.outer[edge[0]], self.outer[edge[1]]
        if self.side[v] == -1:
            self.parent[v], self.side[v] = edge[0], 1
            mate = self.outer[self.mate[v]]
            self.slack[v] = self.slack[mate] = 0
            self.side[mate] = 0
            self.push(mate)
        elif self.side[v] == 0:
            base = self.base_of(u, v)
            if not base:
                self.augment(u, v)
                self.augment(v, u)
                return True
            self.add_blossom(u, base, v)
        return False

    def scans(self):
        """Whether an edge without a gap leads from a node of the queue to another tree."""
        while self.queue:
            u = self.queue.pop(0)
            if self.side[self.outer[u]] == 1:
                continue
            for v in range(1, self.count + 1):
                if self.edges[u][v][2] > 0 and self.outer[u] != self.outer[v]:
                    if self.gap(self.edges[u][v]) > 0:
                        self.note_slack(u, self.outer[v])
                    elif self.meets(self.edges[u][v]):
                        return True
        return False

    def outer_nodes(self, first):
        return [x for x in range(first, self.top + 1) if self.outer[x] == x]

    def step(self):
        """The greatest change of the labels; None where nothing bounds it, so that no further node can be matched."""
        bounds = [self.label[b] // 2 for b in self.outer_nodes(self.count + 1) if self.side[b] == 1]
        for x in self.outer_nodes(1):
            if self.slack[x] and self.side[x] != 1:
                gap = self.gap(self.edges[self.slack[x]][x])
                bounds.append(gap if self.side[x] == -1 else gap // 2)
        return min(bounds, default=None)

    def change(self, step):
        """Whether the labels could be changed: that of no unmatched node falls to 0."""
        if step is None:
            return False
        for u in range(1, self.count + 1):
            side = self.side[self.outer[u]]
            if side == 0:
                if self.label[u] <= step:
                    return False
                self.label[u] -= step
            elif side == 1:
                self.label[u] += step
        for blossom in self.outer_nodes(self.count + 1):
            if self.side[blossom] == 0:
                self.label[blossom] += 2 * step
            elif self.side[blossom] == 1:
                self.label[blossom] -= 2 * step
        return True

    def augments(self):
        self.side = [-1] * len(self.side)
        self.slack = [0] * len(self.slack)
        self.queue = []
        for x in self.outer_nodes(1):
            if not self.mate[x]:
                self.parent[x], self.side[x] = 0, 0
                self.push(x)
        if not self.queue:
            return False
        while True:
            if self.scans():
                return True
            if not self.change(self.step()):
                return False
            self.queue = []
            for x in self.outer_nodes(1):
                u = self.slack[x]
                if u and self.outer[x] == x and self.outer[u] != x and self.gap(self.edges[u][x]) == 0:
                    if self.meets(self.edges[u][x]):
                        return True
            for blossom in self.outer_nodes(self.count + 1):
                if self.side[blossom] == 1 and self.label[blossom] == 0:
                    self.expand(blossom)
