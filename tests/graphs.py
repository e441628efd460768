"""Graphs of many shapes, most of them random, and shots on them.

Rings in rings, stars, long lines, complete graphs, grids, parallel edges and edges of no weight or of the greatest, and
any of them with negative edges.
"""

from collections import Counter, namedtuple
from itertools import accumulate

MOST_WEIGHT = 2**30
SCALES = [[0, 2], [2], [2, 4, 6], [0, 2, 4, 8, 20], [0, MOST_WEIGHT - 2, MOST_WEIGHT], [10, 12, 14, 1000]]

Graph = namedtuple("Graph", "vertices edges virtuals")


# Graphs.


def tiny_graph(draw):
    vertices = draw.randint(2, 9)
    virtuals = draw.sample(range(vertices), draw.choice([0, 0, 1, 1, 2]))
    weights = draw.choice(SCALES)
    edges = []
    for _ in range(draw.randint(vertices, 14)):
        u, v = draw.choice(edges)[:2] if edges and draw.random() < 0.1 else draw.sample(range(vertices), 2)
        edges.append((u, v, draw.choice(weights)))
    return Graph(vertices, edges, virtuals)


def random_graph(draw):
    """Up to 300 vertices, most of them in one component."""
    vertices = draw.choice([20, 60, 150, 300])
    weights = draw.choice(SCALES)
    near = draw.choice([2, 5, vertices])
    edges = [(draw.randrange(max(0, v - near), v), v, draw.choice(weights)) for v in range(1, vertices)]
    for _ in range(draw.choice([0, vertices // 4, vertices, 2 * vertices])):
        u, v = draw.sample(range(vertices), 2)
        edges.append((u, v, draw.choice(weights)))
    return Graph(vertices, edges, draw.sample(range(vertices), draw.choice([0, 1, 2, vertices // 10])))


def ring(draw, names, weights):
    return [(names[i - 1], names[i], draw.choice(weights)) for i in range(len(names))]


def rings_in_rings(draw):
    """A ring of an odd number of rings of odd numbers of rings of vertices, with a tail to the boundary."""
    weights = draw.choice([[2], [2, 4], [0, 2]])
    edges, groups, vertices = [], [], 0
    for _ in range(draw.choice([3, 5])):
        rings = []
        for _ in range(draw.choice([3, 5])):
            size = draw.choice([1, 3, 3, 5])
            names = list(range(vertices, vertices + size))
            edges += ring(draw, names, weights) if size > 1 else []
            rings.append(names)
            vertices += size
        firsts = [names[0] for names in rings]
        edges += ring(draw, firsts, [weight + 4 for weight in weights])
        groups.append([name for names in rings for name in names])
    edges += ring(draw, [draw.choice(names) for names in groups], [weight + 10 for weight in weights])
    edges.append((draw.randrange(vertices), vertices, draw.choice([2, 30, 200])))
    return Graph(vertices + 1, edges, [vertices])


def star(draw):
    leaves = draw.choice([3, 10, 40])
    weights = draw.choice(SCALES)
    edges = [(0, leaf, draw.choice(weights)) for leaf in range(1, leaves + 1)]
    return Graph(leaves + 1, edges, draw.choice([[], [1], [0], [1, 2]]))


def long_line(draw):
    vertices = draw.choice([40, 300])
    weights = draw.choice(SCALES)
    edges = [(v, v + 1, draw.choice(weights)) for v in range(vertices - 1)]
    return Graph(vertices, edges, draw.choice([[], [0], [0, vertices - 1]]))


def complete_graph(draw):
    vertices = draw.choice([7, 20, 60])
    weights = draw.choice(SCALES)
    edges = [(u, v, draw.choice(weights)) for v in range(vertices) for u in range(v)]
    return Graph(vertices, edges, draw.choice([[], [0]]))


def grid(draw):
    side = draw.choice([4, 9, 15])
    weights = draw.choice(SCALES)
    edges = [(v, v + 1, draw.choice(weights)) for v in range(side * side) if (v + 1) % side]
    edges += [(v, v + side, draw.choice(weights)) for v in range(side * (side - 1))]
    edges = [edge for edge in edges for _ in range(draw.choice([1, 1, 1, 2]))]
    return Graph(side * side, edges, draw.choice([[], [row * side for row in range(side)]]))


def nest(levels):
    """Pairs of vertices, each of them beside a last one, from which alone an edge leads to the boundary. With all real
    vertices as defects the pairs are matched first, and then the last one takes up pair after pair, each by a blossom round all
    before."""
    last = 2 * levels
    edges = [edge for v in range(0, last, 2) for edge in [(v, v + 1, 2), (last, v, 4), (last, v + 1, 4)]]
    return Graph(last + 2, [*edges, (last, last + 1, 2**20)], [last + 1])


def weightless_tree(draw, vertices):
    """A tree in which each vertex is joined to a random earlier one, by an edge of no weight."""
    return Graph(vertices, [(draw.randrange(v), v, 0) for v in range(1, vertices)], [])


def joined(parts, numbers=None):
    """The graphs side by side in one. Their vertices have these numbers in turn, or else those from 0."""
    firsts = [0, *accumulate(part.vertices for part in parts)]
    numbers = numbers or range(firsts[-1])
    edges = [(numbers[first + u], numbers[first + v], weight) for first, part in zip(firsts, parts) for u, v, weight in part.edges]
    return Graph(firsts[-1], edges, [numbers[first + v] for first, part in zip(firsts, parts) for v in part.virtuals])


def side_by_side(draw, count):
    """So many random graphs in one, a few of them long lines and the others tiny; often with the numbers of all mixed."""
    parts = [(long_line if draw.random() < 0.02 else tiny_graph)(draw) for _ in range(count)]
    numbers = list(range(sum(part.vertices for part in parts)))
    if draw.random() < 0.7:
        draw.shuffle(numbers)
    return joined(parts, numbers)


def subdivided(graph):
    """The graph with a vertex more in the middle of each edge, so that no two of its own vertices are adjacent."""
    edges, vertices = [], graph.vertices
    for u, v, weight in graph.edges:
        half = weight // 4 * 2
        edges += [(u, vertices, half), (vertices, v, weight - half)]
        vertices += 1
    return Graph(vertices, edges, graph.virtuals)


def turned(draw, weights, count):
    """Weights of which so many at most, anywhere among them, have got a minus sign."""
    chosen = set(draw.sample(range(len(weights)), min(count, len(weights))))
    return [-abs(weight) if k in chosen else weight for k, weight in enumerate(weights)]


def with_signs(draw, graph, share=None):
    """The graph with a share of its edges negative; unless that is given, with none or a few, or in a small graph often
    all."""
    count = len(graph.edges)
    few = draw.choice([0, 1, 2, 4] + ([count // 2, count] if count < 20 else [0]))
    weights = turned(draw, [weight for *_, weight in graph.edges], few if share is None else round(share * count))
    return graph._replace(edges=[(u, v, weight) for (u, v, _), weight in zip(graph.edges, weights)])


SHAPES = [rings_in_rings, star, long_line, complete_graph, grid]


def random_shot(draw, graph, most):
    virtuals = set(graph.virtuals)
    real = [v for v in range(graph.vertices) if v not in virtuals]
    count = draw.choice([1, 2, 3, 4, 6, 8, 12, 20, most, len(real)])
    return sorted(draw.sample(real, min(count, most, len(real))))


def random_changes(draw, graph, defects):
    """Erased edges, and pairs of an edge and a weight: of edges anywhere or of all near the defects, some of them
    twice, and a few negative."""
    if draw.random() < 0.5:
        rate = draw.choice([0.03, 0.1, 0.3, 1])
        edges = [e for e in range(len(graph.edges)) if draw.random() < rate]
    else:
        near = set(defects)
        for _ in range(draw.choice([0, 1, 2])):
            near |= {end for u, v, _ in graph.edges if u in near or v in near for end in (u, v)}
        edges = [e for e, (u, v, _) in enumerate(graph.edges) if u in near or v in near]
    weights, share = draw.choice(SCALES), draw.choice([0, 0.3, 1])
    erasures = [e for e in edges if draw.random() < share]
    left = sorted(set(edges) - set(erasures)) + draw.sample(erasures, len(erasures) // 4)
    pairs = [[e, draw.choice(weights)] for e in left + draw.sample(left, len(left) // 4)]
    signed = turned(draw, [weight for _, weight in pairs], draw.choice([0, 0, 1, 3]))
    pairs = [[e, weight] for (e, _), weight in zip(pairs, signed)]
    erasures += draw.sample(erasures, len(erasures) // 8)
    draw.shuffle(erasures)
    draw.shuffle(pairs)
    return {"erasures": erasures, "dynamic_weights": pairs}


def shot_of_edges(draw, graph):
    """The defects of random flipped edges; now and then one more or one fewer, so that there may be no correction."""
    virtuals, rate = set(graph.virtuals), draw.choice([0.02, 0.1, 0.3])
    ends = [end for edge in graph.edges if draw.random() < rate for end in edge[:2]]
    if draw.random() < 0.2:
        ends.append(draw.randrange(graph.vertices))
    return sorted(v for v, count in Counter(ends).items() if count % 2 and v not in virtuals)
