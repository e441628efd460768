"""Random plans of a graph: trees of every shape, with empty units and seams, and ranges in any order."""


def random_plan(draw, graph):
    """The members of a plan by which the graph may be decoded."""
    real = [v for v in range(graph.vertices) if v not in graph.virtuals]
    units, fusions = [], []
    tree = cut(draw, set(real), neighbours(graph, real), draw.choice([1, 1, 2, 3, 5]))
    list_units(tree, units)
    list_fusions(draw, tree, len(units), iter(range(len(units))), fusions)
    return {"units": [ranges(draw, unit) for unit in units], "fusions": fusions}


def neighbours(graph, real):
    near = {v: set() for v in real}
    for u, v, _ in graph.edges:
        if u in near and v in near:
            near[u].add(v)
            near[v].add(u)
    return near


def cut(draw, owned, near, depth):
    """A set of vertices as a unit, or two trees and the seam between them."""
    if depth == 0 or draw.random() < 0.15:
        return owned
    bound = draw.randint(0, max(near, default=0) + 1)
    by_number = draw.random() < 0.6
    left = {v for v in sorted(owned) if (v < bound if by_number else draw.random() < 0.5)}
    right, seam = owned - left, set()
    for v in sorted(left):
        if near[v] & right:
            taken = {v} if draw.random() < 0.5 else near[v] & right
            seam |= taken
            left -= taken
            right -= taken
    return cut(draw, left, near, depth - 1), cut(draw, right, near, depth - 1), seam


def list_units(tree, units):
    if isinstance(tree, set):
        units.append(tree)
    else:
        list_units(tree[0], units)
        list_units(tree[1], units)


def list_fusions(draw, tree, first, numbers, fusions):
    """Lists the fusions, children first, and gives the number of the tree's root."""
    if isinstance(tree, set):
        return next(numbers)
    children = [list_fusions(draw, child, first, numbers, fusions) for child in tree[:2]]
    draw.shuffle(children)
    fusions.append({"of": children, "interface": ranges(draw, tree[2])})
    return first + len(fusions) - 1


def ranges(draw, vertices):
    """The vertices as ranges, each up to and without its end."""
    found = []
    for v in sorted(vertices):
        if found and found[-1][1] == v and draw.random() < 0.9:
            found[-1][1] = v + 1
        else:
            found.append([v, v + 1])
    draw.shuffle(found)
    return found
