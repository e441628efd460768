"""What the edges of a correction tell of others, by the errors that have several parts.

    model = read_model(lines, mechanisms=True)
    correlations = Correlations(model)
    second_graph = {**model.graph(), "weighted_edges": correlations.weighted_edges}
    changes = correlations.changes([3, 8])

In a graph the parts of an error are edges that fail independently. But where a correction uses one part, this error is
likelier than before, and so are its other parts; where it doesn't, they are less likely. There are two rules. With both
a rate is at most 1/2, or that in the graph if it is above, so that a weight is below 0 only where it is in the graph;
and an edge whose errors have one part each weighs what it weighs in the graph.

`bayes`: the rate of each error is that on condition that each of its other edges fails where it is used, and doesn't
where it isn't. An edge fails if an odd number of its errors happens at these rates. So edges are heavier than in the
graph unless edges beside them are used: `weighted_edges` has the weights where none is.

`lighter`: an edge that shares errors with a used one gets the rate of these errors divided by that of the used edge, if
that is above its own. So no edge is heavier than in the graph, and `weighted_edges` are those of the graph.
"""

import itertools
from collections import defaultdict

from busvroh.models import DEFAULT_SCALE, MOST_WEIGHT, odd_rate, weight_of

# Rates below this one count as this one where they divide, so that nothing is ever sure.
LEAST_RATE = 1e-15
MOST_KNOWN = 1 << 20
SAME = "-"


def even_weight(rate, scale, most):
    """The weight of a rate, where one above `most` counts as `most`, and none exceeds the limit of a graph."""
    rate = min(max(rate, LEAST_RATE**2), most)
    return min(weight_of(rate, scale, 0), MOST_WEIGHT)


def odd_of_others(rates):
    """For each of several independent errors the rate at which an odd number of the others happens."""
    before = [*itertools.accumulate(rates, odd_rate, initial=0)]
    after = [*itertools.accumulate(reversed(rates), odd_rate, initial=0)]
    return [odd_rate(one, other) for one, other in zip(before, reversed(after[:-1]))]


class Bayes:
    """The rates of edges by those of errors on condition of the other edges.

    `errors[e]` lists the errors of edge e: the odds of each, and its other edges, each with the factors of these odds where
    it is used, and where it isn't.
    """

    def __init__(self, mechanisms, edge_count):
        errors_of = [[] for _ in range(edge_count)]
        for edges, rate in mechanisms:
            for edge in edges:
                errors_of[edge].append((edges, rate))
        factors = {}
        for edge, errors in enumerate(errors_of):
            for (edges, _), others in zip(errors, odd_of_others([rate for _, rate in errors])):
                others = min(max(others, LEAST_RATE), 1 - LEAST_RATE)
                factors[edges, edge] = (1 - others) / others, others / (1 - others)
        self.errors = [[self.error(edge, *each, factors) for each in errors] for edge, errors in enumerate(errors_of)]

    def error(self, edge, edges, rate, factors):
        odds = rate / max(1 - rate, LEAST_RATE)
        return odds, [(other, *factors[edges, other]) for other in edges if other != edge]

    def rate(self, edge, used):
        """The rate of an edge where of the edges beside it these are used."""
        total = 0
        for odds, others in self.errors[edge]:
            for other, if_used, if_not in others:
                odds *= if_used if other in used else if_not
            total = odd_rate(total, odds / (1 + odds))
        return total


class Lighter:
    """The rates of edges by those of errors that they share with used ones, where these are above their own."""

    def __init__(self, mechanisms, rates):
        self.rates, self.shared = rates, {}
        for edges, rate in mechanisms:
            for pair in itertools.permutations(edges, 2):
                self.shared[pair] = odd_rate(self.shared.get(pair, 0), rate)

    def rate(self, edge, used):
        """The rate of an edge where of the edges beside it these are used."""
        return max([self.rates[edge], *(self.shared[edge, other] / self.rates[other] for other in used)])


RULES = ("bayes", "lighter")


class Correlations:
    """The weights of a second pass: those of each edge where no edge beside it is used, and the changes where some are."""

    def __init__(self, model, scale=DEFAULT_SCALE, rule="bayes"):
        if rule not in RULES:
            raise ValueError(f"{rule}: not one of the rules {', '.join(RULES)}")
        self.scale, mechanisms = scale, list(model.mechanisms())
        edges = model.graph(scale)["weighted_edges"]
        rates = [rate for *_, rate, _ in model.edges()]
        self.rule = Bayes(mechanisms, len(edges)) if rule == "bayes" else Lighter(mechanisms, rates)
        self.most = [max(rate, 1 / 2) for rate in rates]
        beside = defaultdict(set)
        for together, _ in mechanisms:
            for edge in together:
                beside[edge].update(other for other in together if other != edge)
        self.beside = {edge: sorted(others) for edge, others in beside.items() if others}
        self.weighted_edges = [
            [u, v, self.weight(edge, ()) if edge in self.beside else weight]
            for edge, (u, v, weight) in enumerate(edges)
        ]
        self._texts = {}

    def weight(self, edge, used):
        """The weight of an edge where of the edges beside it these are used."""
        return even_weight(self.rule.rate(edge, used), self.scale, self.most[edge])

    def changes(self, used):
        """The edges that weigh otherwise where a correction uses these edges, and their weights, as JSON."""
        reached = defaultdict(tuple)
        for edge in used:
            for other in self.beside.get(edge, ()):
                reached[other] += (edge,)
        texts = self._texts
        found = (texts.get(each) or self._text(each) for each in reached.items())
        return f"[{','.join(text for text in found if text != SAME)}]"

    def _text(self, each):
        if len(self._texts) >= MOST_KNOWN:
            self._texts.clear()
        edge, used = each
        weight = self.weight(edge, used)
        self._texts[each] = SAME if weight == self.weighted_edges[edge][2] else f"[{edge},{weight}]"
        return self._texts[each]
