"""The observables of a graph, and which of them the correction of a single row flips."""

from busvroh.bits import bytes_of


class Observables:
    """The observables of a graph, whose lists name the edges of each."""

    def __init__(self, lists):
        self.count = len(lists)
        self.size = bytes_of(self.count)
        self.of_edge = {}
        for observable, edges in enumerate(lists):
            for edge in edges:
                word = b"%d" % edge
                self.of_edge[word] = self.of_edge.get(word, 0) | 1 << observable

    def flipped_by(self, edges):
        """The observables that an odd number of edges flips, as the bits of a number. Edges are words of a report.

        This is for rows that are wanted one by one, since `fusion predict` reads a report to its end. It is tested, and
        not proved.
        """
        flips = 0
        for edge in edges:
            flips ^= self.of_edge.get(edge, 0)
        return flips
