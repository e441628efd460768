#!/usr/bin/env python3
"""Reads packed shots from standard input, and prints them as JSON lines that have the weights of a later calibration.

usage: examples/drift.py GRAPH LATER

The graphs have the same vertices and edges. Each line names the edges that weigh otherwise in the later one.
"""

import json
import signal
import sys
from pathlib import Path

from erasures.lines import detectors_of, line_of, records


def changes_between(graph, later):
    """The numbers and the later weights of the edges whose weights differ."""
    edges, later_edges = graph["weighted_edges"], later["weighted_edges"]
    if [edge[:2] for edge in edges] != [edge[:2] for edge in later_edges]:
        sys.exit("the later graph has other edges")
    return [[e, weight] for e, (*_, weight) in enumerate(later_edges) if weight != edges[e][2]]


def main():
    if len(sys.argv) != 3:
        raise SystemExit(__doc__)
    # A reader that leaves early ends the script, as it ends any filter.
    signal.signal(signal.SIGPIPE, signal.SIG_DFL)
    graph, later = (json.loads(Path(name).read_text()) for name in sys.argv[1:])
    detectors, changes = detectors_of(graph), changes_between(graph, later)
    for record in records(sys.stdin.buffer, len(detectors)):
        print(line_of(record, detectors, [], changes))


if __name__ == "__main__":
    main()
