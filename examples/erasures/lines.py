#!/usr/bin/env python3
"""Reads shots with heralds from standard input, and prints them as JSON lines for `fusion`.

usage: examples/erasures/lines.py GRAPH TABLE

A shot is packed as in Stim's b8: a bit for each detector of the graph, then one for each herald of the table. The table's
member `heralds` lists for each herald what is known of a shot in which it fires: an edge is erased, a pair of an edge and a
weight has this weight.
"""

import json
import signal
import sys
from pathlib import Path


def detectors_of(graph):
    """The vertices that aren't virtual."""
    virtuals = set(graph["virtual_vertices"])
    return [vertex for vertex in range(graph["vertex_num"]) if vertex not in virtuals]


def records(file, width):
    """The records of a file, of `width` bits each, as numbers."""
    size = (width + 7) // 8
    while record := file.read(size):
        if len(record) < size:
            sys.exit(f"the last shot has {len(record)} bytes in place of {size}")
        yield int.from_bytes(record, "little")


def line_of(record, detectors, erasures, pairs):
    """The line of a shot, by the detectors that fired."""
    defects = [vertex for k, vertex in enumerate(detectors) if record >> k & 1]
    members = {"defect_vertices": defects, "erasures": erasures, "dynamic_weights": pairs}
    return json.dumps(members, separators=(",", ":"))


def main():
    if len(sys.argv) != 3:
        raise SystemExit(__doc__)
    # A reader that leaves early ends the script, as it ends any filter.
    signal.signal(signal.SIGPIPE, signal.SIG_DFL)
    graph, table = (json.loads(Path(name).read_text()) for name in sys.argv[1:])
    detectors, heralds = detectors_of(graph), table["heralds"]
    for record in records(sys.stdin.buffer, len(detectors) + len(heralds)):
        fired = record >> len(detectors)
        known = [entry for k, entries in enumerate(heralds) if fired >> k & 1 for entry in entries]
        pairs = [entry for entry in known if isinstance(entry, list)]
        erasures = [entry for entry in known if not isinstance(entry, list)]
        print(line_of(record, detectors, erasures, pairs))


if __name__ == "__main__":
    main()
