#!/usr/bin/env python3
"""Prints the shots and rows that the page in this folder shows, as JavaScript.

usage: docs/page/make.py GRAPH POSITIONS SHOTS REPORT > docs/page/recorded.js

POSITIONS lists the column, the row and the sheet of each vertex, as examples/surface has them. The shots are in the format `dets`,
and the report is that of `fusion decode`.
"""

import json
import signal
import sys
from pathlib import Path


def main():
    # A reader that leaves early ends the script, as it ends any filter.
    signal.signal(signal.SIGPIPE, signal.SIG_DFL)
    graph, positions, shots, report = map(Path, sys.argv[1:])
    members = json.loads(graph.read_text())
    real = [vertex for vertex in range(members["vertex_num"]) if vertex not in set(members["virtual_vertices"])]
    lines = [line.split()[1:] for line in shots.read_text().splitlines() if line.strip()]
    recorded = {
        "graph": {name: members[name] for name in ("vertex_num", "weighted_edges", "virtual_vertices")},
        "positions": json.loads(positions.read_text()),
        "shots": [[real[int(token[1:])] for token in line] for line in lines],
        "report": report.read_text(),
    }
    print(f"const RECORDED = {json.dumps(recorded, separators=(',', ':'))};")


if __name__ == "__main__":
    if len(sys.argv) != 5:
        sys.exit(__doc__)
    main()
