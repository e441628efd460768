#!/usr/bin/env python3
"""Reads a detector error model of Stim from standard input, and prints its decoding graph for `fusion`.

usage: examples/graph_of_dem.py [--skip-hyperedges] [--units K --plan NAME] [SCALE]

Errors are decomposed into parts of one or two detectors, as `stim analyze_errors --decompose_errors` writes them; with
--skip-hyperedges larger parts are left out, and their number goes to standard error. Vertex k is detector k, and the
last vertex is the boundary. A weight is the logarithm of the odds against an error, times the scale (1000 where none is
given), as the nearest even whole number: below 0 where the error is likelier than not. Errors with the same detectors
and observables become one edge. The member `observables` lists for each observable the edges that flip it.

With --units and --plan a plan by time of K units is written to a file: the last coordinate of a detector is its time.
"""

import argparse
import signal
import sys
from pathlib import Path

sys.path.insert(0, str(Path(__file__).resolve().parent.parent / "python"))
from busvroh.models import DEFAULT_SCALE, ModelError, graph_text, read_model
from busvroh.plans import plan_by_time, plan_text


def main():
    # A reader that leaves early ends the script, as it ends any filter.
    signal.signal(signal.SIGPIPE, signal.SIG_DFL)
    words = argparse.ArgumentParser(description="Prints the decoding graph of the model on standard input.")
    words.add_argument("--skip-hyperedges", action="store_true", help="leave out parts of more than two detectors")
    words.add_argument("--units", type=int, metavar="K", help="of the plan, 1 to 4096")
    words.add_argument("--plan", type=Path, metavar="NAME", help="gets a plan by time")
    words.add_argument("scale", nargs="?", type=float, default=DEFAULT_SCALE, metavar="SCALE")
    asked = words.parse_args()
    if (asked.units is None) != (asked.plan is None):
        words.error("--units and --plan are given together")
    sys.stdin.reconfigure(encoding="utf-8", errors="surrogateescape")
    try:
        model = read_model(sys.stdin, asked.skip_hyperedges, coordinates=asked.plan is not None)
        text = graph_text(model.graph(asked.scale))
        if asked.plan:
            asked.plan.write_text(plan_text(plan_by_time(model, asked.units)))
    except (ModelError, OSError) as error:
        sys.exit(f"graph_of_dem.py: {error}")
    if model.skipped:
        print(f"graph_of_dem.py: skipped parts of more than two detectors: {model.skipped}", file=sys.stderr)
    sys.stdout.write(text)


if __name__ == "__main__":
    main()
