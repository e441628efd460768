#!/usr/bin/env python3
"""Reads a report from standard input, and prints a line for each shot."""

import signal
import sys

HEADS = ("fusion-report 1\n", "fusion-report 2\n")


def read_rows(lines):
    """The rows of a report of version 1 or 2: dictionaries with edges, base, weight and cuts, and `odd`, the vertex of
    an odd row or None. Version 1 has no lines of a base, which is 0."""
    row, lines = None, iter(lines)
    if next(lines, "") not in HEADS:
        raise ValueError("the text isn't a report of version 1 or 2")
    for line in lines:
        if not line.endswith("\n"):
            break
        word, *rest = line.split()
        if word in ("shot", "done") and row:
            yield row
        if word == "shot":
            row = {"odd": int(rest[2]) if "odd" in rest else None, "edges": [], "base": 0, "weight": None, "cuts": []}
        elif word == "edges":
            row["edges"] = [int(edge) for edge in rest]
        elif word in ("base", "weight"):
            row[word] = int(rest[0])
        elif word == "cut":
            row["cuts"].append((int(rest[0]), [int(vertex) for vertex in rest[1:]]))
        elif word == "done":
            return
    raise ValueError("the report has no done line, so its run didn't come to its end")


if __name__ == "__main__":
    # A reader that leaves early ends the script, as it ends any filter.
    signal.signal(signal.SIGPIPE, signal.SIG_DFL)
    for shot, row in enumerate(read_rows(sys.stdin)):
        text = "no correction" if row["odd"] is not None else f"weight {row['weight']}, edges {row['edges']}"
        print(f"shot {shot}: {text}, {len(row['cuts'])} cuts")
