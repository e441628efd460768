#!/usr/bin/env python3
"""Compares predicted flips of an observable with the true ones, and prints the logical errors of each file in a column.

usage: examples/erasures/count.py FLIPS PREDICTED..

The bounds hold a rate with a probability of 95 % (Wilson's score).
"""

import signal
import sys
from pathlib import Path

sys.path.insert(0, str(Path(__file__).resolve().parent.parent.parent / "python"))
from busvroh.counting import Count


def main():
    if len(sys.argv) < 3:
        raise SystemExit(__doc__)
    # A reader that leaves early ends the script, as it ends any filter.
    signal.signal(signal.SIGPIPE, signal.SIG_DFL)
    files = [Path(name) for name in sys.argv[1:]]
    true, *predicted = [file.read_text().splitlines() for file in files]
    if any(len(flips) != len(true) for flips in predicted):
        sys.exit("count.py: the files have not as many shots each")
    errors = [sum(flip != right for flip, right in zip(flips, true)) for flips in predicted]
    counts = [Count(shots=len(true), errors=count) for count in errors]
    rows = [
        ("losses", [file.stem for file in files[1:]]),
        ("shots", [count.shots for count in counts]),
        ("logical errors", [count.errors for count in counts]),
        ("rate", [f"{count.rate:.4f}" for count in counts]),
        ("at least", [f"{count.interval()[0]:.4f}" for count in counts]),
        ("at most", [f"{count.interval()[1]:.4f}" for count in counts]),
    ]
    for name, cells in rows:
        print(f"{name:<16}" + "".join(f"{cell:>10}" for cell in cells))


if __name__ == "__main__":
    main()
