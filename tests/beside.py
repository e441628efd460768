"""Runs an unproved program beside crates that it calls, for the scripts beside this file.

Such a program is in Rattle, and its files end in `.rs`, since `rt ci` takes each `.rt` for proved code. It is copied beside the
crates, and `rt try` runs it there. Its last line counts what passed and what failed.
"""

import re
import shutil
import subprocess
import tempfile
from pathlib import Path

from program import ROOT

SECONDS = 600


def copy_crates(folder, beside, crates):
    """Copies the crates to a folder, and the program as one more crate above them."""
    lines = (ROOT / "crates.txt").read_text().splitlines()
    lines = [line for line in lines if line.split(":")[0] in crates] + [f"{beside}: {' '.join(crates)}"]
    (folder / "crates.txt").write_text("".join(f"{line}\n" for line in lines))
    for crate in crates:
        shutil.copytree(ROOT / "crates" / crate / "src", folder / "crates" / crate / "src")
    source = folder / "crates" / beside / "src"
    source.mkdir(parents=True)
    for file in (ROOT / "tests" / beside).glob("*.rs"):
        shutil.copy(file, source / file.with_suffix(".rt").name)


def make_edit(folder, edit):
    """Makes an edit, lines `file:`, `old:` and `new:`, in the copy of its crate."""
    crate = folder / "crates" / edit.resolve().parent.parent.name
    for line in edit.read_text().splitlines():
        word, _, text = line.partition(":")
        text = text.removeprefix(" ")
        if word == "file":
            path = crate / text
        elif word == "old":
            old = text
        elif word == "new":
            source = path.read_text()
            if source.count(old) != 1:
                raise SystemExit(f"{edit}: not once in {path.name}: {old}")
            path.write_text(source.replace(old, text))


def run(beside, crates, words=(), edit=None):
    """Runs the program of the folder `beside` over the crates with these words, and prints what it says. Returns the status
    to end with. An edit is made in the copy first, so that the program should fail."""
    with tempfile.TemporaryDirectory() as name:
        folder = Path(name)
        copy_crates(folder, beside, crates)
        if edit:
            make_edit(folder, edit)
        command = ["rt", "try", "--steps", "1", "--seconds", str(SECONDS), "--", *words]
        crate = folder / "crates" / beside
        ran = subprocess.run(command, cwd=crate, stdin=subprocess.DEVNULL, capture_output=True, text=True)
    print(ran.stdout, end="")
    counts = re.search(r"^\d+ passed, (\d+) failed\n\Z", ran.stdout, re.M)
    if ran.returncode or not counts:
        print(ran.stderr, end="")
        print(f"rt try ended with status {ran.returncode}")
        print("0 passed, 1 failed")
        return 1
    return 1 if int(counts[1]) else 0
