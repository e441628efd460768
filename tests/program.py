"""Runs the built program, for the scripts beside this file."""

import os
import shutil
import subprocess
from collections import namedtuple
from pathlib import Path

ROOT = Path(__file__).resolve().parent.parent
FUSION = Path(os.environ.get("FUSION") or ROOT / "crates/fusion/out/fusion").resolve()
SECONDS = 120

Answer = namedtuple("Answer", "stdout stderr status")


def demand():
    """Ends the script where the program isn't built."""
    if not FUSION.is_file():
        raise SystemExit(f"{FUSION} isn't built: run `.ci/run`, or `bin/build-program`")


def answer(words, folder, stdin=b""):
    """What a command answers in a folder. A death by signal is a status below 0."""
    variables = dict(os.environ, FUSION=str(FUSION), ROOT=str(ROOT))
    done = subprocess.run(words, input=stdin, cwd=folder, env=variables, capture_output=True, timeout=SECONDS)
    return Answer(done.stdout, done.stderr, done.returncode)


def fusion(words, folder, stdin=b""):
    """What the program answers to words in a folder."""
    return answer([str(FUSION), *words], folder, stdin)


def copy_repository(folder):
    """Copies the scripts, the package and the examples to a folder, beside the program where `bin/fusion` looks for it."""
    for part in ["bin", "examples", "python"]:
        shutil.copytree(ROOT / part, folder / part, ignore=shutil.ignore_patterns("__pycache__"))
    shutil.copy(ROOT / "crates.txt", folder)
    built = folder / "crates/fusion/out"
    built.mkdir(parents=True)
    (built / "fusion").symlink_to(FUSION)
    record(folder)


def record(folder):
    """Has the scripts of a copy take the program that is there for the one that was built there."""
    build, streams = folder / "bin/build-program", {"check": True, "stdout": subprocess.PIPE, "text": True}
    checksum = subprocess.run([build, "--checksum"], **streams).stdout.strip()
    subprocess.run([build, "--record", checksum], **streams)
