"""Finds the program `fusion`, and judges how its runs end. Nothing here builds it."""

import contextlib
import os
import shutil
import subprocess
from pathlib import Path

ROOT = Path(__file__).resolve().parents[2]
NOT_BUILT = 125


class ProgramMissing(RuntimeError):
    """The program isn't there, or isn't that of its sources. The text says what to run."""


class RunError(RuntimeError):
    """A run that ended by another status than 0 and 1, and what it said."""

    def __init__(self, status, said):
        super().__init__(status, said)
        self.status, self.said = status, said

    def __str__(self):
        return f"{self.said or 'fusion said nothing'} (status {self.status})"


def find_program(program=None):
    """The path of the program: by its name, else by the variable `FUSION`, else that of this repository.

    Raises `ProgramMissing` where it isn't there, or was built of other sources than those beside it.
    """
    named = os.fspath(program or os.environ.get("FUSION") or ROOT / "bin/fusion")
    path = Path(named).absolute()
    if path.name == "fusion" and path.with_name("build-program").is_file():
        return built_program(path.parents[1])
    found = shutil.which(named)
    if found is None:
        advice = "run bin/build-program in a clone of the repository, and let FUSION name its bin/fusion"
        raise ProgramMissing(f"{named}: no such program; {advice}")
    return os.path.abspath(found)


def built_program(root):
    """The program that is built in a repository, of the sources that are there."""
    check = [root / "bin/build-program", "--check"]
    done = subprocess.run(check, stdin=subprocess.DEVNULL, stdout=subprocess.DEVNULL, stderr=subprocess.PIPE, text=True)
    if done.returncode != 0:
        raise ProgramMissing(f"{done.stderr.strip()}, in {root}")
    return str(root / "crates/fusion/out/fusion")


def start(words, given):
    """Starts a run whose output is read. It is given a file or, with `subprocess.PIPE`, what is written to it."""
    return subprocess.Popen(words, stdin=given, stdout=subprocess.PIPE, stderr=subprocess.PIPE)


def abandon(run):
    """Ends a run that is written to, if it hasn't ended."""
    run.kill()
    with contextlib.suppress(BrokenPipeError):
        run.stdin.close()


def judge_end(run):
    """Waits for the end of a run, and raises `RunError` where its status is neither 0 nor 1, that of odd rows."""
    run.stdout.close()
    if run.stdin:
        with contextlib.suppress(BrokenPipeError):
            run.stdin.close()
    said = run.stderr.read()
    run.stderr.close()
    if run.wait() not in (0, 1):
        raise RunError(run.returncode, said.decode(errors="replace").strip())
