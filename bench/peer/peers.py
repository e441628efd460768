"""Builds the two programs of this folder."""

import os
import shlex
import shutil
import subprocess
from pathlib import Path

HERE = Path(__file__).resolve().parent
PROGRAMS = ["sparse_blossom", "read_write"]
COMPILERS = ["c++", "g++", "clang++"]
FLAGS = ["-std=c++20", "-O3", "-march=native", "-Wall", "-Wextra"]


def compiler():
    """The words that call a C++ compiler: those of CXX, or the first that is found; none where there is none."""
    named = shlex.split(os.environ.get("CXX", ""))
    return named or [found for found in map(shutil.which, COMPILERS) if found][:1]


def build(folder):
    """Builds both programs in a folder."""
    for name in PROGRAMS:
        subprocess.run([*compiler(), *FLAGS, "-o", folder / name, HERE / f"{name}.cpp"], check=True)
