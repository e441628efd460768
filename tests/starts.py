"""Tests of bin/fusion's start and of bin/build-program, for tests/scripts: by a stand-in for `rt`, so that nothing is proved."""

import os
import shutil
import signal
import subprocess
import tempfile
import time
from importlib.machinery import SourceFileLoader
from importlib.util import module_from_spec, spec_from_loader
from pathlib import Path

import program

PATIENCE = 60

FAKE_RT = """#!/usr/bin/env bash
# Prints what rt prints, and makes what it makes, of four crates. The program prints what it was made of, and its words.
# A file beside this one says which crate can't be proved; two others are run before the crates are proved and after the build.
echo "$*" >> "$0.calls"
hook() { [ ! -e "$0.$1" ] || . "$0.$1"; }
is_proved() { cmp -s "$1/src/lib.rt" "$1/out/rlib/stamp"; }
prove() {
    rm -rf "$1/out/rlib"
    if [ -e "$0.broken" ] && [ "$1" = "$(cat "$0.broken")" ]; then
        made="fn $1::f: not proved"
        return 1
    fi
    made="logic=proved functions=2"
    mkdir -p "$1/out/rlib"
    cp "$1/src/lib.rt" "$1/out/rlib/stamp"
}
case "$*" in
version)
    cat "$0.version"
    ;;
"all check --jobs "*)
    cd crates || exit 2
    hook before
    for crate in low other middle fusion; do
        made=
        [ -n "$failed" ] || is_proved $crate || prove $crate || failed=1
        echo "== $crate"
        [ -z "$made" ] || echo "$made"
    done
    ;;
"run -- --version")
    cd .. || exit 2
    for crate in low middle; do
        is_proved $crate || echo "rt: chose --jobs 4 for $crate"
        is_proved $crate || prove $crate || { echo "$made"; exit 1; }
    done
    printf '#!/bin/sh\\necho "%s: $*"\\n' "$(cat {low,middle,fusion}/src/lib.rt | tr '\\n' ' ')" > fusion/out/fusion
    chmod +x fusion/out/fusion
    hook after
    fusion/out/fusion --version
    exit 6
    ;;
"try "*)
    echo "${PWD##*/}"
    echo "what rt says of it" >&2
    [ ! -e "$0.broken" ] || exit 2
    ;;
*)
    exit 2
    ;;
esac
"""
BUILD_CALLS = ["all check --jobs", "run -- --version"]
COSTS = "| Crate | Proofs |\n|---|---|\n| `low` | 2 % |\n| `middle` | 3 % |\n| `other` | under 1 % |\n| `fusion` | 1 % |\n"


def text(*lines):
    return "".join(f"{line}\n" for line in lines)


class Clone:
    """A folder with bin/, four crates of which the program needs three, and a stand-in for `rt` that comes first on the PATH."""

    def __init__(self, folder):
        self.folder = Path(folder).resolve()
        self.rt = self.folder / "kit/rt"
        self.log = self.folder / "crates/fusion/out/build.log"
        self.program = self.folder / "crates/fusion/out/fusion"
        shutil.copytree(program.ROOT / "bin", self.folder / "bin", ignore=shutil.ignore_patterns("__pycache__"))
        shutil.copy(program.ROOT / ".gitignore", self.folder)
        self.write("crates.txt", "# crates\nlow:\nother: low\nmiddle tests_may=Wait: low json # a\nfusion: middle low\n")
        self.write("docs/crates.md", COSTS)
        for crate in ["low", "middle", "other", "fusion"]:
            self.write(f"crates/{crate}/src/lib.rt", f"{crate} 1\n")
        self.write("kit/rt", FAKE_RT)
        self.rt.chmod(0o755)
        self.write("kit/rt.version", "kit 1\n")

    def write(self, name, content):
        file = self.folder / name
        file.parent.mkdir(parents=True, exist_ok=True)
        file.write_text(content)

    def variables(self, kit="kit"):
        kept = {name: value for name, value in os.environ.items() if name not in ("FUSION", "PATH")}
        return dict(kept, PATH=f"{self.folder / kit}:/usr/bin:/bin")

    def run(self, *words, kit="kit"):
        """The status, standard output and the lines of standard error of a command."""
        how = {"cwd": self.folder, "env": self.variables(kit), "capture_output": True, "text": True, "timeout": PATIENCE}
        done = subprocess.run(words, stdin=subprocess.DEVNULL, **how)
        return done.returncode, done.stdout, done.stderr.splitlines()

    def start(self, kit="kit"):
        return self.run("bin/fusion", "a", "b", kit=kit)

    def begin(self, error):
        """Starts the program in a process group of its own, with standard error in a file."""
        streams = {"stdin": subprocess.DEVNULL, "stdout": subprocess.PIPE, "stderr": open(self.folder / error, "wb")}
        how = {"cwd": self.folder, "env": self.variables(), "start_new_session": True}
        return subprocess.Popen(["bin/fusion", "a", "b"], **how, **streams)

    def calls(self):
        """How `rt` was called so far."""
        calls = self.folder / "kit/rt.calls"
        return calls.read_text().splitlines() if calls.exists() else []

    def builds(self):
        return sum(call == BUILD_CALLS[1] for call in self.calls())

    def prints(self, *crates):
        """What the program prints if it is made of these crates."""
        return f"{' '.join(crates)} : a b\n"


def wait_until(holds):
    end = time.monotonic() + PATIENCE
    while not holds() and time.monotonic() < end:
        time.sleep(0.02)
    return holds()


FIRST = ["low 1", "middle 1", "fusion 1"]


def test_first_start(_):
    with tempfile.TemporaryDirectory() as name:
        place = Clone(name)
        begun = f"bin/fusion: proving and building it, once; what rt prints is in {place.log}"
        place.write("kit/rt.broken", "middle")
        status, said, lines = place.start()
        yield "first start, broken: status", status == 125 and said == ""
        yield "first start, broken: progress", lines[:5] == [
            "bin/fusion: the program isn't built",
            begun,
            "bin/fusion: 0%, 0 of 4 crates proved, 0 min",
            "bin/fusion: 33%, 1 of 4 crates proved, 0 min",
            "bin/fusion: 33%, 2 of 4 crates proved, 0 min",
        ]
        yield "first start, broken: why", lines[-2:] == [
            "fn middle::f: not proved",
            "bin/fusion: the program could not be built; above are the last lines of rt",
        ]
        (place.folder / "kit/rt.broken").unlink()
        status, said, lines = place.start()
        yield "first start, again: status", (status, said) == (0, place.prints(*FIRST))
        yield "first start, again: progress", lines == [
            "bin/fusion: the program isn't built",
            begun,
            "bin/fusion: 0%, 0 of 4 crates proved, 0 min",
            "bin/fusion: 33%, 1 of 4 crates proved, 0 min",
            "bin/fusion: 33%, 2 of 4 crates proved, 0 min",
            "bin/fusion: 82%, 3 of 4 crates proved, 0 min",
            "bin/fusion: 98%, 4 of 4 crates proved, 0 min",
            "bin/fusion: the program is proved and built; later starts are instant",
        ]
        yield "first start: log", place.log.read_text().startswith("== low\n== other\n== middle\nlogic=proved")
        before = place.calls()
        yield "later start", place.start() == (0, place.prints(*FIRST), [])
        yield "later start: rt isn't called", place.calls() == before
    with tempfile.TemporaryDirectory() as name:
        status, said, lines = Clone(name).start(kit="none")
        no_kit = "bin/fusion: there is no command rt: the kit isn't installed, or isn't on the PATH"
        yield "first start without the kit", (status, said, lines[-1]) == (125, "", no_kit)


def edits(place):
    """Edits after which a program is stale: what each is called, the crates that the new one is made of, and the reason."""
    source, other = place.folder / "crates/low/src/lib.rt", place.folder / "crates/other/specs/S.antt"
    sources = "the program was built of other sources"

    def write_at_same_time():
        times = source.stat()
        source.write_text("low 3\n")
        os.utime(source, ns=(times.st_atime_ns, times.st_mtime_ns))

    def replace_by_older():
        place.write("older", "low 1\n")
        os.utime(place.folder / "older", (0, 0))
        (place.folder / "older").rename(source)

    def change_kit():
        place.write("kit/rt.version", "kit 2\n")
        place.write("kit/new", FAKE_RT)
        (place.folder / "kit/new").chmod(0o755)
        (place.folder / "kit/new").rename(place.rt)

    yield "a text of that size and time", write_at_same_time, ["low 3", *FIRST[1:]], sources
    yield "another text", lambda: source.write_text("low 2 longer\n"), ["low 2 longer", *FIRST[1:]], sources
    yield "an older file", replace_by_older, FIRST, sources
    yield "a new file", lambda: place.write("crates/other/specs/S.antt", "S\n"), FIRST, sources
    yield "a file less", other.unlink, FIRST, sources
    yield "crates.txt", lambda: place.write("crates.txt", "low:\nother: low\nmiddle: low\nfusion: middle\n"), FIRST, sources
    yield "another kit", change_kit, FIRST, "the program was built by another kit"
    unknown = "what the program was built of isn't known"
    yield "another program", lambda: place.program.write_text("#!/bin/sh\necho other\n"), FIRST, unknown
    yield "no record", (place.folder / "crates/fusion/out/built").unlink, FIRST, None
    both = lambda: [file.unlink() for file in (place.folder / "crates/fusion/out").glob("built*")]
    yield "neither record nor times", both, FIRST, unknown
    yield "no program", place.program.unlink, FIRST, "the program isn't built"


def test_stale(_):
    """After each edit the program is built anew; what is no edit of a source leaves it, and calls no `rt`."""
    with tempfile.TemporaryDirectory() as name:
        place = Clone(name)
        place.start()
        for edit, make, crates, reason in edits(place):
            make()
            if reason is None:
                continue
            part = ["bin/decode-part", "graph", "01", "part"]
            refused = (125, "", [f"bin/fusion: {reason}: run bin/build-program"])
            before = place.builds()
            yield f"{edit}: a part isn't decoded", place.run(*part) == refused
            yield f"{edit}: nor checked", place.run("bin/check-part", *part[1:]) == refused
            yield f"{edit}: nothing is built for it", place.builds() == before
            status, said, lines = place.start()
            yield f"{edit}: built anew", (status, said, lines[:1]) == (0, place.prints(*crates), [f"bin/fusion: {reason}"])
            yield f"{edit}: once", place.builds() == before + 1 and place.start() == (0, said, [])
        before = place.calls()
        for name in ["crates/low/out/new", "crates/low/new.log", "crates/low/__pycache__/new", "docs/new", "new"]:
            place.write(name, "new\n")
            yield f"{name} is no source", place.start() == (0, place.prints(*FIRST), [])
        yield "what is no source: rt isn't called", place.calls() == before
        (place.folder / "crates/low/src/lib.rt").touch()
        yield "another time of the same text", place.start() == (0, place.prints(*FIRST), [])
        before = place.calls()
        yield "another time of the same text: learned", place.start()[0] == 0 and place.calls() == before
        yield "without the kit", place.start(kit="none") == (0, place.prints(*FIRST), [])
        place.write("crates/low/src/lib.rt", "low 4\n")
        status, said, lines = place.start(kit="none")
        yield "another text without the kit", (status, said) == (125, "") and lines[0].endswith("of other sources")
        place.write("kit/rt.broken", "low")
        status, said, lines = place.start()
        yield "another text that can't be proved", (status, said, lines[-2]) == (125, "", "fn low::f: not proved")
        place.write("crates/low/src/lib.rt", "low 1\n")
        yield "the old text, which rt can't prove now", place.start()[:2] == (125, "")
        (place.folder / "kit/rt.broken").unlink()
        yield "the old text", place.start()[:2] == (0, place.prints(*FIRST))


def test_copied_clone(_):
    """A copy of a clone runs its program while it has the same sources, and not that of other ones."""
    with tempfile.TemporaryDirectory() as name:
        place = Clone(Path(name) / "first")
        place.start()
        shutil.copytree(place.folder, Path(name) / "second")
        copy = Clone.__new__(Clone)
        copy.__dict__ = {**place.__dict__, "folder": (Path(name) / "second").resolve()}
        yield "a copy", copy.start(kit="../first/kit") == (0, place.prints(*FIRST), [])
        copy.write("crates/middle/src/lib.rt", "middle 2\n")
        yield "a copy at another commit", copy.start()[:2] == (0, place.prints("low 1", "middle 2", "fusion 1"))
        yield "the first one", place.start() == (0, place.prints(*FIRST), [])


def test_two_starts(_):
    """Two starts at once build once; one that is killed leaves the build to the next."""
    with tempfile.TemporaryDirectory() as name:
        place = Clone(name)
        place.write("kit/rt.before", 'while [ ! -e "$0.go" ]; do sleep 0.02; done\n')
        waits = b"bin/fusion: another start is building the program; waiting for it\n"
        first = place.begin("first")
        yield "two starts: the first one builds", wait_until(lambda: BUILD_CALLS[0] in "\n".join(place.calls()))
        second = place.begin("second")
        yield "two starts: the second one waits", wait_until(lambda: waits in (place.folder / "second").read_bytes())
        place.write("kit/rt.go", "")
        answers = [start.communicate(timeout=PATIENCE)[0].decode() for start in [first, second]]
        yield "two starts: both run the program", answers == [place.prints(*FIRST)] * 2
        yield "two starts: built once", place.builds() == 1
    with tempfile.TemporaryDirectory() as name:
        place = Clone(name)
        place.write("kit/rt.before", 'while [ ! -e "$0.go" ]; do sleep 0.02; done\n')
        killed = place.begin("killed")
        yield "killed start: it builds", wait_until(lambda: BUILD_CALLS[0] in "\n".join(place.calls()))
        os.killpg(killed.pid, signal.SIGKILL)
        killed.communicate()
        place.write("kit/rt.go", "")
        yield "killed start: the next one builds", place.start()[:2] == (0, place.prints(*FIRST))


def test_edit_while_building(_):
    with tempfile.TemporaryDirectory() as name:
        place = Clone(name)
        place.write("kit/rt.after", 'rm "$0.after"; echo low 2 > low/src/lib.rt\n')
        status, said, lines = place.start()
        yield "edit while building", (status, said) == (0, place.prints("low 2", *FIRST[1:]))
        yield "edit while building: said", "bin/fusion: the sources have changed meanwhile; once more" in lines
        yield "edit while building: built twice", place.builds() == 2


def test_version(_):
    """`--version` prints what the program is built of; the checksums and the commit are those that other tools print."""
    with tempfile.TemporaryDirectory() as name:
        place = Clone(name)
        git = ["git", "-c", "user.name=a", "-c", "user.email=a@a"]
        shell = lambda command: place.run("bash", "-c", command)[1].split()[0]
        place.start()
        yield "version without a commit", "commit unknown\n" in place.run("bin/fusion", "--version")[1]
        for words in [["init", "-q"], ["add", "."], ["commit", "-q", "-m", "all"]]:
            place.run(*git, *words)
        for file in (place.folder / "crates/fusion/out").glob("built*"):
            file.unlink()
        place.start()
        checksum = shell("git ls-files -z crates crates.txt | xargs -0 sha256sum | sha256sum")
        head, of_program = shell("git rev-parse HEAD"), shell("sha256sum crates/fusion/out/fusion")
        own = "low 1 middle 1 fusion 1 : --version"
        wanted = text(own, f"checksum {checksum}", f"commit {head}", "kit kit 1", f"program {of_program}")
        yield "version", place.run("bin/fusion", "--version") == (0, wanted, [])
        yield "checksum of the sources", place.run("bin/build-program", "--checksum") == (0, f"{checksum}\n", [])
        place.write("crates/low/src/lib.rt", "low 2\n")
        place.start()
        yield "version of changed sources", f"commit {head} and changes\n" in place.run("bin/fusion", "--version")[1]


def test_record(_):
    """A program that `rt ci` has built is taken for that of the sources that it was given, and of no others."""
    with tempfile.TemporaryDirectory() as name:
        place = Clone(name)
        place.start()
        out = place.folder / "crates/fusion/out"
        checksum = place.run("bin/build-program", "--checksum")[1].strip()
        for file in out.glob("built*"):
            file.unlink()
        place.write("crates/low/src/lib.rt", "low 2\n")
        status, _, lines = place.run("bin/build-program", "--record", checksum)
        yield "record of other sources", status == 1 and not list(out.glob("built*")) and "nothing is recorded" in lines[0]
        place.write("crates/low/src/lib.rt", "low 1\n")
        yield "record", place.run("bin/build-program", "--record", checksum) == (0, "", [])
        yield "record: the program runs", place.start() == (0, place.prints(*FIRST), []) and place.builds() == 1


def test_try(_):
    """`bin/try` runs `rt try` on the files of examples/line, and says that it is unproved; nothing else calls `rt try`."""
    with tempfile.TemporaryDirectory() as name:
        place = Clone(name)
        line, files = f"{place.folder}/examples/line", "--graph graph.json --shots shots.01 --format 01"
        status, said, lines = place.run("bin/try")
        yield "try: status and output", (status, said) == (0, "fusion\n")
        data = f"--data graph.json={line}/graph.json --data shots.01={line}/shots.01"
        yield "try: what it asks for", place.calls() == [f"try --steps 1 {data} -- decode {files}"]
        yield "try: unproved", len(lines) == 3 and all(each.startswith("bin/try: UNPROVED: ") for each in lines[:2])
        shown = "bin/fusion decode --graph examples/line/graph.json --shots examples/line/shots.01 --format 01"
        yield "try: what to run next", lines[2].split(maxsplit=1)[1] == shown and shown in (program.ROOT / "README.md").read_text()
        yield "try: with words", place.run("bin/try", "decode")[:2] == (6, "") and len(place.calls()) == 1
        no_kit = ["bin/try: there is no command rt: the kit isn't installed, or isn't on the PATH"]
        yield "try: without the kit", place.run("bin/try", kit="none") == (125, "", no_kit)
        place.write("kit/rt.broken", "")
        status, said, lines = place.run("bin/try")
        yield "try: that fails", status == 2 and lines[1:] == ["what rt says of it", "bin/try: rt try failed, with status 2"]
        (place.folder / "kit/rt.broken").unlink()
        place.start()
        yield "try: nothing else", sum(call.startswith("try") for call in place.calls()) == 2


def test_costs(_):
    """The progress knows what each crate costs, if docs/crates.md has its table."""
    loader = SourceFileLoader("build_program", str(program.ROOT / "bin/build-program"))
    build = module_from_spec(spec_from_loader(loader.name, loader))
    loader.exec_module(build)
    yield "costs in docs/crates.md", not build.costs() or build.costs().keys() >= build.crates_used().keys()


TESTS = [
    test_costs,
    test_first_start,
    test_stale,
    test_copied_clone,
    test_two_starts,
    test_edit_while_building,
    test_version,
    test_record,
    test_try,
]
