"""The commands of the package: `python3 -m busvroh --help`."""

import argparse
import contextlib
import math
import os
import shlex
import sys
import tempfile
import time
from pathlib import Path

from busvroh import counting, threshold
from busvroh.circuits import surface_circuit
from busvroh.codes import CODES
from busvroh.correlations import RULES
from busvroh.decoding import Settings
from busvroh.gaps import Gaps
from busvroh.models import DEFAULT_SCALE, ModelError
from busvroh.program import NOT_BUILT, ProgramMissing, RunError, find_program
from busvroh.rows import ReportError
from busvroh.two_passes import decoding_of

EXAMPLES = {
    "sample": "--code surface-circuit --distance 3 --rounds 3 --rate 0.005 --shots 1000 sample",
    "decode": "--dem sample/model.dem --shots sample/shots.b8 --correlated",
    "count": "--dem sample/model.dem --shots sample/shots.b8 --flips sample/flips.01",
    "gap": "--dem sample/model.dem --shots sample/shots.b8",
    "threshold": "--distances 3,5 --shots 100 threshold.svg",
}
PROGRESS_SECONDS = 5
ALL_CODES = {**CODES, "surface-circuit": surface_circuit}
DEFAULT_RATES = {
    "repetition": "0.04,0.06,0.08,0.1,0.12,0.14,0.16",
    "surface": "0.01,0.015,0.02,0.025,0.03,0.035,0.04",
}


def whole_number(least):
    def number(text):
        value = int(text)
        if value < least:
            raise argparse.ArgumentTypeError(f"{value} is below {least}")
        return value

    return number


def rate(text):
    number = float(text)
    if not 0 <= number <= 1:
        raise argparse.ArgumentTypeError(f"{text} isn't from 0 to 1")
    return number


def several(kind):
    """A list of values, parted by commas."""
    return lambda text: [kind(each) for each in text.split(",")]


def add_command(commands, name, run, text):
    texts = {"description": f"{text[0].upper()}{text[1:]}.", "epilog": f"example:\n  python3 -m busvroh {name} {EXAMPLES[name]}"}
    formatter = argparse.RawDescriptionHelpFormatter
    command = commands.add_parser(name, help=text, formatter_class=formatter, **texts)
    command.set_defaults(run=run, refuse=command.error)
    return command


def share(text):
    number = float(text)
    if not 0 < number <= 1:
        raise argparse.ArgumentTypeError(f"{text} isn't above 0 and at most 1")
    return number


def add_program(command):
    command.add_argument("--program", metavar="NAME", help="fusion (default: by FUSION, or of this repository)")


def add_model(command):
    """What all commands take that decode files."""
    command.add_argument("--dem", required=True, metavar="NAME", help="the detector error model")
    command.add_argument("--shots", required=True, metavar="NAME", help="the detectors; - is standard input")
    command.add_argument("--format", choices=counting.FORMATS, help="of the shots (default: by the name's ending)")
    command.add_argument("--scale", type=float, default=DEFAULT_SCALE, help=f"of the weights (default: {DEFAULT_SCALE})")
    command.add_argument("--skip-hyperedges", action="store_true", help="leave out parts of more than two detectors")
    twice = "decode twice, the second time with weights by the errors of which a part is in the first correction"
    command.add_argument("--correlated", action="store_true", help=twice)
    command.add_argument("--rule", choices=RULES, default=RULES[0], help=f"for these weights (default: {RULES[0]})")
    add_program(command)


def add_parts(command):
    """What those take that decode parts of a file at once."""
    parts = "parts of the shots that are decoded at once (default: 1)"
    command.add_argument("--processes", type=whole_number(1), default=1, metavar="N", help=parts)
    below = "decode only those twice whose gap isn't known to be at least X, as the logarithm of odds"
    command.add_argument("--second-pass-below", type=float, metavar="X", help=below)


def settings_of(asked):
    fusion, kept = find_program(asked.program), vars(asked)
    if (below := kept.get("second_pass_below")) is None:
        below = math.inf
    elif not asked.correlated or kept.get("keep"):
        asked.refuse("--second-pass-below goes with --correlated, and without --keep")
    processes = kept.get("processes", 1)
    words = {"correlated": asked.correlated, "rule": asked.rule, "second_pass_below": below}
    return Settings(fusion, processes, asked.scale, skip_hyperedges=asked.skip_hyperedges, **words)


def model_text(asked):
    with open(asked.dem, encoding="utf-8", errors="surrogateescape") as model:
        return model.read()


# sample


def add_sample(commands):
    text = "draw shots of a code: its detector error model, the detectors that fired, and the true flips"
    sample = add_command(commands, "sample", write_sample, text)
    sample.add_argument("--code", required=True, choices=ALL_CODES)
    sample.add_argument("--distance", required=True, type=whole_number(2), metavar="D")
    sample.add_argument("--rounds", required=True, type=whole_number(0), metavar="T")
    flip = "of a flip of a data qubit in a round; of what goes wrong with each step of a circuit"
    sample.add_argument("--rate", required=True, type=rate, metavar="P", help=flip)
    sample.add_argument("--measurement-rate", type=rate, metavar="Q", help="of a wrong outcome (default: P)")
    sample.add_argument("--shots", required=True, type=whole_number(0), metavar="N")
    sample.add_argument("--seed", default="0", help="the same seed gives the same shots (default: 0)")
    sample.add_argument("folder", type=Path, help="gets model.dem, shots.b8 and flips.01")


def write_sample(asked):
    code = ALL_CODES[asked.code](asked.distance, asked.rounds, asked.rate, asked.measurement_rate)
    asked.folder.mkdir(parents=True, exist_ok=True)
    (asked.folder / "model.dem").write_text(code.model_text())
    with open(asked.folder / "shots.b8", "wb") as shots, open(asked.folder / "flips.01", "w") as flips:
        for detectors, flipped in code.shots(asked.shots, asked.seed):
            shots.write(detectors.to_bytes((code.detectors + 7) // 8, "little"))
            flips.write("".join("01"[flipped >> k & 1] for k in range(code.observables)) + "\n")


# decode


def add_decode(commands):
    text = "decode shots, and print the observables that each correction flips"
    decode = add_command(commands, "decode", decode_file, text)
    add_model(decode)
    add_parts(decode)
    decode.add_argument("--to", choices=counting.FORMATS, default="01", help="the format of the flips (default: 01)")


def decode_file(asked):
    settings = settings_of(asked)
    decoding = decoding_of(model_text(asked).splitlines(), settings)
    count, size = decoding.observables.count, decoding.observables.size
    with open_shots(asked.shots) as shots:
        records = counting.records(shots, asked.format or ending(asked.shots, "--format"), decoding.detectors)
        parts = (true.part for true in counting.parts_of(decoding, ((detectors, 0) for detectors in records)))
        for flips in decoding.flips(parts):
            sys.stdout.buffer.write(flips.bits if asked.to == "b8" else digits(flips.bits, size, count))
            sys.stdout.flush()


def digits(bits, size, count):
    """Packed flips as a line of digits for each shot."""
    records = (int.from_bytes(bits[k : k + size], "little") for k in range(0, len(bits), size or 1))
    return "".join("".join("01"[flips >> k & 1] for k in range(count)) + "\n" for flips in records).encode()


# gap


def add_gap(commands):
    text = "print how sure each decoding is: the least weights of corrections that flip an observable, and that don't"
    gap = add_command(commands, "gap", print_gaps, text)
    add_model(gap)
    gap.add_argument("--observable", type=whole_number(0), metavar="K", help="from 0; not needed if there is one")
    bound = "print a lower bound of the gap by one decode and its cuts, and the shot that certifies it"
    gap.add_argument("--bound", action="store_true", help=bound)
    kept = "keep the graphs, the shots and the reports in this folder, as `fusion check` takes them"
    gap.add_argument("--certificates", type=Path, metavar="FOLDER", help=kept)


def print_gaps(asked):
    if asked.bound and asked.correlated:
        asked.refuse("--bound is of one pass, so it goes without --correlated")
    settings = settings_of(asked)
    gaps = Gaps(model_text(asked).splitlines(), settings, asked.observable)
    with contextlib.ExitStack() as opened:
        folder = asked.certificates or Path(opened.enter_context(tempfile.TemporaryDirectory()))
        folder.mkdir(parents=True, exist_ok=True)
        shots = opened.enter_context(open_shots(asked.shots))
        records = counting.records(shots, asked.format or ending(asked.shots, "--format"), gaps.detectors)
        keep = asked.certificates is not None
        lines = bound_lines(gaps, records, folder, keep) if asked.bound else gap_lines(gaps, records, folder, keep)
        for line in lines:
            print(*map(word, line))


def word(value):
    """A number, a yes or no, or a text as it is printed."""
    if value is None:
        return "-"
    return value if isinstance(value, str) or value == math.inf else int(value)


def gap_lines(gaps, records, folder, keep):
    print("shot flips weight-0 weight-1 gap")
    for shot, each in enumerate(gaps.of_shots(records, folder, keep)):
        yield shot, None if each.is_odd else each.flips, *each.weights, each.gap


def bound_lines(gaps, records, folder, keep):
    print("shot flips weight bound certified-by")
    for shot, each in enumerate(gaps.bounds_of_shots(records, folder, keep)):
        yield shot, each.flips, each.weight, each.bound, each.shot


# count


def add_count(commands):
    text = "decode shots, and count those whose correction flips other observables than were flipped"
    count = add_command(commands, "count", count_files, text)
    add_model(count)
    true = count.add_mutually_exclusive_group(required=True)
    true.add_argument("--flips", metavar="NAME", help="the observables that were flipped in each shot")
    true.add_argument("--appended", action="store_true", help="the shots have the observables after the detectors")
    endings = "(default: by the name's ending)"
    count.add_argument("--flips-format", choices=counting.FORMATS, help=f"of the flips {endings}")
    count.add_argument("--csv", metavar="NAME", help="add a row in sinter's columns to this file; - is standard output")
    add_parts(count)
    surest = "count errors among this share of the shots alone, those of the greatest gaps"
    count.add_argument("--keep", type=share, metavar="FRACTION", help=surest)


def count_files(asked):
    settings, text = settings_of(asked), model_text(asked)
    decoding = (Gaps if asked.keep else decoding_of)(text.splitlines(), settings)
    surest = counting.Surest() if asked.keep else None
    with contextlib.ExitStack() as files:
        parts = counting.parts_of(decoding, pairs(asked, decoding, files))
        count = counting.count_errors(decoding, parts, progress(), surest)
    if surest:
        count = surest.count(count, asked.keep)
    print(count.table(), end="", flush=True)
    if asked.csv:
        write_csv(asked.csv, count.csv_row({"dem": asked.dem, **told_of(asked)}, identity(asked, text)))


def told_of(asked):
    """What a row of counts tells of how they came about."""
    told = {"rule": asked.rule, "second_pass_below": asked.second_pass_below} if asked.correlated else {}
    return {name: value for name, value in {**told, "keep": asked.keep}.items() if value is not None}


def identity(asked, text):
    """What tells counts of different things apart."""
    told = "".join(f"{name} {value} " for name, value in told_of(asked).items())
    return f"{told}{asked.scale} {asked.skip_hyperedges} {text}"


def pairs(asked, decoding, files):
    """The detectors and flips of each shot, from files that are closed with `files`."""
    detectors, observables = decoding.detectors, decoding.observables.count
    shots = files.enter_context(open_shots(asked.shots))
    form = asked.format or ending(asked.shots, "--format")
    if asked.appended:
        return counting.split(counting.records(shots, form, detectors + observables), detectors)
    flips = files.enter_context(open(asked.flips, "rb"))
    flips_form = asked.flips_format or ending(asked.flips, "--flips-format")
    of_shots, of_flips = counting.records(shots, form, detectors), counting.records(flips, flips_form, observables)
    return counting.pairs_of_files(of_shots, of_flips)


def open_shots(name):
    return contextlib.nullcontext(sys.stdin.buffer) if name == "-" else open(name, "rb")


def ending(name, option):
    form = Path(name).suffix[1:]
    if form not in counting.FORMATS:
        raise counting.ShotsError(f"{name}: name its format by {option}")
    return form


def progress():
    """Tells every few seconds how far a count is."""
    told = time.monotonic()

    def report(count):
        nonlocal told
        if time.monotonic() - told >= PROGRESS_SECONDS:
            told = time.monotonic()
            so_far = f"{count.shots} shots, {count.errors} logical errors, {count.seconds:.0f} s"
            print(so_far, file=sys.stderr, flush=True)

    return report


def write_csv(name, row):
    if name == "-":
        print(counting.CSV_HEADER, row, sep="", end="")
        return
    with open(name, "a") as file:
        file.write(row if file.tell() else counting.CSV_HEADER + row)


# threshold


def add_threshold(commands):
    text = "draw how often repetition and surface codes of several distances fail at several rates, as SVG"
    draw = add_command(commands, "threshold", draw_threshold, text)
    lists = [("distances", whole_number(2), "D,..", "3,5,7")]
    lists += [(f"{code}-rates", rate, "P,..", rates) for code, rates in DEFAULT_RATES.items()]
    for name, kind, letters, default in lists:
        help_text = f"(default: {default})"
        draw.add_argument(f"--{name}", type=several(kind), default=default, metavar=letters, help=help_text)
    draw.add_argument("--shots", type=whole_number(1), default=1000, metavar="N", help="of each point (default: 1000)")
    draw.add_argument("--seed", default="0", help="the same seed gives the same shots (default: 0)")
    draw.add_argument("picture", type=Path, help="gets the curves; standard output gets the counts in sinter's columns")
    add_program(draw)


def draw_threshold(asked):
    settings, points = Settings(find_program(asked.program)), []
    print(counting.CSV_HEADER, end="", flush=True)
    for name, rates in {"repetition": asked.repetition_rates, "surface": asked.surface_rates}.items():
        for distance in asked.distances:
            for each in rates:
                points.append(threshold.measured(name, distance, each, (asked.shots, asked.seed), settings))
                told = {"code": name, "d": distance, "p": each, "rounds": distance}
                print(points[-1].count.csv_row(told, f"{told}"), end="", flush=True)
    asked.picture.write_text(threshold.picture(points, shlex.join(["python3", "-m", "busvroh", *sys.argv[1:]])))


def main():
    words = argparse.ArgumentParser(prog="python3 -m busvroh", description="Tools around fusion.")
    commands = words.add_subparsers(required=True, metavar="COMMAND")
    for add in (add_sample, add_decode, add_count, add_gap, add_threshold):
        add(commands)
    asked = words.parse_args()
    try:
        asked.run(asked)
    except BrokenPipeError:
        # Who reads has had enough. What is still in memory for them goes nowhere.
        os.dup2(os.open(os.devnull, os.O_WRONLY), sys.stdout.fileno())
        return 1
    except ProgramMissing as missing:
        print(f"busvroh: {missing}", file=sys.stderr)
        return NOT_BUILT
    except (ModelError, RunError, ReportError, counting.ShotsError, OSError) as error:
        print(f"busvroh: {error}", file=sys.stderr)
        return 1
    return 0


if __name__ == "__main__":
    sys.exit(main())
