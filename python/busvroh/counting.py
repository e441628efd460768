"""Counts logical errors: shots whose correction flips other observables than were flipped.

    count = count_errors(decoding, parts)
    print(count.table())
"""

import csv
import hashlib
import io
import json
import math
import time
from collections import Counter, deque, namedtuple
from dataclasses import dataclass, replace
from itertools import islice, zip_longest
from statistics import NormalDist

from busvroh.bits import bytes_of
from busvroh.decoding import Part

FORMATS = ("01", "b8")
CONFIDENCE = 0.95
CSV_HEADER = "     shots,    errors,  discards, seconds,decoder,strong_id,json_metadata,custom_counts\n"

# A part of the shots, and the observables that were flipped in each, packed.
TrueFlips = namedtuple("TrueFlips", "part bits")


class ShotsError(ValueError):
    """A file that doesn't hold what it should. The text names the shot."""


# Shots and flips.


def records(file, form, width):
    """The records of a file as numbers whose bit k is value k, of `width` values each."""
    if form == "01":
        return records_01(file, width)
    if width == 0:
        raise ShotsError("without detectors or observables, b8 doesn't say how many shots there are")
    return records_b8(file, width)


def records_01(file, width):
    for number, line in enumerate(file):
        digits = line.rstrip(b"\r\n")
        if len(digits) != width or digits.strip(b"01"):
            raise ShotsError(f"{file.name}: shot {number}: not {width} digits 0 or 1")
        yield int(digits[::-1] or b"0", 2)


def records_b8(file, width):
    size, number = bytes_of(width), 0
    while record := file.read(size):
        value = int.from_bytes(record, "little")
        if len(record) < size or value >> width:
            raise ShotsError(f"{file.name}: shot {number}: not {width} bits")
        yield value
        number += 1


def pairs_of_files(shots, flips):
    """The detectors and the flips of each shot, of two iterators that have to be as long."""
    for number, (detectors, flipped) in enumerate(zip_longest(shots, flips)):
        if detectors is None or flipped is None:
            raise ShotsError(f"{number} {'shots' if detectors is None else 'lists of flips'}, and more of the other")
        yield detectors, flipped


def split(values, detectors):
    """The same of records that have the observables after the detectors."""
    mask = (1 << detectors) - 1
    return ((value & mask, value >> detectors) for value in values)


def parts_of(decoding, pairs):
    """Shots and their flips in parts that can be decoded."""
    pairs, shots = iter(pairs), -1
    while shots:
        bits, true, shots = bytearray(), bytearray(), 0
        for shots, (detectors, flipped) in enumerate(islice(pairs, decoding.part_shots), 1):
            bits += detectors.to_bytes(decoding.shot_bytes, "little")
            true += flipped.to_bytes(decoding.observables.size, "little")
        if shots:
            yield TrueFlips(Part(shots, bits), true)


# Counts.


@dataclass
class Count:
    """How many shots were decoded, how many of them discarded as not sure enough, and of the others how many wrongly."""

    shots: int = 0
    errors: int = 0
    odd: int = 0
    seconds: float = 0
    discards: int = 0

    @property
    def kept(self):
        return self.shots - self.discards

    @property
    def rate(self):
        return self.errors / self.kept if self.kept else math.nan

    def interval(self):
        """Bounds of the rate by Wilson's score, which hold it with a probability of 95 %."""
        if self.kept == 0:
            return 0.0, 1.0
        z2 = NormalDist().inv_cdf((1 + CONFIDENCE) / 2) ** 2
        spread = math.sqrt(z2 * (self.rate * (1 - self.rate) + z2 / (4 * self.kept)) / self.kept)
        middle, divisor = self.rate + z2 / (2 * self.kept), 1 + z2 / self.kept
        return max(0.0, (middle - spread) / divisor), min(1.0, (middle + spread) / divisor)

    def table(self):
        low, high = self.interval()
        rows = [
            ("shots", f"{self.shots}"),
            *([("kept", f"{self.kept}")] if self.discards else []),
            ("logical errors", f"{self.errors}"),
            ("rate", f"{self.rate:.3g}, from {low:.3g} to {high:.3g} (95 %)"),
            ("odd shots", f"{self.odd}"),
            ("seconds", f"{self.seconds:.2f}"),
        ]
        return "".join(f"{name:<16}{value}\n" for name, value in rows)

    def csv_row(self, metadata, identity):
        """A row in sinter's columns. Rows of one identity, a text, are counts of the same thing."""
        name = hashlib.sha256(identity.encode(errors="surrogateescape")).hexdigest()
        counts = json.dumps({"odd": self.odd}, separators=(",", ":")) if self.odd else ""
        line = io.StringIO()
        words = [json.dumps(metadata, separators=(",", ":"), sort_keys=True), counts]
        csv.writer(line, lineterminator="\n").writerow(["busvroh", name, *words])
        seconds = round(self.seconds, 3 if self.seconds < 1 else 1)
        return f"{self.shots:>10},{self.errors:>10},{self.discards:>10},{seconds:>8},{line.getvalue()}"


class Surest:
    """How many shots there were of each gap, and how many of them were decoded wrongly."""

    def __init__(self):
        self.shots, self.errors = Counter(), Counter()

    def add(self, gap, is_wrong):
        self.shots[gap] += 1
        self.errors[gap] += is_wrong

    def count(self, whole, share):
        """The count where the least sure shots are discarded. Shots of one gap are all kept or all discarded; at least the
        share is kept."""
        errors, left = whole.errors, math.floor(round((1 - share) * whole.shots, 6))
        discards = 0
        for gap in sorted(self.shots):
            if discards + self.shots[gap] > left:
                break
            discards += self.shots[gap]
            errors -= self.errors[gap]
        return replace(whole, errors=errors, discards=discards)


def count_errors(decoding, parts, report=None, surest=None):
    """Decodes parts of shots, and compares the flips. `report` is called with the count after each part, and `surest` is
    given the gap of each shot, if the decoding finds gaps."""
    count, begun, true_flips, size = Count(), time.monotonic(), deque(), decoding.observables.size

    def without_flips():
        for part, bits in parts:
            true_flips.append(bits)
            yield part

    for flips in decoding.flips(without_flips()):
        true = true_flips.popleft()
        count.shots += flips.shots
        wrong = [flips.bits[k : k + size] != true[k : k + size] for k in range(0, len(true), size or 1)]
        count.errors += sum(wrong)
        if surest:
            for each in zip(flips.gaps, wrong):
                surest.add(*each)
        count.odd += flips.odd
        count.seconds = time.monotonic() - begun
        if report:
            report(count)
    return count
