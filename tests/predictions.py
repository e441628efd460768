"""States in plain loops what the observables of a text are, and the bits that the corrections of a report flip of them.

Nothing here is shared with the program. An observable is a list of edge numbers, and a bit is set where an odd number of
the edges of a correction are listed. The five formats are those of Stim's result files.
"""

from readers import Refused, is_count, read_json

MOST_OBSERVABLES_BYTES = 268_435_456
MOST_OBSERVABLES = 1024
MOST_RUN = 255


def read_observables(text, graph):
    """The lists of edges of the observables that a JSON object has."""
    if len(text) > MOST_OBSERVABLES_BYTES:
        raise Refused("TooLong observables")
    try:
        value = read_json(text)
    except Refused:
        raise Refused("ObservablesNotJson") from None
    if not isinstance(value, dict) or "observables" not in value:
        raise Refused("ObservablesMissing")
    observables = value["observables"]
    if not isinstance(observables, list):
        raise Refused("ObservablesNotWhole")
    for j, edges in enumerate(observables):
        if not isinstance(edges, list) or not all(is_count(e) for e in edges):
            raise Refused(f"ObservablesNotWhole {j}")
    if len(observables) > MOST_OBSERVABLES:
        raise Refused("TooManyObservables")
    for j, edges in enumerate(observables):
        if any(e >= len(graph.edges) for e in edges):
            raise Refused(f"ObservableEdgeOutOfRange {j}")
    for j, edges in enumerate(observables):
        if len(set(edges)) < len(edges):
            raise Refused(f"ObservableEdgeRepeated {j}")
    return observables


def flips_of(observables, row):
    """Whether the correction of a row flips each observable; a row without a correction flips none."""
    edges = row[1] if row[0] == "best" else []
    return [sum(e in listed for e in edges) % 2 == 1 for listed in observables]


def text_01(flips):
    return "".join("1" if flip else "0" for flip in flips).encode() + b"\n"


def text_b8(flips):
    octets = [flips[start : start + 8] for start in range(0, len(flips), 8)]
    return bytes(sum(flip << k for k, flip in enumerate(octet)) for octet in octets)


def text_dets(flips):
    return "".join(["shot", *(f" L{j}" for j, flip in enumerate(flips) if flip)]).encode() + b"\n"


def text_hits(flips):
    return ",".join(str(j) for j, flip in enumerate(flips) if flip).encode() + b"\n"


def text_r8(flips):
    """How many zeros stand before each one, the end counting as a one; a run of 255 goes on in the next byte."""
    out, zeros = bytearray(), 0
    for flip in [*flips, True]:
        if not flip:
            zeros += 1
            continue
        out += bytes([MOST_RUN]) * (zeros // MOST_RUN) + bytes([zeros % MOST_RUN])
        zeros = 0
    return bytes(out)


TEXTS = {"01": text_01, "b8": text_b8, "dets": text_dets, "hits": text_hits, "r8": text_r8}


def predictions_text(observables, rows, name):
    """What `predict` writes for the rows of a report."""
    return b"".join(TEXTS[name](flips_of(observables, row)) for row in rows)
