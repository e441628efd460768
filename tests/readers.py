"""Reads graphs, plans, shots and reports, each by a plain walk over its whole text, or names the first rule that it breaks.

Nothing here is shared with the program. JSON is RFC 8259; the shots are those of Stim's result formats `01`, `b8`, `dets`,
`hits` and `r8`, and Fusion Blossom's syndromes, a JSON value to a line; the report is the text of docs/reports.md.
"""

import json
import math
import re
from collections import namedtuple

MOST_GRAPH_BYTES = 2**28
MOST_PLAN_BYTES = 2**28
MOST_LINE_BYTES = 2**28
MOST_REPORT_BYTES = 2**30
MOST_VERTICES = 1_048_576
MOST_EDGES = 4_194_304
MOST_WEIGHT = 2**30
MOST_UNITS = 4096
MOST_NESTING = 127


class Refused(Exception):
    """A text that breaks a rule: the first one's name and place."""


# JSON.


class Float(float):
    """A JSON number that isn't held as a whole number."""


def whole_or_float(digits):
    number = int(digits) if len(digits) < 40 else None
    if digits == "-0" or number is None or not -(2**63) <= number < 2**64:
        return finite_float(digits)
    return number


def finite_float(digits):
    number = Float(digits)
    if math.isinf(number):
        raise ValueError("a number beyond all floats")
    return number


def no_constant(word):
    raise ValueError(word)


def nesting(text):
    """The most lists and objects that are open at one place of a JSON text."""
    most = opened = 0
    in_string = escaped = False
    for c in text:
        if escaped:
            escaped = False
        elif in_string:
            escaped = c == "\\"
            in_string = c != '"'
        else:
            in_string = c == '"'
            opened += (c in "[{") - (c in "]}")
            most = max(most, opened)
    return most


def holds_lone_surrogate(value):
    waiting = [value]
    while waiting:
        each = waiting.pop()
        if isinstance(each, str) and any("\ud800" <= c <= "\udfff" for c in each):
            return True
        if isinstance(each, dict):
            waiting.extend(each.keys())
            waiting.extend(each.values())
        if isinstance(each, list):
            waiting.extend(each)
    return False


def read_json(text):
    """The value of a JSON text, of duplicate members the last."""
    kept = []

    def keep(pairs):
        kept.append(pairs)
        return dict(pairs)

    try:
        value = json.loads(
            text.decode("utf-8"),
            parse_int=whole_or_float,
            parse_float=finite_float,
            parse_constant=no_constant,
            object_pairs_hook=keep,
        )
    except (ValueError, RecursionError):
        raise Refused("NotJson") from None
    members = [[name, part] for pairs in kept for name, part in pairs]
    if holds_lone_surrogate([value, members]) or nesting(text.decode("utf-8")) > MOST_NESTING:
        raise Refused("NotJson")
    return value


def is_whole(value):
    return isinstance(value, int) and not isinstance(value, bool)


def is_count(value):
    return is_whole(value) and value >= 0


# The graph.

Graph = namedtuple("Graph", "vertices edges virtuals")


def detectors(graph):
    """The vertices that aren't virtual, in rising order; detector k is the k-th of them."""
    virtuals = set(graph.virtuals)
    return [v for v in range(graph.vertices) if v not in virtuals]


def is_edge(value):
    return (
        isinstance(value, list)
        and len(value) == 3
        and is_count(value[0])
        and is_count(value[1])
        and is_whole(value[2])
    )


def read_graph(text):
    """The graph of a solver initializer."""
    if len(text) > MOST_GRAPH_BYTES:
        raise Refused("TooLong graph")
    value = read_json(text)
    for member in ["vertex_num", "weighted_edges", "virtual_vertices"]:
        if not isinstance(value, dict) or member not in value:
            raise Refused(f"Missing {member}")
    vertices, edges, virtuals = (value[m] for m in ["vertex_num", "weighted_edges", "virtual_vertices"])
    if not is_count(vertices):
        raise Refused("NotWhole vertex_num")
    if not isinstance(edges, list):
        raise Refused("NotWhole weighted_edges")
    if not isinstance(virtuals, list):
        raise Refused("NotWhole virtual_vertices")
    for i, edge in enumerate(edges):
        if not is_edge(edge):
            raise Refused(f"NotWhole weighted_edges {i}")
    for i, vertex in enumerate(virtuals):
        if not is_count(vertex):
            raise Refused(f"NotWhole virtual_vertices {i}")
    return build_graph(vertices, edges, virtuals)


def build_graph(vertices, edges, virtuals):
    """The graph of these numbers."""
    if vertices > MOST_VERTICES:
        raise Refused("TooManyVertices")
    if len(edges) > MOST_EDGES:
        raise Refused("TooManyEdges")
    for i, (u, v, weight) in enumerate(edges):
        if u >= vertices or v >= vertices:
            raise Refused(f"EndOutOfRange {i}")
        if u == v:
            raise Refused(f"SelfLoop {i}")
        if weight % 2 == 1:
            raise Refused(f"OddWeight {i}")
        if weight > MOST_WEIGHT:
            raise Refused(f"WeightTooLarge {i}")
        if weight < -MOST_WEIGHT:
            raise Refused(f"WeightTooSmall {i}")
    seen = set()
    for i, vertex in enumerate(virtuals):
        if vertex >= vertices:
            raise Refused(f"VirtualOutOfRange {i}")
        if vertex in seen:
            raise Refused(f"VirtualRepeated {i}")
        seen.add(vertex)
    return Graph(vertices, [tuple(edge) for edge in edges], sorted(virtuals))


# The plan.

# How many units and fusions it has; owners are the node that owns each real vertex, parents that of each node but the root.
Plan = namedtuple("Plan", "units fusions owners parents")


def are_ranges(value):
    return isinstance(value, list) and all(
        isinstance(pair, list) and len(pair) == 2 and all(is_count(end) for end in pair) for pair in value
    )


def is_fusion(value):
    if not isinstance(value, dict) or "of" not in value or "interface" not in value:
        return False
    children = value["of"]
    is_pair = isinstance(children, list) and len(children) == 2 and all(is_count(child) for child in children)
    return is_pair and are_ranges(value["interface"])


def read_plan(text, graph):
    """The plan of the graph that a text is."""
    if len(text) > MOST_PLAN_BYTES:
        raise Refused("TooLong plan")
    value = read_json(text)
    for member in ["units", "fusions"]:
        if not isinstance(value, dict) or member not in value:
            raise Refused(f"Missing {member}")
    for member in ["units", "fusions"]:
        if not isinstance(value[member], list):
            raise Refused(f"NotWhole {member}")
    for member, is_right in [("units", are_ranges), ("fusions", is_fusion)]:
        for i, part in enumerate(value[member]):
            if not is_right(part):
                raise Refused(f"NotWhole {member} {i}")
    return build_plan(graph, value["units"], value["fusions"])


def build_plan(graph, units, fusions):
    """The plan of these ranges and fusions."""
    if len(units) > MOST_UNITS:
        raise Refused("TooManyUnits")
    claims = units + [fusion["interface"] for fusion in fusions]
    for node, owned in enumerate(claims):
        if any(start > end or end > graph.vertices for start, end in owned):
            raise Refused(f"BadRange {node}")
    owners = {v: [] for v in detectors(graph)}
    for node, owned in enumerate(claims):
        for start, end in owned:
            for v in range(start, end):
                if v in owners:
                    owners[v].append(node)
    for name, is_wrong in [("VertexUnowned", lambda count: count == 0), ("VertexTwice", lambda count: count > 1)]:
        for v, nodes in owners.items():
            if is_wrong(len(nodes)):
                raise Refused(f"{name} {v}")
    for i, fusion in enumerate(fusions):
        if any(child >= len(units) + i for child in fusion["of"]):
            raise Refused(f"ChildOutOfRange {i}")
    parents = {}
    for i, fusion in enumerate(fusions):
        for child in fusion["of"]:
            if child in parents:
                raise Refused(f"ChildUsedTwice {i}")
            parents[child] = len(units) + i
    if len(units) != len(fusions) + 1:
        raise Refused("NotOneRoot")
    plan = Plan(len(units), len(fusions), {v: nodes[0] for v, nodes in owners.items()}, parents)
    for e, (u, v, _) in enumerate(graph.edges):
        if u in plan.owners and v in plan.owners and not are_related(plan, plan.owners[u], plan.owners[v]):
            raise Refused(f"EdgeAcross {e}")
    return plan


def whole_plan(graph):
    """The plan of one unit, which owns every real vertex."""
    return Plan(1, 0, {v: 0 for v in detectors(graph)}, {})


def are_related(plan, a, b):
    """Whether the one node is the other or above it."""
    low, high = sorted([a, b])
    while low < high and low in plan.parents:
        low = plan.parents[low]
    return low == high


# The shots. Changes are the edges that weigh otherwise in a shot, rising, each with its weight there.

Shot = namedtuple("Shot", "defects changes", defaults=[()])
Shots = namedtuple("Shots", "shots refusal")


def read_shots(form, text, graph):
    """The shots before the first refusal, or all; and that refusal, with the shot that it stopped."""
    shots = []
    try:
        for record in RECORDS[form](text, graph):
            shots.append(record if form == "json" else Shot(sorted(record)))
    except Refused as kind:
        return Shots(shots, f"{kind} shot {len(shots)}")
    return Shots(shots, None)


def lines_of(text):
    """The parts between newlines; the one after the last newline only where it isn't empty."""
    lines = text.split(b"\n")
    if lines[-1] == b"":
        lines.pop()
    return lines


def without_return(line):
    return line[:-1] if line.endswith(b"\r") else line


def records_01(text, graph):
    vertices = detectors(graph)
    for line in lines_of(text):
        line = without_return(line)
        for i, byte in enumerate(line):
            if i == len(vertices):
                raise Refused("LongRecord")
            if byte not in b"01":
                raise Refused("BadByte")
        if len(line) < len(vertices):
            raise Refused("ShortRecord")
        yield [vertex for vertex, byte in zip(vertices, line) if byte == ord("1")]


def records_b8(text, graph):
    vertices = detectors(graph)
    size = (len(vertices) + 7) // 8
    if size == 0 and text:
        raise Refused("LongRecord")
    for start in range(0, len(text), size or 1):
        block = text[start : start + size]
        if len(block) < size:
            raise Refused("ShortRecord")
        places = [k for k in range(8 * size) if block[k // 8] >> k % 8 & 1]
        if any(k >= len(vertices) for k in places):
            raise Refused("PaddingBit")
        yield [vertices[k] for k in places]


def records_dets(text, graph):
    vertices = detectors(graph)
    for line in lines_of(text):
        tokens = [token for token in without_return(line).split(b" ") if token]
        if not tokens:
            continue
        if tokens[0] != b"shot":
            raise Refused("BadToken")
        places = []
        for token in tokens[1:]:
            kind, digits = token[:1], token[1:]
            if kind not in [b"D", b"L", b"M"] or not re.fullmatch(b"[0-9]+", digits):
                raise Refused("BadToken")
            if kind == b"M":
                raise Refused("MeasurementToken")
            if kind == b"D":
                place = place_below(digits, len(vertices))
                if place in places:
                    raise Refused("RepeatedIndex")
                places.append(place)
        yield [vertices[k] for k in places]


def records_hits(text, graph):
    vertices = detectors(graph)
    for line in lines_of(text):
        places = []
        for hit in without_return(line).split(b",") if without_return(line) else []:
            if not re.fullmatch(b"[0-9]+", hit):
                raise Refused("BadToken")
            place = place_below(hit, len(vertices))
            if place in places:
                raise Refused("RepeatedIndex")
            places.append(place)
        yield [vertices[k] for k in places]


def records_r8(text, graph):
    vertices = detectors(graph)
    place, hits = 0, []
    for byte in text:
        place += byte
        if place > len(vertices):
            raise Refused("LongRecord")
        if byte == 255:
            continue
        if place == len(vertices):
            yield hits
            place, hits = 0, []
        else:
            hits.append(vertices[place])
            place += 1
    if place:
        raise Refused("ShortRecord")


def place_below(digits, count):
    """The number of some digits, where it is below a count."""
    digits = digits.lstrip(b"0") or b"0"
    if len(digits) > len(str(count)) or int(digits) >= count:
        raise Refused("IndexOutOfRange")
    return int(digits)


def records_json(text, graph):
    for line in lines_of(text):
        if not line.strip(b" \t\r"):
            continue
        if len(line) > MOST_LINE_BYTES:
            raise Refused("LineTooLong")
        value = read_json(without_return(line))
        yield Shot(sorted(defects_of(value, graph)), changes_of(value, graph))


def defects_of(value, graph):
    """The defects of a syndrome."""
    entries = value.get("defect_vertices") if isinstance(value, dict) else None
    if not isinstance(entries, list) or not all(is_count(vertex) for vertex in entries):
        raise Refused("NoDefects")
    for i, vertex in enumerate(entries):
        if vertex >= graph.vertices:
            raise Refused("DefectOutOfRange")
        if vertex in graph.virtuals:
            raise Refused("DefectOnVirtual")
        if vertex in entries[:i]:
            raise Refused("DefectRepeated")
    return entries


def is_pair(value):
    return isinstance(value, list) and len(value) == 2 and is_count(value[0]) and is_whole(value[1])


def changes_of(value, graph):
    """The changes of a syndrome: an erased edge weighs nothing, and of several pairs of an edge the last counts."""
    lists = [value.get(member) for member in ["erasures", "dynamic_weights"]]
    erasures, pairs = ([] if each is None else each for each in lists)
    for entries, is_right in [(erasures, is_count), (pairs, is_pair)]:
        if not isinstance(entries, list) or not all(map(is_right, entries)):
            raise Refused("NotChanges")
    for e in erasures:
        if e >= len(graph.edges):
            raise Refused("ShotEdgeOutOfRange")
    for e, weight in pairs:
        if e >= len(graph.edges):
            raise Refused("ShotEdgeOutOfRange")
        if weight % 2 == 1:
            raise Refused("OddShotWeight")
        if weight > MOST_WEIGHT:
            raise Refused("ShotWeightTooLarge")
        if weight < -MOST_WEIGHT:
            raise Refused("ShotWeightTooSmall")
    changes = {**dict(pairs), **dict.fromkeys(erasures, 0)}
    return tuple(sorted(changes.items()))


RECORDS = {
    "01": records_01,
    "b8": records_b8,
    "dets": records_dets,
    "hits": records_hits,
    "r8": records_r8,
    "json": records_json,
}


# The report. A row is ["best", edges, base, weight, cuts] or ["odd", vertex]; a cut is a value and its vertices.

Report = namedtuple("Report", "rows odd units fusions")

NUMBER = "(0|[1-9][0-9]*)"
NUMBERS = "((?: (?:0|[1-9][0-9]*))*)"
SIGNED = "(0|-?[1-9][0-9]*)"
SMALL, LARGE, SIGNED_LARGE = 2**32, 2**64, 2**63
HEADS = {b"fusion-report 1": 1, b"fusion-report 2": 2}


def form(text, *limits):
    """What reads a line of a form: its numbers, each below its limit, whatever its sign, or None."""
    pattern = re.compile(text.encode())

    def read(line):
        found = pattern.fullmatch(line)
        if not found:
            return None
        parts = [[number_of(word) for word in part.split()] for part in found.groups()]
        if any(abs(number) >= limit for part, limit in zip(parts, limits) for number in part):
            return None
        return parts

    return read


def number_of(digits):
    return int(digits) if len(digits) <= len(str(LARGE)) else LARGE


SHOT = form(f"shot {NUMBER}", SMALL)
ODD = form(f"shot {NUMBER} odd {NUMBER}", SMALL, SMALL)
EDGES = form(f"edges{NUMBERS}", SMALL)
BASE = form(f"base {SIGNED}", SIGNED_LARGE)
WEIGHTS = {1: form(f"weight {NUMBER}", LARGE), 2: form(f"weight {SIGNED}", SIGNED_LARGE)}
CUT = form(f"cut ([1-9][0-9]*){NUMBERS}", LARGE, SMALL)
TRACE = form(f"(?:took|gave) {NUMBER} {NUMBER} {NUMBER}", SMALL, SMALL, SMALL)
DONE = form(f"done {NUMBER} odd {NUMBER} units {NUMBER} fusions {NUMBER}", LARGE, LARGE, LARGE, LARGE)


def read_report(text):
    """The rows of a report and the numbers of its last line."""
    if len(text) > MOST_REPORT_BYTES:
        raise Refused("TooLong report")
    *lines, rest = text.split(b"\n")
    rows, place, version = [], "start", HEADS.get(lines[0]) if lines else None
    for n, line in enumerate(lines, 1):
        place = next_place(place, line, rows, version)
        if place in ["BadLine", "WrongShot"]:
            raise Refused(f"{place} {n}")
        if place == "done":
            if n < len(lines) or rest:
                raise Refused(f"BadLine {n + 1}")
            return Report(rows, *(number for [number] in DONE(line)[1:]))
    raise Refused("Unfinished")


def next_place(place, line, rows, version):
    """The place after a line, whose row or part of a row is added to the rows; or how the line is wrong. Version 1 has
    no line of a base, which is 0."""
    if place == "start":
        return "head" if version else "BadLine"
    if place == "shot":
        if not (edges := EDGES(line)):
            return "BadLine"
        rows[-1] += edges + ([0] if version == 1 else [])
        return "edges" if version == 2 else "base"
    if place == "edges":
        if not (base := BASE(line)):
            return "BadLine"
        rows[-1] += base[0]
        return "base"
    if place == "base":
        if not (weight := WEIGHTS[version](line)):
            return "BadLine"
        rows[-1] += weight[0] + [[]]
        return "cuts"
    if place == "cuts" and (cut := CUT(line)):
        rows[-1][4].append((cut[0][0], cut[1]))
        return "cuts"
    if place != "head" and TRACE(line):
        return "row"
    if done := DONE(line):
        odd = sum(row[0] == "odd" for row in rows)
        return "done" if done[:2] == [[len(rows)], [odd]] else "BadLine"
    return place_after_shot(line, rows)


def place_after_shot(line, rows):
    """The place after a line that begins a row, or how it is wrong."""
    shot, odd = SHOT(line), ODD(line)
    for numbers, row in [(shot, ["best"]), (odd, ["odd", *(odd[1] if odd else [])])]:
        if numbers:
            if numbers[0] != [len(rows)]:
                return "WrongShot"
            rows.append(row)
            return "shot" if shot else "row"
    return "BadLine"
