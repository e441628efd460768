"""Rows, texts and events whose answers are known, for the oracle's test of itself."""

import itertools
from collections import namedtuple

import oracle
from readers import Refused, Shot, build_graph, build_plan, read_graph, read_report, read_shots
from traces import trace_complaints

Answer = namedtuple("Answer", "stdout stderr status")

# Graphs: the vertices, the edges and the virtual vertices.
LINE = (5, [(0, 1, 2), (1, 2, 4), (2, 3, 2), (3, 4, 6)], [0, 4])
TRIANGLE = (4, [(0, 1, 2), (1, 2, 2), (0, 2, 2), (2, 3, 10)], [3])
PATH = (4, [(0, 1, 4), (1, 2, 4), (2, 3, 20)], [3])
FLOWER = (6, [(0, 1, 20), (1, 2, 20), (0, 2, 20), (2, 3, 14), (0, 4, 24), (1, 5, 16)], [5])
TWO_PARTS = (5, [(0, 1, 2), (1, 2, 2), (3, 4, 2)], [4])
HEAVY = (4, [(0, 1, 2**30), (1, 2, 0), (1, 2, 0), (2, 3, 2**30 - 2), (0, 3, 2)], [0, 3])
PAIR = (4, [(0, 1, 4), (1, 2, 2), (2, 3, 4)], [0, 3])
TREE = (5, [(0, 1, 4), (1, 2, 2), (0, 3, 12), (2, 4, 4)], [4])
EMPTY = (0, [], [])
NINE = (9, [], [])
# Graphs with negative weights: in the middle of the line, at its virtual end, everywhere; a triangle without a
# boundary; an edge between two virtual vertices; the greatest weights.
DIP = (5, [(0, 1, 2), (1, 2, -4), (2, 3, 2), (3, 4, 6)], [0, 4])
DIP_AT_THE_END = (5, [(0, 1, -2), (1, 2, 4), (2, 3, 2), (3, 4, 6)], [0, 4])
ALL_NEGATIVE = (5, [(0, 1, -2), (1, 2, -4), (2, 3, -2), (3, 4, -6)], [0, 4])
NEGATIVE_TRIANGLE = (3, [(0, 1, -2), (1, 2, -2), (0, 2, -2)], [])
BETWEEN_VIRTUALS = (5, [(0, 1, 2), (1, 2, 4), (2, 3, 2), (3, 4, 6), (0, 4, -2)], [0, 4])
DEEP = (4, [(0, 1, -(2**30)), (1, 2, 0), (1, 2, -2), (2, 3, 2**30), (0, 3, -2)], [0, 3])

# Graph, record, edges, weight, cuts.
BEST_ROWS = [
    (LINE, "000", [], 0, []),
    (LINE, "100", [0], 2, [(2, [1])]),
    (LINE, "010", [0, 1], 6, [(2, [1, 2, 3]), (2, [2]), (2, [2, 3])]),
    (LINE, "101", [1, 2], 6, [(2, [1]), (2, [2, 3]), (2, [3])]),
    (LINE, "111", [0, 2], 4, [(2, [1]), (2, [3])]),
    (TRIANGLE, "111", [0, 3], 12, [(1, [0]), (9, [0, 1, 2]), (1, [1]), (1, [2])]),
    (PATH, "111", [0, 2], 24, [(4, [0]), (16, [0, 1, 2]), (4, [2])]),
    (FLOWER, "11111", [3, 4, 5], 54, [(4, [0]), (16, [1]), (4, [2]), (10, [3]), (20, [4])]),
    (TWO_PARTS, "0001", [2], 2, [(2, [3])]),
    (HEAVY, "10", [1, 3], 2**30 - 2, [(2**30 - 2, [1, 2])]),
    (HEAVY, "10", [2, 3], 2**30 - 2, [(2**30 - 2, [1, 2])]),
    (HEAVY, "11", [1], 0, []),
    (HEAVY, "11", [2], 0, []),
    (TREE, "1011", [2, 3], 16, [(2, [0]), (2, [1, 2]), (2, [2]), (10, [3])]),
    (EMPTY, "", [], 0, []),
]

# The same with negative weights: graph, record, edges, base, weight, cuts.
SIGNED_ROWS = [
    (DIP, "000", [], -4, 0, [(2, [1]), (2, [2])]),
    (DIP, "100", [0], -4, 2, [(2, [1, 2, 3]), (2, [2]), (2, [2, 3])]),
    (DIP, "010", [0, 1], -4, -2, [(2, [1])]),
    (DIP, "110", [1], -4, -4, []),
    (DIP, "001", [0, 1, 2], -4, 0, [(2, [1]), (2, [3])]),
    (DIP, "101", [1, 2], -4, -2, [(2, [3])]),
    (DIP, "111", [1, 3], -4, 2, [(4, [2, 3]), (2, [3])]),
    (DIP_AT_THE_END, "000", [], -2, 0, [(2, [1])]),
    (DIP_AT_THE_END, "100", [0], -2, -2, []),
    (ALL_NEGATIVE, "000", [0, 1, 2, 3], -14, -14, []),
    (ALL_NEGATIVE, "010", [2, 3], -14, -8, [(2, [1, 2, 3]), (2, [2]), (2, [2, 3])]),
    (NEGATIVE_TRIANGLE, "000", [0, 1, 2], -6, -6, []),
    (NEGATIVE_TRIANGLE, "110", [1, 2], -6, -4, [(1, [0]), (1, [1])]),
    (BETWEEN_VIRTUALS, "000", [4], -2, -2, []),
    (BETWEEN_VIRTUALS, "100", [0, 4], -2, 0, [(2, [1])]),
    (DEEP, "11", [2, 4], -(2**30) - 4, -4, [(2**30, [1, 2])]),
    (DEEP, "10", [0, 1, 2, 4], -(2**30) - 4, -(2**30) - 4, []),
]

# Graph, record, row, verdict.
JUDGED_ROWS = [
    (LINE, "101", ("best", [1, 2], 0, 6, [(2, [1]), (1, [2, 3]), (3, [3])]), "Overloaded 2"),
    (LINE, "101", ("best", [1, 2], 0, 6, [(2, [1]), (2, [3])]), "SumDiffers 6 4"),
    (LINE, "101", ("best", [0, 3], 0, 8, [(2, [1]), (2, [2, 3]), (2, [3])]), "SumDiffers 8 6"),
    (LINE, "101", ("best", [0, 3], 0, 8, [(2, [1]), (6, [3])]), "Overloaded 2"),
    (LINE, "101", ("best", [1, 4], 0, 6, []), "EdgeOutOfRange 4"),
    (LINE, "101", ("best", [2, 1], 0, 6, []), "EdgesNotRising 1"),
    (LINE, "101", ("best", [1, 1, 2], 0, 10, []), "EdgesNotRising 1"),
    (LINE, "101", ("best", [1], 0, 4, []), "WrongParity 2"),
    (LINE, "100", ("best", [], 0, 0, []), "WrongParity 1"),
    (LINE, "100", ("best", [0], 0, 4, [(2, [1])]), "WeightNotSum 4 2"),
    (LINE, "100", ("best", [0], 0, 2, [(2, [])]), "CutEmpty 0"),
    (LINE, "100", ("best", [0], 0, 2, [(2, [1, 5])]), "VertexOutOfRange 5"),
    (LINE, "100", ("best", [0], 0, 2, [(1, [1]), (1, [1])]), "CutsNotRising 1"),
    (LINE, "100", ("best", [0], 0, 2, [(1, [1, 2]), (1, [1])]), "CutsNotRising 1"),
    (LINE, "100", ("best", [0], 0, 2, [(2, [2, 1])]), "CutsNotRising 0"),
    (LINE, "100", ("best", [0], 0, 2, [(2, [0, 1])]), "CutHoldsVirtual 0"),
    (LINE, "100", ("best", [0], 0, 2, [(2, [2])]), "CutEven 0"),
    (LINE, "110", ("best", [1], 0, 4, [(4, [1, 2])]), "CutEven 0"),
    (LINE, "100", ("best", [0], 0, 2, [(1, [1]), (1, [1, 2])]), "Good"),
    (LINE, "100", ("odd", 1), "OddWrong 1"),
    (TWO_PARTS, "1110", ("odd", 0), "Good"),
    (TWO_PARTS, "1110", ("odd", 1), "OddWrong 1"),
    (TWO_PARTS, "0001", ("odd", 3), "OddWrong 3"),
    (PAIR, "11", ("best", [1], 0, 2, [(2, [2])]), "Good"),
    (PAIR, "11", ("best", [0, 2], 0, 8, [(4, [1]), (4, [2])]), "Overloaded 1"),
    (LINE, "100", ("best", [0], -2, 2, [(2, [1])]), "BaseDiffers -2 0"),
    (LINE, "100", ("best", [0], 2, 2, []), "BaseDiffers 2 0"),
    (LINE, "100", ("best", [0], -2, 4, []), "WeightNotSum 4 2"),
    (LINE, "100", ("best", [0], -2, 2, [(4, [])]), "BaseDiffers -2 0"),
    (DIP, "000", ("best", [], 0, 0, []), "BaseDiffers 0 -4"),
    (DIP, "000", ("best", [], 4, 0, []), "BaseDiffers 4 -4"),
    (DIP, "000", ("best", [], -4, -4, []), "WeightNotSum -4 0"),
    (DIP, "000", ("best", [], -4, 0, []), "SumDiffers 0 -4"),
    (DIP, "000", ("best", [], -4, 0, [(4, [])]), "CutEmpty 0"),
    (DIP, "000", ("best", [], -4, 0, [(4, [1])]), "Overloaded 0"),
    (DIP, "000", ("best", [], -4, 0, [(2, [1]), (3, [2])]), "Overloaded 1"),
    (DIP, "000", ("best", [], -4, 0, [(4, [1, 2])]), "CutEven 0"),
    (DIP, "000", ("best", [], -4, 0, [(4, [3])]), "CutEven 0"),
    (DIP, "110", ("best", [1], -4, -4, [(2, [1])]), "CutEven 0"),
    (DIP, "110", ("best", [1], -4, 4, []), "WeightNotSum 4 -4"),
    (DIP, "110", ("best", [0, 2, 3], -4, 10, [(2, [1]), (2, [2])]), "CutEven 0"),
    (DIP, "110", ("best", [0, 2, 3], -4, 10, []), "SumDiffers 10 -4"),
    (DIP, "100", ("best", [0], -4, 2, [(2, [1])]), "CutEven 0"),
    (DIP, "100", ("best", [1, 2, 3], -4, 4, [(2, [1, 2, 3]), (2, [2]), (2, [2, 3])]), "SumDiffers 4 2"),
    (NEGATIVE_TRIANGLE, "000", ("best", [], -6, 0, []), "SumDiffers 0 -6"),
    (NEGATIVE_TRIANGLE, "100", ("odd", 0), "Good"),
]

# Texts of a graph, and the first rule that each breaks.
GRAPH_TEXTS = [
    (b'{"vertex_num":5,"weighted_edges":[[0,1,2]],"virtual_vertices":[0,4]}', None),
    (b'{"virtual_vertices":[4,0],"x":[1.5],"vertex_num":5,"weighted_edges":[]}', None),
    (b'{"vertex_num":"five","vertex\\u005fnum":0,"weighted_edges":[],"virtual_vertices":[]}', None),
    (b"", "NotJson"),
    (b"{", "NotJson"),
    (b"\xef\xbb\xbf{}", "NotJson"),
    (b"\xff", "NotJson"),
    (b"{} {}", "NotJson"),
    (b'{"x":1e309}', "NotJson"),
    (b'{"x":"\\ud800"}', "NotJson"),
    (b'{"x":NaN}', "NotJson"),
    (b"[" * 128 + b"]" * 128, "NotJson"),
    (b"[" * 127 + b"]" * 127, "Missing vertex_num"),
    (b'{"x":["[[{","\\"["],"x":1}', "Missing vertex_num"),
    (b'{"x":' + b"[" * 127 + b"]" * 127 + b',"x":1}', "NotJson"),
    (b'{"x":' + b"[" * 126 + b"]" * 126 + b',"x":1}', "Missing vertex_num"),
    (b"[]", "Missing vertex_num"),
    (b"{}", "Missing vertex_num"),
    (b'{"vertex_num":1}', "Missing weighted_edges"),
    (b'{"vertex_num":1,"weighted_edges":[]}', "Missing virtual_vertices"),
    (b'{"vertex_num":5.0,"weighted_edges":[],"virtual_vertices":[]}', "NotWhole vertex_num"),
    (b'{"vertex_num":-0,"weighted_edges":[],"virtual_vertices":[]}', "NotWhole vertex_num"),
    (b'{"vertex_num":true,"weighted_edges":[],"virtual_vertices":[]}', "NotWhole vertex_num"),
    (b'{"vertex_num":18446744073709551616,"weighted_edges":[],"virtual_vertices":[]}', "NotWhole vertex_num"),
    (b'{"vertex_num":18446744073709551615,"weighted_edges":[],"virtual_vertices":[]}', "TooManyVertices"),
    (b'{"vertex_num":1048577,"weighted_edges":[],"virtual_vertices":[]}', "TooManyVertices"),
    (b'{"vertex_num":1,"weighted_edges":{},"virtual_vertices":[]}', "NotWhole weighted_edges"),
    (b'{"vertex_num":1,"weighted_edges":[],"virtual_vertices":0}', "NotWhole virtual_vertices"),
    (b'{"vertex_num":2,"weighted_edges":[[0,1,"2"]],"virtual_vertices":[]}', "NotWhole weighted_edges 0"),
    (b'{"vertex_num":2,"weighted_edges":[[0,1]],"virtual_vertices":[]}', "NotWhole weighted_edges 0"),
    (b'{"vertex_num":2,"weighted_edges":[],"virtual_vertices":[-1]}', "NotWhole virtual_vertices 0"),
    (b'{"vertex_num":2,"weighted_edges":[[0,2,2]],"virtual_vertices":[]}', "EndOutOfRange 0"),
    (b'{"vertex_num":2,"weighted_edges":[[1,1,3]],"virtual_vertices":[]}', "SelfLoop 0"),
    (b'{"vertex_num":2,"weighted_edges":[[0,1,-1]],"virtual_vertices":[]}', "OddWeight 0"),
    (b'{"vertex_num":2,"weighted_edges":[[0,1,-2]],"virtual_vertices":[]}', None),
    (b'{"vertex_num":2,"weighted_edges":[[0,1,-1073741824]],"virtual_vertices":[]}', None),
    (b'{"vertex_num":2,"weighted_edges":[[0,1,-1073741825]],"virtual_vertices":[]}', "OddWeight 0"),
    (b'{"vertex_num":2,"weighted_edges":[[0,1,-1073741826]],"virtual_vertices":[]}', "WeightTooSmall 0"),
    (b'{"vertex_num":2,"weighted_edges":[[0,1,-9223372036854775808]],"virtual_vertices":[]}', "WeightTooSmall 0"),
    (b'{"vertex_num":2,"weighted_edges":[[0,1,-0]],"virtual_vertices":[]}', "NotWhole weighted_edges 0"),
    (b'{"vertex_num":2,"weighted_edges":[[0,1,1073741826]],"virtual_vertices":[]}', "WeightTooLarge 0"),
    (b'{"vertex_num":2,"weighted_edges":[[0,1,1073741824]],"virtual_vertices":[2]}', "VirtualOutOfRange 0"),
    (b'{"vertex_num":2,"weighted_edges":[],"virtual_vertices":[1,0,1]}', "VirtualRepeated 2"),
]

# Graph, format, text; the defects of the shots before the first refusal, and that refusal.
SHOT_TEXTS = [
    (LINE, "01", b"", [], None),
    (LINE, "01", b"100\n", [[1]], None),
    (LINE, "01", b"100", [[1]], None),
    (LINE, "01", b"100\r\n001\r", [[1], [3]], None),
    (LINE, "01", b"100\n01", [[1]], "ShortRecord shot 1"),
    (LINE, "01", b"1000", [], "LongRecord shot 0"),
    (LINE, "01", b"1x", [], "BadByte shot 0"),
    (LINE, "01", b"000\r\r\n", [], "LongRecord shot 0"),
    (LINE, "01", b"\r000\n", [], "BadByte shot 0"),
    (LINE, "01", b"\r", [], "ShortRecord shot 0"),
    (LINE, "01", b"000\n\n", [[]], "ShortRecord shot 1"),
    (EMPTY, "01", b"\n\r\n\r", [[], [], []], None),
    (NINE, "b8", b"", [], None),
    (NINE, "b8", b"\x01\x01\x01\x02", [[0, 8]], "PaddingBit shot 1"),
    (NINE, "b8", b"\x01\x01\x01", [[0, 8]], "ShortRecord shot 1"),
    (NINE, "b8", b"\xfe\x00", [[1, 2, 3, 4, 5, 6, 7]], None),
    (LINE, "b8", b"\x05\x00\x02", [[1, 3], [], [2]], None),
    (LINE, "b8", b"\x05\x08", [[1, 3]], "PaddingBit shot 1"),
    (EMPTY, "b8", b"", [], None),
    (EMPTY, "b8", b"\0", [], "LongRecord shot 0"),
    (LINE, "dets", b"shot D0 L0 D2\n\nshot\nshot D1 D1\n", [[1, 3], []], "RepeatedIndex shot 2"),
    (LINE, "dets", b"shot D1 D7\n", [], "IndexOutOfRange shot 0"),
    (LINE, "dets", b"  shot  D02 \r\n \nshot L7 L7", [[3], []], None),
    (LINE, "dets", b"shot M0 D9", [], "MeasurementToken shot 0"),
    (LINE, "dets", b"shot D0\r D1\n", [], "BadToken shot 0"),
    (LINE, "dets", b"D0 shot\n", [], "BadToken shot 0"),
    (LINE, "dets", b"shot D3 D3\n", [], "IndexOutOfRange shot 0"),
    (LINE, "dets", b"shot D" + b"9" * 5000 + b"\n", [], "IndexOutOfRange shot 0"),
    (LINE, "dets", b"shot D" + b"0" * 5000 + b"1\n", [[2]], None),
    (LINE, "hits", b"2,0\n\n1", [[1, 3], [], [2]], None),
    (LINE, "hits", b"0\n1,1\n", [[1]], "RepeatedIndex shot 1"),
    (LINE, "hits", b"3\n", [], "IndexOutOfRange shot 0"),
    (LINE, "hits", b"1,\n", [], "BadToken shot 0"),
    (LINE, "hits", b",", [], "BadToken shot 0"),
    (LINE, "hits", b"\r\n01\r", [[], [2]], None),
    (LINE, "hits", b"0,\r", [], "BadToken shot 0"),
    (EMPTY, "hits", b"\n\n", [[], []], None),
    (EMPTY, "hits", b"0", [], "IndexOutOfRange shot 0"),
    (LINE, "r8", b"\1\1\0\0\0\0\3", [[2], [1, 2, 3], []], None),
    (LINE, "r8", b"\4", [], "LongRecord shot 0"),
    (LINE, "r8", b"\xff", [], "LongRecord shot 0"),
    (LINE, "r8", b"\3\1", [[]], "ShortRecord shot 1"),
    (EMPTY, "r8", b"\0\0\1", [[], []], "LongRecord shot 2"),
    (LINE, "json", b'{"defect_vertices":[3,1]}', [[1, 3]], None),
    (LINE, "json", b'\n \t\r\n{"defect_vertices":[]}\r\n{', [[]], "NotJson shot 1"),
    (LINE, "json", b'{"defect_vertices":[0]}', [], "DefectOnVirtual shot 0"),
    (LINE, "json", b'{"defect_vertices":[5]}', [], "DefectOutOfRange shot 0"),
    (LINE, "json", b'{"defect_vertices":[1,1]}', [], "DefectRepeated shot 0"),
    (LINE, "json", b'{"erasures":[]}', [], "NoDefects shot 0"),
    (LINE, "json", b'{"defect_vertices":[1.0]}', [], "NoDefects shot 0"),
    (LINE, "json", b'{"defect_vertices":[1],"erasures":null,"dynamic_weights":[]}', [[1]], None),
]

# Members of a syndrome on the line, and the weights that they change, or the refusal.
CHANGES = [
    (b"", []),
    (b'"erasures":null,"dynamic_weights":null', []),
    (b'"erasures":[3,1]', [(1, 0), (3, 0)]),
    (b'"erasures":[3,3]', [(3, 0)]),
    (b'"erasures":[2],"erasures":[]', []),
    (b'"dynamic_weights":[[0,10]]', [(0, 10)]),
    (b'"dynamic_weights":[[3,2],[1,1073741824],[0,0]]', [(0, 0), (1, 2**30), (3, 2)]),
    (b'"dynamic_weights":[[2,8],[2,4]]', [(2, 4)]),
    (b'"dynamic_weights":[[1,4]]', [(1, 4)]),
    (b'"erasures":[2],"dynamic_weights":[[2,8]]', [(2, 0)]),
    (b'"dynamic_weights":[[2,8]],"erasures":[2]', [(2, 0)]),
    (b'"erasures":1', "NotChanges"),
    (b'"erasures":false', "NotChanges"),
    (b'"erasures":""', "NotChanges"),
    (b'"erasures":{}', "NotChanges"),
    (b'"erasures":[null]', "NotChanges"),
    (b'"erasures":[-1]', "NotChanges"),
    (b'"erasures":[-0]', "NotChanges"),
    (b'"erasures":[2.0]', "NotChanges"),
    (b'"erasures":[18446744073709551616]', "NotChanges"),
    (b'"erasures":[99],"dynamic_weights":7', "NotChanges"),
    (b'"erasures":[18446744073709551615]', "ShotEdgeOutOfRange"),
    (b'"erasures":[4],"dynamic_weights":[[0,3]]', "ShotEdgeOutOfRange"),
    (b'"erasures":[0],"dynamic_weights":[[0,3]]', "OddShotWeight"),
    (b'"dynamic_weights":[0]', "NotChanges"),
    (b'"dynamic_weights":[[]]', "NotChanges"),
    (b'"dynamic_weights":[[0,2,4]]', "NotChanges"),
    (b'"dynamic_weights":[[-1,2]]', "NotChanges"),
    (b'"dynamic_weights":[[0,2.0]]', "NotChanges"),
    (b'"dynamic_weights":[[0,-0]]', "NotChanges"),
    (b'"dynamic_weights":[[0,18446744073709551616]]', "NotChanges"),
    (b'"dynamic_weights":[[0,3],[0,true]]', "NotChanges"),
    (b'"dynamic_weights":[[4,3]]', "ShotEdgeOutOfRange"),
    (b'"dynamic_weights":[[0,2],[0,5]]', "OddShotWeight"),
    (b'"dynamic_weights":[[0,5],[0,2]]', "OddShotWeight"),
    (b'"dynamic_weights":[[0,-1]]', "OddShotWeight"),
    (b'"dynamic_weights":[[0,1073741825]]', "OddShotWeight"),
    (b'"dynamic_weights":[[0,1073741826]]', "ShotWeightTooLarge"),
    (b'"dynamic_weights":[[0,18446744073709551614]]', "ShotWeightTooLarge"),
    (b'"dynamic_weights":[[0,-2]]', [(0, -2)]),
    (b'"dynamic_weights":[[2,-8],[2,4],[1,-1073741824]]', [(1, -(2**30)), (2, 4)]),
    (b'"erasures":[2],"dynamic_weights":[[2,-8]]', [(2, 0)]),
    (b'"dynamic_weights":[[0,-1073741825]]', "OddShotWeight"),
    (b'"dynamic_weights":[[0,-1073741826]]', "ShotWeightTooSmall"),
    (b'"dynamic_weights":[[0,-9223372036854775808]]', "ShotWeightTooSmall"),
    (b'"dynamic_weights":[[0,-1073741826],[0,2]]', "ShotWeightTooSmall"),
    (b'"dynamic_weights":[[0,-2],[4,2]]', "ShotEdgeOutOfRange"),
]

# Graph, defects, changes, a row, its verdict, and the least weight of a correction: on the line, then changes that turn
# a sign.
CHANGED_ROWS = [
    (LINE, [1, 3], [(3, 0)], ("best", [0, 3], 0, 2, [(2, [1])]), "Good", 2),
    (LINE, [2], [(0, 10)], ("best", [2, 3], 0, 8, [(4, [1, 2, 3]), (2, [2]), (2, [2, 3])]), "Good", 8),
    (LINE, [1], [(2, 0)], ("best", [0], 0, 2, [(2, [1])]), "Good", 2),
    (LINE, [1], [(0, 2)], ("best", [0], 0, 2, [(2, [1])]), "Good", 2),
    (LINE, [1, 3], [(3, 0)], ("best", [1, 2], 0, 6, [(2, [1]), (2, [2, 3]), (2, [3])]), "Overloaded 3", 2),
    (LINE, [2], [(0, 10)], ("best", [0, 1], 0, 6, [(2, [1, 2, 3]), (2, [2]), (2, [2, 3])]), "WeightNotSum 6 14", 8),
    (LINE, [2], [(0, 10)], ("best", [0, 1], 0, 14, [(2, [1, 2, 3]), (2, [2]), (2, [2, 3])]), "SumDiffers 14 6", 8),
    (LINE, [1], [(0, 0)], ("best", [0], 0, 0, []), "Good", 0),
    (LINE, [1], [(0, 0)], ("best", [0], 0, 2, [(2, [1])]), "WeightNotSum 2 0", 0),
    (LINE, [], [(1, -4)], ("best", [], -4, 0, [(2, [1]), (2, [2])]), "Good", 0),
    (LINE, [1, 2], [(1, -4)], ("best", [1], -4, -4, []), "Good", -4),
    (LINE, [], [(0, -2)], ("best", [], -2, 0, [(2, [1])]), "Good", 0),
    (LINE, [], [(0, -2), (1, -4), (2, -2), (3, -6)], ("best", [0, 1, 2, 3], -14, -14, []), "Good", -14),
    (LINE, [1], [(1, -4)], ("best", [0], 0, 2, [(2, [1])]), "BaseDiffers 0 -4", 2),
    (DIP, [2], [(1, 4)], ("best", [0, 1], 0, 6, [(2, [1, 2, 3]), (2, [2]), (2, [2, 3])]), "Good", 6),
    (DIP, [], [(1, 4)], ("best", [], -4, 0, [(2, [1]), (2, [2])]), "BaseDiffers -4 0", 0),
    (DIP, [], [(1, 0)], ("best", [], 0, 0, []), "Good", 0),
    (DIP, [], [(1, -4)], ("best", [], -4, 0, [(2, [1]), (2, [2])]), "Good", 0),
    (DIP, [], [(1, -2)], ("best", [], -2, 0, [(1, [1]), (1, [2])]), "Good", 0),
    (DIP, [1, 2], [(0, -2)], ("best", [1], -6, -4, [(2, [1])]), "Good", -4),
    (ALL_NEGATIVE, [2], [(0, 2), (1, 4)], ("best", [2, 3], -8, -8, []), "Good", -8),
]

ROW_REPORT = b"""fusion-report 1
shot 0
edges 1 2
weight 6
cut 2 1
cut 1 2 3
cut 3 3
done 1 odd 0 units 1 fusions 0
"""

# What is put in the place of a part of that report, and the refusal; None where the text is still a report.
CHANGED_REPORTS = [
    (b"report 1", b"report 2", "BadLine 4"),
    (b"report 1", b"report 3", "BadLine 1"),
    (b"weight 6", b"base 0\nweight 6", "BadLine 4"),
    (b"weight 6", b"weight -6", "BadLine 4"),
    (b"weight 6", b"weight -0", "BadLine 4"),
    (b"\n", b"\r\n", "BadLine 1"),
    (b"shot 0", b"shot 1", "WrongShot 2"),
    (b"shot 0", b"shot 1 odd 0", "WrongShot 2"),
    (b"shot 0", b"shot 00", "BadLine 2"),
    (b"shot 0\n", b"shot 0 over\n", "BadLine 2"),
    (b"shot 0", b"shot 4294967295", "WrongShot 2"),
    (b"shot 0", b"shot 4294967296", "BadLine 2"),
    (b"shot 0\n", b"took 0 0 0\nshot 0\n", "BadLine 2"),
    (b"edges", b"shot 1\nedges", "BadLine 3"),
    (b"edges 1", b"edges  1", "BadLine 3"),
    (b"edges 1", b"edges 4294967295", None),
    (b"edges 1", b"edges 4294967296", "BadLine 3"),
    (b"weight 6", b"weight 18446744073709551615", None),
    (b"weight 6", b"weight 18446744073709551616", "BadLine 4"),
    (b"cut 1 2 3", b"cut 1", None),
    (b"cut 1 2 3", b"cut 0 2 3", "BadLine 6"),
    (b"cut 1 2 3", b"took 0 0 0", "BadLine 7"),
    (b"done", b"gave 0 7 9\ndone", None),
    (b"done", b"gave 0 7 9\ncut 1 1\ndone", "BadLine 9"),
    (b"done 1", b"done 0", "BadLine 8"),
    (b"odd 0", b"odd 1", "BadLine 8"),
    (b"units 1", b"units 18446744073709551615", None),
    (b"units 1", b"units 18446744073709551616", "BadLine 8"),
    (b"fusions 0\n", b"fusions 0", "Unfinished"),
    (b"fusions 0\n", b"fusions 0\n\n", "BadLine 9"),
    (b"fusions 0\n", b"fusions 0\n ", "BadLine 9"),
]

SIGNED_REPORT = b"""fusion-report 2
shot 0 odd 7
shot 1
edges 0 1
base -4
weight -2
cut 2 1
done 2 odd 1 units 1 fusions 0
"""

# The same for a report of version 2.
CHANGED_SIGNED_REPORTS = [
    (b"report 2", b"report 1", "BadLine 5"),
    (b"report 2", b"report 3", "BadLine 1"),
    (b"report 2\n", b"report 2\nfusion-report 2\n", "BadLine 2"),
    (b"base -4\n", b"", "BadLine 5"),
    (b"base -4\n", b"base -4\nbase -4\n", "BadLine 6"),
    (b"odd 7\n", b"odd 7\nbase 0\n", "BadLine 3"),
    (b"edges 0 1\n", b"base -4\n", "BadLine 4"),
    (b"base -4", b"base 0", None),
    (b"base -4", b"base 4", None),
    (b"base -4", b"base -0", "BadLine 5"),
    (b"base -4", b"base -04", "BadLine 5"),
    (b"base -4", b"base --4", "BadLine 5"),
    (b"base -4", b"base +4", "BadLine 5"),
    (b"base -4", b"base - 4", "BadLine 5"),
    (b"base -4", b"base -", "BadLine 5"),
    (b"base -4", b"base", "BadLine 5"),
    (b"base -4", b"base -4 0", "BadLine 5"),
    (b"base -4", b"base 9223372036854775807", None),
    (b"base -4", b"base -9223372036854775807", None),
    (b"base -4", b"base 9223372036854775808", "BadLine 5"),
    (b"base -4", b"base -9223372036854775808", "BadLine 5"),
    (b"base -4", b"base -18446744073709551616", "BadLine 5"),
    (b"weight -2", b"weight -0", "BadLine 6"),
    (b"weight -2", b"weight 0", None),
    (b"weight -2", b"weight +2", "BadLine 6"),
    (b"weight -2", b"weight 9223372036854775807", None),
    (b"weight -2", b"weight -9223372036854775807", None),
    (b"weight -2", b"weight 9223372036854775808", "BadLine 6"),
    (b"weight -2", b"weight -9223372036854775808", "BadLine 6"),
    (b"cut 2 1", b"cut -2 1", "BadLine 7"),
    (b"cut 2 1", b"cut 18446744073709551615 1", None),
    (b"edges 0 1", b"edges -0 1", "BadLine 4"),
    (b"shot 1", b"shot -1", "BadLine 3"),
    (b"done 2", b"done -2", "BadLine 8"),
]

LINE_TEXT = b'{"vertex_num":5,"weighted_edges":[[0,1,2],[1,2,4],[2,3,2],[3,4,6]],"virtual_vertices":[0,4]}'
DIP_TEXT = LINE_TEXT.replace(b"[1,2,4]", b"[1,2,-4]")
PARTS_TEXT = b'{"vertex_num":5,"weighted_edges":[[0,1,2],[1,2,2],[3,4,2]],"virtual_vertices":[4]}'
NO_TEXT = b'{"vertex_num":0,"weighted_edges":[],"virtual_vertices":[]}'
EMPTY_REPORT = b"fusion-report 2\nshot 0\nedges\nbase 0\nweight 0\ndone 1 odd 0 units 1 fusions 0\n"
OLD_EMPTY_REPORT = b"fusion-report 1\nshot 0\nedges\nweight 0\ndone 1 odd 0 units 1 fusions 0\n"
SIGNED_ROW_REPORT = b"fusion-report 2\nshot 0\nedges 0 1\nbase -4\nweight -2\ncut 2 1\ndone 1 odd 0 units 1 fusions 0\n"
ODD_REPORT = b"fusion-report 2\nshot 0 odd 1\ndone 1 odd 1 units 0 fusions 0\n"

# The graph's text, the shots' format and text, and what decode answers.
DECODED = [
    (LINE_TEXT, b"01", b"000\n", Answer(EMPTY_REPORT, b"", 0)),
    (LINE_TEXT, b"01", b"", Answer(b"fusion-report 2\ndone 0 odd 0 units 0 fusions 0\n", b"", 0)),
    (LINE_TEXT, b"01", b"1x", Answer(b"fusion-report 2\n", b"fusion: refused BadByte shot 0\n", 2)),
    (LINE_TEXT[:-1], b"01", b"1x", Answer(b"", b"fusion: refused NotJson\n", 2)),
    (LINE_TEXT, b"ptb64", b"1x", Answer(b"", b"fusion: unknown format\n", 6)),
    (
        LINE_TEXT,
        b"dets",
        b"shot D0 L0 D2\n\nshot\nshot D1 D1\n",
        Answer(
            b"fusion-report 2\nshot 0\nedges 1 2\nbase 0\nweight 6\ncut 2 1\ncut 2 2 3\ncut 2 3\n"
            b"shot 1\nedges\nbase 0\nweight 0\n",
            b"fusion: refused RepeatedIndex shot 2\n",
            2,
        ),
    ),
    (
        PARTS_TEXT,
        b"01",
        b"1110\n0001\n",
        Answer(
            b"fusion-report 2\nshot 0 odd 0\nshot 1\nedges 2\nbase 0\nweight 2\ncut 2 3\n"
            b"done 2 odd 1 units 1 fusions 0\n",
            b"",
            1,
        ),
    ),
    (
        NO_TEXT,
        b"01",
        b"\n\n",
        Answer(
            b"fusion-report 2\nshot 0\nedges\nbase 0\nweight 0\nshot 1\nedges\nbase 0\nweight 0\n"
            b"done 2 odd 0 units 2 fusions 0\n",
            b"",
            0,
        ),
    ),
]

# The graph's text, a plan, the text of json shots, and what decode answers: a negative edge across a seam and at a
# virtual vertex, and a wholly negative graph.
SEAM_PLAN = b'{"units":[[[0,2]],[[3,5]]],"fusions":[{"of":[0,1],"interface":[[2,3]]}]}'
PLANNED = [
    (
        DIP_TEXT,
        SEAM_PLAN,
        b'{"defect_vertices":[]}\n{"defect_vertices":[1,2]}\n',
        Answer(
            b"fusion-report 2\nshot 0\nedges\nbase -4\nweight 0\ncut 2 1\ncut 2 2\n"
            b"shot 1\nedges 1\nbase -4\nweight -4\ndone 2 odd 0 units 4 fusions 2\n",
            b"",
            0,
        ),
    ),
    (
        LINE_TEXT,
        SEAM_PLAN,
        b'{"defect_vertices":[],"dynamic_weights":[[0,-2]]}\n'
        b'{"defect_vertices":[],"dynamic_weights":[[0,-2],[1,-4],[2,-2],[3,-6]]}\n',
        Answer(
            b"fusion-report 2\nshot 0\nedges\nbase -2\nweight 0\ncut 2 1\n"
            b"shot 1\nedges 0 1 2 3\nbase -14\nweight -14\ndone 2 odd 0 units 4 fusions 2\n",
            b"",
            0,
        ),
    ),
]

# The graph's text, the text of `01` shots, the report, and what check answers.
CHECKED = [
    (
        LINE_TEXT,
        b"101\n",
        ROW_REPORT,
        Answer(b"check-report 1\nshot 0 bad Overloaded 2\nrows 1 shots 1 bad 1\n", b"", 1),
    ),
    (
        LINE_TEXT,
        b"000\n000\n",
        EMPTY_REPORT,
        Answer(b"check-report 1\nshot 0 good\nrows 1 shots 2 bad 0\n", b"", 1),
    ),
    (LINE_TEXT, b"000", EMPTY_REPORT, Answer(b"check-report 1\nshot 0 good\nrows 1 shots 1 bad 0\n", b"", 0)),
    (
        PARTS_TEXT,
        b"1110\n",
        ODD_REPORT,
        Answer(b"check-report 1\nshot 0 bad OddWrong 1\nrows 1 shots 1 bad 1\n", b"", 1),
    ),
    (DIP_TEXT, b"010", SIGNED_ROW_REPORT, Answer(b"check-report 1\nshot 0 good\nrows 1 shots 1 bad 0\n", b"", 0)),
    (
        DIP_TEXT,
        b"000\n",
        OLD_EMPTY_REPORT,
        Answer(b"check-report 1\nshot 0 bad BaseDiffers 0 -4\nrows 1 shots 1 bad 1\n", b"", 1),
    ),
    (LINE_TEXT, b"000\n", OLD_EMPTY_REPORT, Answer(b"check-report 1\nshot 0 good\nrows 1 shots 1 bad 0\n", b"", 0)),
    (LINE_TEXT, b"x", ODD_REPORT[:-1], Answer(b"", b"fusion: refused Unfinished\n", 2)),
    (
        LINE_TEXT,
        b"000\nx",
        EMPTY_REPORT,
        Answer(b"check-report 1\nshot 0 good\n", b"fusion: refused BadByte shot 1\n", 2),
    ),
]


def graph_of(parts):
    return build_graph(*parts)


def refusal_of(read, *arguments):
    """The refusal of a text; None where it is read."""
    try:
        read(*arguments)
    except Refused as fault:
        return str(fault)
    return None


def defects_of(graph, record):
    [shot] = read_shots("01", record.encode() + b"\n", graph).shots
    return shot.defects


def known_rows():
    best = [(parts, record, edges, 0, weight, cuts) for parts, record, edges, weight, cuts in BEST_ROWS]
    for parts, record, edges, base, weight, cuts in best + SIGNED_ROWS:
        graph = graph_of(parts)
        defects = defects_of(graph, record)
        name = f"{record} on {graph.edges}"
        yield name, oracle.verdict(graph, defects, ("best", edges, base, weight, cuts)), "Good"
        yield f"{name}, least weight", oracle.LeastWeights(graph).of(Shot(defects)), weight
        yield f"{name}, odd component", oracle.odd_component(graph, defects), None
        others = [("weight above", ("best", edges, base, weight + 2, cuts))]
        others += [("base below", ("best", edges, base - 2, weight, cuts))]
        others += [("base above", ("best", edges, base + 2, weight, cuts))]
        others += [("a cut fewer", ("best", edges, base, weight, cuts[1:]))] if cuts else []
        for how, row in others:
            yield f"{name}, {how}", oracle.verdict(graph, defects, row) == "Good", False
    for parts, record, row, answer in JUDGED_ROWS:
        graph = graph_of(parts)
        yield f"{record}: {row}", oracle.verdict(graph, defects_of(graph, record), row), answer
    two_parts = graph_of(TWO_PARTS)
    yield "odd component", oracle.odd_component(two_parts, [0, 1, 2]), 0
    yield "no correction", oracle.LeastWeights(two_parts).of(Shot([0, 1, 2])), None


def known_changed_rows():
    for parts, defects, changes, row, answer, least in CHANGED_ROWS:
        graph, shot = graph_of(parts), Shot(defects, tuple(changes))
        yield f"{shot}: {row}", oracle.verdict(oracle.shot_graph(graph, shot), defects, row), answer
        yield f"{shot}, least weight", oracle.LeastWeights(graph).of(shot), least
        yield f"{shot}, complaint", oracle.complaint(graph, shot, list(row), None) is None, answer == "Good"


def known_shifts():
    """Of each way to sign the edges of small graphs, by all sets of edges: a least correction of a shot, with the
    signs, weighs the base more than one of the shifted defects does without them; both have the same odd component. The
    signs are the graph's, or the shot turns those of the graph without signs, or of the wholly negative one."""
    for parts in [LINE, TRIANGLE, TWO_PARTS, PAIR, BETWEEN_VIRTUALS]:
        plain = graph_of(parts)._replace(edges=[(u, v, abs(weight)) for u, v, weight in parts[1]])
        lowest = plain._replace(edges=[(u, v, -weight) for u, v, weight in plain.edges])
        least, from_plain, from_lowest = map(oracle.LeastWeights, [plain, plain, lowest])
        for signs in itertools.product([1, -1], repeat=len(plain.edges)):
            graph = plain._replace(edges=[(u, v, sign * weight) for sign, (u, v, weight) in zip(signs, plain.edges)])
            signed = oracle.LeastWeights(graph)
            base = sum(weight for _, _, weight in graph.edges if weight < 0)
            weights = [(sign, e, weight) for e, (sign, (_, _, weight)) in enumerate(zip(signs, graph.edges))]
            turns = [tuple((e, weight) for sign, e, weight in weights if sign == turned) for turned in [-1, 1]]
            for record in itertools.product("01", repeat=plain.vertices - len(plain.virtuals)):
                defects = defects_of(graph, "".join(record))
                shifted, weight = oracle.shifted_defects(graph, defects), signed.of(Shot(defects))
                name = f"{signs} of {parts} at {defects}"
                known = least.of(Shot(shifted))
                yield name, weight, None if known is None else base + known
                yield f"{name}, base", oracle.base_of(graph), base
                yield f"{name}, odd", oracle.odd_component(graph, shifted), oracle.odd_component(graph, defects)
                yield f"{name}, turned down", from_plain.of(Shot(defects, turns[0])), weight
                yield f"{name}, turned up", from_lowest.of(Shot(defects, turns[1])), weight


def known_texts():
    for text, fault in GRAPH_TEXTS:
        yield f"graph {text[:70]}", refusal_of(read_graph, text), fault
    for parts, form, text, shots, fault in SHOT_TEXTS:
        read = [Shot(defects) for defects in shots]
        yield f"{form} {text[:70]}", read_shots(form, text, graph_of(parts)), (read, fault)
    for members, found in CHANGES:
        text = b'{"defect_vertices":[]%s}' % (b"," * bool(members) + members)
        read = ([], f"{found} shot 0") if isinstance(found, str) else ([Shot([], tuple(found))], None)
        yield f"json {text[:70]}", read_shots("json", text, graph_of(LINE)), read
    for report, changes in [(ROW_REPORT, CHANGED_REPORTS), (SIGNED_REPORT, CHANGED_SIGNED_REPORTS)]:
        for old, new, fault in changes:
            yield f"{old} as {new}", refusal_of(read_report, report.replace(old, new)), fault
        for at in range(len(report)):
            yield f"{at} bytes of a report", refusal_of(read_report, report[:at]), "Unfinished"
    yield "rows of version 1", read_report(ROW_REPORT).rows, [["best", [1, 2], 0, 6, [(2, [1]), (1, [2, 3]), (3, [3])]]]
    yield "rows of version 2", read_report(SIGNED_REPORT).rows, [["odd", 7], ["best", [0, 1], -4, -2, [(2, [1])]]]


def known_answers():
    """What the oracle finds wrong with answers that are right, and whether it finds something wrong with others."""
    names = [b"--graph", b"graph.json", b"--shots", b"shots", b"--format"]
    cases = [([b"decode", *names, form], {"graph.json": g, "shots": s}, answer) for g, form, s, answer in DECODED]
    for graph, plan, shots, answer in PLANNED:
        files = {"graph.json": graph, "plan.json": plan, "shots": shots}
        cases.append(([b"decode", *names, b"json", b"--plan", b"plan.json"], files, answer))
    for graph, shots, report, answer in CHECKED:
        files = {"graph.json": graph, "shots": shots, "report": report}
        cases.append(([b"check", *names, b"01", b"--report", b"report"], files, answer))
    for words, files, answer in cases:
        name = f"{words[0]} of {files['shots']}"
        yield name, oracle.complaints_of(words, files, answer), []
        wrong = [Answer(b"", b"", 0), answer._replace(status=5), answer._replace(stderr=b"fusion: usage\n")]
        wrong += [answer._replace(stdout=answer.stdout + b"\n"), answer._replace(stdout=answer.stdout[:-1] + b" \n")]
        for each in wrong:
            yield f"{each} to {name}", bool(oracle.complaints_of(words, files, each)), True


def events_text(lines):
    """A report of one shot and these events."""
    row = ["shot 0", "edges", "base 0", "weight 0"]
    return "\n".join(["fusion-report 2", *row, *lines, "done 1 odd 0 units 2 fusions 1\n"]).encode()


def known_events():
    """Of two workers and a plan of two units with a fusion: all whole runs, by whoever does an item, in their order; and runs in
    another order, in parts, or with one line changed."""
    plan = build_plan(graph_of(LINE), [[[0, 2]], [[3, 5]]], [{"of": [0, 1], "interface": [[2, 3]]}])

    def is_accepted(lines):
        return not trace_complaints(plan, 2, 1, {0}, 1, events_text(lines))

    for workers in itertools.product([0, 1], repeat=3):
        run = [f"{word} {worker} 0 {node}" for node, worker in enumerate(workers) for word in ["took", "gave"]]
        yield f"the run {run}", is_accepted(run), True
        for count in range(len(run) + 1):
            for lines in itertools.permutations(run, count):
                if list(lines) != run:
                    yield f"events {lines}", is_accepted(lines), False
        for at, line in enumerate(run):
            word, worker, shot, node = line.split()
            other = "took" if word == "gave" else "gave"
            for change in [
                f"{other} {worker} {shot} {node}",
                f"{word} {1 - int(worker)} {shot} {node}",
                f"{word} 2 {shot} {node}",
                f"{word} {worker} 1 {node}",
                f"{word} {worker} {shot} 3",
                f"{line}\n{line}",
            ]:
                yield f"{change} in {run}", is_accepted([*run[:at], change, *run[at + 1 :]]), False


def main():
    passed = failed = 0
    for part in [known_rows(), known_changed_rows(), known_shifts(), known_texts(), known_answers(), known_events()]:
        for name, found, known in part:
            if found == known:
                passed += 1
            else:
                failed += 1
                print(f"oracle: {name}: {found!r} in place of {known!r}")
    print(f"{passed} passed, {failed} failed")
    return 1 if failed else 0
