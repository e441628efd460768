"""Reads the cases of a folder: a folder for each that is a command, and tables of many."""

import re
from collections import namedtuple
from string import Template

# Words are None where there is a command. Files are bytes by name. A stderr of None is any text.
Case = namedtuple("Case", "name words command files stdin stdout stderr status")

FOLDER_PARTS = ["command", "stdin", "stdout", "stderr", "status"]
TABLE_PARTS = ["name", "words", "stdin", "stdout", "stderr", "status"]


class NoCase(Exception):
    """A case without its expectation, or a line of a table out of form."""


def read_cases(folder):
    cases = []
    for part in sorted(folder.iterdir()):
        cases.extend([folder_case(part)] if part.is_dir() else table_cases(part))
    names = [case.name for case in cases]
    for name in names:
        if names.count(name) > 1:
            raise NoCase(f"{name}: two cases of this name")
    return cases


def folder_case(folder):
    texts = {file.name: file.read_bytes() for file in folder.iterdir()}
    for part in ["command", "stdout", "status"]:
        if part not in texts:
            raise NoCase(f"{folder.name}: no {part}")
    files = {name: text for name, text in texts.items() if name not in FOLDER_PARTS}
    said = [texts["stdout"], texts.get("stderr"), int(texts["status"])]
    return Case(folder.name, None, texts["command"], files, texts.get("stdin", b""), *said)


def table_cases(file):
    """The cases of a table, whose lines are:

    # ..                a remark
    let NAME = TEXT     what $NAME means from here on
    set PART = TEXT     a part of all cases from here on
    unset PART          no longer
    columns A | B       the parts that the cells of the further lines give
    TEXT | TEXT         a case

    The parts are the case's name, its words, stdin, stdout, stderr (* is any text) and status; each other part is a
    file. In a text a semicolon, with one blank after it where there is one, is a newline; \\n, \\r, \\t, \\xNN and
    \\\\ are bytes, and \\e is nothing.
    """
    cases, meanings, parts, columns = [], {}, {}, []
    for number, line in enumerate(file.read_text().split("\n"), 1):
        word, _, rest = line.partition(" ")
        try:
            line = Template(line).substitute(meanings) if word != "#" else ""
            if not line.strip():
                continue
            rest = line.partition(" ")[2]
            if word in ["let", "set"]:
                name, _, text = rest.partition(" =")
                (meanings if word == "let" else parts)[name.strip()] = text.strip()
            elif word == "unset":
                del parts[rest.strip()]
            elif word == "columns":
                columns = [name.strip() for name in rest.split("|")]
            else:
                cells = [cell.strip() for cell in line.split("|")]
                cases.append(table_case(file.stem, {**parts, **dict(zip(columns, cells, strict=True))}))
        except (KeyError, ValueError) as fault:
            raise NoCase(f"{file.name}:{number}: {fault!r}") from None
    return cases


def table_case(table, parts):
    files = {name: bytes_of(text) for name, text in parts.items() if name not in TABLE_PARTS}
    words = [bytes_of(word) for word in parts["words"].split()]
    stderr = None if parts["stderr"] == "*" else bytes_of(parts["stderr"])
    said = [bytes_of(parts["stdout"]), stderr, int(parts["status"])]
    return Case(f"{table}/{parts['name']}", words, None, files, bytes_of(parts.get("stdin", "")), *said)


BYTES = {b"n": b"\n", b"r": b"\r", b"t": b"\t", b"\\": b"\\", b"e": b""}


def bytes_of(text):
    """The bytes that a text of a table stands for."""

    def byte_of(found):
        escape = found[1]
        return bytes([int(escape[1:], 16)]) if escape[:1] == b"x" else BYTES[escape]

    return re.sub(rb"\\(x[0-9a-f]{2}|.)", byte_of, re.sub(b"; ?", b"\n", text.encode()))
