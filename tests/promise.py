"""Reads definitions, and finds those that the clauses of `run` speak of.

What a clause speaks of is found by the names in it: those of its imports, and so on through the definitions that they
name.
"""

import re
from collections import defaultdict, namedtuple

from program import ROOT

CRATES = ROOT / "crates"
RUN = CRATES / "fb_run/src/running.rt"
PAGE = ROOT / "docs/proved.md"
SECTION = "## The definitions"

IMPORT = re.compile(r"(?:ghost |pub )*use Rattle\.([\w.]+)\.\{(.*)\};?")
ALIAS = re.compile(r"(?:ghost )?use Rattle\.([\w.]+) as (\w+);?")
HEAD = re.compile(r"(?:abbrev |pub |record |data )*([A-Za-z_][\w'-]*)")
NAME = re.compile(r"[A-Za-z_][\w'-]*(?:\.[A-Za-z_][\w'-]*)*")
DECLARED = re.compile(r"(fb_\w+)\.specs\.declared\.([\w.]+)\.([A-Z]\w*)(?:\.TheVariants)?")

# A file's imports, its first comment, and each definition as it is there: its text, and the same with its comments.
Module = namedtuple("Module", "imports aliases about items shown")


def read_module(path):
    imports, aliases, items, shown = {}, {}, defaultdict(list), defaultdict(list)
    about, comment, head = None, [], None
    for line in path.read_text().split("\n"):
        if not line.startswith("--"):
            about = comment if about is None else about
        if many := IMPORT.fullmatch(line.strip()):
            for name in many[2].split(","):
                there, *renamed = name.strip().split(" as ")
                imports[renamed[0] if renamed else there] = (many[1], there)
        elif whole := ALIAS.fullmatch(line.strip()):
            aliases[whole[2]] = whole[1]
        elif line.startswith("--"):
            comment.append(line)
            continue
        elif line.strip():
            if at_start := HEAD.match(line):
                head = at_start[1]
            items[head].append(line)
            shown[head] += [*comment, line]
        comment = []
    texts = [{name: "\n".join(lines) for name, lines in of.items()} for of in (items, shown)]
    return Module(imports, aliases, about, *texts)


def name_of(path):
    """The module of a file of definitions, as imports name it."""
    return str(path.relative_to(CRATES).with_suffix("")).replace("/", ".")


def read_modules():
    return {name_of(path): read_module(path) for path in CRATES.glob("*/specs/**/*.antt")}


def named_in(text, name, module, modules):
    """The definitions that a text speaks of, by the imports of its module and the module's own names."""
    for word in NAME.findall(text):
        first, *rest = word.split(".")
        if first in module.imports:
            yield module.imports[first]
        elif first in module.aliases and rest:
            yield module.aliases[first], rest[0]
        elif name in modules and first in module.items:
            yield name, first


def clauses_of_run():
    """The signature of `run`, and its clauses."""
    source = RUN.read_text()
    begin = source.index("pub fn run")
    return source[begin : source.index("\n{", begin)]


def reached_from(begun, modules):
    """The definitions that these speak of, themselves among them, by module."""
    found, left = defaultdict(set), list(begun)
    while left:
        name, item = left.pop()
        if name in modules and item in modules[name].items and item not in found[name]:
            found[name].add(item)
            left += named_in(modules[name].items[item], name, modules[name], modules)
    return {name: items for name, items in found.items() if items}


def reached(modules):
    """The definitions that the clauses of `run` speak of, by module."""
    return reached_from(named_in(clauses_of_run(), None, read_module(RUN), modules), modules)


def types_in(found, modules):
    """The types of the code that these definitions speak of: crate, source file and name of each, in order."""
    types = set()
    for name, items in found.items():
        for item in items:
            for there, _ in named_in(modules[name].items[item], name, modules[name], modules):
                if declared := DECLARED.fullmatch(there):
                    types.add((declared[1], f"src/{declared[2].replace('.', '/')}.rt", declared[3]))
    return sorted(types)


def rows():
    """The rows of the page's table of definitions: what each is about, and its files, of each group all of all crates."""
    section = PAGE.read_text().split(SECTION, 1)[1].split("\n## ", 1)[0]
    for row in re.findall(r"^\| .* \|$", section, re.M):
        about, where, _ = row.strip("| ").split(" | ")
        files = []
        for group in where.split(";"):
            crates, names = re.findall(r"`(fb_\w+)`", group), re.findall(r"(\w+)\.antt`", group)
            files += [f"{crate}.specs.{name}" for crate in crates for name in names]
        if files:
            yield about, files
