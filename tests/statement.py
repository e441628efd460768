"""Makes docs/statement.md: the promise of `run`, and each definition that its clauses reach, copied from its file."""

import re

from promise import CRATES, ROOT, clauses_of_run, read_modules, reached, reached_from, rows, types_in

STATEMENT = ROOT / "docs/statement.md"
CORE = ("fb_graph.specs.Answers", "IsRight")
LAW = ("fb_graph.specs.Laws", "LeastWeight")

HEAD = """\
# The statement

What `run` promises: its clauses, and each definition that they reach, copied from the crates, the core first.
[proved.md](proved.md) says in words what they say, and what they don't. This page is made by `tests/definitions --write`,
and the gate refuses a stale one.

| Written | Read |
|---|---|
| `A × B`, `A ⊎ B`, `A → B`, `¬ A`, `⊤` | A and B; A or B; if A then B; not A; nothing is claimed |
| `(x : T) × A`, `(x : T) → A` | there is an x of which A holds; A holds of each x |
| `≡`, `≢`, `≤`, `<` | equal, different, at most, less |
| `[]`, `x ∷ xs`, `xs ++ ys`, `All P xs` | no entry; x and then xs; xs and then ys; P of each entry |
| `cond b x y`, `λ x. e` | x if b is true, else y; the function that gives e for x |
| `pub record .. where`, `pub data .. where` | facts that all hold, or values, by name; one of several forms |
| `record r { f = x }` | r with x as its f |
| `Type 0` | a statement; `Problem → Row → Type 0` is one about a problem and a row |

A name that isn't on this page is one of the kit's, or of the traits of `fb_ports`, by which files and sinks report what
they hold (`F.named`, `F.left`), what they were asked or given (`F.asked`, `O.taken`), and how many calls failed (`F.faults`).
"""
CORE_TITLE = "The core: a right row"
LAW_TITLE = "Why no correction weighs less"
LAW_HEAD = """\
That is a law of all problems and rows, proved in `fb_graph` (`least_weight` in `src/laws.rt`):
"""
WORDS = "fb_run.specs.Promise"
WORDS_TITLE = "What a finished decode has written"
WORDS_HEAD = """\
In the problem's own words, and proved of the clause `ends` of `run` below (`decodes_right` in `fb_run`, `src/laws.rt`):
"""
RUN_TITLE = "What `run` promises"
RUN_HEAD = """\
`main` calls it with the real files and streams (`fb_run`, `src/running.rt`):
"""


def declaration(crate, file, name):
    """A type of the code as it is declared, without its derives; None where it isn't written out there."""
    lines = (CRATES / crate / file).read_text().split("\n") if (CRATES / crate / file).is_file() else []
    for first, line in enumerate(lines):
        if re.match(rf"pub (struct|enum) {name}\b", line):
            last = first if line.endswith(";") else lines.index("}", first)
            above = first
            while lines[above - 1].startswith(("///", "#[")):
                above -= 1
            return "\n".join(it for it in lines[above : last + 1] if not it.strip().startswith("#["))
    return None


def block(texts, language=""):
    return f"```{language}\n" + "\n\n".join(texts) + "\n```\n"


def definitions(name, items, module):
    """A file's definitions, in the order in which they are there."""
    crate, *file = name.split(".")
    about = ["\n".join(module.about)] if module.about else []
    texts = [text for item, text in module.shown.items() if item in items]
    return f"`{crate}` `{'/'.join(file)}.antt`\n\n" + block(about + texts)


def types(found, modules, shown):
    """The types of the code that the definitions speak of, but for those that are shown already."""
    wanted = [of for of in types_in(found, modules) if of not in shown]
    shown.update(wanted)
    texts = [text for of in wanted if (text := declaration(*of))]
    return ["In the code:\n\n" + block(texts, "rust")] if texts else []


def core_rows(modules):
    """The rows of the table that have to do with what a right row is."""
    core = reached_from([CORE], modules)
    return [(about, files) for about, files in rows() if core.keys() & set(files)]


def link(title):
    return f"- [{title}](#{re.sub('[^a-z -]', '', title.lower()).replace(' ', '-')})"


def page():
    """The text of docs/statement.md."""
    modules = read_modules()
    found, shown_types = reached(modules), set()

    def section(of, files):
        parts = [definitions(name, of[name], modules[name]) for name in files if of.get(name)]
        return "\n".join([*parts, *types({name: of.get(name, set()) for name in files}, modules, shown_types)])

    core = core_rows(modules)
    sections = [(CORE_TITLE, section(found, [name for _, files in core for name in files]))]
    sections += [(LAW_TITLE, f"{LAW_HEAD}\n{section({LAW[0]: {LAW[1]}}, [LAW[0]])}")]
    sections += [(WORDS_TITLE, f"{WORDS_HEAD}\n{section({WORDS: set(modules[WORDS].shown)}, [WORDS])}")]
    sections += [(RUN_TITLE, f"{RUN_HEAD}\n{block([clauses_of_run()], 'rust')}")]
    for about, files in rows():
        if (about, files) not in core and found.keys() & set(files):
            sections.append((about[0].upper() + about[1:], section(found, files)))
    contents = "\n".join(link(title) for title, _ in sections)
    return "\n".join([HEAD, f"{contents}\n", *(f"## {title}\n\n{text}" for title, text in sections)])
