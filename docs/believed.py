#!/usr/bin/env python3
"""Lists what a reader has to believe: docs/BELIEVED.md, and a mark in each file that it names.

  docs/believed.py           prints the page
  docs/believed.py --write   writes it, and the marks
  docs/believed.py --check   ends with status 1 if the page or a mark is not what the sources say

A proof shows that code meets its clauses, and not that a clause says what one takes it to say. So a
definition has to be read if a clause of a public call names it, or if such a definition does. The
public calls are those of docs/SURFACE.md. What is found errs on the side of too much: a name that
a clause binds itself counts too if it is also a definition's. Promises that docs/PROMISES.md carries by
private functions, or by the rule of a board, rest on what the clauses and the rule in their files name:
these files are listed here.
"""
import re
import sys
from pathlib import Path

TOP = Path(__file__).resolve().parent.parent
sys.path.insert(0, str(TOP / "docs"))
sys.dont_write_bytecode = True
import surface  # noqa: E402

PAGE = TOP / "docs/BELIEVED.md"
MODEL = "rapid_model"
MARK = "-- Clauses of public calls cite this file."
# the files whose private functions (*within* in docs/PROMISES.md) or whose rule carry promises
WITHIN = [
    "rapid_agent/src/agent.rt",
    "rapid_clerks/src/verdict.rt",
    "rapid_cluster/src/cluster.rt",
    "rapid_desk/src/board.rt",
    "rapid_desk/src/journal.rt",
    "rapid_monitor/src/board_rule.rt",
    *(f"rapid_service/src/{name}.rt" for name in ("journal", "service", "ticker")),
    *(f"rapid_signals/src/{name}.rt" for name in ("bell", "console", "dealer", "ending")),
    "rapid_threads/src/until.rt",
    "rapid_transport/src/connections.rt",
    "rapid_transport/src/readers.rt",
    "rapid_view/src/cell_rule.rt",
    "leader_by_height/src/fence.rt",
    "leader_by_height/src/main.rt",
]
# what an impl says of itself that its callers read: its value, its text, and how it compares, copies and converts
SAID_BY_IMPLS = {"Value", "eq", "cmp", "partial_cmp", "is_clone", "from_gives", "output"}
# and what traits of this repository have it say
SAID_BY_IMPLS |= {"observers", "prints", "met", "next", "faults"}
# what a type always holds, and what a rule of words that threads share says: of the words, of a step on them, and of
# what seats know
ALWAYS = re.compile(r"    ghost (?:\w+:|(?:invariant|holds|first|then|left|right|both|spent) =) \{")
TOKEN = re.compile(r"[^\s(){}\[\],;]+")

HEAD = """# What a reader has to believe

Written by `docs/believed.py` from the sources; `docs/believed.py --check` says whether it still is what they say.

This page is for those who want to know what the promises rest on. A proof shows that the code meets its clauses. \
That the clauses say the right thing is for a reader to see. Here are all definitions of this repository that a clause \
of a public call reaches. The clause names them, or a definition does that it names. \
[The last part](#beyond-public-calls) has those that only clauses of private functions reach, or the rule of a board, \
by which [PROMISES.md](PROMISES.md) carries a promise (*within*, *the rule of the board*). What stands in `specs/` \
and not here is glue. It ties code to code, and a mistake in it makes a proof fail and no such promise false. The \
definitions of the toolchain's own libraries (lists, numbers, sets, SHA-256) come on top.

Definitions are not all that one has to trust. There is also what [README.md](../README.md#what-is-not-proved) names as \
what it rests on. And there are premises. Those of the agreement stand with \
[the headline](PROMISES.md#the-headline). For nodes in several processes there are three more: one founding, no \
identifier used twice, and sockets that deliver only what was sent.

How a type's value is read off its fields (`ghost view`) is left out too. A caller knows a value by what calls answer \
of it.

The lines are those of the definitions, without comments and imports. Code above `rapid_model` has definitions of its \
own for two reasons. Some say of which of its values a definition speaks (an event, an error's number). Others are \
relations that speak of one type alone (what a seat has seen).
"""


class Definition:
    """A definition: its name, its lines, the names that it binds, and those that it names."""

    def __init__(self, name):
        self.name, self.lines, self.bound = name, [], set()

    def tokens(self):
        """The names in its lines that it does not bind."""
        text = " ".join(line.split("--")[0] for line in self.lines)
        bound = self.bound | binders(text)
        heads = (token.split(".") for token in TOKEN.findall(text))
        return [parts for parts in heads if parts[0] not in bound]


def binders(text):
    """The names that a text binds: of functions, and of arguments with a type."""
    found = set()
    for names in re.findall(r"λ ([^.]*)\.", text):
        found.update(names.split())
    for names in re.findall(r"[({]((?:[^\s(){}:]+ )+): ", text):
        found.update(names.split())
    return found


def imports(lines):
    """What lines of imports bring: names with the definition that each is, and names of modules."""
    names, modules = {}, {}
    text = "\n".join(lines)
    for path, listed, alias in re.findall(r"use Rattle\.([\w.+-]+?)(?:\.\{([^}]*)\})?(?: as (\w+))?;?$", text, re.M):
        if not listed:
            modules[alias or path.rpartition(".")[2]] = path
        for item in filter(None, (part.strip() for part in listed.split(","))):
            name, _, other = item.partition(" as ")
            names[other or name] = (path, name)
    return names, modules


class Specs:
    """A file of definitions."""

    def __init__(self, file):
        self.file = file
        self.module = f"{file.parts[-3]}.specs.{file.stem}"
        self.definitions = {}
        lines = file.read_text().split("\n")
        self.names, self.modules = imports([line for line in lines if line.startswith("use ")])
        self.read(self.dedented(lines))

    @staticmethod
    def dedented(lines):
        """The lines, with those below a module without a name moved to the left."""
        within = False
        for line in lines:
            if line.startswith("module _"):
                within = True
                continue
            if line and not line.startswith(" "):
                within = False
            yield line[2:] if within else line

    def read(self, lines):
        """Reads the definitions."""
        current = None
        for line in lines:
            if not line.strip() or line.startswith(("--", "use ", "unfolding", "infix", "pub mod", "mod ")):
                continue
            head = re.match(r"(?:(?:abbrev|unfoldable|pub) )*(?:(?:record|data) (\S+)|(\S+) :) ?", line)
            field = re.match(r"\s+(?:pub )?([^\s:]+) : ", line)
            if head and not line.startswith(" "):
                current = self.definitions.setdefault(head[1] or head[2], Definition(head[1] or head[2]))
                current.bound.update({"where", "Type", "record", "data", "pub", "abbrev", "unfoldable"})
            elif current and field:
                current.bound.add(field[1])
            elif current and not line.startswith(" ") and "=" in line:
                current.bound.update(TOKEN.findall(line.split(" = ")[0])[1:])
            if current:
                current.lines.append(line)

    def resolve(self, parts):
        """The module and the name of a definition that these parts name, or none."""
        head = parts[0]
        if head in self.definitions:
            return self.module, head
        if head in self.names:
            return self.names[head]
        if head in self.modules and len(parts) > 1:
            return self.modules[head], parts[1]
        operator = next((name for name in self.names if "◌" in name and name.strip("◌") == head), None)
        return self.names[operator] if operator else None


def blocks(lines):
    """The items of a file of code: the lines of each impl, trait and free function."""
    start = 0
    for at, line in enumerate(lines):
        if line in ("}", "{}"):
            yield lines[start : at + 1]
            start = at + 1


def clauses(lines, of_all=False):
    """The clauses of the public functions in these lines, or of all, and of those that a trait asks for."""
    within, public = False, False
    text = []
    head = lines_head(lines)
    is_trait = head.startswith("pub trait ") or " for " in head
    for line in lines:
        if re.match(r"(    )?(pub(\([^)]*\))? )?(const )?fn ", line):
            public = of_all or bool(re.match(r"(    )?pub (const )?fn ", line)) or is_trait
        starts = re.match(r"\s+(requires|ensures)\*? ", line)
        if starts:
            within = public
        elif line.strip() in ("{", "{}") or re.match(r"\s*(///|//|#\[)", line):
            within = False
        if within:
            text.append(line)
    return " ".join(text)


def said_by_impl(lines):
    """What an impl or a trait says by its ghost members that callers read."""
    text = []
    for line in lines:
        member = re.match(r"    ghost (\w+)(?::| =) \{ (.*)", line)
        if member and (member[1] in SAID_BY_IMPLS or lines_head(lines).startswith("pub trait ")):
            text.append(member[2])
    return " ".join(text)


def lines_head(lines):
    """The line in which a block's item begins: the last one at the margin."""
    heads = [line for line in lines if re.match(r"(pub )?(const )?(impl|trait|fn|struct|enum)\b", line)]
    return heads[-1] if heads else ""


def cited(crate):
    """The definitions that clauses of the public calls of a crate name: pairs of a module and a name."""
    source = TOP / "crates" / crate / "src"
    lib = (source / "lib.rt").read_text()
    own, _ = surface.exported(lib)
    found = set()
    for file in sorted(source.rglob("*.rt")):
        lines = file.read_text().split("\n")
        file_names, file_modules = imports([line[6:] for line in lines if line.startswith("ghost use ")])
        for block in blocks(lines):
            head = lines_head(block)
            item = re.match(r"(?:pub )?(?:const )?(?:fn|struct|enum|trait) (\w+)", head)
            of = re.match(r"impl(?:<[^{]*?>)? (?:[\w:]+(?:<.*?>)? for )?(\w+)", head)
            name = item[1] if item else of[1] if of else ""
            if name not in own and not (file.name == "lib.rt" and head.startswith("pub ")):
                continue
            inner = [line.strip()[6:] for line in block if line.startswith("    ghost use ")]
            names, modules = imports(inner)
            names, modules = file_names | names, file_modules | modules
            text = clauses(block) + " " + said_by_impl(block)
            for parts in (token.split(".") for token in TOKEN.findall(text)):
                if parts[0] in names:
                    found.add(names[parts[0]])
                elif parts[0] in modules and len(parts) > 1:
                    found.add((modules[parts[0]], parts[1]))
    return found


def named_in(file):
    """The definitions that clauses in a file name, what its types always hold, and its rule: modules and names."""
    lines = file.read_text().split("\n")
    names, modules = imports([line.strip()[6:] for line in lines if line.strip().startswith("ghost use ")])
    always = [line.partition("{")[2] for line in lines if ALWAYS.match(line)]
    text = " ".join([clauses(block, of_all=True) for block in blocks(lines)] + always)
    for parts in (token.split(".") for token in TOKEN.findall(text)):
        if parts[0] in names:
            yield names[parts[0]]
        elif parts[0] in modules and len(parts) > 1:
            yield modules[parts[0]], parts[1]


def crates():
    """The libraries, lowest first."""
    lines = (TOP / "crates.txt").read_text().split("\n")
    names = [line.partition(":")[0] for line in lines if line and not line.startswith("#")]
    return [name for name in names if not name.endswith("_tests") and name not in surface.NO_LIBRARIES]


def reached(specs, named):
    """All definitions that these name, and they themselves, by module."""
    found = {}
    waiting = list(named)
    while waiting:
        module, name = waiting.pop()
        if module not in specs or name in found.get(module, set()):
            continue
        definition = specs[module].definitions.get(name)
        if definition is None:
            # a constructor or a field: the definition that has it
            whole = [d.name for d in specs[module].definitions.values() if name in d.bound]
            waiting.extend((module, other) for other in whole if other not in found.get(module, set()))
            continue
        found.setdefault(module, set()).add(name)
        waiting.extend(filter(None, (specs[module].resolve(parts) for parts in definition.tokens())))
    return found


def written(names):
    """How names are listed."""
    return ", ".join(f"`{name}`" for name in names)


def beyond(specs, found):
    """The last part of the page: what only clauses of private functions, and a rule, reach."""
    more = reached(specs, [named for file in WITHIN for named in named_in(TOP / "crates" / file)])
    said = "Clauses of public calls do not reach these. Those of private functions do, or the rule of a board, "
    said += "by which a promise is carried."
    rows = []
    for module in (m for m in specs if m in more):
        names = [n for n in specs[module].definitions if n in more[module] and n not in found.get(module, set())]
        if names:
            rows.append(f"- **{specs[module].file.stem}** of `{module.partition('.')[0]}`: {written(names)}")
    return ["", "## Beyond public calls", "", said, "", *rows]


def page(specs, found, names):
    """The text of the page."""
    out = [HEAD]
    totals = []
    for crate in names:
        rows, lines = [], 0
        for module in (m for m in specs if m.startswith(f"{crate}.") and m in found):
            have = [d for d in specs[module].definitions.values() if d.name in found[module]]
            count = sum(len(d.lines) for d in have)
            lines += count
            rows.append(f"- **{specs[module].file.stem}** ({count}): {written(d.name for d in have)}")
        if rows:
            totals.append((crate, len(rows), lines))
            out.extend(["", f"## {crate}", "", f"In `crates/{crate}/specs`, {lines} lines.", "", *rows])
    left = []
    for module in (m for m in specs if m.startswith(f"{MODEL}.")):
        rest = [n for n in specs[module].definitions if n not in found.get(module, set())]
        if rest:
            left.append(f"- **{specs[module].file.stem}**: {written(rest)}")
    said = f"No clause of a public call reaches these definitions of `{MODEL}`:"
    out.extend(["", f"## Left out of {MODEL}", "", said, "", *left])
    out.extend(beyond(specs, found))
    table = ["| crate | files | lines |", "|---|---|---|"]
    table += [f"| [{crate}](#{crate}) | {files} | {lines} |" for crate, files, lines in totals]
    table.append(f"| all | {sum(t[1] for t in totals)} | {sum(t[2] for t in totals)} |")
    return surface.shaped([out[0], *table, *out[1:]])


def marked(text, is_cited):
    """A file's text with the mark, or without it."""
    plain = text.removeprefix(MARK + "\n")
    return f"{MARK}\n{plain}" if is_cited else plain


def wanted():
    """All files that are written here, with the text that each has to have."""
    names = crates()
    specs = {}
    for crate in [*names, "leader_by_height"]:
        for file in sorted((TOP / "crates" / crate / "specs").glob("*.antt")):
            if file.stem != "Lib":
                specs[f"{crate}.specs.{file.stem}"] = Specs(file)
    found = reached(specs, [named for name in names for named in cited(name)])
    texts = {PAGE: page(specs, found, names)}
    for module, it in specs.items():
        if not module.startswith(f"{MODEL}."):
            texts[it.file] = marked(it.file.read_text(), module in found)
    return texts


def main(words):
    """Prints, writes or compares the page and the marks."""
    if words not in ([], ["--write"], ["--check"]):
        print(__doc__, file=sys.stderr)
        return 2
    texts = wanted()
    if not words:
        print(texts[PAGE], end="")
        return 0
    wrong = [at for at, text in texts.items() if not at.is_file() or at.read_text() != text]
    for at in wrong:
        if words == ["--write"]:
            at.write_text(texts[at])
        else:
            print(f"{at.relative_to(TOP)} is not what the sources say: docs/believed.py --write", file=sys.stderr)
    return int(words == ["--check"] and bool(wrong))


if __name__ == "__main__":
    sys.exit(main(sys.argv[1:]))
