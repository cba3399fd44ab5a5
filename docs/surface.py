#!/usr/bin/env python3
"""Lists the public surface of the libraries: docs/SURFACE.md, and a page a crate in docs/surface.

  docs/surface.py           prints all pages
  docs/surface.py --write   writes them, and removes pages of crates that are no more
  docs/surface.py --check   ends with status 1 if one of them is not what the sources say

A function stands on a page if its crate's lib.rt names it or its type in a `pub use`. What it does
is how its docstring begins: whole sentences of the first paragraph, up to some 40 words, and of a
law all of it. What its caller has to prove are its clauses `requires`; the numbers of refusals are
those of the method `code`.
"""
import re
import sys
import textwrap
from pathlib import Path

TOP = Path(__file__).resolve().parent.parent
PAGE = TOP / "docs/SURFACE.md"
FOLDER = TOP / "docs/surface"
WIDTH = 120
LEAD = 40
LAWS = {"rapid_model", "rapid_agreement", "rapid_safety", "rapid_histories"}
NO_LIBRARIES = {
    "rapidd",
    "rapid_bench",
    "rapid_reference",
    "rapid_sharded_map",
    "keys_by_member",
    "leader_by_height",
}

HEAD = """# The public surface

Written by `docs/surface.py` from the sources; `docs/surface.py --check` says whether it still is what they say. It is \
for those who look for a call: all public functions and refusals, a page a crate, lowest first. How to read one:

- Behind each function stands how its docstring begins: its first sentences, up to some 40 words. What a call ensures \
stands in its contract: [PROMISES.md](PROMISES.md) retells it.
- *requires* is what its caller has to prove, if anything.
- *errors* is what the docstring says of them.
- A list of refusals (or replies) has for each the number that `code()` answers, and when it comes. Out of memory is \
99, except in `rapid_node` and `rapid_desk` (2) and `rapid_world` (7). That it is answered only if an allocation was \
really refused is shown by tests.
- A function named `tell` does nothing: what it ensures is for proofs.

## The crates

"""


class Item:
    """A public item: its docstring, its head line, and its contract's conditions."""

    def __init__(self, doc, head, required):
        self.doc, self.head, self.required = doc, head, required

    def sentences(self):
        """The sentences of the docstring before `# Errors`, by paragraphs."""
        said = [" ".join(p.split()) for p in self.doc.split("# Errors")[0].split("  ")]
        return [re.split(r"(?<=[.!?]) (?=[A-Z`\[])", p) for p in said if p]

    def parts(self):
        """The sentences with which the docstring begins, and those that follow."""
        first, *others = self.sentences() or [[""]]
        is_law = re.match(r"fn \w+(<.*>)?\(\)$", self.head)
        count = 1
        while count < len(first) and not self.names_error(first[count]):
            if not is_law and len(" ".join(first[: count + 1]).split()) > LEAD:
                break
            count += 1
        return first[:count], first[count:] + [s for p in others for s in p]

    def lead(self):
        """How the docstring begins."""
        return " ".join(self.parts()[0])

    def names_error(self, sentence):
        """Whether a sentence of a function that can fail names an error."""
        names = r"`(?!None|Some|Ok)[A-Z]\w+`|error|[Oo]ut of memory"
        return "Result<" in self.head and re.search(names, sentence)

    def errors(self):
        """What the docstring says under `# Errors`, else its sentences that name an error."""
        said = " ".join(self.doc.partition("# Errors")[2].split())
        return said or " ".join(s for s in self.parts()[1] if self.names_error(s))


class Type:
    """A public type or trait, and its functions."""

    def __init__(self, kind, name, doc):
        self.kind, self.name, self.doc = kind, name, doc
        self.traits, self.items, self.variants, self.codes = [], [], [], {}


def signature(lines, at):
    """The head of the function that begins at a line, on one line, and its conditions."""
    head, required = [], []
    for line in lines[at:]:
        text = line.strip()
        if text.startswith("requires"):
            required.append(re.sub(r"^requires (\w+ )?\{ (.*) \}$", r"\2", text))
        elif text.startswith("ensures") or text == "{" or text == "{}":
            break
        elif not required:
            head.append(text.removesuffix("{").removesuffix(";").strip())
            if text.endswith((" {", ";", "{}")):
                break
    joined = " ".join(head).replace("( ", "(").replace(",)", ")").replace(", )", ")")
    return re.sub(r"^pub |const fn ", "", joined).removesuffix(" where").removesuffix(","), required


def docs_above(lines, at):
    """The docstring that stands above a line, over attributes."""
    found = []
    for line in reversed(lines[:at]):
        text = line.strip()
        if text.startswith("///"):
            found.append(text[3:].strip())
        elif not text.startswith(("#[", "#![")):
            break
    return " ".join(reversed(found))


def derived(lines, at):
    """The traits that the item at a line derives."""
    for line in reversed(lines[:at]):
        if line.startswith("#[derive("):
            return line[len("#[derive(") : line.index(")")].split(", ")
        if not line.startswith(("///", "#[")):
            break
    return []


def read_body(lines, at, found):
    """Reads the variants, functions and codes between a line and the end of its block."""
    for place in range(at + 1, len(lines)):
        line = lines[place]
        if line.startswith("}"):
            break
        variant = re.match(r"    (([A-Z]\w*)(?:\(.*\))?),$", line)
        if found.kind == "enum" and variant and "impl" not in lines[at]:
            found.variants.append((variant[2], variant[1], docs_above(lines, place)))
        field = re.match(r"    pub (\w+: .*),$", line)
        if found.kind == "struct" and field and "impl" not in lines[at]:
            found.items.append(Item(docs_above(lines, place), "." + field[1], []))
        code = re.match(r"            (?:\w+::)?(\w+)(?:\(.*\))? => (\d+),$", line)
        if code:
            found.codes[code[1]] = int(code[2])
        is_trait = found.kind == "trait" and "trait" in lines[at]
        if re.match(r"    pub (const )?fn " if not is_trait else r"    fn ", line):
            head, required = signature(lines, place)
            found.items.append(Item(docs_above(lines, place), head, required))
        constant = re.match(r"    pub const (.*);$", line)
        if constant:
            found.items.append(Item(docs_above(lines, place), "const " + constant[1], []))


def exported(lib):
    """The names that a library names by `pub use`, of its own and of others."""
    own, others = [], []
    for path, names in re.findall(r"^pub use ([\w:]+?)(?:::\{([^}]*)\})?;", lib, re.M):
        module, _, last = path.rpartition("::")
        listed = [n.strip() for n in names.split(",") if n.strip()] if names else [last]
        (others if (module or path).startswith("rapid_") else own).extend(listed)
    return own, others


def read_crate(name):
    """The public types, the public functions, and what is named again, of a crate."""
    source = TOP / "crates" / name / "src"
    lib = (source / "lib.rt").read_text()
    own, others = exported(lib)
    types, functions = {}, []
    files = sorted(source.rglob("*.rt"))
    texts = [(file, file.read_text().split("\n")) for file in files]
    for file, lines in texts:
        for at, line in enumerate(lines):
            kind = re.match(r"pub (struct|enum|trait|type) (\w+)", line)
            if kind and (kind[2] in own or file.name == "lib.rt"):
                types[kind[2]] = Type(kind[1], kind[2], docs_above(lines, at))
                types[kind[2]].traits = derived(lines, at)
                if kind[1] != "type" and line.endswith("{"):
                    read_body(lines, at, types[kind[2]])
            free = re.match(r"pub (?:const )?fn (\w+)", line)
            if free and (free[1] in own or file.name == "lib.rt"):
                functions.append(Item(docs_above(lines, at), *signature(lines, at)))
    for file, lines in texts:
        for at, line in enumerate(lines):
            block = re.match(r"impl(?:<[^{]*?>)? (?:([\w:]+)(?:<.*?>)? for )?(\w+)", line)
            if not block or block[2] not in types or "Model for" in line:
                continue
            if block[1]:
                types[block[2]].traits.append(block[1].split("::")[-1])
            read_body(lines, at, types[block[2]])
    return lib, types, functions, others


def print_item(item, out, owner=""):
    """One line for an item, and what it requires of its caller and refuses."""
    name = re.sub(r"^(fn|const) ", "", item.head)
    out.append(f"- `{owner}{name}`: {item.lead()}" if item.doc else f"- `{owner}{name}`")
    if item.required:
        out.append("  - *requires*: " + "; ".join(f"`{s}`" for s in item.required))
    if item.errors():
        out.append("  - *errors*: " + item.errors())


def print_type(found, out):
    """A type, its functions, and a list of its refusals if it has some."""
    traits = [t for t in dict.fromkeys(found.traits) if t not in ("Drop", "From", "Error")]
    has = f" ({', '.join(traits)})" if traits else ""
    doc = Item(found.doc, "", []).lead()
    out.extend(["", f"**{found.kind} `{found.name}`**{has}: {doc}", ""])
    if found.variants and (found.codes or found.name.endswith(("Error", "Fault"))):
        for name, _, when in found.variants:
            number = found.codes.get(name)
            told = f" {number}" if number is not None else ""
            out.append(f"- **{name}**{told}: {when}")
    elif found.variants:
        for _, case, said in found.variants:
            out.append(f"- `{case}`: {said}" if said else f"- `{case}`")
    for item in found.items:
        if re.match(r"fn code\b", item.head):
            if not found.variants:
                out.extend(f"- number {number}" for number in found.codes.values())
            continue
        print_item(item, out, "" if item.head.startswith((".", "const")) else found.name + "::")


def wrapped(line):
    """A line in pieces of at most the width. What stands in backquotes is kept whole if it fits."""
    kept = re.compile(r"`[^`]*`")
    glued = kept.sub(lambda it: it[0].replace(" ", "\0" if len(it[0]) < 92 else " "), line)
    indent = re.match(r" *(- )?", line)[0]
    how = {"break_long_words": False, "break_on_hyphens": False}
    pieces = textwrap.wrap(glued, WIDTH, subsequent_indent=" " * len(indent), **how)
    return [piece.replace("\0", " ") for piece in pieces] or [""]


def shaped(out):
    """The text of a page: its lines wrapped, tables left whole, one empty line between parts."""
    lines = "\n".join(out).split("\n")
    rows = [[line] if line.startswith("|") else wrapped(line) for line in lines]
    text = "\n".join(piece for row in rows for piece in row).rstrip() + "\n"
    return re.sub(r"\n{3,}", "\n\n", text)


def crate_page(name):
    """The page of a crate."""
    lib, types, functions, others = read_crate(name)
    said = re.findall(r"^//! ?(.*)$", lib, re.M)
    out = [f"# {name}", "", Item(" ".join(said), "", []).lead()]
    if others:
        out.extend(["", "Names again: " + ", ".join(f"`{n}`" for n in others) + "."])
    for found in types.values():
        print_type(found, out)
    if functions:
        laws = "laws, each the contract of a function with an empty body"
        out.extend(["", f"**{laws if name in LAWS else 'functions'}**", ""])
        for item in functions:
            print_item(item, out)
    return shaped(out)


def pages():
    """All pages, by their places. What a crate has is the comment above it in crates.txt."""
    found, rows, said = {}, [], ""
    for line in (TOP / "crates.txt").read_text().split("\n"):
        name = line.partition(":")[0]
        if line.startswith("#"):
            said = line[1:].strip()
        if not name or name.startswith("#") or name.endswith("_tests") or name in NO_LIBRARIES:
            continue
        found[FOLDER / f"{name}.md"] = crate_page(name)
        rows.append(f"- [{name}](surface/{name}.md): {said}")
    found[PAGE] = shaped([HEAD, *rows])
    return found


def differing(found):
    """The pages that are not there as they should be, and those that should not be there."""
    wrong = [at for at, text in found.items() if not at.is_file() or at.read_text() != text]
    return wrong + [at for at in sorted(FOLDER.glob("*.md")) if at not in found]


def main(words):
    """Prints, writes or compares the pages."""
    if words not in ([], ["--write"], ["--check"]):
        print(__doc__, file=sys.stderr)
        return 2
    found = pages()
    if not words:
        print("\n".join(found.values()), end="")
        return 0
    wrong = differing(found)
    if words == ["--check"]:
        for at in wrong:
            said = f"{at.relative_to(TOP)} is not what the sources say: docs/surface.py --write"
            print(said, file=sys.stderr)
        return int(bool(wrong))
    FOLDER.mkdir(exist_ok=True)
    for at in wrong:
        if at in found:
            at.write_text(found[at])
        else:
            at.unlink()
    return 0


if __name__ == "__main__":
    sys.exit(main(sys.argv[1:]))
