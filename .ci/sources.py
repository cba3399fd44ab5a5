"""What the sources of a crate say, as rt fmt lays them out, and what of that the crates above may know."""
import functools
import re

from crates import SOURCES, below, folder_of

COMMENT = re.compile(r"\s*(//|--)")
# A function with a body, in the layout of rt fmt, from its docstring and attributes on: its indent and its name.
FUNCTION = re.compile(r"(?:^ *(?:///|#\[).*\n)*^( *)(?:pub(?:\(\w+\))? )?(?:const )?fn (\w+)(?s:.*?)\n\1\}$", re.M)
BLOCK = re.compile(r"^(?:pub(?:\(\w+\))? )?(impl|trait)\b.*", re.M)
KIND = re.compile(r"^(?:pub\S* )?(?:const (?=fn))?(impl|trait|fn|struct|enum|const|static|type)\b[ <]*(\w*)", re.M)
KEPT = re.compile(r"^    (?!pub )\w.*\n", re.M)  # how a value is kept: a field that is not public
MODEL = re.compile(r"^ +ghost (?:use\b|(?:view|invariant|inverse|inverse_ok) =)[^\n]*\n", re.M)
DEFINED = r"^(?:abbrev |unfoldable )*pub (?:record |data )?(\w+)"
USE = re.compile(r" *(?:ghost )?use Rattle\.([\w.]+)(.*)")
WORD = re.compile(r"[^\W\d]\w*")
MODULE = re.compile(r"\bRattle(?:\.\w+)+")


def split(function):
    """What stands before a function's body, what opens that, and the body."""
    opens = f"\n{function[1]}{{\n"
    head, opens, body = function[0].partition(opens if opens in function[0] else "{\n")
    return head, opens, body


def owner_of(text, function):
    """The type whose method a function is, none if it is of no type; false if it is one that a trait asks for."""
    if not function[1]:
        return None
    block = [*BLOCK.finditer(text, 0, function.start())][-1]
    words = re.sub(r"<(?:[^<>]|<[^<>]*>)*>", "", block[0])
    return block[1] == "impl" and " for " not in words and re.search(r"\b[A-Z]\w*", words)[0]


def said_in(file):
    """The lines of a file, but for empty ones and those of comment."""
    return [it for it in file.read_text().split("\n") if it and not COMMENT.match(it)]


def files_of(folder):
    return sorted(it for it in folder.rglob("*") if it.is_file())


def chunks_of(lines):
    """What stands side by side in a file, each with its attributes: lines up to one that is not indented, and ends in a
    brace that closes or in a semicolon."""
    chunk = []
    for line in (it for it in lines if not it.startswith("#![")):
        chunk.append(line)
        if line[0] != " " and line[-1] in "};":
            yield "\n".join(chunk)
            chunk = []


def contract_of(function):
    """What is known of a function from without: its contract. What is constant may be computed."""
    head, *_ = split(function)
    return function[0] if re.search(r"^ *(?:pub(?:\(\w+\))? )?const fn ", head, re.M) else head


def known_of_block(chunk):
    """What the crates above may know of an impl block or a trait, with the type and the method that they have to name
    for that: of methods of a type's own each that is public, of a model what the value is, not how it is kept, of
    others all but bodies."""
    words = re.sub(r"<(?:[^<>]|<[^<>]*>)*>", "", BLOCK.search(chunk)[0])
    name, functions = re.findall(r"\b[A-Z]\w*", words)[-1], [*FUNCTION.finditer(chunk)]
    is_own = functions and owner_of(chunk, functions[0])
    for it in functions:
        if not is_own or re.search(r"^ *pub (?:const )?fn ", it[0], re.M):
            yield name, {it[2]} if is_own else set(), contract_of(it)
    rest = FUNCTION.sub("", chunk)
    yield name, set(), MODEL.sub("", rest) if " Model for " in words else rest


def known_of_chunk(chunk, modelled):
    """The same of what stands in a file, where these types have a model: of them nothing is known of how they are kept,
    nor of any how it is dropped."""
    kind, name = said.groups() if (said := KIND.search(chunk)) else ("", "")
    if kind in ("impl", "trait"):
        return [] if " Drop for " in BLOCK.search(chunk)[0] else [*known_of_block(chunk)]
    if kind == "fn":
        text = contract_of(it) if (it := FUNCTION.search(chunk)) else chunk
        return [(name, set(), text)] if re.search(r"^pub (?:const )?fn ", chunk, re.M) else []
    text = KEPT.sub("", chunk) if kind == "struct" and name in modelled else chunk
    return [(name, set(), text.replace(", Drop)", ")"))] if kind else []


def named_in(text):
    """The words of a text, and the modules of definitions that it names, with those that they are in."""
    modules = (it.split(".") for it in MODULE.findall(text))
    return {*WORD.findall(text), *(".".join(it[:end]) for it in modules for end in range(2, len(it) + 1))}


def name_of_module(crate, file, part="specs"):
    """How definitions and types of a file are named, below a crate's part."""
    return ".".join(["Rattle", crate, part, *file.relative_to(folder_of(crate)).with_suffix("").parts[1:]])


@functools.lru_cache(maxsize=None)
def known_of(crate):
    """What the crates above may know of a crate: what has to be named for that, a text, and what that names in turn. A
    type that the crate does not give out is known only where definitions name it as declared here."""
    files = [(it, said_in(it)) for it in files_of(folder_of(crate) / "src")]
    said = [chunk for _, lines in files for chunk in chunks_of(lines)]
    modelled = {*re.findall(r"^impl\b.* Model for (\w+)", "\n".join(said), re.M)}
    given_out = {word for it in said if it.startswith("pub use ") for word in WORD.findall(it)}
    known = []
    for file, lines in files:
        is_open = file.stem == "lib" or f"pub mod {file.stem};" in said
        uses = [(f"Rattle.{it[1].rstrip('.')}", {*WORD.findall(it[2])}) for line in lines if (it := USE.match(line))]
        for name, more, text in (it for chunk in chunks_of(lines) for it in known_of_chunk(chunk, modelled)):
            hidden = f"{name_of_module(crate, file, 'specs.declared')}.{name}"
            named = named_in(text)
            named |= {path for path, names in uses if names & named}
            known.append(({name, *more} if is_open or name in given_out else {hidden}, text, named))
    for file in files_of(folder_of(crate) / "specs"):
        text = "\n".join(said_in(file))
        known += [({it, name_of_module(crate, file)}, text, named_in(text)) for it in re.findall(DEFINED, text, re.M)]
    return [(words, "\n".join(it for it in text.split("\n") if it), named) for words, text, named in known]


def known_to(name):
    """What a crate's files name of the crates below it, and what is named by that in turn."""
    files = (it for part in SOURCES for it in files_of(folder_of(name) / part))
    words = {word for it in files for word in named_in(it.read_text())}
    found, left = {}, [(low, *it) for low in below(name) for it in known_of(low)]
    while reached := [it for it in left if it[1] <= words]:
        left = [it for it in left if not it[1] <= words]
        for low, _, text, named in reached:
            found[low, text], words = None, words | named
    return sorted(found)
