#!/usr/bin/env python3
"""Writes the man page of rapidd and its completions for bash from the words that the program takes.

  docs/manual.py           prints them
  docs/manual.py --write   writes docs/manual/rapidd.1 and docs/manual/rapidd.bash
  docs/manual.py --check   ends with status 1 if one of them is not what the sources say

The words are those of crates/rapid_words/src: commands, their options, what they say of themselves, and the texts
behind their helps.
"""
import ast
import re
import sys
from pathlib import Path

TOP = Path(__file__).resolve().parent.parent
SOURCES = TOP / "crates/rapid_words/src"
FOLDER = TOP / "docs/manual"
COMMAND = re.compile(r'Command::new\(alloc, ("\w+"|NODE)\)(.*?)(?=\n    Command::new|;\n|\Z)', re.DOTALL)
OPTION = re.compile(r"(?<!fn )\b(text|number)\(\s*alloc,\s*(.*?),?\s*\)(?:[;)]|$)", re.DOTALL)
STRING = re.compile(r'"((?:[^"\\]|\\.)*)"')
REQUIRED = {"listen"}


def constants(text):
    """The texts that have names."""
    found = re.findall(r'const (\w+): &str =\s*"((?:[^"\\]|\\.)*)";', text, re.DOTALL)
    return {name: ast.literal_eval(f'"""{it}"""') for name, it in found}


def body(text, name):
    """The function with this name."""
    start = re.search(rf"^(?:pub\(crate\) )?fn {name}\b", text, re.MULTILINE).start()
    return text[start : text.index("\n}\n", start)]


def options(text):
    """The options of a function: each has its name, the kind of its value, its default and its help."""
    found = []
    for kind, inside in OPTION.findall(text):
        words = STRING.findall(inside)
        if kind == "number":
            name, default, said = words
            found.append((name, "NUMBER", default, said))
        else:
            name, value, said = words
            found.append((name, value, None, said))
    return found


def commands():
    """What the program says of itself; and of each command its name, its options, what it does, and what is said behind
    that."""
    words, node, helps = (
        (SOURCES / f"{it}.rt").read_text() for it in ("words", "node", "help")
    )
    texts = constants(helps) | constants(node)
    params = options(body(words, "with_params"))
    grammar, cluster = body(words, "grammar"), body(words, "cluster")
    ticking = [it for name in ("tick_ms", "probers") for it in options(body(node, name))]
    found, about = {}, ""
    for where, all_options in (
        (grammar, []),
        (cluster, [*options(cluster), *params]),
        (body(node, "node"), [*options(body(node, "node")), *params, *ticking]),
    ):
        for name, said in COMMAND.findall(where):
            name = texts["NODE"] if name == "NODE" else name.strip('"')
            what = STRING.search(said[said.index(".about(") :])[1]
            behind = texts[re.search(r"\.after_help\((\w+)\)", said)[1]]
            if name == "rapidd":
                about = what, behind, texts["VERSION"]
            else:
                found[name] = all_options, what, behind
    return about, found


def escaped(text):
    """A text as roff reads it."""
    lines = text.replace("\\", "\\e").replace("-", "\\-").split("\n")
    return "\n".join(f"\\&{it}" if it.startswith((".", "'")) else it for it in lines)


def manual(about, found):
    """The man page."""
    what, statuses, version = about
    parts = [
        '.\\" Written by docs/manual.py from the words of the program.',
        f'.TH RAPIDD 1 "" "rapidd {version}" "Rapid in Rattle"',
        ".SH NAME",
        f"rapidd \\- {escaped(what[0].lower() + what[1:])}",
        ".SH SYNOPSIS",
    ]
    for name, (all_options, _, _) in found.items():
        said = [
            f"\\-\\-{it} {value}" if it in REQUIRED else f"[\\-\\-{escaped(it)} {value}]"
            for it, value, _, _ in all_options
        ]
        parts += [f".B rapidd {name}", *([" ".join(said)] if said else []), ".br"]
    parts += [".SH COMMANDS"]
    for name, (all_options, what, behind) in found.items():
        parts += [f".SS {name}", f"{escaped(what)}."]
        for it, value, default, said in all_options:
            tail = f" (default {default})" if default is not None else ""
            parts += [".TP", f"\\fB\\-\\-{escaped(it)}\\fR {value}", f"{escaped(said)}{tail}"]
        parts += [".PP", ".nf", escaped(behind), ".fi"]
    parts += [
        ".SH OPTIONS",
        ".TP",
        "\\fB\\-\\-help\\fR",
        "Prints the help of the program, or of the command before it.",
        ".TP",
        "\\fB\\-\\-version\\fR",
        "Prints the version.",
        ".SH EXIT STATUS",
        ".nf",
        escaped(statuses),
        ".fi",
    ]
    return "\n".join(parts) + "\n"


def completions(found):
    """The completions for bash."""
    rows = "\n".join(
        f'        {name}) words="{" ".join([*(f"--{it}" for it, *_ in all_options), "--help"])}" ;;'
        for name, (all_options, _, _) in found.items()
    )
    return f"""# Written by docs/manual.py from the words of the program. Source it: . docs/manual/rapidd.bash
_rapidd() {{
    local words="{" ".join(found)} --help --version"
    case "${{COMP_WORDS[1]}}" in
{rows}
    esac
    ((COMP_CWORD > 1)) || words="{" ".join(found)} --help --version"
    mapfile -t COMPREPLY < <(compgen -W "$words" -- "${{COMP_WORDS[COMP_CWORD]}}")
}}
complete -F _rapidd rapidd
"""


def main(words):
    about, found = commands()
    pages = {"rapidd.1": manual(about, found), "rapidd.bash": completions(found)}
    if words == ["--write"]:
        FOLDER.mkdir(exist_ok=True)
        for name, text in pages.items():
            (FOLDER / name).write_text(text)
    elif words == ["--check"]:
        old = [it for it, text in pages.items() if not (FOLDER / it).is_file() or (FOLDER / it).read_text() != text]
        if old:
            print(f"not what the sources say: {' '.join(old)}; docs/manual.py --write")
            return 1
    elif not words:
        print("".join(pages.values()), end="")
    else:
        print(__doc__, end="", file=sys.stderr)
        return 2
    return 0


if __name__ == "__main__":
    sys.exit(main(sys.argv[1:]))
