#!/usr/bin/env python3
"""Sees that each path and link that a page names is there, and each test and run of the gate that LIMITS.md names:
`docs/links.py` ends with status 1 if one is not, and names it.

A link `[..](path#anchor)` counts from its page, and the anchor is a heading there. A path counts from
the top of the repository, or from `crates` if it begins with a crate's name: in backquotes any below
`crates`, `docs`, `examples`, `bench`, `.ci` or a folder of a crate, in a block of code a file of
`docs`, `examples` or `bench`. A star stands for any name; built files are not looked for. In a row of
CHANGE.md that begins with a file, a later one may count from the folder or the crate of the one before.
"""
import re
import sys
from pathlib import Path

TOP = Path(__file__).resolve().parent.parent
sys.dont_write_bytecode = True
sys.path.insert(0, str(TOP / ".ci"))
import growths  # noqa: E402

TOPS = ("crates", "docs", "examples", "bench", ".ci")
PARTS = r"(?:src|specs|proofs|must-fail)"
FOLDERS = rf"(?:crates|docs|examples|bench|\.ci|\w+/{PARTS})"
QUOTED = re.compile(rf"`(?:\./)?({FOLDERS}/[\w./*-]+?)/?`")
IN_CODE = re.compile(r"(?<![\w/$.>])((?:docs|examples|bench)/[\w./-]+\.(?:txt|sh|py|rs|service))\b")
LINK = re.compile(r"\]\(([^()\s]+)\)")
NOT_THERE = re.compile(r"/out/|/my_|\bNAME\b")  # built files, and places for names
TEST = re.compile(r"#\[test\]\s+fn (\w+)\(")
SHOWN = re.compile(r"`([a-z]\w+)`")
RUN = re.compile(r"`([a-z]+: [a-z ]+)`")
ROW = re.compile(r"^\| (`.*?) \|", re.M)
BLOCK = re.compile(r"^```.*?^```$", re.M | re.S)


def anchors(page):
    """The anchors of a page: of each heading its words, in small letters, joined."""
    heads = re.findall(r"^#+ (.*)$", BLOCK.sub("", page.read_text()), re.M)
    return {re.sub(r"[^\w -]", "", head.lower()).strip().replace(" ", "-") for head in heads}


def leads(page, link):
    """Whether a link of a page leads somewhere; one to another site is not followed."""
    path, _, anchor = link.partition("#")
    at = page.parent / path if path else page
    there = at.exists() and (not anchor or anchor in anchors(at))
    return there or bool(re.match(r"\w+:", link))


def is_there(path):
    """Whether a path from the top, or from `crates`, is there."""
    below = "" if path.split("/")[0] in TOPS else "crates/"
    return bool(NOT_THERE.search(path)) or any(TOP.glob(below + path))


def files_of(row):
    """The paths of a row in CHANGE.md, as they count from the top or from `crates`."""
    before = Path()
    for name in re.findall(r"`([\w./-]+)`", row):
        if re.match(rf"{PARTS}/", name):
            name = f"{before.parts[0]}/{name}"
        elif "/" not in name and name not in TOPS:
            name = str(before.parent / name)
        before = Path(name)
        yield name


def missing_files():
    """What a row in CHANGE.md names as a file or a folder and is none."""
    rows = ROW.findall((TOP / "docs/CHANGE.md").read_text())
    return [name for row in rows for name in files_of(row) if not (TOP / name).is_file() and not is_there(name)]


def missing_tests():
    """What LIMITS.md names as a test or a run and is none."""
    text = [it.read_text() for it in TOP.glob("crates/*_tests/src/**/*.rt")]
    tests = {name for it in text for name in TEST.findall(it)}
    runs = {it.name for it in growths.runs()}
    rows = [line.split(" | ")[-1] for line in (TOP / "docs/LIMITS.md").read_text().splitlines() if " | " in line]
    missing = [f"the test {name}" for row in rows for name in SHOWN.findall(row) if name not in tests]
    return missing + [f"the run {name}" for row in rows for name in RUN.findall(row) if name not in runs]


def main():
    """Looks through all pages."""
    bad = [f"docs/LIMITS.md: {name} is not there" for name in missing_tests()]
    bad += [f"docs/CHANGE.md: {name} is not there" for name in missing_files()]
    tops = [TOP / "README.md", *sorted(TOP.glob("bench/*.md")), *TOP.glob(".ci/README.md")]
    for page in [*tops, *sorted((TOP / "docs").rglob("*.md"))]:
        text, code = BLOCK.sub("", page.read_text()), "\n".join(BLOCK.findall(page.read_text()))
        names = [link for link in LINK.findall(text) if not leads(page, link)]
        names += [p for p in QUOTED.findall(text) + IN_CODE.findall(code) if not is_there(p)]
        bad += [f"{page.relative_to(TOP)}: {name} is not there" for name in names]
    print("\n".join(bad), end="\n" if bad else "", file=sys.stderr)
    return int(bool(bad))


if __name__ == "__main__":
    sys.exit(main())
