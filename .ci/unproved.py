"""Runs tests, examples and ./rapidd by programs that rt try builds without proofs. As a command it is ./rapidd: it runs
the program with the words given."""
import functools
import re
import shutil
import subprocess
import sys
import tempfile
from pathlib import Path

sys.dont_write_bytecode = True
from crates import LINES, TOP, below, folder_of, rt, side_by_side, write_tree  # noqa: E402

SLOW = "rapid_slow_tests"  # LLVM has to build them
RESULT = re.compile(r"test result: \w+\. (\d+) passed; (\d+) failed;")
ADDED = re.compile(r"(interpreter: |checked: ended |checked: step |races: |run=ended )")  # what rt says besides
MAIN = """//! One command of the program.
#![tactic(auto)]

use rapid_{name}::run_{name};
use rapid_text::RunFault;
use std::io;
use std::process::ExitCode;

fn main(rt: HostRuntime) -> ExitCode {{
    match run_{name}(rt.alloc(), &mut rt.reader(), &mut io::writer(&rt)) {{
        Ok(_) => ExitCode::from(0),
        Err(RunFault::Read | RunFault::Write) => ExitCode::from(1),
        Err(RunFault::OutOfMemory) => ExitCode::from(3),
    }}
}}
"""


def program_of(room, name):
    """The folder of a program of one command, in a tree of no more crates than it needs."""
    write_tree(room, [*below(f"rapid_{name}"), f"rapid_{name}"])
    with open(room / "crates.txt", "a") as it:
        it.write(f"program: rapid_{name} rapid_text\n")
    source = folder_of("program", room) / "src/main.rt"
    source.parent.mkdir(parents=True)
    source.write_text(MAIN.format(name=name))
    return folder_of("program", room)


def try_tests(crate, words, _jobs):
    """Runs a crate's tests, or those whose names have the word."""
    ran = rt(["try", "--test", "--seconds", "300", "--", *words], folder_of(crate))
    found = RESULT.findall(ran.stdout)
    passed, failed = map(int, found[-1]) if found else (0, 1)
    failed = max(failed, int(ran.returncode != 0))
    return passed, failed, ran.stdout if failed else ""


def try_examples(command, _jobs):
    """Runs a command on each of its examples, and compares what it writes."""
    given = sorted((TOP / "examples" / command).glob("*.txt"))
    with tempfile.TemporaryDirectory(prefix="check-") as room:
        folder, cases = program_of(Path(room) / "tree", command), Path(room) / "cases"
        cases.mkdir()
        for it in given:
            shutil.copy(it, cases)
        ran = rt(["try", "--cases", str(cases)], folder, stderr=None)
    wrote = dict(it.partition("\n")[::2] for it in ran.stdout.split("== ")[1:])
    bad = [it.name for it in given if wrote.get(it.name) != it.with_suffix(".out").read_text()]
    said = "".join(f"{it} is not what {it[:-4]}.out has:\n{wrote.get(it, ran.stdout)}" for it in bad)
    return len(given) - len(bad), len(bad), said


def run(words):
    """Runs all tests but the slow ones and all examples, or the tests whose names have the word."""
    crates = [it for it in LINES if it.endswith("_tests") and it != SLOW]
    tasks = {it: ([], functools.partial(try_tests, it, words)) for it in crates}
    for it in () if words else ("detect", "sim"):
        tasks[f"examples/{it}"] = [], functools.partial(try_examples, it)
    return side_by_side(tasks)[:2]


def main(words):
    """Runs the program with these words; detect and sim by programs of no more crates than they need. An interpreter
    is not asked: it takes seconds, and seldom has what a program calls."""
    with tempfile.TemporaryDirectory(prefix="rapidd-") as room:
        folder = folder_of("rapidd")
        if words in (["detect"], ["sim"]):
            folder, words = program_of(Path(room), words[0]), []
        ran = subprocess.run(
            ["rt", "try", "--steps", "1", "--", *words], cwd=folder, stderr=subprocess.PIPE, text=True, errors="replace"
        )
    said = [it for it in ran.stderr.splitlines(keepends=True) if not ADDED.match(it)]
    print("".join(said), end="", file=sys.stderr)
    return ran.returncode


if __name__ == "__main__":
    sys.exit(main(sys.argv[1:]))
