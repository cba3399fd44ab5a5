#!/usr/bin/env python3
"""Prints figures as a table, as README.md has them: table.py FILE.., each what run.sh wrote; the best counts."""
import sys


def rows(path):
    with open(path, encoding="utf-8") as lines:
        for words in map(str.split, lines):
            if len(words) > 1 and words[1].isdigit():
                yield words[0], [int(word) for word in words[1:3]]


def best(name, old, new):
    """Rates: the greatest. Shares and waits: those of the last run, since they belong together."""
    if name.endswith(("off_cpu", "waits")):
        return new
    pick = max if name.endswith("per_second") else min
    return [pick(pair) for pair in zip(old, new)]


def line(name, numbers):
    proved, plain = [*numbers, None][:2]
    ratio = f"{proved / plain:.2f}" if plain else ""
    other = "" if plain is None else f"{plain:,}"
    return f"| `{name}` | {proved:,} | {other} | {ratio} |"


if __name__ == "__main__":
    found = {}
    for path in sys.argv[1:]:
        for name, numbers in rows(path):
            found[name] = best(name, found[name], numbers) if name in found else numbers
    print("| figure | proved | plain | proved / plain |\n|---|---|---|---|")
    for name, numbers in found.items():
        if name != "same_examples":
            print(line(name, numbers))
