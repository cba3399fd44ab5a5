#!/usr/bin/env python3
"""Times whole programs from outside: outside.py PROVED PLAIN WORD..

Words are same, detect, sim and cluster. A line is NAME, the proved program's number, the plain
one's and their ratio. Both get the same input, in turn, and have to write the same; same tries only
that, on all examples. Processor time is that of the user and the system, of all threads. RUNS in
the environment says how often each is run (7).
"""
import glob
import os
import statistics
import subprocess
import sys
import tempfile
import time

HERE = os.path.dirname(os.path.abspath(__file__))
RUNS = int(os.environ.get("RUNS", "7"))


class Taken:
    """Seconds of one run, bytes at most held, how often a thread waited, and what was written."""

    def __init__(self, words, input_file):
        with tempfile.TemporaryFile() as out, tempfile.TemporaryFile() as err:
            start = time.perf_counter()
            child = subprocess.Popen(words, stdin=input_file, stdout=out, stderr=err)
            _, status, used = os.wait4(child.pid, 0)
            self.wall = time.perf_counter() - start
            child.returncode = os.waitstatus_to_exitcode(status)
            out.seek(0)
            err.seek(0)
            self.out, self.err = out.read(), err.read()
        if child.returncode:
            sys.exit(f"{words}: status {child.returncode}: {self.err.decode()}")
        self.cpu = used.ru_utime + used.ru_stime
        self.held = used.ru_maxrss * 1024
        self.waits = used.ru_nvcsw


class Best:
    """The least times of several runs, the most memory, and how often threads waited in each."""

    def __init__(self):
        self.cpu = self.wall = float("inf")
        self.held, self.waits = 0, []
        self.out = self.err = b""

    def add(self, taken):
        self.cpu, self.wall = min(self.cpu, taken.cpu), min(self.wall, taken.wall)
        self.held = max(self.held, taken.held)
        self.waits.append(taken.waits)
        self.out, self.err = taken.out, taken.err


def both(programs, words, path=os.devnull, runs=RUNS):
    """The best runs of the two programs, in turn; they have to write the same."""
    bests = [Best(), Best()]
    for _ in range(runs):
        for program, spell, best in zip(programs, words, bests):
            with open(path, "rb") as input_file:
                best.add(Taken([program, *spell], input_file))
    if bests[0].out != bests[1].out:
        sys.exit(f"{words}: the two programs write different things")
    return bests


def show(name, proved, plain):
    ratio = f"{proved / plain:8.2f}" if plain else ""
    print(f"{name:<24} {proved:>12.0f} {plain:>12.0f} {ratio}", flush=True)


def input_of(word, room):
    path = f"{room}/{word}"
    if not os.path.exists(path):
        with open(path, "wb") as out:
            subprocess.run([sys.executable, f"{HERE}/inputs.py", word], stdout=out, check=True)
    return path


def same(programs, _room):
    """Both programs write the same on each example."""
    paths = sorted(glob.glob(f"{HERE}/../examples/*/*.txt"))
    for path in paths:
        command = os.path.basename(os.path.dirname(path))
        both(programs, [[command]] * 2, path, 1)
    show("same_examples", len(paths), len(paths))


def detect(programs, room):
    for word in ["noise", "grow"]:
        path = input_of(f"detect_{word}", room)
        bests = both(programs, [["detect"]] * 2, path)
        with open(path, "rb") as lines:
            count = sum(1 for _ in lines)
        show(f"detect_{word}_line", *[best.cpu * 1e9 / count for best in bests])
    for word in ["edges", "worst"]:
        bests = both(programs, [["detect"]] * 2, input_of(f"detect_{word}", room), 5 * RUNS)
        show(f"detect_{word}", *[best.cpu * 1e9 for best in bests])


def sim(programs, room):
    bests = both(programs, [["sim"]] * 2, input_of("sim_joins", room), max(RUNS // 2, 2))
    events = int(bests[1].err.split()[1])
    show("sim_joins_events", events, events)
    show("sim_joins_event", *[best.cpu * 1e9 / events for best in bests])
    show("sim_joins_peak", *[best.held for best in bests])


NODES, TURNS = 64, 10_000


def driven(programs, workers, turns):
    proved = ["cluster", "--nodes", NODES, "--workers", workers, "--turns", turns]
    plain = ["cluster", NODES, workers, turns]
    spelt = [[str(word) for word in words] for words in (proved, plain)]
    return both(programs, spelt, runs=3 * RUNS)


def driven_row(workers, best):
    """Events a second, nanoseconds of one by the clock and of processors, percent idle, waits."""
    events = int(best.out.split()[1])
    idle = 100 * max(0.0, 1 - best.cpu / (workers * best.wall))
    waits = statistics.median(best.waits)
    return events / best.wall, best.wall * 1e9 / events, best.cpu * 1e9 / events, idle, waits


def cluster(programs, _room):
    show("cluster_start", *[best.wall * 1e9 for best in driven(programs, 1, 1)])
    for workers in [1, 4, 32]:
        rows = [driven_row(workers, best) for best in driven(programs, workers, TURNS)]
        for i, name in enumerate(["per_second", "event_wall", "event_cpu", "off_cpu", "waits"]):
            show(f"cluster_{workers}_{name}", *[row[i] for row in rows])


if __name__ == "__main__":
    programs, words = sys.argv[1:3], sys.argv[3:]
    known = {"same": same, "detect": detect, "sim": sim, "cluster": cluster}
    if len(programs) < 2 or not words or any(word not in known for word in words):
        sys.exit(__doc__)
    with tempfile.TemporaryDirectory() as folder:
        for one in words:
            known[one](programs, os.environ.get("INPUTS", folder))
