"""Refuses each allocation in turn: of the program over each of examples/, in a cluster of threads and in nodes, and of
each test that is built and whose name has out_of_memory. refuse.c, loaded before the C library, refuses the one whose
number is in REFUSE. docs/LIMITS.md says what comes of that."""
import itertools
import os
import re
import resource
import select
import shutil
import subprocess
import tempfile
from concurrent.futures import ThreadPoolExecutor
from contextlib import ExitStack, suppress
from functools import partial
from pathlib import Path
from typing import Callable, NamedTuple

from crates import TOP

PROGRAM = TOP / "crates/rapidd/out/rapidd"
BATCH = 16  # runs of a program that are begun before it is seen whether one is refused
REFUSED = b"refused an allocation\n"  # what refuse.c says
SAID = re.compile(rb"OutOfMemory|AllocError|AllocFailed")  # what a test's error says then
NO_MEMORY = 3  # the program's status then
GOES_ON = re.compile(rb"refused OutOfMemory|node [0-9]+ halted")  # lines of a run that goes on
INSTALLED = re.compile(rb"^node ([0-9]+) (?:removed at )?height ([0-9]+)(?: members (.*))?$", re.MULTILINE)
REPORT = re.compile(rb"events [0-9]+\n(node [0-9]+ (joining|height [0-9]+ members [0-9 ]+)\n)*agree yes\n")
CLUSTER = ["cluster", "--nodes", "3", "--workers", "2", "--turns", "20"]
CLUSTER_REPORT = b"events 42\n%sagree yes\n" % b"".join(b"node %d height 1 members 1 2 3\n" % it for it in (1, 2, 3))
# some run of these has to write each of these lines, the last since a clerk or a node did less
WAYS = {"sim": (b"\nrefused OutOfMemory\n", b" halted\n"), "cluster": (b"\nnode 3 joining\n",)}
FIRST = b"height 0 members HOST:7461\n"
LAST = b"height 1 members HOST:7461 HOST:7462\nheight 2 members HOST:7461\n"
VIEWS = FIRST + LAST, LAST  # what a founder and a joiner that leaves print, the address of their run named HOST
PATIENCE = 20  # seconds for a node to print its next line


class Task(NamedTuple):
    """What is run once for each of its allocations."""

    name: str
    start: Callable  # runs it, by the number of the run and the arguments of a process
    is_good: Callable  # whether a run is as it has to be, given that in which nothing is refused
    whole: bytes | None = None  # what it has to write if nothing is refused


class Node(subprocess.Popen):
    """A node that runs: a founder, at place 0, or a joiner, at place 1, at an address of its own, so that runs go side
    by side."""

    def __init__(self, host, place, words, how):
        self.host, self.printed, pipe = host, b"", subprocess.PIPE
        ends = ["--listen", f"{host}:{7461 + place}", "--id", f"00000000-0000-0000-0000-00000000000{place + 1}"]
        ends += ["--join", f"{host}:7461"] * place
        words = [PROGRAM, "node", *ends, "--k", "3", "--h", "3", "--l", "1", *words]
        super().__init__(words, bufsize=0, stdin=pipe, stdout=pipe, stderr=pipe, **how)

    def __exit__(self, *given):
        self.kill()
        super().__exit__(*given)

    def has(self, lines, seconds=PATIENCE):
        """Reads until it has printed this many lines or has ended; whether that came, each line within this time."""
        while self.printed.count(b"\n") < lines:
            line = self.stdout.readline() if select.select([self.stdout], [], [], seconds)[0] else None
            if not line:
                return line is not None
            self.printed += line
        return True

    def tell(self, line):
        """Gives it a line, if it has not ended."""
        with suppress(BrokenPipeError):
            self.stdin.write(line)

    def ended(self):
        """The run, once it has ended."""
        printed, told = self.communicate(timeout=60)
        printed = (self.printed + printed).replace(self.host.encode(), b"HOST")
        return subprocess.CompletedProcess(self.args, self.returncode, printed, told)


def process(words, given, _number, how):
    """The run of a program with these words and this input."""
    return subprocess.run(words, input=given, capture_output=True, timeout=60, **how)


def founder_alone(number, how):
    """The run of a founder to which nobody comes, and who has no observer to tell that it leaves."""
    with Node(f"127.8.{number // 250}.{number % 250 + 1}", 0, [], how) as node:
        node.tell(b"tick 3\nleave\nview\nquit\n")
        return node.ended()


def one_of_two(refused, number, how):
    """The run of a founder and a joiner that leaves again, of the one at the place `refused`, until it has printed all
    views or has ended. The other one has ample memory, and has to end well, with a beginning of what it prints."""
    host, lines, nodes = f"127.{9 + refused}.{number // 250}.{number % 250 + 1}", VIEWS[refused].count(b"\n"), []
    with ExitStack() as stack:
        for place in range(2):
            nodes.append(stack.enter_context(Node(host, place, ["--tick-ms", "10"], how if place == refused else {})))
            nodes[0].has(1)
        nodes[refused].has(lines - 1)
        for _ in range(PATIENCE):
            if nodes[refused].has(lines, 0):
                break
            # once more, since what it said may be lost
            nodes[1].has(1, 0.5)
            nodes[1].tell(b"leave\n")
            nodes[refused].has(lines, 0.5)
        for node in nodes:
            node.tell(b"quit\n")
        ran, other = (nodes[place].ended() for place in (refused, 1 - refused))
    if other.returncode or not VIEWS[1 - refused].startswith(other.stdout):
        ran.returncode, ran.stderr = -1, b"the other node: %d, " % other.returncode + other.stdout + other.stderr
    return ran


def is_good_test(ran, _whole, is_refused):
    """Whether a test passes, or ends by an error that says so."""
    passed = ran.returncode == 0 and ran.stdout.endswith(b"test result: ok\n")
    return passed or is_refused and ran.returncode > 0 and SAID.search(ran.stderr)


def is_good_run(ran, whole, is_refused):
    """Whether the program writes all, since a growth that is only wished for may be refused unseen, or a beginning, or
    says that it goes on without memory."""
    pairs = zip(ran.stdout.split(b"\n"), whole.stdout.split(b"\n"))
    differs = next((mine for mine, other in pairs if mine != other), b"")
    begins = ran.returncode == NO_MEMORY and whole.stdout.startswith(ran.stdout)
    goes_on = ran.returncode in (0, NO_MEMORY) and GOES_ON.fullmatch(differs)
    wrote_all = ran.returncode == whole.returncode == 0 and ran.stdout == whole.stdout
    return wrote_all or is_refused and (begins or goes_on) and is_one_line(ran.stdout)


def is_good_cluster(ran, whole, is_refused):
    """Whether a cluster of threads reports. What a clerk that stopped or a node that halted did not do is missing."""
    is_report = ran.returncode == 0 and REPORT.fullmatch(ran.stdout) and is_one_line(ran.stdout)
    is_none = is_refused and ran.returncode == NO_MEMORY and ran.stdout == b""
    return is_none or is_report and (is_refused or ran.stdout == whole.stdout)


def is_one_line(text):
    """Whether what nodes print as installed is one sequence, of which each has a stretch."""
    members, last = {}, {}
    for node, height, listed in INSTALLED.findall(text):
        if last.setdefault(node, int(height) - 1) != int(height) - 1:
            return False
        if listed and members.setdefault(height, listed) != listed:
            return False
        last[node] = int(height)
    return True


def run(task, room, number):
    """Runs with the allocation of this number refused, or none for 0; the run, and whether one was refused."""
    env = {"LD_PRELOAD": f"{room}/refuse.so", "REFUSE": str(number)}
    try:
        ran = task.start(number, {"cwd": room, "env": env})
    except subprocess.TimeoutExpired as late:
        ran = subprocess.CompletedProcess([], -9, b"", str(late).encode())
    return ran, REFUSED in ran.stderr


def refuse_each(task, room, each):
    """Refuses each allocation until none is refused any more; how many were, and why the task fails, if it does.
    Several runs go side by side by the map `each`."""
    whole, _ = run(task, room, 0)
    if not task.is_good(whole, whole, False) or task.whole not in (None, whole.stdout):
        return 0, f"with nothing refused {said_of(whole)}"
    missing = {*WAYS.get(task.name.partition(":")[0], ())}
    batches = (each(partial(run, task, room), range(first, first + BATCH)) for first in itertools.count(1, BATCH))
    for number, (ran, is_refused) in enumerate(itertools.chain.from_iterable(batches), 1):
        if not task.is_good(ran, whole, is_refused):
            return number, f"at allocation {number} {said_of(ran)}"
        missing = {it for it in missing if it not in ran.stdout}
        if not is_refused:
            return number - 1, f"no run wrote {missing}" if missing else ""


def said_of(ran):
    return f"it ended with {ran.returncode}, and wrote {ran.stdout[-300:]} and {ran.stderr[-300:]}"


def tests():
    """The tests of which each allocation is refused."""
    programs = sorted(TOP.glob("crates/*/out/*_tests_tests"))
    if not programs:
        print("check: refused growths of tests: PASSED OVER, since none is built: ./check builds some", flush=True)
    for program in programs:
        listed = subprocess.run([program, "--list"], capture_output=True, text=True, check=True).stdout
        for name in (line.partition(": ")[0] for line in listed.splitlines()):
            if "out_of_memory" in name:
                yield Task(name, partial(process, [program, name], b""), is_good_test)


def runs():
    """The runs of the program of which each allocation is refused."""
    for given in sorted(TOP.glob("examples/*/*.txt")):
        start = partial(process, [PROGRAM, given.parent.name], given.read_bytes())
        name, whole = f"{given.parent.name}: {given.stem.replace('_', ' ')}", given.with_suffix(".out").read_bytes()
        yield Task(name, start, is_good_run, whole)
    yield Task("cluster: three nodes", partial(process, [PROGRAM, *CLUSTER], b""), is_good_cluster, CLUSTER_REPORT)
    yield Task("node: a founder alone", founder_alone, is_good_run, FIRST * 2)
    yield Task("node: a founder of two", partial(one_of_two, 0), is_good_run, VIEWS[0])
    yield Task("node: a joiner", partial(one_of_two, 1), is_good_run, VIEWS[1])


def growths():
    """Refuses each growth in turn; how many runs and tests passed, and how many failed."""
    compiler = next(filter(shutil.which, [os.environ.get("CC", ""), "cc", "gcc", "clang"]), None)
    if not compiler or not PROGRAM.is_file():
        print("check: refused growths: FAILED: there is no C compiler, or no program: ./check builds it", flush=True)
        return 0, 1
    resource.setrlimit(resource.RLIMIT_CORE, (0, 0))
    with tempfile.TemporaryDirectory(prefix="check-") as room, ThreadPoolExecutor(len(os.sched_getaffinity(0))) as pool:
        words = ["-O1", "-shared", "-fPIC", "-o", f"{room}/refuse.so", Path(__file__).with_name("refuse.c")]
        subprocess.run([compiler, *words], check=True)

        def is_bad(each, task):
            refused, why = refuse_each(task, room, each)
            said = f"FAILED: {why}" if why else f"{refused} refused, ok"
            print(f"check: refused growths: {task.name}: {said}", flush=True)
            return bool(why)

        # tests may take a port, so no two runs of one go side by side
        bad = [*map(partial(is_bad, pool.map), runs()), *pool.map(partial(is_bad, map), tests())]
    return bad.count(False), bad.count(True)
