#!/usr/bin/env python3
"""Runs nodes as processes on loopback, ill-treats them, and watches that the cluster holds.

  bench/soak.py [--nodes 7] [--minutes 5] [--tick-ms 100] [--seed 1] [--without NAME[,NAME ..]]
  bench/soak.py --only NAME[,NAME ..]     single scenarios, or `all` of them
  bench/soak.py --list                    what the mixed run does, and the scenarios

The mixed run kills, stops and starts nodes, floods them, holds connections open, cuts others and
leaves output unread, all chosen by the seed. It prints a table, and last `ok` or what failed, when
and by which seed; the status is 0 or 1. SOAK.md tells what it watches. All nodes end with it."""
import argparse
import collections
import itertools
import os
import resource
import signal
import statistics
import sys
import time
import traceback
from pathlib import Path

sys.dont_write_bytecode = True  # no folder of compiled scripts beside these
import soak_cluster
import soak_scenarios
from soak_cluster import (BATCH, GREATEST, JOIN, PRE_JOIN, PREPARE, VOTE, Cluster, Failed, batch, check_frames,
                          frame, process)

TOP = Path(__file__).resolve().parent.parent
FLOOD = 3_000  # frames of a flood of the mixed run
HELD = 10  # seconds for which connections are held open, and output is left unread
BEGUN = GREATEST.to_bytes(4, "big") + bytes([2, BATCH]) + bytes(30_000)  # of the longest frame


class Mixed:
    """The mixed run: again and again something bad is done to some node, by chance."""

    def __init__(self, cluster):
        self.it, self.random, self.given = cluster, cluster.random, cluster.given
        self.later, self.done, self.paused = [], collections.Counter(), {}
        self.last, self.leaving, self.left = collections.deque(maxlen=8), {}, []

    def after(self, seconds, action):
        self.later.append((time.monotonic() + seconds, action))

    def member(self, losing=False):
        """Some member that is up; if it is to be lost, none unless more than half are left."""
        steady = self.it.steady()
        size = len(self.it.views[max(self.it.views)])
        if losing and 2 * (len(steady) - 1) <= size or not steady:
            return None
        return self.random.choice(steady)

    def join(self, port=None):
        """Starts a node that joins by some member."""
        seed = self.member()
        if seed:
            self.it.start(seed, port=port)
        return seed

    def kill(self):
        """SIGKILL; soon after another node starts at the same endpoint."""
        node = self.member(losing=True)
        if node:
            self.it.kill(node)
            self.after(self.random.uniform(0, 6), lambda: self.join(node.port))
        return node

    def quit(self):
        """`quit`; soon after another node joins."""
        node = self.member(losing=True)
        if node:
            self.retire(node)
            self.after(self.random.uniform(0, 6), self.join)
        return node

    def leave(self):
        """The line `leave`, again if a view comes that has it yet; `quit` once it is out, and another joins."""
        node = self.member(losing=True)
        if not node or node in self.leaving:
            return None
        self.wish(node)
        return node

    def wish(self, node):
        """Tells a node to leave, and keeps since when it has been told so, and when and where last."""
        now = time.monotonic()
        self.it.leave(node)
        self.leaving[node] = (self.leaving.get(node, (now,))[0], now, node.views[-1][0])

    def tend_leaving(self):
        """Tells those that are in yet once more, and notes how long the others took."""
        now = time.monotonic()
        for node, (first, last, height) in list(self.leaving.items()):
            if node.may_end or node.is_out():
                del self.leaving[node]
                if node.is_out() and first:
                    self.left.append(now - first)
            elif node.stopped:  # how long it takes tells nothing then
                self.leaving[node] = (None, now, height)
            elif node.views[-1][0] > height or now - last > 60 * self.it.tick:
                self.done["leave once more"] += 1
                self.wish(node)

    def retire(self, node):
        self.it.excuse(node, "quit")
        node.may_end = True
        node.type("quit\n")

    def stop(self):
        """SIGSTOP for up to 12 ticks, which expels nobody. A node has rest from it for 150 ticks."""
        node = self.member(losing=True)
        if not node or time.monotonic() < self.paused.get(node.name, 0):
            return None
        self.paused[node.name] = time.monotonic() + 150 * self.it.tick
        self.pause(node, self.random.uniform(1, 12) * self.it.tick)
        return node

    def stop_long(self):
        """SIGSTOP for 60 to 90 ticks: it is expelled, learns of it, and is replaced."""
        node = self.member(losing=True)
        if node:
            seconds = self.random.uniform(60, 90) * self.it.tick
            self.it.excuse(node, "stopped for long", seconds + 100 * self.it.tick)
            self.pause(node, seconds)
        return node

    def pause(self, node, seconds):
        node.stopped = True
        node.popen.send_signal(signal.SIGSTOP)
        self.after(seconds, lambda since=time.monotonic(): self.go_on(node, since))

    def go_on(self, node, since):
        node.stopped = False
        node.popen.send_signal(signal.SIGCONT)
        if time.monotonic() - since > 20 * self.it.tick:  # this script was held up itself
            self.it.excuse(node, "stopped for long", 100 * self.it.tick)

    def flood(self):
        """Frames of other configurations, of joiners with fresh identifiers, or bytes that are none."""
        node = self.member()
        if not node:
            return None
        kind = self.random.choice([self.of_others, self.fresh_joiners, self.garbage])
        self.send(node, kind(), kind.__name__)
        return node

    def send(self, node, frames, name):
        self.it.excuse(node, "under load", 60 * self.it.tick)
        self.done[name] += 1
        node.send(itertools.islice(frames, FLOOD))

    def of_others(self):
        while True:
            config, sender = self.random.randbytes(32), process(self.it.draw(), self.sink().port)
            yield batch(sender, config, [(0, JOIN, sender)])
            yield frame(VOTE, sender, config + b"\x00\x01" + sender)
            yield frame(PREPARE, sender, config + bytes([2, 0, 0]))

    def fresh_joiners(self):
        while True:
            yield frame(PRE_JOIN, process(self.it.draw(), self.sink().port))

    def garbage(self):
        return itertools.repeat(self.random.randbytes(100))

    def batches(self):
        """The same batch again and again, of the present configuration, with an alert that stays noise."""
        node, fake = self.member(), self.it.fake()
        if node:
            node.send([frame(PRE_JOIN, process(self.it.draw(), fake.port))])
            self.after(1, lambda: self.repeat(node, fake))
        return node

    def repeat(self, node, fake):
        safe = soak_cluster.read_safe(fake)
        if safe and not node.may_end:
            joiner, config, observers = safe
            self.send(node, itertools.repeat(batch(observers[0], config, [(0, JOIN, joiner)])), "equal_batches")
        self.it.fakes.remove(fake)
        fake.close()

    def sink(self):
        return self.it.fakes[0]

    def silent(self):
        """256 connections that say nothing."""
        return self.hold(b"", 256)

    def half(self):
        """32 connections that say a beginning of the longest frame."""
        return self.hold(BEGUN, 32)

    def hold(self, first, count):
        node = self.member()
        if node and not self.it.held:
            self.it.hold(node, first, count)
            self.after(HELD, self.release)
            return node
        return None

    def release(self):
        while self.it.held:
            self.it.held.pop().close()

    def cut(self):
        """All connections to a node are shut down."""
        node = self.member()
        return node if node and node.cut() else None

    def unread(self):
        """Output of more than a pipe takes is left unread."""
        node = self.member()
        if not node or not node.reads:
            return None
        node.reads = False
        node.type("view\n" * 1_000)
        self.after(HELD, lambda: setattr(node, "reads", True))
        return node

    def tend(self):
        """Does what is due, and replaces who is out, or asks a seed that is gone."""
        due = [it for it in self.later if it[0] <= time.monotonic()]
        self.later = [it for it in self.later if it not in due]
        for _, action in due:
            action()
        self.tend_leaving()
        for node in self.it.running():
            waits = time.monotonic() - node.begun
            if node.is_out() and not node.stopped:
                self.retire(node)
                self.after(0, self.join)
            elif not node.views and node.seed and node.seed.may_end and waits > 100 * self.it.tick:
                self.it.kill(node)
                self.after(0, self.join)
        self.it.look()

    def run(self):
        """This many minutes of it, between these numbers of nodes."""
        self.it.fake()  # the sink, which takes what is answered to floods
        founders = self.it.form(self.given.nodes)
        before = [most(founders)]
        self.warm_up(founders[0])
        before.append(most(founders))
        names = [name for name in ACTIONS if name not in self.given.without]
        end, at = time.monotonic() + 60 * self.given.minutes, 0
        while time.monotonic() < end:
            if time.monotonic() >= at and self.act(self.random.choice(names)):
                at = time.monotonic() + self.random.uniform(2, 30) * self.it.tick
            self.tend()
        self.calm()
        return before

    def warm_up(self, node):
        """Twice each flood, and begun frames, to one node: it uses what they take once, no more by their repeats."""
        for _ in range(2):
            for kind in (self.of_others, self.fresh_joiners, self.garbage):
                self.send(node, kind(), kind.__name__)
                self.it.rest(1)
            self.it.hold(node, BEGUN, 32)
            self.it.rest(7)  # they are closed after five seconds
            self.release()
        self.done.clear()
        self.it.rest(10)

    def act(self, name):
        """Does something bad, if it can be done now; whether it was."""
        if name == "join" and len(self.it.running()) >= self.given.nodes + 3:
            return False
        node = getattr(self, name)()
        if node:
            self.done[name] += 1
            self.last.append(f"{time.monotonic() - self.it.began:.1f} s {name} {node.name}")
        return bool(node)

    def calm(self):
        """All is let go; the nodes come to one view, then to as many as there were."""
        due, self.later = sorted(self.later, key=lambda it: it[0]), []
        for _, action in due:
            action()
        self.settle()
        while len(self.it.running()) > self.given.nodes:
            self.retire(self.random.choice(self.it.running()))
            self.settle()
        while len(self.it.running()) < self.given.nodes:
            self.join()
            self.settle()
        self.it.rest(10)

    def settle(self):
        end = time.monotonic() + self.given.limit
        while not self.it.agreed() or self.later or self.leaving:
            self.tend()
            if time.monotonic() > end:
                lasts = {it.name: it.views[-1:] for it in self.it.running()}
                raise Failed(f"no view of all live nodes in {self.given.limit} s: {lasts}")

    def figures(self, before):
        """Prints what nodes use after all of it; no more than a tenth above what one used that was warmed up."""
        rows = [(node, node.figures()) for node in self.it.running()]
        print(f"{'at rest':<20} {'memory, kB':>12} {'threads':>9} {'descriptors':>12}")
        labelled = [("most at first", before[0]), ("most, warmed up", before[1])]
        for name, now in labelled + [(node.name, now) for node, now in rows]:
            print(f"{name:<20} {now[0]:>12} {now[1]:>9} {now[2]:>12}")
        for node, now in rows:
            if now[1] > before[1][1] or now[2] > before[1][2]:
                print(f"{node.name} has {node.connections()}")
        grown = [node.name for node, now in rows if any(b > 1.1 * a for a, b in zip(before[1], now))]
        if grown:
            raise Failed(f"more than a tenth above what it was before: {', '.join(grown)}")

    def counts(self):
        """Prints what was done, and what came of it."""
        it = self.it
        print(f"{time.monotonic() - it.began:.0f} s, {self.given.nodes} nodes at first, ticks of "
              f"{self.given.tick_ms} ms, {len(it.nodes)} started; heights 0 to {max(it.views, default=0)}")
        print("done: " + ", ".join(f"{name} {count}" for name, count in sorted(self.done.items())))
        print("expelled: " + (", ".join(f"{n} {cause}" for cause, n in it.expelled.items()) or "nobody"))
        if self.left:
            print(f"left after {min(self.left):.2f} to {max(self.left):.2f} s, in the median "
                  f"{statistics.median(self.left):.2f} s")
        print("last done: " + ", ".join(self.last))


ACTIONS = ["join", "kill", "quit", "leave", "stop", "stop_long", "flood", "batches", "silent", "half", "cut", "unread"]


def most(nodes):
    """The most memory, threads and descriptors of these."""
    return [max(kinds) for kinds in zip(*(node.figures() for node in nodes))]


def mixed(cluster):
    run = Mixed(cluster)
    try:
        before = run.run()
    finally:
        run.counts()
    run.figures(before)
    return "one sequence of views, nobody expelled without a cause"


def attempt(given, name, scenario):
    """Runs one scenario; whether nothing failed."""
    cluster = Cluster(given)
    try:
        said = f"ok: {scenario(cluster)}"
    except Failed as failure:
        said = f"failed: {failure}"
    except Exception as fault:  # the scenarios after it run nevertheless
        traceback.print_exc()
        said = f"failed by a fault of this script: {fault!r}"
    finally:
        cluster.end()
    seconds = time.monotonic() - cluster.began
    print(f"{name} {said} [{seconds:.1f} s, seed {given.seed}]", flush=True)
    return said.startswith("ok")


def options():
    parser = argparse.ArgumentParser(usage=__doc__)
    parser.add_argument("--nodes", type=int, default=7)
    parser.add_argument("--minutes", type=float)
    parser.add_argument("--tick-ms", type=int, default=100)
    parser.add_argument("--seed", type=int, default=1)
    parser.add_argument("--only", default="")
    parser.add_argument("--without", default="")
    parser.add_argument("--limit", type=float, default=60)
    parser.add_argument("--load", type=int, default=os.cpu_count())
    parser.add_argument("--autogroup", type=int)
    parser.add_argument("--first-port", type=int, default=19_000)
    parser.add_argument("--program", default=str(TOP / "crates/rapidd/out/rapidd"))
    parser.add_argument("--list", action="store_true")
    given = parser.parse_args()
    given.without = given.without.split(",")
    if given.minutes is None:
        given.minutes = 1 if given.only else 5
    return given


def show_all():
    for name in ACTIONS:
        print(f"{name:<24} {getattr(Mixed, name).__doc__}")
    print()
    for scenario in soak_scenarios.ALL:
        print(f"{scenario.__name__:<24} {scenario.__doc__}")


def main():
    given = options()
    if given.list:
        show_all()
        return 0
    if not os.access(given.program, os.X_OK):
        print(f"{given.program} is not built: run ./check program", file=sys.stderr)
        return 2
    check_frames()
    known = {it.__name__: it for it in soak_scenarios.ALL}
    names = list(known) if given.only == "all" else [it for it in given.only.split(",") if it]
    if set(names) - set(known):
        print(f"no scenario: {', '.join(sorted(set(names) - set(known)))}", file=sys.stderr)
        return 2
    most = resource.getrlimit(resource.RLIMIT_NOFILE)[1]
    resource.setrlimit(resource.RLIMIT_NOFILE, (min(most, 8_192), most))
    signal.signal(signal.SIGTERM, lambda *_: sys.exit(1))
    if not names:
        return 0 if attempt(given, "mixed", mixed) else 1
    return 0 if all([attempt(given, name, known[name]) for name in names]) else 1


if __name__ == "__main__":
    sys.exit(main())
