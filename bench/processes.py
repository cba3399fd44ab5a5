#!/usr/bin/env python3
"""Runs nodes as processes on loopback, kills some of them with SIGKILL or has them leave, and prints
times.

  bench/processes.py [--nodes 30] [--kill 1 | --leave COUNT] [--tick-ms 100] [--probers 1] [--settle 10] [--times 1]
                     [--program FILE]

It prints how long the nodes took to come to one view, how long the others took from the kill, or all
from the wish to leave, to one view without those that go, how many views they entered on the way, and
what a node used meanwhile: processor time, memory, threads, and bytes sent where the command ss tells
them (nothing of that with --settle 0). With --times it does all of it again and again, and prints last
how often that went well. It is no part of the gate. The nodes end with it."""
import argparse
import os
import re
import shutil
import statistics
import subprocess
import sys
import time
from pathlib import Path

TOP = Path(__file__).resolve().parent.parent
TICKS = os.sysconf("SC_CLK_TCK")


class Node:
    """A running node, and what it printed."""

    def __init__(self, program, port, seed, asked):
        words = [program, "node", "--listen", f"127.0.0.1:{port}"]
        words += ["--tick-ms", str(asked.tick_ms), "--probers", str(asked.probers)]
        words += [] if port == seed else ["--join", f"127.0.0.1:{seed}"]
        how = {"stdin": subprocess.PIPE, "stdout": subprocess.PIPE, "stderr": subprocess.PIPE}
        self.port, self.ran, self.text = port, subprocess.Popen(words, **how), b""
        os.set_blocking(self.ran.stdout.fileno(), False)

    def views(self):
        """The views that it printed so far, each as a set of its endpoints."""
        self.text += self.ran.stdout.read() or b""
        lines = self.text.decode().split("\n")[:-1]
        return [frozenset(it.split()[3:]) for it in lines if it.startswith("height ")]

    def cpu(self):
        fields = Path(f"/proc/{self.ran.pid}/stat").read_text().rpartition(")")[2].split()
        return (int(fields[11]) + int(fields[12])) / TICKS

    def status(self, name):
        text = Path(f"/proc/{self.ran.pid}/status").read_text()
        return int(re.search(rf"^{name}:\s+(\d+)", text, re.M)[1])

    def files(self):
        return len(os.listdir(f"/proc/{self.ran.pid}/fd"))


def wait_for(nodes, members, longest):
    """Waits until the last view of each node has these members; how long that took, if it came."""
    began = time.monotonic()
    while time.monotonic() - began < longest:
        if all((it.views() or [None])[-1] == members for it in nodes):
            return time.monotonic() - began
        time.sleep(0.005)
    return None


def sent(nodes):
    """The bytes sent so far by the connections of these processes that are open, if ss tells."""
    if not shutil.which("ss"):
        return None
    pids = {it.ran.pid for it in nodes}
    said = subprocess.run(["ss", "-tinpHO"], capture_output=True, text=True).stdout
    total = 0
    for line in said.splitlines():
        owners = {int(it) for it in re.findall(r"pid=(\d+)", line)}
        found = re.search(r"bytes_sent:(\d+)", line)
        total += int(found[1]) if owners & pids and found else 0
    return total


def used(label, nodes, seconds):
    """Prints what a node uses in this many seconds in which nothing happens, if there are any."""
    if seconds == 0:
        return
    before, bytes_before = [it.cpu() for it in nodes], sent(nodes)
    time.sleep(seconds)
    after, bytes_after = [it.cpu() for it in nodes], sent(nodes)
    shares = [100 * (b - a) / seconds for a, b in zip(before, after)]
    print(f"{label}, over {seconds:g} s at rest:")
    average = sum(shares) / len(shares)
    print(f"  processor a node    {average:.2f} % on average, {max(shares):.2f} % at most")
    print(f"  memory a node       {max(it.status('VmRSS') for it in nodes) / 1024:.1f} MB at most")
    print(f"  threads a node      {max(it.status('Threads') for it in nodes)} at most")
    print(f"  descriptors a node  {max(it.files() for it in nodes)} at most")
    if bytes_before is not None:
        rate = (bytes_after - bytes_before) / seconds / len(nodes)
        print(f"  bytes sent a node   {rate:.0f} a second")


def measure(nodes, kill, leave, settle):
    """Forms the cluster, has this many leave or else kills as many, and prints the times; how long the last
    one took to its new view, if all went well."""
    names = [f"127.0.0.1:{it.port}" for it in nodes]
    took = wait_for(nodes, frozenset(names), 120)
    if took is None:
        print("the nodes have not come to one view")
        return None
    count = len(nodes[0].views())
    print(f"{len(nodes)} nodes came to one view in {took:.2f} s; the founder entered {count} views")
    used("all nodes", nodes, settle)
    going = leave or kill
    if going == 0:
        return 0
    gone, stay = nodes[-going:], nodes[:-going]
    before = [len(it.views()) for it in stay]
    for node in gone:
        if leave:
            node.ran.stdin.write(b"leave\n")
            node.ran.stdin.flush()
        else:
            node.ran.kill()
    # who leaves prints the view without itself too
    took = wait_for(nodes if leave else stay, frozenset(names[:-going]), 300)
    if took is None:
        print("the others have not come to one view")
        return None
    views = [len(it.views()) - count for it, count in zip(stay, before)]
    print(f"{going} {'left' if leave else 'were killed'}; the last new view came after {took:.2f} s")
    print(f"views on the way: {max(views)}")
    used("those that stay", stay, settle)
    return took


def attempt(given):
    """Runs nodes once; how long the last one took, if all went well."""
    first, nodes = given.first_port, []
    try:
        for number in range(given.nodes):
            nodes.append(Node(given.program, first + number, first, given))
        return measure(nodes, given.kill, given.leave, given.settle)
    finally:
        for node in nodes:
            node.ran.kill()
            node.ran.wait()


def main():
    parser = argparse.ArgumentParser()
    parser.add_argument("--nodes", type=int, default=30)
    parser.add_argument("--kill", type=int, default=1)
    parser.add_argument("--leave", type=int, default=0)
    parser.add_argument("--tick-ms", type=int, default=100)
    parser.add_argument("--probers", type=int, default=1)
    parser.add_argument("--settle", type=float, default=10)
    parser.add_argument("--times", type=int, default=1)
    parser.add_argument("--first-port", type=int, default=17000)
    parser.add_argument("--program", default=str(TOP / "crates/rapidd/out/rapidd"))
    given = parser.parse_args()
    if not os.access(given.program, os.X_OK):
        print(f"{given.program} is not built: run ./check program", file=sys.stderr)
        return 2
    all_took = [attempt(given) for _ in range(given.times)]
    well = [took for took in all_took if took is not None]
    if given.times > 1 and well:
        print(f"{len(well)} of {given.times} times all went well; the last new view came after "
              f"{min(well):.2f} to {max(well):.2f} s, in the median {statistics.median(well):.2f} s")
    return 0 if len(well) == given.times else 1


if __name__ == "__main__":
    sys.exit(main())
