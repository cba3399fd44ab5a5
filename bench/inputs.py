#!/usr/bin/env python3
"""Prints an input of `rapidd detect` or `rapidd sim`, named by a word.

detect_noise    16,384 edges of 1,024 members, and 100 batches of 16,384 alerts; nobody has L
                reports before the last
detect_grow     the same, but more and more members, at last 300, are unstable until the last batch
detect_edges    16,384 edges, and 1,024 alerts that are never handed over
detect_worst    the same with their batch: L = 1 and H = 16, so that 1,024 first reports imply all
                16,384
sim_joins       500 nodes, one founder and three waves of joiners, and then five that crash
sim_few         the same of 100 nodes
"""
import random
import sys

MEMBERS = 1024
RINGS = 16
BATCHES = 100
ALERTS = 16384


def observers():
    """Who observes whom: of each member and ring another member."""
    return {
        (subject, ring): (subject + (ring * 67 + subject * 13) % (MEMBERS - 1)) % MEMBERS + 1
        for subject in range(1, MEMBERS + 1)
        for ring in range(RINGS)
    }


def edges(of, marks):
    yield f"watermarks {marks}"
    for (subject, ring), observer in of.items():
        yield f"edge {ring} {observer} {subject}"


def on_noise(batch, chance):
    return chance.randrange(1, MEMBERS + 1), chance.randrange(3)


def on_growing(batch, chance):
    subject = chance.randrange(1, MEMBERS + 1)
    reaches = subject <= min(1 + batch * 10, 300)
    return subject, chance.randrange(8 if reaches else 3)


def batches(pick):
    """Batches of alerts, one in a hundred by a wrong observer; the last has every edge."""
    of, chance = observers(), random.Random(7)
    yield from edges(of, "16 12 4")
    for batch in range(BATCHES):
        for i in range(ALERTS):
            subject, ring = pick(batch, chance)
            if batch == BATCHES - 1:
                subject, ring = i // RINGS + 1, i % RINGS
            observer = of[subject, ring]
            if chance.random() < 0.01:
                observer = observer % MEMBERS + 1
            yield f"remove {ring} {observer} {subject}"
        yield "batch"


def first_reports(last):
    of = observers()
    yield from edges(of, "16 16 1")
    for subject in range(1, MEMBERS + 1):
        ring = subject % RINGS
        yield f"remove {ring} {of[subject, ring]} {subject}"
    yield from last


# the last node of each wave of joiners
MANY = [100, 250, 500]
FEW = [20, 50, 100]


def flows(count):
    return ["flow"] * count


def wave(members, last):
    """Joiners ask members in turn; when they were answered, the members tick."""
    for n in range(members + 1, last + 1):
        yield f"start {n} {n} {(n - 1) % members + 1}"
        yield f"tick {n}"
    yield from flows(2)
    for n in range(1, members + 1):
        yield f"tick {n}"
    yield from flows(20)


def joins(waves):
    """One founder, waves of joiners, and then five that crash."""
    yield "params 10 9 3"
    yield "found 1"
    members = 1
    for last in waves:
        yield from wave(members, last)
        members = last
    crashed = range(7, members, members // 5)
    yield from (f"crash {n}" for n in crashed)
    yield from (f"lose {n}" for n in crashed)
    yield from (f"tick {n}" for n in range(1, members + 1) if n not in crashed)
    yield from flows(60)
    yield "packets"


INPUTS = {
    "detect_noise": lambda: batches(on_noise),
    "detect_grow": lambda: batches(on_growing),
    "detect_edges": lambda: first_reports([]),
    "detect_worst": lambda: first_reports(["batch"]),
    "sim_joins": lambda: joins(MANY),
    "sim_few": lambda: joins(FEW),
}

if __name__ == "__main__":
    if len(sys.argv) != 2 or sys.argv[1] not in INPUTS:
        sys.exit(__doc__)
    for line in INPUTS[sys.argv[1]]():
        print(line)
