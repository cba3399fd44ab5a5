#!/usr/bin/env python3
"""Compares what two programs print of random scripts of sim: random_scripts.py PROVED PLAIN [COUNT [SEED]].

Each script founds 1 to 12 nodes with some K, H and L, and then starts, crashes, ticks, probes, delivers
and drops by chance, with some lines that have to be refused. Every third process or so has tags. The last
line says how many of the scripts were printed alike; the status is 1 if one was not, and its script stands
before it."""
import random
import subprocess
import sys

STRANGE = ["# a remark", "", "tick", "foo 1", "tick 0", "deliver 0", "probe 1 300 ok", "found 1", "params 3 3 1",
           "start 5 5", "lose 0", "crash 70000", "tick 1 1001"]
FIRST_JOINER = 30
TAGS = ["a", "aa", "b", "db", "web", "zone-a", "Z", "!", "~", "7", "key=value", "x" * 64]
WRONG_TAGS = ["a,b", "[a]", "]", "x" * 65]


class Script:
    def __init__(self, seed):
        self.chance = random.Random(seed)
        k = self.chance.choice([1, 2, 3, 3, 3, 4, 5, 8, 10, 16])
        h = self.chance.randint(1, k)
        count = self.chance.choice([1, 1, 2, 3, 3, 4, 5, 5, 6, 8, 9, 12])
        founders = sorted(self.chance.sample(range(1, 20), count))
        self.rings, self.ports, self.next = k, {it: it for it in founders}, FIRST_JOINER
        self.lines = ["tick 1"] if self.chance.random() < 0.05 else []
        self.lines += [f"params {k} {h} {self.chance.randint(1, h)}", f"found {' '.join(map(str, founders))}"]
        for _ in range(self.chance.randint(5, 60)):
            self.add()
        self.lines.append("packets")

    def tags(self):
        """Mostly none; of the others some are in no order, too many, twice there, or wrong."""
        if self.chance.random() < 0.65:
            return []
        tags = sorted(self.chance.sample(TAGS, self.chance.choice([1, 1, 2, 2, 3, 5, 8, 9])))
        if self.chance.random() < 0.1:
            tags.insert(self.chance.randint(0, len(tags)), self.chance.choice(TAGS + WRONG_TAGS))
        if self.chance.random() < 0.1:
            self.chance.shuffle(tags)
        return tags

    def start(self):
        """A process starts; seldom under a number or at a port that is taken. At times all tick, to let it in."""
        number = self.chance.choice([*self.ports]) if self.chance.random() < 0.1 else self.next
        self.next += number == self.next
        port = self.chance.choice([*self.ports.values()]) if self.chance.random() < 0.15 else number
        words = [number, port, self.chance.choice([*self.ports.values()]), *self.tags()]
        self.lines.append(f"start {' '.join(map(str, words))}")
        self.ports.setdefault(number, port)
        self.lines += [f"tick {number} {self.chance.choice([1, 2, 11])}"] if self.chance.random() < 0.7 else []
        self.lines += ["flow"] if self.chance.random() < 0.6 else []
        if self.chance.random() < 0.3:
            self.lines += [f"tick {it}" for it in self.ports] + ["flow"]

    def crash(self):
        """One or two processes crash, and the others go on until they may have decided."""
        gone = self.chance.sample([*self.ports], min(len(self.ports), self.chance.randint(1, 2)))
        self.lines += [f"crash {it}" for it in gone] + [f"lose {it}" for it in gone]
        self.lines += [f"tick {it}" for it in self.ports if self.chance.random() < 0.8] + ["flow"]
        if self.chance.random() < 0.5:
            self.lines += [f"tick {it} 21" for it in self.ports] + ["flow"]

    def add(self):
        number, chance = self.chance.choice([*self.ports]), self.chance
        probe = f"probe {number} {chance.randint(0, self.rings)} {chance.choice(['ok', 'fail', 'fail'])}"
        kinds = [
            (18, lambda: self.lines.append(f"tick {number} {chance.choice([1, 1, 1, 2, 5, 10, 20, 21, 40, 41])}")),
            (12, self.start),
            (12, lambda: self.lines.append("flow")),
            (8, lambda: self.lines.append(f"crash {number}")),
            (8, lambda: self.lines.append(f"lose {number}")),
            (8, lambda: self.lines.append(f"{probe} {chance.choice([1, 1, 4, 10])}")),
            (10, lambda: self.lines.append(f"deliver {chance.randint(1, 60)}")),
            (8, lambda: self.lines.append(f"drop {chance.randint(1, 40)}")),
            (4, lambda: self.lines.append("packets")),
            (2, lambda: self.lines.append(chance.choice(STRANGE))),
            (10, self.crash),
        ]
        weights, calls = zip(*kinds)
        chance.choices(calls, weights)[0]()


def printed(program, text):
    return subprocess.run([program, "sim"], input=text.encode(), capture_output=True).stdout


def main(proved, plain, count="1000", seed="1"):
    alike = 0
    for number in range(int(seed), int(seed) + int(count)):
        text = "\n".join(Script(number).lines) + "\n"
        same = printed(proved, text) == printed(plain, text)
        alike += same
        if not same:
            print(f"== the script of seed {number} is printed otherwise\n{text}")
    print(f"{alike} of {count} scripts are printed alike")
    return int(alike < int(count))


if __name__ == "__main__":
    sys.exit(main(*sys.argv[1:]))
