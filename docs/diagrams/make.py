#!/usr/bin/env python3
"""Draws space-time diagrams from real runs of `sim`.

  docs/diagrams/make.py PROGRAM           draws those of docs/PROTOCOL.md into docs/diagrams
  docs/diagrams/make.py PROGRAM --check   ends with status 1 if one there would not be drawn so
  docs/diagrams/make.py PROGRAM SCRIPT    prints the diagram of any script of sim, as SVG

PROGRAM is run as `PROGRAM sim`: the proved crates/rapidd/out/rapidd, which answers each line at
once. Nothing is drawn that the program was not given or did not print. A script is given line by
line, each followed by `packets`, so that it is known which packets a line sent. Many ticks are
given one by one, and `flow` as the `deliver` lines that it stands for; what the program prints of
views has to be what it prints for the script itself. A line that is refused is not drawn.

To which port a packet goes is found by further runs of the same lines, one for each port. At the
end of one the node at that port crashes, or another starts there if none runs: the packets that
can be delivered no longer, or now, go to that port. Who gets a packet is the last node that
started at its port before the line that delivers it. Who sent it is the node that took a step in
its line: that of the tick, or the one it came to.
"""
import re
import subprocess
import sys
import textwrap
from pathlib import Path
from xml.sax.saxutils import escape

HERE = Path(__file__).resolve().parent
SCRIPTS = HERE.parent.parent / "examples/sim"
STORIES = {
    "a_crash": "A crash that the fast round decides",
    "divided_votes": "Divided votes, and recovery",
}

COLOURS = ["#0072b2", "#d55e00", "#009e73", "#cc79a7", "#8c6d00", "#3b9fd1", "#5e3c99"]
LEFT, TOP, STEP, ROW = 74, 118, 17, 84  # pixels: margins, a column's width and a node's height


class Sim:
    """A run of `sim` that is asked line by line."""

    def __init__(self, program):
        pipe = subprocess.PIPE
        self.process = subprocess.Popen([program, "sim"], stdin=pipe, stdout=pipe, text=True)

    def ask(self, line):
        """Gives a line, then `packets`: what the line printed, and how many packets were sent."""
        self.process.stdin.write(f"{line}\npackets\n")
        self.process.stdin.flush()
        printed = []
        for answer in self.process.stdout:
            sent = re.fullmatch(r"packets (\d+)\n", answer)
            if sent:
                return printed, int(sent[1])
            printed.append(answer.rstrip("\n"))
        raise SystemExit(f"sim ended at: {line}")

    def close(self):
        self.process.stdin.close()
        self.process.stdout.read()
        if self.process.wait() != 0:
            raise SystemExit(f"sim ended with status {self.process.returncode}")


class Event:
    """A line that was given: what it printed, and which packets it sent."""

    def __init__(self, line, printed, first, last):
        self.line, self.printed, self.sent = line, printed, range(first, last + 1)
        self.words = line.split()

    def packet(self):
        """The packet that it delivers."""
        return int(self.words[1]) if self.words[0] == "deliver" else None


class Story:
    """A script, given line by line."""

    def __init__(self, program, text):
        self.sim, self.events = Sim(program), []
        self.sent, self.settled = 0, set()
        lines = [line for line in text.split("\n") if line.strip() and line[0] != "#"]
        self.head = "\n".join(lines[:2])
        self.founders = self.sim.ask(self.head)[0]
        if any(answer.startswith("refused") for answer in self.founders):
            raise SystemExit("a script begins with lines params and found that are taken")
        for line in lines[2:]:
            self.give(line)
        self.sim.close()

    def give(self, line):
        """Gives a line of the script."""
        words = line.split()
        if words[0] == "packets":
            return
        if words[0] == "flow":
            self.flow()
        elif words[0] == "tick" and len(words) == 3 and words[2].isdigit():
            for _ in range(int(words[2])):
                self.event(f"tick {words[1]}")
        elif words[0] == "drop" and words[-1].isdigit() and 1 <= int(words[-1]) <= self.sent:
            self.settled.add(int(words[1]))
        elif self.event(line) and words[0] == "deliver":
            self.settled.add(int(words[1]))

    def flow(self):
        """What `flow` stands for: the least packet that is not settled is, and is delivered."""
        while len(self.settled) < self.sent:
            packet = min(set(range(1, self.sent + 1)) - self.settled)
            self.settled.add(packet)
            self.event(f"deliver {packet}")

    def event(self, line):
        """Gives a line that is an event of the world, and keeps it unless it is refused."""
        printed, sent = self.sim.ask(line)
        event = Event(line, printed, self.sent + 1, sent)
        self.sent = sent
        if printed and printed[0].startswith("refused"):
            return False
        self.events.append(event)
        return True

    def views(self):
        """All that was printed of views."""
        return self.founders + [answer for event in self.events for answer in event.printed]


def nodes_of(story):
    """All nodes, ascending: the founders, and those that start."""
    founders = [int(word) for word in story.head.split("\n")[1].split()[1:]]
    return sorted(founders + [int(e.words[1]) for e in story.events if e.words[0] == "start"])


def ports_of(story):
    """At which port each node starts: a founder at that of its number."""
    ports = {int(word): int(word) for word in story.head.split("\n")[1].split()[1:]}
    starts = [event.words for event in story.events if event.words[0] == "start"]
    return ports | {int(words[1]): int(words[2]) for words in starts}


def refused(program, story, lines):
    """The packets that can be delivered to nobody, once these lines came after the story."""
    sim = Sim(program)
    sim.ask(story.head)
    for event in story.events:
        if sim.ask(event.line) != (event.printed, event.sent.stop - 1):
            raise SystemExit(f"another run differs at: {event.line}")
    for line in lines:
        sim.ask(line)
    packets = range(1, story.sent + 1)
    found = {p for p in packets if sim.ask(f"deliver {p}")[0] == ["refused NoSuchNode"]}
    sim.close()
    return found


def ports_of_packets(program, story, ports):
    """To which port each packet goes."""
    crashed = {int(event.words[1]) for event in story.events if event.words[0] == "crash"}
    running = {port: node for node, port in ports.items() if node not in crashed}
    stranger = max(set(range(1, 65_536)) - set(ports))
    nobody, found = refused(program, story, []), {}
    for port in set(ports.values()):
        if port in running:
            gone = refused(program, story, [f"crash {running[port]}"]) - nobody
        else:
            gone = nobody - refused(program, story, [f"start {stranger} {port} {port}"])
        found.update(dict.fromkeys(gone, port))
    return found


def receivers(program, story):
    """Which node gets each packet, or would."""
    ports = ports_of(story)
    goes, at, to = ports_of_packets(program, story, ports), {}, {}
    for word in story.head.split("\n")[1].split()[1:]:
        at[int(word)] = int(word)
    for event in story.events:
        if event.words[0] == "start":
            at[int(event.words[2])] = int(event.words[1])
        for packet in [*event.sent, *([event.packet()] if event.packet() else [])]:
            if packet in goes:
                to[packet] = at.get(goes[packet])
    return to


def columns_of(story):
    """The events by column: ticks of a node that send nothing share one with its next."""
    columns, quiet = [], 0
    for at, event in enumerate(story.events):
        after = story.events[at + 1 : at + 2]
        same = after and event.words[0] == "tick" and after[0].line == event.line
        if same and not event.sent and not event.printed:
            quiet += 1
            continue
        columns.append((event, quiet + 1))
        quiet = 0
    return columns


class Drawing:
    """An SVG of a story."""

    def __init__(self, title, source, story, to):
        self.title, self.source, self.story, self.to = title, source, story, to
        self.nodes, self.columns, self.out = nodes_of(story), columns_of(story), []
        self.width = LEFT + STEP * (len(self.columns) + 1) + 150
        self.legend = textwrap.wrap(LEGEND, self.width // 6)
        self.height = TOP + ROW * len(self.nodes) + 20 + 15 * len(self.legend)

    def x(self, column):
        return LEFT + STEP * (column + 1)

    def y(self, node):
        return TOP + ROW * self.nodes.index(node) + 24

    def colour(self, node):
        return COLOURS[self.nodes.index(node) % len(COLOURS)]

    def text(self, x, y, words, size=11, **more):
        told = "".join(f' {key.replace("_", "-")}="{value}"' for key, value in more.items())
        self.out.append(f'<text x="{x}" y="{y}" font-size="{size}"{told}>{escape(words)}</text>')

    def line(self, x1, y1, x2, y2, colour, width=1.0, more=""):
        ends = f'x1="{x1}" y1="{y1}" x2="{x2}" y2="{y2}"'
        self.out.append(f'<line {ends} stroke="{colour}" stroke-width="{width}"{more}/>')

    def actor(self, event):
        """The node that takes a step at the event."""
        packet = event.packet()
        return self.to[packet] if packet else int(event.words[1])

    def arrow(self, x1, y1, x2, y2, colour):
        """A packet that came."""
        length = ((x2 - x1) ** 2 + (y2 - y1) ** 2) ** 0.5
        ux, uy = (x2 - x1) / length, (y2 - y1) / length
        bx, by = x2 - 9 * ux, y2 - 9 * uy
        self.line(x1, y1, round(bx, 1), round(by, 1), colour, 1.1, ' stroke-opacity="0.75"')
        points = [(x2, y2), (bx - 3 * uy, by + 3 * ux), (bx + 3 * uy, by - 3 * ux)]
        told = " ".join(f"{round(x, 1)},{round(y, 1)}" for x, y in points)
        self.out.append(f'<polygon points="{told}" fill="{colour}"/>')

    def cross(self, x, y, colour, size=4, width=2):
        self.line(x - size, y - size, x + size, y + size, colour, width)
        self.line(x - size, y + size, x + size, y - size, colour, width)

    def lives(self):
        """A line for each node: dashed while it has no view, thick from a view change on."""
        end = self.x(len(self.columns)) + 20
        for node in self.nodes:
            y, start, stop, views = self.y(node), LEFT, end, []
            if any(f"node {node} height" in answer for answer in self.story.founders):
                views.append(LEFT)
            for column, (event, _) in enumerate(self.columns):
                if event.words[:2] == ["start", str(node)]:
                    start = self.x(column)
                if event.words[:2] == ["crash", str(node)]:
                    stop = self.x(column)
                if any(answer.startswith(f"node {node} ") for answer in event.printed):
                    views.append(self.x(column))
            first = views[0] if views else stop
            self.line(start, y, first, y, "#888", 1.2, ' stroke-dasharray="4 3"')
            for at, begin in enumerate(views):
                until = views[at + 1] if at + 1 < len(views) else stop
                colour, width = ("#444", 1.2) if at == 0 else ("#000", 3.2)
                self.line(begin, y, until, y, colour, width)
            self.text(8, y + 4, f"node {node}", 13, fill=self.colour(node), font_weight="bold")

    def heads(self):
        """What each column is."""
        for column, (event, count) in enumerate(self.columns):
            x = self.x(column)
            words = f"{count} ticks of {event.words[1]}" if count > 1 else event.line
            self.line(x, TOP - 4, x, TOP + ROW * len(self.nodes) - 8, "#eee", 1)
            turned = f"rotate(-60 {x + 4} {TOP - 10})"
            self.text(x + 4, TOP - 10, words, 11, transform=turned, fill="#333")

    def packets(self):
        """An arrow for each packet that came, and a cross for each that did not."""
        come = {e.packet(): column for column, (e, _) in enumerate(self.columns) if e.packet()}
        for column, (event, _) in enumerate(self.columns):
            for packet in event.sent:
                sender, receiver = self.actor(event), self.to[packet]
                x, y, colour = self.x(column), self.y(sender), self.colour(sender)
                if packet in come:
                    self.arrow(x, y, self.x(come[packet]), self.y(receiver), colour)
                else:
                    down = 18 if self.y(receiver) > y else -18
                    self.line(x, y, x + 9, y + down, colour, 1.1, ' stroke-dasharray="2 2"')
                    self.cross(x + 9, y + down, colour, 2.5, 1.2)

    def marks(self):
        """A dot for each step, the numbers of what it sent, and what was printed."""
        for column, (event, _) in enumerate(self.columns):
            x = self.x(column)
            if event.words[0] == "lose":
                continue
            node = self.actor(event)
            y, sent = self.y(node), event.sent
            if event.words[0] == "crash":
                self.cross(x, y, "#c00", 7, 3)
                continue
            self.out.append(f'<circle cx="{x}" cy="{y}" r="3.2" fill="{self.colour(node)}"/>')
            if sent:
                told = f"{sent[0]}" if len(sent) == 1 else f"{sent[0]}\u2013{sent[-1]}"
                self.text(x, y - 7, told, 9, fill="#000", text_anchor="middle", **HALO)
            for answer in event.printed:
                ring = f'<circle cx="{x}" cy="{y}" r="6.5" fill="none"'
                self.out.append(f'{ring} stroke="#000" stroke-width="2"/>')
                told = re.sub(r"node \d+ ", "", answer)
                self.text(x + 2, y + 19, told, 11, font_weight="bold", **HALO)

    def draw(self):
        """The whole figure."""
        size = f'width="{self.width}" height="{self.height}"'
        box = f'viewBox="0 0 {self.width} {self.height}"'
        font = 'font-family="Helvetica, Arial, sans-serif"'
        self.out.append(f'<svg xmlns="http://www.w3.org/2000/svg" {size} {box} {font}>')
        self.out.append('<rect width="100%" height="100%" fill="#fff"/>')
        self.text(8, 20, self.title, 16, font_weight="bold")
        source = f"{self.source}; drawn from runs of sim by make.py"
        self.text(8, 37, source, 10, fill="#555")
        self.heads()
        self.lives()
        self.packets()
        self.marks()
        for at, words in enumerate(self.legend):
            down = self.height - 15 * (len(self.legend) - at) + 6
            self.text(8, down, words, 11, fill="#333")
        self.out.append("</svg>")
        return "\n".join(self.out) + "\n"


HALO = {"paint_order": "stroke", "stroke": "#fff", "stroke_width": "3"}

LEGEND = (
    "A column is a line that was given, with flow as the deliver lines that it stands for. A dot "
    "is a step of a node, with the numbers of the packets that it sent; an arrow is a packet, to "
    "the line that delivers it. A small cross is a packet that no line delivers, or for which no "
    "node runs; a great one is a crash. A ring is a view that sim printed. A node's line is dashed "
    "before its first view, and thick after a view change."
)


def figure(program, script, title, source):
    """The figure of a script, after all that can be compared was found to agree."""
    text = script.read_text()
    story = Story(program, text)
    whole = subprocess.run([program, "sim"], input=text, capture_output=True, text=True, check=True)
    said = [line for line in whole.stdout.split("\n") if re.match("node ", line)]
    if said != story.views():
        raise SystemExit(f"{source}: line by line the program prints other views")
    to = receivers(program, story)
    if len(to) != story.sent or None in to.values():
        raise SystemExit(f"{source}: a packet goes to no node")
    return Drawing(title, source, story, to).draw()


def title_of(script):
    """The first line of comment of a script, else its name."""
    said = [line.strip("# ") for line in script.read_text().split("\n") if line.startswith("#")]
    return said[0] if said and said[0] else script.stem


def main(words):
    """Draws or compares the figures."""
    if len(words) not in (1, 2):
        print(__doc__, file=sys.stderr)
        return 2
    if len(words) == 2 and words[1] != "--check":
        script = Path(words[1])
        print(figure(words[0], script, title_of(script), words[1]), end="")
        return 0
    status = 0
    for name, title in STORIES.items():
        script = SCRIPTS / f"{name}.txt"
        source = f"examples/sim/{script.name}"
        place, drawn = HERE / f"{name}.svg", figure(words[0], script, title, source)
        if not words[1:]:
            place.write_text(drawn)
        elif not place.is_file() or place.read_text() != drawn:
            print(f"{place.name} is not what the program's runs show", file=sys.stderr)
            status = 1
    return status


if __name__ == "__main__":
    sys.exit(main(sys.argv[1:]))
