"""Nodes as processes on loopback, frames written by hand, and what every run of soak.py watches."""
import collections
import ctypes
import hashlib
import itertools
import os
import random
import resource
import signal
import socket
import struct
import subprocess
import time
import uuid
from pathlib import Path

HOST = "127.0.0.1"
PAGE = os.sysconf("SC_PAGE_SIZE")
BATCH, VOTE, PREPARE, PRE_JOIN, REPLY, JOIN_REQUEST = 1, 2, 3, 8, 9, 10
REMOVE, JOIN = 1, 2
GREATEST = 2_097_152  # the greatest length of a frame, after its length field
RINGS, L = 10, 3  # of the nodes started here, which take the program's defaults
PIDFD_GETFD = 438  # the number of this system call, on all machines


class Failed(Exception):
    """What was not as it has to be."""


# Frames, as docs/FORMATS.md has them.

def process(identifier, port, host=HOST):
    """The 23 bytes of a process without tags."""
    return identifier + socket.inet_aton(host) + struct.pack(">H", port) + b"\0"


def split_process(data):
    """The process in front of the bytes, with its tags, and what follows."""
    end = 23
    for _ in range(data[22]):
        end += 1 + data[end]
    return data[:end], data[end:]


def frame(kind, sender, body=b""):
    return struct.pack(">IBB", 2 + len(sender) + len(body), 2, kind) + sender + body


def batch(observer, config, alerts):
    """A batch of alerts, each a ring, a kind and a subject."""
    items = b"".join(bytes([ring, kind]) + subject for ring, kind, subject in alerts)
    return frame(BATCH, observer, config + struct.pack(">H", len(alerts)) + items)


def observer_of(members, ring, subject):
    """The member that comes next before the subject on the ring, going round."""
    def key(member):
        return hashlib.sha256(bytes([ring]) + member[:22]).digest(), member
    others = sorted((it for it in members if it != subject), key=key)
    return ([it for it in others if key(it) < key(subject)] or others)[-1]


def check_frames():
    """Frames that are known byte by byte are spelt so here."""
    one, two = (process(bytes(15) + bytes([n]), n) for n in (1, 2))
    known = [
        (frame(PRE_JOIN, two), "00000019 0208" + two.hex()),
        (two, "00000000000000000000000000000002 7f0000010002 00"),
        (frame(REPLY, one, two + b"\x02"), "00000031 0209" + one.hex() + two.hex() + "02"),
        (batch(one, bytes(32), [(3, JOIN, two)]),
         "00000054 0201" + one.hex() + "00" * 32 + "0001 03 02" + two.hex()),
    ]
    if any(made != bytes.fromhex(spelt) for made, spelt in known):
        raise Failed("this script spells frames wrongly")


class Fake:
    """An endpoint without a node: it takes whatever nodes send there."""

    def __init__(self, port=0):
        self.listener = socket.create_server((HOST, port), backlog=512)
        self.listener.setblocking(False)
        self.port, self.accepted, self.streams, self.frames = self.listener.getsockname()[1], 0, [], []

    def drain(self):
        """Takes in what has come."""
        while True:
            try:
                stream, _ = self.listener.accept()
            except BlockingIOError:
                break
            stream.setblocking(False)
            self.accepted += 1
            self.streams.append((stream, bytearray()))
        self.streams = [it for it in self.streams if self.read(*it)]

    def read(self, stream, held):
        """Whether the connection goes on. Frames are kept as kind, sender and body."""
        try:
            got = stream.recv(1 << 20)
        except BlockingIOError:
            return True
        except OSError:
            got = b""
        held += got
        while len(held) >= 4 and len(held) >= 4 + (size := int.from_bytes(held[:4], "big")):
            rest = bytes(held[4:4 + size])
            del held[:4 + size]
            self.frames.append((rest[1], *split_process(rest[2:])))
        return bool(got) or stream.close()

    def close(self):
        for stream in [self.listener] + [it for it, _ in self.streams]:
            stream.close()


def prepare(limit, autogroup):
    """In a process that becomes a node: no signal is ignored, as by `nohup` and `&`, and descriptors are limited."""
    for number in (signal.SIGHUP, signal.SIGINT, signal.SIGTERM):
        signal.signal(number, signal.SIG_DFL)
    if autogroup is not None:
        Path("/proc/self/autogroup").write_text(str(autogroup))  # of its session alone, which has just begun
    if limit:
        resource.setrlimit(resource.RLIMIT_NOFILE, (limit, limit))


class Node:
    """A node that was started, and what it printed."""

    def __init__(self, words, identifier, port, seed, tick_ms, prepared):
        words = words + ["node", "--listen", f"{HOST}:{port}", "--tick-ms", str(tick_ms)]
        words += ["--id", str(uuid.UUID(bytes=identifier))]
        words += [] if seed is None else ["--join", f"{HOST}:{seed.port}"]
        self.popen = subprocess.Popen(
            words, stdin=subprocess.PIPE, stdout=subprocess.PIPE, stderr=subprocess.PIPE,
            start_new_session=True, bufsize=0, preexec_fn=prepared)
        for pipe in (self.popen.stdin, self.popen.stdout, self.popen.stderr):
            os.set_blocking(pipe.fileno(), False)
        self.port, self.seed, self.process = port, seed, process(identifier, port)
        self.name, self.begun = f"{HOST}:{port}", time.monotonic()
        self.text, self.errors, self.views, self.lines = b"", b"", [], 0
        self.reads, self.stopped, self.may_end, self.gone = True, False, False, False

    def take_views(self):
        """Reads what it printed since; the views among it that it had not printed before."""
        self.errors += self.popen.stderr.read() or b""
        self.text += self.popen.stdout.read() or b"" if self.reads else b""
        *lines, self.text = self.text.split(b"\n")
        self.lines += len(lines)
        before = len(self.views)
        for line in (it.decode().split() for it in lines):
            view = (int(line[1]), tuple(line[3:])) if line[:1] == ["height"] else None
            if view and view not in self.views[-1:]:
                self.views.append(view)
        return self.views[before:]

    def type(self, text, seconds=10):
        """Hands it lines; whether it took them in that time."""
        left, until = text.encode(), time.monotonic() + seconds
        while left and time.monotonic() < until and self.popen.poll() is None:
            try:
                left = left[self.popen.stdin.write(left) or 0:]
            except BrokenPipeError:
                return False
            if left:
                time.sleep(0.002)
        return not left

    def is_in(self):
        return bool(self.views) and self.name in self.views[-1][1]

    def is_out(self):
        return bool(self.views) and self.name not in self.views[-1][1]

    def figures(self):
        """Kilobytes of memory, threads and descriptors."""
        home = Path(f"/proc/{self.popen.pid}")
        memory = int((home / "statm").read_text().split()[1]) * PAGE // 1024
        return memory, len(os.listdir(home / "task")), len(os.listdir(home / "fd"))

    def connections(self):
        """Its connections, each as its own port, the port of the other end, and the state as Linux has it."""
        inodes = set()
        for entry in Path(f"/proc/{self.popen.pid}/fd").iterdir():
            inodes.add(os.readlink(entry).removeprefix("socket:[").removesuffix("]"))
        rows = [line.split() for line in Path("/proc/net/tcp").read_text().splitlines()[1:]]
        ports = [[int(place.split(":")[1], 16) for place in row[1:3]] + [row[3]] for row in rows if row[9] in inodes]
        return sorted((own, other, state) for own, other, state in ports if other)

    def connect(self):
        return socket.create_connection((HOST, self.port), timeout=5)

    def send(self, frames):
        """Sends bytes by one connection; false if that was cut off or nothing took them."""
        try:
            with self.connect() as stream:
                for part in frames:
                    stream.sendall(part)
                stream.shutdown(socket.SHUT_WR)
            return True
        except OSError:
            return False

    def cut(self, spared=()):
        """Shuts down the connections that come in, but those from these ports; their number."""
        number, handle = 0, os.pidfd_open(self.popen.pid)
        for name in os.listdir(f"/proc/{self.popen.pid}/fd"):
            got = ctypes.CDLL(None).syscall(PIDFD_GETFD, handle, int(name), 0)
            if got < 0:
                continue
            if not os.readlink(f"/proc/self/fd/{got}").startswith("socket:"):
                os.close(got)
                continue
            with socket.socket(fileno=got) as stream:
                number += self.shut(stream, spared)
        os.close(handle)
        return number

    def shut(self, stream, spared):
        try:
            if stream.getsockname()[1] != self.port or stream.getpeername()[1] in spared:
                return False
            stream.shutdown(socket.SHUT_RDWR)
            return True
        except OSError:
            return False  # the listener, or one that has ended


class Cluster:
    """Nodes that were started, the one sequence of views, and who has a cause to be expelled."""

    def __init__(self, given):
        self.given, self.random = given, random.Random(given.seed)
        self.tick, self.began, self.port = given.tick_ms / 1000, time.monotonic(), given.first_port
        self.nodes, self.views, self.judged, self.fakes, self.held = [], {}, 0, [], []
        self.causes, self.expelled, self.came, self.load = {}, collections.Counter(), [], []

    def draw(self):
        """A fresh identifier."""
        return uuid.UUID(int=self.random.getrandbits(128), version=4).bytes

    def fake(self, port=0):
        self.fakes.append(Fake(port))
        return self.fakes[-1]

    def start(self, seed=None, port=None, identifier=None, tick_ms=None, words=(), limit=None):
        if port is None:
            port, self.port = self.port, self.port + 1
        tick_ms = self.given.tick_ms if tick_ms is None else tick_ms
        prepared = lambda: prepare(limit, self.given.autogroup)
        node = Node([*words, self.given.program], identifier or self.draw(), port, seed, tick_ms, prepared)
        self.nodes.append(node)
        return node

    def form(self, count, tick_ms=None, **first):
        """Starts nodes, which come to one view."""
        self.tick = (tick_ms or self.given.tick_ms) / 1000
        nodes = [self.start(tick_ms=tick_ms, **first)]
        self.until(lambda: nodes[0].views, 10, "the founder has printed no view")
        nodes += [self.start(nodes[0], tick_ms=tick_ms) for _ in range(count - 1)]
        self.agree(60)
        self.rest(3)
        return nodes

    def running(self):
        return [it for it in self.nodes if not it.gone and not it.may_end]

    def steady(self):
        return [it for it in self.running() if it.is_in() and not it.stopped]

    def look(self):
        """Reads what the nodes printed, and judges it."""
        for node in self.nodes:
            if node.gone:
                continue
            ended = node.popen.poll()
            for height, members in node.take_views():
                self.note(node, height, members)
            if ended is not None or b"error:" in node.errors:
                self.note_end(node, ended)
        while self.judged + 1 in self.views:
            self.judged += 1
            self.judge(self.judged)
        for height, node in self.came:
            if height <= self.judged and not node.may_end and self.cause(node.name) == "killed":
                del self.causes[node.name]  # that was for the process before it, which is judged by now
        self.came = [it for it in self.came if it[0] > self.judged]
        for fake in self.fakes:
            fake.drain()
        time.sleep(0.01)

    def note(self, node, height, members):
        if self.views.setdefault(height, members) != members:
            raise Failed(f"{node.name} has {members} at height {height}, others {self.views[height]}")
        place = [it[0] for it in node.views].index(height)
        if place and node.views[place - 1][0] != height - 1:
            raise Failed(f"{node.name} went from height {node.views[place - 1][0]} to {height}")
        if node.name in members:
            self.came.append((height, node))

    def note_end(self, node, ended):
        node.gone = ended is not None
        if node.may_end:
            return
        said = node.errors.decode(errors="replace").strip() or "nothing on standard error"
        how = "its process is still there" if ended is None else f"status {ended}"
        raise Failed(f"{node.name} ended by itself: {how}, {said}")

    def judge(self, height):
        """Whoever is missing in this view has a cause."""
        for name in set(self.views[height - 1]) - set(self.views[height]):
            cause = self.cause(name)
            if cause is None:
                raise Failed(f"{name} was expelled without a cause at height {height}")
            self.expelled[cause] += 1
            if cause in ("killed", "quit", "left"):
                del self.causes[name]

    def cause(self, name):
        """Why this member may be expelled now, if it may."""
        cause, until = self.causes.get(name, (None, 0))
        return cause if time.monotonic() <= until else None

    def excuse(self, node, cause, seconds=1e9):
        """The node may be expelled for so long; a cause that lasts longer stands."""
        until = time.monotonic() + seconds
        if until > self.causes.get(node.name, (None, 0))[1]:
            self.causes[node.name] = (cause, until)

    def until(self, holds, seconds, failure):
        """Looks until something holds; how long that took."""
        began = time.monotonic()
        while not holds():
            self.look()
            if time.monotonic() - began > seconds:
                raise Failed(f"{failure}, for {seconds:g} s")
        return time.monotonic() - began

    def rest(self, seconds):
        until = time.monotonic() + seconds
        while time.monotonic() < until:
            self.look()

    def agreed(self):
        nodes = self.running()
        names = {it.name for it in nodes}
        lasts = {it.views[-1] for it in nodes if it.views}
        return all(it.views for it in nodes) and len(lasts) == 1 and set(lasts.pop()[1]) == names

    def agree(self, seconds):
        return self.until(self.agreed, seconds, "the live nodes have no view of them all in common")

    def kill(self, *nodes):
        for node in nodes:
            self.excuse(node, "killed")
            node.may_end = True
            node.popen.kill()

    def leave(self, *nodes):
        """Tells members to leave; they end once they are told to quit."""
        for node in nodes:
            self.excuse(node, "left")
            node.type("leave\n")

    def answers(self, node):
        """It is there, and answers a line."""
        before = node.lines
        node.type("view\n")
        self.until(lambda: node.lines > before, 10, f"{node.name} has not answered `view`")

    def ask(self, node):
        """What a joiner of ours is told: itself, the configuration and its observers by ring."""
        fake = self.fake()
        node.send([frame(PRE_JOIN, process(self.draw(), fake.port))])
        self.until(lambda: fake.frames, 10, f"{node.name} has not answered a PreJoin")
        safe = read_safe(fake)
        if not safe:
            raise Failed(f"{node.name} answered a PreJoin by {fake.frames[0]}")
        return safe

    def flood(self, node, frames, count):
        """Sends frames as fast as the node takes them, at most for 120 seconds."""
        until, sent = time.monotonic() + 120, 0
        try:
            with node.connect() as stream:
                stream.settimeout(20)
                while sent < count and time.monotonic() < until:
                    stream.sendall(b"".join(itertools.islice(frames, 500)))
                    sent += 500
                    self.look()
        except OSError:
            self.rest(0.5)  # fails with why the node ended, if it did
        if sent < count:
            raise Failed(f"{node.name} took {sent} of {count} frames")

    def hold(self, node, first=b"", count=256):
        """Opens connections that say no more than this, and keeps them open."""
        made = []
        for _ in range(count):
            made.append(node.connect())
            made[-1].settimeout(5)
            made[-1].sendall(first)
            made[-1].setblocking(False)
        self.held += made
        return made

    def end(self):
        for node in self.nodes:
            if node.popen.poll() is None:
                os.killpg(node.popen.pid, signal.SIGKILL)
            node.popen.wait()
        for it in self.load:
            it.kill()
            it.wait()
        for it in self.held + self.fakes:
            it.close()


def read_safe(fake):
    """The joiner, the configuration and the observers by ring of the answer to a PreJoin, if it is Safe."""
    kind, _, body = fake.frames[0] if fake.frames else (0, b"", b"")
    if kind != REPLY:
        return None
    joiner, answer = split_process(body)
    if answer[0] != 1:
        return None
    observers, rest = [], answer[34:]
    for _ in range(answer[33]):
        observer, rest = split_process(rest)
        observers.append(observer)
    return joiner, answer[1:33], observers


def is_closed(stream):
    """Whether the other end has closed a connection that does not block."""
    try:
        return stream.recv(1) == b""
    except BlockingIOError:
        return False
    except OSError:
        return True
