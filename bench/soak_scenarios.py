"""The single scenarios of soak.py. Each takes a cluster without nodes, ends within a minute or so,
answers in words what was seen, and fails with what was not as it has to be."""
import itertools
import os
import shutil
import signal
import socket
import subprocess
import sys
import tempfile
from pathlib import Path
from types import SimpleNamespace

from soak_cluster import (BATCH, GREATEST, HOST, JOIN, JOIN_REQUEST, L, PRE_JOIN, REMOVE, RINGS, Failed, batch,
                          frame, is_closed, observer_of, process)

TOP = Path(__file__).resolve().parent.parent
FLOOD = 200_000  # frames of a flood
ANSWERS = 40_000  # each at the next source port of one parity, of which Linux has some 14,000
MOST_MEMORY = 64 * 1024  # kilobytes that a node holds at most while it is ill-treated


def keeps(it, nodes, height):
    """After all that was done to them the nodes are there, in the view of this height."""
    for node in nodes:
        it.answers(node)
        if node.views[-1][0] != height:
            raise Failed(f"{node.name} entered {node.views[-1]}")
        if node.figures()[0] > MOST_MEMORY:
            raise Failed(f"{node.name} holds {node.figures()[0]} kB")
    return ", ".join(f"{node.figures()[0]} kB" for node in nodes)


def tick_by_lines(it, node, lines):
    """Ticks a node 1,000 times a line, each once it has answered the one before."""
    for _ in range(lines):
        before = node.lines
        node.type("tick 1000\nview\n")
        it.until(lambda: node.lines > before, 10, f"{node.name} has not answered")


def pair_without_quorum(it):
    """Two of four are killed at once; the two left can decide nothing, and tick on for long."""
    nodes = it.form(4)
    it.kill(*nodes[2:])
    it.rest(60 * it.tick)
    height, lines = nodes[0].views[-1][0], 1_000
    tick_by_lines(it, nodes[0], lines)
    return f"{lines},000 ticks; {keeps(it, nodes[:2], height)}"


def flapping_edge(it):
    """Two batches of one member about one edge or another, by turns, which stay noise."""
    nodes = it.form(4)
    members = sorted(node.process for node in nodes)
    _, config, _ = it.ask(nodes[3])
    edges = [(observer_of(members, ring, subject), subject, ring)
             for subject in members[:2] for ring in range(RINGS)]
    observer, subject, ring = next(e for e in edges if e[0] != nodes[3].process)
    others = [e[2] for e in edges if e[:2] == (observer, subject)][:L - 1]
    by_turns = [batch(observer, config, [(ring, REMOVE, subject)]),
                batch(observer, config, [(one, REMOVE, subject) for one in others[::-1]])]
    height = nodes[3].views[-1][0]
    it.flood(nodes[3], itertools.cycle(by_turns), FLOOD // 2)
    return f"{FLOOD // 2} batches; {keeps(it, nodes, height)}"


def used_identifier(it):
    """Two joiners, one after the other, with the identifier of a member ask for long, in vain."""
    nodes = it.form(3)
    for _ in range(2):
        joiner = it.start(nodes[0], identifier=nodes[1].process[:16], tick_ms=0)
        tick_by_lines(it, joiner, 500)
        joiner.may_end = True
        joiner.type("quit\n")
    return f"100,000 questions; {keeps(it, nodes, nodes[0].views[-1][0])}"


def prejoin_flood(it):
    """200,000 joiners with fresh identifiers ask one member."""
    nodes = it.form(3)
    height, fake = nodes[1].views[-1][0], it.fake()
    frames = (frame(PRE_JOIN, process(it.draw(), fake.port)) for _ in itertools.count())
    it.flood(nodes[1], frames, FLOOD)
    it.rest(3)
    return f"{len(fake.frames)} of {FLOOD} were answered; {keeps(it, nodes, height)}"


def batch_flood(it):
    """One member is sent the same batch 200,000 times."""
    nodes = it.form(3)
    joiner, config, observers = it.ask(nodes[1])
    height, same = nodes[1].views[-1][0], batch(observers[0], config, [(0, JOIN, joiner)])
    it.flood(nodes[1], itertools.repeat(same), FLOOD)
    return f"{FLOOD} batches; {keeps(it, nodes, height)}"


def fill(it, node):
    """Takes all places for incoming connections that a node has, by silent ones."""
    made = it.hold(node, count=256)
    for _ in range(20):
        made += it.hold(node, count=4)
        it.rest(0.02)
        if all(is_closed(stream) for stream in made[-4:]):
            return made
    raise Failed(f"{node.name} has accepted {len(made)} connections")


def silent_256(it):
    """256 silent connections take all places of a member, then its peers' connections are cut."""
    nodes = it.form(5, tick_ms=200)
    height, target = nodes[0].views[-1][0], nodes[2]
    held = fill(it, target)
    cut = target.cut({stream.getsockname()[1] for stream in held})
    fill(it, target)
    it.rest(40)
    return f"{cut} connections of peers cut; {keeps(it, nodes, height)}"


def idle_256(it):
    """Connections that have sent a frame take all places of a member: its peers go on, a joiner waits till they end."""
    nodes = it.form(3)
    height, fake = nodes[1].views[-1][0], it.fake()
    held = it.hold(nodes[1], frame(PRE_JOIN, process(it.draw(), fake.port)), 256)
    it.until(lambda: sum(is_closed(stream) for stream in held) >= 2, 5, "its peers have no place")
    joiner = it.start(nodes[1])
    it.until(lambda: b"last answer: none" in joiner.errors, 10, f"no note; but {joiner.errors}")
    it.rest(6)
    kept = keeps(it, nodes, height)
    for stream in held:
        stream.close()
    took = it.until(lambda: joiner.is_in() and it.agreed(), 10, "the joiner is not let in")
    return f"a joiner was let in {took:.2f} s after they were closed; {kept}"


def half_frame(it):
    """100 connections say a beginning of the longest frame, and no more."""
    nodes = it.form(3)
    before = nodes[1].figures()
    begun = GREATEST.to_bytes(4, "big") + bytes([2, BATCH]) + bytes(32_768)
    held = it.hold(nodes[1], begun, 100)
    it.rest(12)
    open_yet, after = sum(not is_closed(stream) for stream in held), nodes[1].figures()
    if open_yet:
        raise Failed(f"{open_yet} of 100 are open after 12 s; kB, threads, descriptors {before}, {after}")
    return f"all were closed; kB, threads, descriptors {before}, {after}"


def sixty_five_destinations(it):
    """72 joiners whose ports are the same modulo 4 ask one member, in three rounds."""
    nodes = it.form(3)
    first = it.port + 400 - it.port % 4
    fakes = [it.fake(first + 4 * place) for place in range(72)]
    for number in range(1, 4):
        for fake in fakes:
            nodes[1].send([frame(PRE_JOIN, process(it.draw(), fake.port))])
        answered = lambda: all(len(fake.frames) == number for fake in fakes)
        it.until(answered, 10, f"not all 72 were answered in round {number}")
    descriptors = nodes[1].figures()[2]
    return f"all were answered; {descriptors} descriptors; {keeps(it, nodes, nodes[1].views[-1][0])}"


def restart_same_endpoint(it):
    """A member is killed and at once started again at its endpoint, with a fresh identifier."""
    nodes = it.form(4)
    it.kill(nodes[3])
    nodes[3].popen.wait()
    again = it.start(nodes[0], port=nodes[3].port)
    took = it.until(lambda: again.is_in() and it.agreed(), 30, "it is not a member again")
    return f"a member again after {took:.1f} s, at height {again.views[-1][0]}"


def old_identifier(it):
    """A killed member is started again with its identifier: at its endpoint it seems the same, elsewhere it waits."""
    nodes = it.form(5)
    height, killed = nodes[0].views[-1][0], nodes[3]
    used = killed.process[:16]
    it.kill(killed)
    killed.popen.wait()
    again = it.start(nodes[0], port=killed.port, identifier=used)
    took = it.until(again.is_in, 10, "it has no view")
    it.rest(80 * it.tick)
    keeps(it, nodes[:3] + [nodes[4], again], height)
    if again.errors:
        raise Failed(f"at its old endpoint it said {again.errors}")
    it.kill(again)
    other = it.start(nodes[0], identifier=used)
    answer = b"last answer: a member has its identifier or its endpoint\n"
    it.until(lambda: answer in other.errors, 10, f"elsewhere no note: {answer}; but {other.errors}")
    it.agree(30)
    return f"the present view after {took:.2f} s, and a member; elsewhere a note, and let in when the old one was out"


def stopped_process_goes_on(it):
    """A member is stopped for 12 ticks, which expels nobody, then for 80, and goes on: it says that it is out."""
    nodes = it.form(5)
    target = nodes[4]
    stop(it, target, 12)
    it.rest(40 * it.tick)
    keeps(it, nodes, nodes[0].views[-1][0])
    it.excuse(target, "stopped for long")
    stop(it, target, 80)
    took = it.until(target.is_out, 20, "it has not learnt that it was expelled")
    target.may_end = True
    it.agree(20)
    it.rest(2)
    if target.errors.count(b"note: this node was removed") != 1:
        raise Failed(f"expelled after 80 ticks, not 12, it learnt so {took:.1f} s after it went on, and printed "
                     f"the view without it; but standard error has {target.errors}")
    return f"it learnt {took:.1f} s after it went on: {target.errors.decode().strip()}"


def stopped_majority(it):
    """Four of seven are stopped for 80 ticks, and go on: the others enter no view meanwhile, and then all agree."""
    nodes = it.form(7)
    height, stopped = nodes[0].views[-1][0], nodes[3:]
    for node in stopped:
        it.excuse(node, "stopped for long")
        node.popen.send_signal(signal.SIGSTOP)
    it.rest(80 * it.tick)
    keeps(it, nodes[:3], height)
    for node in stopped:
        node.popen.send_signal(signal.SIGCONT)

    def agreed():
        for node in stopped:
            node.may_end = node.is_out()
        return nodes[0].views[-1][0] > height and it.agreed()

    took = it.until(agreed, 60, "the nodes have not come to one view")
    out = [node for node in stopped if node.is_out()]
    it.rest(2)
    if any(node.errors.count(b"note: this node was removed") != 1 for node in out):
        raise Failed(f"those that are out said {[node.errors for node in out]}")
    return f"one view {took:.1f} s after they went on, without {len(out)} of the four, each of which says so"


def stop(it, node, ticks):
    """Stops a node for this many ticks."""
    node.popen.send_signal(signal.SIGSTOP)
    it.rest(ticks * it.tick)
    node.popen.send_signal(signal.SIGCONT)


def stopped_stdout(it):
    """Nobody reads what a member prints, and it is asked for some megabytes of it."""
    nodes = it.form(3)
    target = nodes[1]
    before, line = target.figures()[0], len(" ".join(target.views[-1][1])) + 18
    target.reads, target.may_end = False, True
    it.excuse(target, "killed")
    for _ in range(60):
        target.type("view\n" * 1_000)
        it.look()
    for _ in range(500):
        if target.gone:
            return f"status {target.popen.returncode}, {target.errors.decode().strip()}"
        it.look()
    after = target.figures()[0]
    raise Failed(f"{60 * line} kB wait to be read; the node holds {before} kB, then {after} kB")


def burn(seconds):
    """A process that takes a core for so long."""
    text = f"import time; end = time.time() + {seconds}\nwhile time.time() < end: pass"
    return subprocess.Popen([sys.executable, "-c", text], start_new_session=True)


def tick10_nine_nodes(it):
    """Nine nodes with ticks of 10 ms, while other processes take as many cores as --load says."""
    nodes, seconds = it.form(9, tick_ms=10), 60 * it.given.minutes
    height = nodes[0].views[-1][0]
    it.load = [burn(seconds + 30) for _ in range(it.given.load)]
    it.rest(seconds)
    return f"{seconds:g} s, {it.given.load} cores taken; {keeps(it, nodes, height)}"


def quit_hangs(it):
    """`quit` while nobody reads the output, and of a node with only five descriptors or four."""
    took, said = [], []
    for limit, unread in ((None, True), (5, False), (4, False)):
        node = it.start(limit=limit)
        it.until(lambda: node.views, 10, "the founder has printed no view")
        node.may_end, node.reads = True, not unread
        node.type("view\n" * 3_000 if unread else "view\n")
        it.rest(1)
        node.type("quit\n")
        case = "output unread" if unread else f"{limit} descriptors"
        try:
            took.append(it.until(lambda: node.gone, 5, f"{case}: it has not ended"))
            said.append(f"{case}: {took[-1]:.2f} s")
        except Failed as failure:
            took.append(5)
            said.append(str(failure))
        it.views.clear()
    if node.errors.count(b"warning: no file descriptor") != 1:
        raise Failed(f"4 descriptors: standard error has {node.errors}")
    if max(took) > 1.2:
        raise Failed("; ".join(said))
    return "; ".join(said)


def go(it, nodes, *going):
    """These leave at once: how long until all are at one view, and by how many views; they are told to quit."""
    height = nodes[0].views[-1][0]
    stay = {node.name for node in nodes} - {node.name for node in going}
    it.leave(*going)
    gone = lambda: all(set(node.views[-1][1]) == stay for node in nodes)
    took = it.until(gone, 20, f"more than {stay} are members yet")
    if took > 3:
        raise Failed(f"{len(going)} left after {took:.2f} s, as late as after a crash")
    for node in going:
        node.type("leave\n")
        it.answers(node)
        it.until(lambda: node.errors, 5, f"{node.name} has not said that it was removed")
        node.may_end = True
        node.type("quit\n")
        it.until(lambda: node.gone, 5, f"{node.name} has not quit")
        if node.errors.count(b"note: this node was removed") != 1 or node.popen.returncode != 0:
            raise Failed(f"{node.name} ended with status {node.popen.returncode} and said {node.errors}")
    return f"{len(going)} of {len(nodes)} after {took:.2f} s by {nodes[0].views[-1][0] - height}"


def leaves(it):
    """Members leave: one, three at once, all but one by turns; alone, without a view and out it does nothing."""
    nodes = it.form(9)
    said = [go(it, nodes, nodes[8]), go(it, nodes[:8], *nodes[5:8])]
    said += [go(it, nodes[:count], nodes[count - 1]) for count in range(5, 1, -1)]
    stranger = it.start(SimpleNamespace(port=it.port + 1))
    for node in (nodes[0], stranger):
        node.type("leave\nleave\n")
        it.answers(node)
    it.rest(10 * it.tick)
    if len(nodes[0].views[-1][1]) != 1 or stranger.views or nodes[0].errors:
        raise Failed(f"alone it printed {nodes[0].views[-1]} and {nodes[0].errors}, the stranger {stranger.views}")
    stranger.may_end = True
    return f"{', '.join(said)} views; {keeps(it, nodes[:1], nodes[0].views[-1][0])}"


def joiners_in_vain(it):
    """Joiners ask nobody, themselves, a removed member, a stopped one, and by a used identifier; they say so."""
    nodes = it.form(5)
    for node in nodes[3:]:
        it.excuse(node, "stopped for long")
        node.popen.send_signal(signal.SIGSTOP)
    members = {node.name for node in nodes[:3]}
    it.until(lambda: set(nodes[0].views[-1][1]) == members, 30, "the stopped are members yet")
    nodes[3].popen.send_signal(signal.SIGCONT)
    it.until(nodes[3].is_out, 20, "it has not learnt that it was removed")
    nobody = it.fake()
    it.fakes.remove(nobody)
    nobody.close()
    used = nodes[1].process[:16]
    asked = [(nobody, None, "none"), (None, None, "none"), (nodes[3], None, "none"), (nodes[4], None, "none"),
             (nodes[0], used, "a member has its identifier")]
    for seed, identifier, answer in asked:
        joiner = it.start(seed or SimpleNamespace(port=it.port), identifier=identifier)
        for number in (1, 10):
            text = f"after question {number} to {HOST}:{joiner.seed.port}; last answer: {answer}".encode()
            it.until(lambda: text in joiner.errors, 30, f"no note: {text}; but {joiner.errors}")
        joiner.may_end = True
        joiner.type("quit\n")
    nodes[4].popen.send_signal(signal.SIGCONT)
    nodes[3].may_end = nodes[4].may_end = True
    return f"all five said so; {keeps(it, nodes[:3], nodes[0].views[-1][0])}"


def without_ticks(it):
    """A founder and a joiner without ticks say so, and what a member without ticks costs."""
    founder = it.start(tick_ms=0)
    joiner = it.start(founder, tick_ms=0)
    for node in (founder, joiner):
        it.until(lambda: b"note: with --tick-ms 0" in node.errors, 10, f"{node.name} said nothing of its ticks")
    return f"both said: {joiner.errors.decode().strip()}"


def one_without_ticks(it):
    """Of five, one has no ticks but those typed until it is in; whom it observes most is killed: no view; it leaves."""
    nodes = it.form(4, tick_ms=20)
    fifth = it.start(nodes[0], tick_ms=0)
    it.until(lambda: fifth.views or not fifth.type("tick 1\n"), 30, "it is no member")
    it.agree(10)
    height, members = nodes[0].views[-1][0], [node.process for node in nodes + [fifth]]

    def missing(node):
        """On how many rings nobody reports it."""
        return sum(observer_of(members, ring, node.process) == fifth.process for ring in range(RINGS))

    target = max(nodes, key=missing)
    it.kill(target)
    it.rest(10)
    left = [node for node in nodes + [fifth] if node is not target]
    kept = keeps(it, left, height)
    it.leave(fifth)
    gone = lambda: all(fifth.name not in node.views[-1][1] and target.name not in node.views[-1][1] for node in left)
    took = it.until(gone, 10, "it was told to leave, and the killed one and it are members yet")
    fifth.may_end = True
    views = nodes[0].views[-1][0] - height if nodes[0] is not target else nodes[1].views[-1][0] - height
    return f"none came, {missing(target)} rings of {RINGS} without reports; told to leave, both were out after " \
           f"{took:.2f} s by {views}; {kept}"


def two_members(it):
    """One of two quits: the other says nothing and keeps its view, and a joiner learns that it is not let in."""
    nodes = it.form(2)
    height = nodes[0].views[-1][0]
    it.excuse(nodes[1], "quit")
    nodes[1].may_end = True
    nodes[1].type("quit\n")
    it.until(lambda: nodes[1].gone, 5, "it has not quit")
    joiner = it.start(nodes[0])
    answer = "it may join; see that most members run, with ticks"
    for number in (1, 10):
        text = f"note: no view after question {number} to {nodes[0].name}; last answer: {answer}\n".encode()
        it.until(lambda: text in joiner.errors, 30, f"no note: {text}; but {joiner.errors}")
    joiner.may_end = True
    joiner.type("quit\n")
    if nodes[0].errors:
        raise Failed(f"the one that is left said {nodes[0].errors}")
    return f"{answer}; {keeps(it, nodes[:1], height)}"


def signals(it):
    """SIGTERM, SIGINT and SIGHUP end a member at once, by the signal; the others expel it as one that crashed."""
    nodes = it.form(5)
    for node, number in zip(nodes[2:], (signal.SIGTERM, signal.SIGINT, signal.SIGHUP)):
        it.excuse(node, "killed")
        node.may_end = True
        node.popen.send_signal(number)
        it.until(lambda: node.gone, 1, f"signal {number} has not ended it")
        if node.popen.returncode != -number or node.errors:
            raise Failed(f"signal {number}: status {node.popen.returncode}, {node.errors}")
        it.agree(30)
    return f"each was expelled; {keeps(it, nodes[:2], nodes[0].views[-1][0])}"


def child_of(it, pid):
    """The node that a script runs."""
    for child in Path(f"/proc/{pid}/task/{pid}/children").read_text().split():
        name = Path(f"/proc/{child}/comm")
        if name.exists() and name.read_text().strip() == Path(it.given.program).name[:15]:
            return int(child)
    raise Failed("the script runs no node")


def supervised(it):
    """supervise.sh runs a member: another comes after SIGKILL, and after it was expelled; none after SIGTERM."""
    nodes, port = it.form(3), it.port
    it.port += 1
    node = SimpleNamespace(name=f"{HOST}:{port}")
    words = [TOP / "examples/supervise.sh", "--listen", node.name, "--join", nodes[0].name]
    words += ["--tick-ms", str(it.given.tick_ms)]
    is_in = lambda: node.name in nodes[0].views[-1][1]
    with tempfile.TemporaryFile() as errors:
        script = subprocess.Popen(words, stdin=subprocess.DEVNULL, stdout=subprocess.DEVNULL, stderr=errors,
                                  start_new_session=True, env={**os.environ, "RAPIDD": it.given.program})
        try:
            it.until(is_in, 30, "it is no member")
            it.excuse(node, "killed")
            os.kill(child_of(it, script.pid), signal.SIGKILL)
            replaced(it, is_in, "killed")
            it.excuse(node, "stopped for long")
            child = child_of(it, script.pid)
            os.kill(child, signal.SIGSTOP)
            it.rest(80 * it.tick)
            os.kill(child, signal.SIGCONT)
            replaced(it, is_in, "expelled")
            it.excuse(node, "quit")
            script.send_signal(signal.SIGTERM)
            it.until(lambda: script.poll() is not None, 5, "the script has not ended")
        finally:
            if script.poll() is None:
                os.killpg(script.pid, signal.SIGKILL)
        errors.seek(0)
        said = [line for line in errors.read().decode().splitlines() if line.startswith("supervise: ")]
    wanted = ["ended with status 137", "was removed from its cluster"]
    if script.returncode != 0 or len(said) != 2 or not all(want in line for want, line in zip(wanted, said)):
        raise Failed(f"status {script.returncode}, {said}")
    it.until(lambda: not is_in(), 30, "the node that quit is a member yet")
    return f"status 0; {'; '.join(said)}"


def replaced(it, is_in, how):
    """Waits until the member is out, and another is in its place."""
    it.until(lambda: not is_in(), 30, f"{how}, it is a member yet")
    it.until(is_in, 60, f"{how}, none came in its place")


def fault_ends_process(it):
    """The reader of a node's output goes away, and its input stays open and quiet."""
    founder = it.start()
    it.until(lambda: founder.views, 10, "the founder has printed no view")
    founder.reads, founder.may_end = False, True
    founder.popen.stdout.close()
    it.start(founder).may_end = True
    told = it.until(lambda: founder.errors, 20, "it has not told its fault")
    it.until(lambda: founder.gone, 3, f"it told {founder.errors} after {told:.1f} s, and goes on")
    if founder.popen.returncode != 1:
        raise Failed(f"it ended with status {founder.popen.returncode}")
    return f"status 1, {founder.errors.decode().strip()}"


def is_taken(port):
    """Whether a connection leads from this port to itself, or did so within the last minute."""
    place = f"0100007F:{port:04X}"
    return any(line.split()[1:3] == [place] * 2 for line in Path("/proc/net/tcp").read_text().splitlines())


def is_free(port):
    """Whether a node could listen at this port; it would set SO_REUSEADDR, as this does."""
    try:
        socket.create_server((HOST, port)).close()
        return True
    except OSError:
        return False


def traced(calls, what):
    """The words by which strace, if it is there, writes these calls of a node to a file, as a child of it."""
    if not shutil.which("strace"):
        return ()
    return ("strace", "-D", "-f", "-qq", "-e", f"trace={what}", "-o", str(calls))


def self_connect(it):
    """Joiners at a port where nothing listens ask, so that a node connects there ever again: the port stays free."""
    with socket.create_server((HOST, 0)) as free:
        port = free.getsockname()[1] & ~1
    with tempfile.TemporaryDirectory() as room:
        calls = Path(room) / "names"
        words = traced(calls, "getsockname")  # asked of each connection that was made, so of those to itself alone
        node = it.form(1, words=words)[0]
        # one connection for all: by chance another would have this port, and keep it for a minute after its end
        asking = it.hold(node, frame(PRE_JOIN, process(it.draw(), port)), 1)[0]
        asking.settimeout(10)
        for count in range(0, ANSWERS, 100):
            # few at a time: what nobody reads soon fills such a connection, and it is closed again
            asking.sendall(b"".join(frame(PRE_JOIN, process(it.draw(), port)) for _ in range(100)))
            it.rest(0.02)
            if is_taken(port) and not (it.rest(0.1) or is_free(port)):
                raise Failed(f"after {count} answers port {port} was connected to itself, and none can listen there")
        told = calls.read_text() if words else ""
    if not is_free(port):
        raise Failed(f"after {ANSWERS} answers none can listen at port {port}")
    met = f"{told.count(f'htons({port})')} times connected to itself, by strace" if words else "none knows how often"
    return f"{ANSWERS} answers to port {port}, {met}; {keeps(it, [node], 0)}"


def foreign_sender(it):
    """Joiners ask by endpoints that are not 127.x.x.x with a port from 1: none is dialled, and none is let in."""
    fake = it.fake()
    with tempfile.TemporaryDirectory() as room:
        calls = Path(room) / "connects"
        words = traced(calls, "connect")
        node = it.form(1, words=words)[0]
        # Linux takes 0.0.0.0 for the host itself, and answers at once that 224.0.0.1, a group, can't
        # be had: no packet leaves the machine, whatever the node does.
        for host, port in (("0.0.0.0", fake.port), ("224.0.0.1", 9), (HOST, 0)):
            node.send([frame(PRE_JOIN, process(it.draw(), port, host))])
        _, config, _ = it.ask(node)
        joiner = process(it.draw(), fake.port, "10.0.0.1")
        node.send([frame(JOIN_REQUEST, joiner, config + bytes([ring])) for ring in range(RINGS)])
        it.rest(3)
        told = calls.read_text() if words else ""
    dialled = [line for line in told.splitlines() if '"127.' not in line or "htons(0)" in line]
    if fake.accepted or dialled:
        raise Failed(f"0.0.0.0 was dialled {fake.accepted} times; strace: {dialled}")
    return f"none was dialled{', by strace too' if words else ''}; {keeps(it, [node], 0)}"


ALL = [pair_without_quorum, flapping_edge, used_identifier, prejoin_flood, batch_flood, silent_256, idle_256,
       half_frame, sixty_five_destinations, restart_same_endpoint, old_identifier, leaves, stopped_process_goes_on,
       stopped_majority, stopped_stdout, tick10_nine_nodes, quit_hangs, joiners_in_vain, without_ticks,
       one_without_ticks, two_members, signals, supervised, fault_ends_process, self_connect, foreign_sender]
