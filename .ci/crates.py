"""The crates of the repository: trees that hold some of them, their proofs, and tasks side by side."""
import contextlib
import functools
import hashlib
import json
import os
import re
import shutil
import subprocess
import tempfile
import time
from concurrent.futures import FIRST_COMPLETED, ThreadPoolExecutor, wait
from pathlib import Path

TOP = Path(__file__).resolve().parent.parent
SOURCES = ("src", "specs", "proofs")
KEPT = "the others are kept from earlier runs"  # what rt ci says if it had not to prove all
MEMORY = 5_000_000_000  # of one check, in bytes
DISK = 12_000_000_000  # what has to be free for what is kept of all crates, in bytes
NICE = {1: 10, 2: 5, 3: 0}  # by how many jobs a check has: the more, the longer is the chain that waits for it
NEAR = 0.6  # a chain of at least so much of the longest is nearly as long
SECONDS = json.loads(Path(__file__).with_name("seconds.json").read_text())
LISTED = [it for it in (TOP / "crates.txt").read_text().splitlines() if ":" in it.partition("#")[0]]
LINES = {it.partition(":")[0].split()[0]: it for it in LISTED}
USES = {name: line.partition("#")[0].partition(":")[2].split() for name, line in LINES.items()}


@functools.lru_cache(maxsize=None)
def below(name):
    """The crates that a crate stands on, each after those that it stands on itself."""
    return [*dict.fromkeys(low for it in USES[name] if it in LINES for low in [*below(it), it])]


def rt(words, folder, nice=0, **how):
    """Runs a command of the toolchain in a folder, so much nicer than this program, and gives how it ended and all that
    it wrote."""
    how = {"stdin": subprocess.DEVNULL, "stderr": subprocess.STDOUT, **how}
    words = ["nice", f"-{nice}", "rt", *words] if nice else ["rt", *words]
    return subprocess.run(words, cwd=folder, stdout=subprocess.PIPE, text=True, errors="replace", **how)


@functools.lru_cache(maxsize=None)
def told(word):
    """What the toolchain says of itself."""
    return rt([word], TOP).stdout


def folder_of(name, top=TOP):
    return top / "crates" / name


def copy_sources(name, tree):
    """Copies a crate into a tree, without its mutants and what was made of it."""
    ignored = shutil.ignore_patterns("out", "must-fail")
    shutil.copytree(folder_of(name), folder_of(name, tree), ignore=ignored, dirs_exist_ok=True)


def write_tree(tree, names):
    """Writes a tree of these crates."""
    for name in names:
        copy_sources(name, tree)
    shutil.copy(TOP / "HANDLES", tree)
    (tree / "crates.txt").write_text("".join(f"{LINES[it]}\n" for it in names))


@contextlib.contextmanager
def tree_over_libraries(name, part, copy):
    """A tree of a crate over its libraries, which are links, with this part of what its own earlier proofs left. It is
    a tree of its own since rt locks all crates below the one that it works on."""
    (TOP / "out").mkdir(exist_ok=True)
    with tempfile.TemporaryDirectory(dir=TOP / "out") as room:
        tree = Path(room)
        write_tree(tree, [*below(name), name])
        for low in below(name):
            shutil.copytree(folder_of(low) / "out/rlib", folder_of(low, tree) / "out/rlib", copy_function=os.link)
        if (folder_of(name) / part).is_dir():
            shutil.copytree(folder_of(name) / part, folder_of(name, tree) / part, copy_function=copy)
        yield tree


@functools.lru_cache(maxsize=None)
def stamp(name):
    """The word by which rt knows that a library was built of a crate's present sources: see README.md."""
    said = {"name": name, "deps": [f"//crates/{it}" if it in LINES else f"@rattle//{it}" for it in USES[name]]}
    found = hashlib.sha256(repr((said, False)).encode() + Path(told("doc")).with_name("WHAT").read_bytes())
    for at, folders, files in (it for part in SOURCES for it in os.walk(folder_of(name) / part)):
        folders.sort()
        for file in (Path(at, it) for it in sorted(files)):
            found.update(repr((f"/{file.relative_to(folder_of(name))}", file.read_bytes())).encode())
    found.update(repr([stamp(it) for it in USES[name] if it in LINES]).encode())
    return found.hexdigest()


def is_built(name):
    """Whether a crate's library is built of its present sources."""
    kept = folder_of(name) / "out/rlib/stamp"
    return kept.is_file() and kept.read_text() == stamp(name)


def take(tree, name):
    """Takes what was made of a crate in a tree. What an earlier check of it kept stays, if none was kept there."""
    made, out = (folder_of(name, it) / "out" for it in (tree, TOP))
    made.mkdir(exist_ok=True)
    if (out / "incremental").is_dir() and not (made / "incremental").is_dir():
        shutil.move(out / "incremental", made / "incremental")
    shutil.rmtree(out, ignore_errors=True)
    shutil.move(made, out)


def laid_out_otherwise(name, tree):
    """The files of a crate that rt fmt changes in a tree of its own."""
    rt(["fmt"], folder_of(name, tree))
    files = (it for part in SOURCES for it in (folder_of(name) / part).rglob("*") if it.is_file())
    return [it for it in files if it.read_bytes() != (tree / it.relative_to(TOP)).read_bytes()]


def prove(name, jobs):
    """Proves a crate in the layout of rt fmt, and builds it. What a proof that failed had found is kept too."""
    with tree_over_libraries(name, "out", os.link) as tree:
        if others := laid_out_otherwise(name, tree):
            return 0, 1, "".join(f"check: {it} is not in the layout of rt fmt\n" for it in others)
        is_program = (folder_of(name) / "src/main.rt").is_file()
        words = ["run", "--jobs", str(jobs), "--", "--help"] if is_program else ["lib", "--jobs", str(jobs)]
        ran = rt(words, folder_of(name, tree), nice=NICE[jobs])
        take(tree, name)
    return int(not ran.returncode), int(ran.returncode != 0), ran.stdout if ran.returncode else ""


def tasks_of(names):
    """A task for each of these crates that is not built, after those below it."""
    names = sorted((it for it in names if not is_built(it)), key=lambda it: len(below(it)))
    return {it: ([low for low in below(it) if low in names], functools.partial(prove, it)) for it in names}


def prove_all(names):
    """Proves these crates and those below them, over what earlier proofs left; how many passed, and how many failed."""
    wanted = {low for name in names for low in [*below(name), name]}
    tasks = tasks_of(wanted)
    passed, failed, _ = side_by_side(tasks)
    return passed + len(wanted) - len(tasks), failed


def ci_alone(name, jobs):
    """Proves a crate by an rt ci of its own, over a tree of it and those below it: a full one, which proves what rt has
    not kept. It takes more processors than one if it may have more jobs."""
    with tempfile.TemporaryDirectory(prefix="check-") as room:
        write_tree(Path(room), [*below(name), name])
        how = {} if jobs > 1 else {"env": {**os.environ, "RT_JOBS": "1"}}
        ran = rt(["ci"], room, nice=NICE[jobs], **how)
    return int(not ran.returncode), int(ran.returncode != 0), ran.stdout if ran.returncode else ""


def is_kept(name):
    """Whether rt keeps what an rt ci passed: of a crate that an earlier one proved, another has nothing to prove. It
    keeps nothing where the disk is nearly full."""
    if shutil.disk_usage(Path(told("doc").strip()).parent).free < DISK:
        return False
    with tempfile.TemporaryDirectory(prefix="check-") as room:
        write_tree(Path(room), [*below(name), name])
        return KEPT in rt(["ci"], room).stdout


def ci(names):
    """Proves these crates from nothing by rt ci, which also runs their tests and programs, and takes what it built; how
    many passed, and how many failed. One run over all of them judges, and tries again what failed before. If rt keeps
    what a run passed, each crate is first proved by one of its own, since a run gives the longest chain of crates more
    than one processor only if no other crate waits."""
    for it in LINES:
        (folder_of(it) / f"out/{it}_tests").unlink(missing_ok=True)
    first, *others = sorted(names, key=lambda it: len(below(it)))
    if not ci_alone(first, 1)[1] and is_kept(first):
        tasks = {it: ([low for low in below(it) if low in others], functools.partial(ci_alone, it)) for it in others}
        side_by_side(tasks)
    with tempfile.TemporaryDirectory(prefix="check-") as room:
        tree, stamps, line = Path(room) / "tree", {it: stamp(it) for it in names}, ""
        write_tree(tree, names)
        how = {"stdout": subprocess.PIPE, "text": True, "errors": "replace"}
        with subprocess.Popen(["rt", "ci"], cwd=tree, **how) as ran:
            for line in ran.stdout:
                print(line, end="", flush=True)
        for name in (it.parent.name for it in tree.glob("crates/*/out")):
            take(tree, name)
            if (folder_of(name) / f"out/rlib/{name}.rlib").is_dir():
                (folder_of(name) / "out/rlib/stamp").write_text(stamps[name])
    found = re.fullmatch(r"(\d+) passed, (\d+) failed\n", line)
    passed, failed = map(int, found.groups()) if found else (0, 1)
    return passed, max(failed, int(ran.returncode != 0))


def side_by_side(tasks):
    """Runs tasks side by side, each after those that it waits for, the longest chain first, and says what each came to.

    A task is what it waits for, and a call that is told how many jobs it may use, and gives how many passed, how many
    failed, and what to say of that. If one that it waits for failed, it is not run, and has failed too. As many tasks
    run as there are processors, and memory for. As long as the longest chain would outlast all the rest, its tasks have
    three jobs, and where at least four may run they wait for no other; those of chains nearly as long have two jobs,
    all others one. Gives how many passed and failed in all, and which tasks failed."""
    most = int(re.search(r"MemAvailable:\s+(\d+)", Path("/proc/meminfo").read_text())[1]) * 1024 // MEMORY
    processors = len(os.sched_getaffinity(0))
    lanes = max(1, min(processors, most))
    seconds, behind, running, ended = {it: SECONDS.get(it, 60) for it in tasks}, dict.fromkeys(tasks, 0), {}, {}
    for key in reversed([*tasks]):
        behind[key] += seconds[key]
        behind.update({it: max(behind[it], behind[key]) for it in tasks[key][0]})
    waiting = sorted(tasks, key=lambda it: -behind[it])
    with ThreadPoolExecutor(lanes + 1) as pool:
        while left := [*waiting, *(it[0] for it in running.values())]:
            went = {key: min(seconds[key], time.monotonic() - began) for key, began in running.values()}
            longest = max(behind[it] - went.get(it, 0) for it in left)
            work = sum(seconds[it] - went.get(it, 0) for it in left) / processors
            for key in [it for it in waiting if ended.keys() >= {*tasks[it][0]}]:
                is_first = behind[key] == longest > work
                if len(running) < lanes or is_first and len(running) == lanes > 3:
                    jobs = 3 if is_first else 2 if behind[key] > NEAR * longest else 1
                    is_well = not any(ended[it][1] for it in tasks[key][0])
                    waiting.remove(key)
                    task = pool.submit(tasks[key][1] if is_well else not_run, min(jobs, max(1, processors - 1)))
                    running[task] = key, time.monotonic()
            for done in wait(running, return_when=FIRST_COMPLETED).done:
                key, *_ = running.pop(done)
                passed, failed, said = done.result()
                ended[key] = passed, failed
                left.remove(key)
                to_go = f"{len(left)} to go, some {max(longest, work) / 60:.0f} minutes" if left else "none to go"
                print(f"{said}check: {key}: {passed} passed, {failed} failed ({to_go})", flush=True)
    passed, failed = (sum(it[place] for it in ended.values()) for place in range(2))
    return passed, failed, {key for key, it in ended.items() if it[1]}


def not_run(_jobs):
    return 0, 1, "not run, since what it rests on failed\n"
