"""Tries the mutants crates/NAME/must-fail/*.edit: the prover has to refuse each. Most are tried as twins, all those of
a crate by one check; a mutant without a twin, or whose twin is not refused, is tried alone. README.md says how, and
what the lines of mutants.txt are."""
import functools
import hashlib
import re
import shutil
import threading
from collections import namedtuple

from crates import LINES, SOURCES, TOP, below, copy_sources, folder_of, rt, side_by_side, tasks_of, told
from crates import tree_over_libraries
from sources import FUNCTION, files_of, known_to, owner_of, said_in, split

RECORD = TOP / "mutants.txt"
NOTING = threading.Lock()
HEAD = "# crate, mutants that the prover refuses, sum of what that rests on; ./check mutants writes it\n"
ONLY = re.compile(r"only=\d+ proved=\d+")
VERDICT = re.compile(r"^fn (?:\S+::)?(\w+): (proved|not proved|no proof(?!: it calls))\b", re.M)

# A mutant's twin: its file, name and text, that of the function behind which it comes, and the folder of the proofs of
# that function, if it has one.
Twin = namedtuple("Twin", "file name text original folder")


def mutants_of(name):
    return sorted((folder_of(name) / "must-fail").glob("*.edit"))


def line_of(name):
    """The line of a crate all of whose mutants are refused."""
    found = hashlib.sha256((told("version") + LINES[name]).encode())
    for file in (it for part in (*SOURCES, "must-fail") for it in files_of(folder_of(name) / part)):
        found.update(f"\n{file.relative_to(TOP)}\n{chr(10).join(said_in(file))}".encode())
    for it in known_to(name):
        found.update("\n".join(it).encode())
    return f"{name} {len(mutants_of(name))} {found.hexdigest()}"


def pairs_of(mutant):
    """The file that each pair of a mutant changes, the text that goes and the text that comes."""
    pairs, said = [], {"file": "", "old": ""}
    for word, text in re.findall(r"^(file|old|new): ?(.*)$", mutant.read_text(), re.M):
        said[word] = text
        if word == "new":
            pairs.append((said["file"].strip(), said["old"], text))
    return pairs


def text_of(file):
    return file.read_text() if file.is_file() else ""


def module_of(file):
    """The path of a file's module below its crate; none for the crate's own file."""
    return [it for it in file[:-3].split("/")[1:] if it not in ("lib", "main")]


def twin_of(crate, stem, pairs):
    """The twin by which a mutant can be tried. It has none if it changes more than one body, if the function is one
    that a trait asks for or is in a cycle of calls, or if another proof names what belongs to the function's proof."""
    file, old, _ = (pairs or [("", "", "")])[0]
    text = text_of(crate / file)
    function = next((it for it in FUNCTION.finditer(text) if it.start() <= text.find(old) < it.end()), None)
    owner = function and owner_of(text, function)
    if not function or owner is False or any(it != file for it, _, _ in pairs):
        return None
    head, opens, body = split(function)
    for _, old, new in pairs:
        if text.count(old) != 1 or old not in body:
            return None
        text, body = text.replace(old, new), body.replace(old, new)
    place = f"**/{owner}/{function[2]}" if owner else "/".join([*module_of(file), function[2]])
    folders = [*(crate / "proofs").glob(place)]
    others = [it for it in (crate / "proofs").rglob("*.antt") if not {*folders} & {*it.parents}]
    is_named = any(dotted(crate, folder) in it.read_text() for folder in folders for it in others)
    if len(folders) > 1 or is_named or "#[cycle" in head:
        return None
    name = f"{function[2]}_mutant_{re.sub(r'[^A-Za-z0-9_]', '_', stem)}"
    head = re.sub(r"^ *///.*\n", "", head, flags=re.M)
    head = re.sub(rf"^( *)(?:pub(?:\(\w+\))? )?((?:const )?fn ){function[2]}\b", rf"\1\2{name}", head, 1, re.M)
    return Twin(file, name, head + opens + body, function[0], folders[0] if folders else None)


def dotted(crate, folder):
    """How proofs name what is in a folder of proofs."""
    return ".".join(["", *folder.relative_to(crate).parts, ""])


def write(crate, twin):
    """Writes a twin, and its proofs, into a crate."""
    file = crate / twin.file
    file.write_text(file.read_text().replace(twin.original, f"{twin.original}\n\n{twin.text}"))
    if twin.folder:
        folder = shutil.copytree(twin.folder, twin.folder.parent / twin.name)
        for it in folder.rglob("*.antt"):
            it.write_text(it.read_text().replace(dotted(crate, twin.folder), dotted(crate, folder)))


def check(crate, paths, jobs):
    """Checks these functions and modules of a crate, or all of it; how that ended, and the prover's last line."""
    ran = rt(["check", "--jobs", str(jobs), *(word for it in paths for word in ("--only", it))], crate)
    return ran, next((it for it in reversed(ran.stdout.splitlines()) if it and not it.startswith("rt: ")), "")


def refused_twins(crate, given, jobs):
    """The mutants refused as twins; none if the control, a twin with its body as it is, is not proved."""
    made = {stem: it for stem, pairs in given.items() if (it := twin_of(crate, stem, pairs))}
    if not made:
        return set()
    file, old, _ = given[min(made, key=lambda it: (made[it].folder is None, len(made[it].text)))][0]
    control = twin_of(crate, "control", [(file, old, old)])
    for it in [control, *made.values()]:
        write(crate, it)
    ran, last = check(crate, [it.name for it in [control, *made.values()]], jobs)
    said = dict(VERDICT.findall(ran.stdout))
    if not ONLY.fullmatch(last) or said.get(control.name) != "proved":
        return set()
    return {stem for stem, it in made.items() if said.get(it.name) in ("not proved", "no proof")}


def try_alone(crate, name, pairs, jobs):
    """Why a mutant is not refused; nothing if it is. The modules that it changes are tried before the whole crate."""
    for part in SOURCES:
        shutil.rmtree(crate / part, ignore_errors=True)
    copy_sources(name, crate.parent.parent)
    for file, old, new in pairs:
        text = text_of(crate / file)
        if text.count(old) != 1:
            return f"its old text stands in {file} {text.count(old)} times, and not once"
        (crate / file).write_text(text.replace(old, new))
    modules = {"::".join(module_of(file)) for file, _, _ in pairs} - {""}
    for paths in [sorted(modules), []] if modules else [[]]:
        ran, last = check(crate, paths, jobs)
        if ran.returncode == 1 and (ONLY.fullmatch(last) or last.startswith("logic=not-proved")):
            return ""
    return "the crate is still proved" if not ran.returncode else f"the prover cannot read it: {ran.stdout[-600:]}"


def try_mutants(name, jobs):
    """Tries a crate's mutants; how many are refused, how many not, and what is wrong with these."""
    given = {it.stem: pairs_of(it) for it in mutants_of(name)}
    with tree_over_libraries(name, "out/incremental", shutil.copy2) as tree:
        crate = folder_of(name, tree)
        refused = refused_twins(crate, given, jobs)
        whys = {stem: try_alone(crate, name, it, jobs) for stem, it in given.items() if stem not in refused}
    said = [f"check: mutant {name}/{stem}: NOT REFUSED: {why}\n" for stem, why in whys.items() if why]
    return len(given) - len(said), len(said), "".join(said)


def known_lines():
    """The lines of the record, by crate."""
    return {it.split()[0]: it for it in RECORD.read_text().splitlines() if not it.startswith("#")}


def try_and_note(line, jobs):
    """Tries the mutants of a crate, and writes its line at once if all are refused: a run may end early."""
    tried = try_mutants(line.split()[0], jobs)
    if not tried[1]:
        with NOTING:
            written = {**known_lines(), line.split()[0]: line}
            RECORD.write_text(HEAD + "".join(f"{written[it]}\n" for it in sorted(written)))
    return tried


def run(words):
    """Tries the mutants of the crates named, of all, or of those whose line no longer agrees; how many are refused, now
    or by their line, and how many not."""
    known = known_lines()
    lines = {it: line_of(it) for it in LINES if mutants_of(it)}
    chosen = [it for it in lines if words == ["all"] or it in words or not words and known.get(it) != lines[it]]
    standing = [] if words else [it for it in lines if it not in chosen]
    print(f"check: mutants of {len(chosen)} crates are tried, those of {len(standing)} stand by their line", flush=True)
    tasks = tasks_of({low for name in chosen for low in below(name)})
    for name in chosen:
        task = functools.partial(try_and_note, lines[name])
        tasks[f"{name} mutants"] = [it for it in below(name) if it in tasks], task
    passed, failed, bad = side_by_side(tasks)
    refused = [it for it in chosen if f"{it} mutants" not in bad]
    changed = [it for it in refused if words == ["all"] and known.get(it) not in (None, lines[it])]
    if changed:
        print(f"check: mutants.txt had another line for {' '.join(changed)}", flush=True)
    kept = known_lines()  # another run may have written lines since
    written = {it: lines[it] if it in refused else kept.get(it, "") for it in sorted(lines)}
    RECORD.write_text(HEAD + "".join(f"{it}\n" for it in written.values() if it))
    return passed + sum(len(mutants_of(it)) for it in standing), failed + len(changed)
