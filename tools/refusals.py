#!/usr/bin/env python3
"""Says why each must-fail edit is refused: its label and the first error of a check of its crate with the edit. `rt must-fail` and `rt ci` ask whether an edit is
refused at all; here a copy of each crate, and of those below it, is checked with each of its edits, as many crates side by side as there are processors.
An edit after which a goal of the proof has no name any more, or a place of the code is not where the proof looks for it, and nothing else is wrong, only made
the proof unfit for the code and shows nothing: such a one is marked WEAK, and the program ends with status 1. An edit with lines '# refuses: F G ..' (of a method of an impl that is TYPE::F, as `rt check` names it) makes one
wrong change in each of these functions, or one that each of these laws is about, and is WEAK unless each was refused for itself: by a goal of its own, and not
only because a function that it calls was, or because a name is gone. Those that weren't are tried again with the names of goals in their proofs as they are after
the change, place by place (a goal is named after the code that it stands at, and so a changed test renames it), and then by their own wrong program alone. An edit
that is still proved, or cannot be applied or read, is WEAK too.
Whether the changed program is a wrong one is for whoever writes the edit to see: another right program may be refused just as well.
usage: refusals.py [CRATE..]   in the repository's root; the edits of these crates alone, else all"""
import concurrent.futures
import difflib
import functools
import os
import pathlib
import re
import shutil
import subprocess
import sys
import tempfile

NAMES = re.compile(r"# (?!refuses:)[a-z0-9_]+(?:, [a-z0-9_]+)*: ")
LOST = re.compile(r"that can be named from here|has no field|is not in scope|was not admitted|has no `|this pattern needs a function \(or path\) type")
ERROR = re.compile(r"^(?:\./)?((?:proofs|specs)/\S+\.antt):\d+:\d+: error: (.*)$", re.M)
OPEN = re.compile(r"^note: src/\S+:\d+:\d+: (.*)$")


def programs_of(text):
    """The wrong programs of an edit, each as the functions and laws that it must be refused for and its changes: file, old text, new text."""
    programs, path, old = [([], [])], None, None
    for line in text.split("\n"):
        if NAMES.match(line) and any(programs[-1]):
            programs.append(([], []))
        elif line.startswith("# refuses: "):
            programs[-1][0].extend(line[11:].split())
        elif line.startswith("file: "):
            path = line[6:].strip()
        elif line.startswith("old: "):
            old = line[5:]
        elif line.startswith("new:"):
            programs[-1][1].append((path, old, line[4:][line.startswith("new: "):]))
    return programs


def changed(folder, changes):
    """The texts of the files that these changes touch, or None where one of them cannot be applied."""
    texts = {}
    for path, old, new in changes:
        if path not in texts:
            texts[path] = (folder / path).read_text(encoding="utf-8")
        if texts[path].count(old) != 1:
            return None
        texts[path] = texts[path].replace(old, new)
    return texts


def check(folder, texts, *flags):
    """Status and output of a check of the crate with these texts in place of its own."""
    had = {path: (folder / path).read_text(encoding="utf-8") for path in texts}
    for path, text in texts.items():
        (folder / path).write_text(text, encoding="utf-8")
    said = subprocess.run(["rt", "check", *(flags or ("--jobs", "1"))], cwd=folder, stdin=subprocess.DEVNULL, capture_output=True, text=True, errors="replace")
    for path, text in had.items():
        (folder / path).write_text(text, encoding="utf-8")
    return said.returncode, said.stdout + said.stderr


def names_of(folder, texts):
    """By function its folder in proofs/, and the names of its goals and facts in the order of the code, of the crate with these texts."""
    found = {}
    with tempfile.TemporaryDirectory(prefix="refusals-") as room:
        check(folder, texts, "--generated", room)
        for goals in pathlib.Path(room).glob("*-proofs/**/Goals.antt"):
            lts = goals.with_name("Lts.antt")
            read = goals.read_text(encoding="utf-8") + (lts.read_text(encoding="utf-8") if lts.exists() else "")
            place = goals.relative_to(room).parts[1:-1]
            found[place[-1]] = found["::".join(place[-2:])] = pathlib.Path("proofs", *place), re.findall(r"^ *(?:abbrev )?pub (\S+) :", read, re.M)
    return found


def renamed(folder, functions, texts, before):
    """These texts, and the proofs of these functions with the names of goals and facts as they are with them."""
    after, more = names_of(folder, texts), {}
    for function in functions:
        if function not in before or function not in after:
            continue
        (place, was), (_, names), now = before[function], after[function], {}
        for _, a, b, c, d in difflib.SequenceMatcher(None, was, names, autojunk=False).get_opcodes():
            if b - a == d - c:
                for old, new in zip(was[a:b], names[c:d]):
                    now.setdefault(old, new)
        for path in (folder / place).glob("*.antt"):
            inner = str(path.relative_to(folder))
            text = texts.get(inner, path.read_text(encoding="utf-8"))
            more[inner] = re.sub(r"(?<![\w'-])[\w'-]+(?![\w'-])", lambda word: now.get(word[0], word[0]), text)
    return {**texts, **more}


def errors_of(text):
    """What was refused: where, and why; first what says something of the contract."""
    found, waiting = [], []
    for line in text.split("\n"):
        if OPEN.match(line):
            waiting.append(OPEN.match(line)[1])
        elif re.match(r"fn \S+: ", line):
            name = line[3:].split(": ")[0]
            found += [(name, why) for why in waiting]
            if not waiting and re.search(r": no proof: .*`search` did not prove", line):
                found.append((name, line.split(": no proof: ")[1]))
            waiting = []
    found += [(path, re.sub(r"\s+", " ", why)) for path, why in ERROR.findall(text)]
    return sorted(found, key=lambda error: bool(LOST.search(error[1])))


def is_own(name, error):
    """Whether this error refuses the function or law of this name for itself."""
    where, why = error
    folder, name = re.escape(name.replace("::", "/")), re.escape(name)
    own = re.search(rf"::{name}$|/{folder}/\w+\.antt$", where) or re.match(rf"`{name}`: ", why)
    return bool(own) and not LOST.search(why)


def still(names, errors):
    return [name for name in names if not any(is_own(name, error) for error in errors)]


def judged(folder, path, before):
    """Mark, edit, and why it is refused."""
    programs = programs_of(path.read_text(encoding="utf-8"))
    texts = changed(folder, [change for _, changes in programs for change in changes])
    if texts is None:
        return "WEAK", path, ": it cannot be applied"
    status, said = check(folder, texts)
    errors = errors_of(said)
    if status != 1 or not said.rstrip().split("logic=")[-1].startswith("not-proved"):
        return "WEAK", path, f": the check ends with status {status}: {' '.join(said.split())[-300:]}"
    real = [error for error in errors if not LOST.search(error[1])]
    left = still([name for names, _ in programs for name in names], errors)
    if left:
        left = still(left, errors_of(check(folder, renamed(folder, left, texts, before()))[1]))
    for names, changes in programs if len(programs) > 1 else ():
        mine = [name for name in names if name in left]
        alone = changed(folder, changes) if mine else None
        if alone:
            mine = still(mine, errors_of(check(folder, alone)[1]))
            mine = mine and still(mine, errors_of(check(folder, renamed(folder, mine, alone, before()))[1]))
            left = [name for name in left if name not in names or name in mine]
    where, why = (errors or [("", "no error was found")])[0]
    return "ok" if real and not left else "WEAK", path, f": {where}: {why[:160]}" + (f" NOT REFUSED: {' '.join(left)}" if left else "")


def tried(folder, edits):
    status, said = check(folder, {})
    if status:
        return [("WEAK", path, f": the crate is not proved without it: {' '.join(said.split())[-300:]}") for path in edits]
    before = functools.lru_cache(lambda: names_of(folder, {}))
    return [judged(folder, path, before) for path in edits]


def below():
    """What each crate stands on, near and far."""
    near = {}
    for line in pathlib.Path("crates.txt").read_text(encoding="utf-8").splitlines():
        if ":" in line and not line.startswith("#"):
            name, names = line.split(":", 1)
            near[name.split()[0]] = set(names.split())
    found = {}
    for crate in near:
        waiting, found[crate] = set(near[crate]), set()
        while waiting:
            found[crate] |= waiting
            waiting = set().union(*(near.get(name, set()) for name in waiting)) - found[crate]
    return found


def tree_of(room, crate, under):
    """The crate's folder in a copy of its own, of it and of those that it stands on: while it has an edit, no other crate is checked over it."""
    names = {crate} | under[crate]
    for name in names:
        for part in ("src", "specs", "proofs"):
            if pathlib.Path("crates", name, part).is_dir():
                shutil.copytree(pathlib.Path("crates", name, part), room / crate / "crates" / name / part)
    lines = pathlib.Path("crates.txt").read_text(encoding="utf-8").splitlines()
    (room / crate / "crates.txt").write_text("".join(f"{line}\n" for line in lines if ":" in line and line.split(":")[0].split()[0] in names), encoding="utf-8")
    return room / crate / "crates" / crate


def main():
    edits, under = {}, below()
    for path in sorted(pathlib.Path("crates").glob("*/must-fail/*.edit")):
        if not sys.argv[1:] or path.parts[1] in sys.argv[1:]:
            edits.setdefault(path.parts[1], []).append(path)
    with tempfile.TemporaryDirectory(prefix="refusals-") as room, concurrent.futures.ThreadPoolExecutor(os.cpu_count()) as pool:
        order = sorted(edits, key=lambda crate: (len(under[crate]), crate))
        found = dict(zip(order, pool.map(lambda crate: tried(tree_of(pathlib.Path(room), crate, under), edits[crate]), order)))
    weak = 0
    for crate in sorted(found):
        for mark, path, why in found[crate]:
            weak += mark == "WEAK"
            print(f"{mark:4} {crate}/{path.stem}{why}")
    print(f"{sum(len(them) for them in found.values())} edits, {weak} weak")
    return 1 if weak else 0


if __name__ == "__main__":
    sys.exit(main())
