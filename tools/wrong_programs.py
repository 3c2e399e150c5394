#!/usr/bin/env python3
"""Lists the wrong programs that the must-fail edits are made of: crate, the functions or laws that must be refused for it ('-': the edit
names none, as where it changes a definition), name, and a short hash of its changes.
A line '# name: what is wrong' begins a program, and the texts from there to the next such line are its changes; a line '# refuses: ..' among
them is its own. Names in a row share the changes that follow, which a * after the hash says. An edit without names is one program, by its label.
Of two trees it shows the names that are gone, new or in another crate, those whose changes differ (what was taken away, and what has come), and the
functions that fewer edits name as refused.
Ends with status 1 if a name is gone, if a function is named by fewer edits, if a name stands twice in a crate, or if one function is to be refused
for two programs of one edit.
usage: wrong_programs.py [TREE] | wrong_programs.py BEFORE AFTER   in the repository's root; a tree is a commit or a folder"""
import collections
import dataclasses
import hashlib
import io
import pathlib
import re
import subprocess
import sys
import tarfile

NAMES = re.compile(r"# (?!refuses:)([a-z0-9_]+(?:, [a-z0-9_]+)*): ")


@dataclasses.dataclass
class Program:
    names: list = dataclasses.field(default_factory=list)
    refuses: list = dataclasses.field(default_factory=list)
    of_edit: list = dataclasses.field(default_factory=list)  # named before the first program
    changes: list = dataclasses.field(default_factory=list)

    def line(self):
        refuses = self.refuses or self.of_edit
        refused = ",".join(refuses[:3]) + f",+{len(refuses) - 3}" * (len(refuses) > 3)
        shared = "*" * (len(self.names) > 1)
        return refused or "-", hashlib.sha1(repr(sorted(self.changes)).encode()).hexdigest()[:8] + shared


def edits(tree):
    """Crate, label and text of each edit of a tree."""
    if pathlib.Path(tree).is_dir():
        found = {str(path.relative_to(tree)): path.read_text(encoding="utf-8") for path in pathlib.Path(tree).glob("crates/*/must-fail/*.edit")}
    else:
        packed = subprocess.run(["git", "archive", tree, "crates"], stdout=subprocess.PIPE, check=True).stdout
        with tarfile.open(fileobj=io.BytesIO(packed)) as tar:
            found = {member.name: tar.extractfile(member).read().decode() for member in tar if re.fullmatch(r"crates/[^/]+/must-fail/[^/]+\.edit", member.name)}
    for path in sorted(found):
        yield path.split("/")[1], pathlib.Path(path).stem, found[path]


def programs_of(label, text):
    """The programs of one edit."""
    whole = Program()
    program, found, place, old = whole, [], "", ""
    for line in text.splitlines():
        named = NAMES.match(line)
        if named:
            if program is whole or program.changes:
                program = Program(of_edit=whole.refuses)
                found.append(program)
            program.names += named[1].split(", ")
        elif line.startswith("# refuses: "):
            program.refuses += line[11:].split()
        elif line.startswith("file: "):
            place = line[6:]
        elif line.startswith("old: "):
            old = line[5:]
        elif line.startswith("new:"):
            program.changes.append((place, old.strip(), line[4:].strip()))
    whole.names = [label]
    return found or [whole]


def programs(tree):
    """Program by crate and name; and what stands twice, a name in a crate or a function in an edit."""
    found, twice = {}, []
    for crate, label, text in edits(tree):
        parts = programs_of(label, text)
        refused = [function for program in parts for function in program.refuses]
        twice += [f"{crate}/{label}: {function}" for function in sorted(set(refused)) if refused.count(function) > 1]
        for program in parts:
            for name in program.names:
                twice += [f"{crate}/{name}"] * ((crate, name) in found)
                found[crate, name] = program
    return found, twice


def named(tree):
    """By how many edits each function or law is named as refused, whatever its crate."""
    return collections.Counter(f for _, label, text in edits(tree) for f in {f for program in programs_of(label, text) for f in program.refuses + program.of_edit})


def compared(before, after):
    """Shows what became of the programs; the number of names that are gone."""
    gone, shown, differ = 0, set(), []
    new = [key for key in after if key not in before]
    for key in before:
        to = key if key in after else next((other for other in new if other[1] == key[1]), None)
        if not to:
            gone += 1
            print(f"gone     {'/'.join(key)}")
            continue
        if to != key:
            new.remove(to)
            print(f"moved    {'/'.join(key)} to {to[0]}")
        was, now = before[key], after[to]
        kept = {change for (crate, _), program in after.items() if crate == to[0] for change in program.changes}
        had = {change for (crate, _), program in before.items() if crate == key[0] for change in program.changes}
        # where names share their changes, only what no other program has can be told
        lost = [c for c in was.changes if c not in (now.changes if len(was.names) == 1 and len(now.names) == 1 else kept)]
        come = [c for c in now.changes if c not in (was.changes if len(now.names) == 1 else had)]
        differ.append((not come, key, lost, come))
    for _, key, lost, come in sorted(differ):
        lost = [c for c in lost if (key[0], c) not in shown]
        shown.update((key[0], c) for c in lost)
        if lost or come:
            print(f"changed  {'/'.join(key)}")
            for sign, changes in (("-", lost), ("+", come)):
                for place, old, text in changes:
                    print(f"         {sign} {place}: {old}  =>  {text}")
    for key in new:
        print(f"new      {'/'.join(key)}")
    return gone


trees = [programs(tree) for tree in sys.argv[1:3] or ["."]]
status = 0
if len(trees) == 1:
    for (crate, name), program in trees[0][0].items():
        refused, hashed = program.line()
        print(f"{crate:12} {refused:30} {name:32} {hashed}")
else:
    before, after = (tree[0] for tree in trees)
    gone = compared(before, after)
    was, now = named(sys.argv[1]), named(sys.argv[2])
    less = [f"less     {f}: refused in {was[f]} edits before, {now[f]} after" for f in was if now[f] < was[f]]
    print("\n".join(less + [f"{len(before)} wrong programs before, {len(after)} after, {gone} gone; {len(less)} functions refused in fewer edits"]))
    status = int(gone + len(less) > 0)
for what in trees[-1][1]:
    print(f"twice    {what}")
    status = 1
sys.exit(status)
