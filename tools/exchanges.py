#!/usr/bin/env python3
"""Which exchanges the checks of tools/boundary don't see, after tools/boundary.sh: of two fields of a record or two parameters of a call, both of one type, and
of the names of two calls with the same types. To the caller it is the same whether the library exchanges them or the header does: each exchange is made in a copy
of the header (of parameters, by a macro around the call; of names, by labels), and the checks are compiled against it, without the places that layout.c has, and
run on the archive as it is.
usage: exchanges.py [NAME..]   in the repository's root; the records and calls of these names alone, else all"""
import itertools
import pathlib
import re
import shutil
import subprocess
import sys
import tempfile

if not shutil.which("rt"):
    sys.exit("The Rattle kit's command rt is not on the PATH.")
HEADER = pathlib.Path("include/tilljingle.h").read_text()
KIT = pathlib.Path(subprocess.run(["rt", "doc"], capture_output=True, text=True, check=True).stdout.strip()).parent
TOOLS = KIT / "toolchain"
TARGET = "x86_64-unknown-linux-gnu"
RUN = [TOOLS / "lib/ld-linux-x86-64.so.2", "--library-path", TOOLS / "lib"]
CHECKS = [path for path in sorted(pathlib.Path("tools/boundary").glob("*.c")) if path.name != "layout.c"]


def fields(body):
    """Type and name of each field, an array's length with both."""
    for kind, names in re.findall(r"(\w+) ([^;]+);", body):
        for name in names.split(", "):
            yield (kind, *re.findall(r"\[.*", name)), name


def exchanged(items, first, second):
    items = list(items)
    items[first], items[second] = items[second], items[first]
    return items


def pairs(items):
    return [(i, j) for i, j in itertools.combinations(range(len(items)), 2) if items[i][0] == items[j][0]]


def of_records():
    for record in re.finditer(r"typedef struct \{(.*?)\} (\w+);", HEADER, re.S):
        found = list(fields(record[1]))
        for i, j in pairs(found):
            body = " ".join(f"{kind[0]} {name};" for kind, name in exchanged(found, i, j))
            header = HEADER.replace(record[0], f"typedef struct {{ {body} }} {record[2]};")
            yield record[2], found[i][1], found[j][1], header


CALLS = list(re.finditer(r"^([\w ]+?)\b(tj_\w+)\(([^()]*)\);", HEADER, re.M))


def parameters(call):
    """Type and name of each parameter; a slice's pointer and length go together."""
    return re.findall(r"([\w ]+?[ *]+)(\w+(?:, size_t n\w*|, size_t room)?)(?:,\s*|$)", call[3])


def of_calls():
    for call in CALLS:
        found = parameters(call)
        for i, j in pairs(found):
            there, here = (", ".join(name.replace("size_t ", "") for _, name in order) for order in (found, exchanged(found, i, j)))
            yield call[2], found[i][1], found[j][1], HEADER + f"#define {call[2]}({there}) {call[2]}({here})\n"


def of_names():
    types = [(call[1].strip(), [kind for kind, _ in parameters(call)]) for call in CALLS]
    for i, j in pairs(list(zip(types, CALLS))):
        one, other = CALLS[i], CALLS[j]
        header = HEADER.replace(one[0], f'{one[0][:-1]} __asm__("{other[2]}");').replace(other[0], f'{other[0][:-1]} __asm__("{one[2]}");')
        yield one[2], one[2], other[2], header


def seen(header, folder):
    (folder / "tilljingle.h").write_text(header)
    flags = [f"--target={TARGET}", "-std=c11", "-fPIE", "-nostdinc", "-isystem", "tools/boundary/std", f"-I{folder}", "-Itools/boundary"]
    objects = [folder / (path.stem + ".o") for path in CHECKS]
    for path, made in zip(CHECKS, objects):
        subprocess.run([TOOLS / "bin/clang", *flags, "-c", path, "-o", made], check=True)
    link = [KIT / "bin/rattle-link", "--target", TARGET, "--toolchain", TOOLS, "-o", folder / "boundary", *objects, "crates/tilljingle/out/libtilljingle.a"]
    subprocess.run(link, check=True, capture_output=True)
    return subprocess.run([*RUN, folder / "boundary"], capture_output=True).returncode != 0


tried, unseen = 0, []
with tempfile.TemporaryDirectory() as room:
    assert not seen(HEADER, pathlib.Path(room)), "the checks must pass before anything is exchanged"
    for name, first, second, header in itertools.chain(of_records(), of_calls(), of_names()):
        if sys.argv[1:] and name not in sys.argv[1:]:
            continue
        tried += 1
        if not seen(header, pathlib.Path(room)):
            unseen.append((name, first, second))
for name, first, second in unseen:
    print(f"{name}: {first} and {second}")
print(f"{tried} exchanges, {len(unseen)} not seen")
