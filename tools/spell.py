#!/usr/bin/env python3
"""Spells the repository's own definitions and lemmas in snake case, by spelling.tsv beside this file: whole words alone.

usage: python3 tools/spell.py            at the top, once, after the kit's port.py

Turned are the texts of crates/*/specs and crates/*/proofs, and in src/ what only contracts see: clauses and ghost items. Names of the code stay.
A word of a comment turns where the file's own text has it. Exit status 1 where a new name met one that stood in the file already.
"""
import os
import re
import sys

HERE = os.path.dirname(os.path.realpath(__file__))
TABLE = dict(line.rstrip("\n").split("\t") for line in open(os.path.join(HERE, "spelling.tsv"), encoding="utf-8"))
WORD = re.compile(r'[^\s(){}.;,@"«»]+')
COMMENT = re.compile(r"--[^\n]*")
CLAUSE = re.compile(r"\b(?:requires|ensures)\*?\s*(?:\w+\s*)?\{|\bghost\s+use\b[^;{]*\{?|\bghost\s+\w+\s*(?::|=)\s*\{")


def turned(text, words=None):
    return WORD.sub(lambda m: TABLE[m.group()] if m.group() in TABLE and (words is None or m.group() in words) else m.group(), text)


def antt(text):
    words = set(WORD.findall(COMMENT.sub("", text)))
    met = {old for old in words & set(TABLE) if TABLE[old] in words and TABLE[old] not in TABLE}
    out, at = [], 0
    for m in COMMENT.finditer(text):
        out += [turned(text[at : m.start()]), turned(m.group(), words)]
        at = m.end()
    return "".join(out) + turned(text[at:]), met


def rt(text):
    out, at = [], 0
    while m := CLAUSE.search(text, at):
        line = text.rfind("\n", 0, m.start()) + 1
        if "//" in text[line : m.start()]:
            out.append(text[at : m.end()])
            at = m.end()
            continue
        end, depth = m.end(), text[m.end() - 1] == "{"
        while depth:
            depth += {"{": 1, "}": -1}.get(text[end], 0)
            end += 1
        out += [text[at : m.start()], turned(text[m.start() : end])]
        at = end
    return "".join(out) + text[at:], set()


def main():
    bad = 0
    for folder, dirs, files in os.walk("crates"):
        dirs[:] = sorted(d for d in dirs if d != "out")
        for name in sorted(files):
            if not name.endswith((".antt", ".rt")):
                continue
            path = os.path.join(folder, name)
            with open(path, encoding="utf-8") as f:
                old = f.read()
            new, met = (antt if name.endswith(".antt") else rt)(old)
            if name != "Proof.antt":
                for word in sorted(met):
                    bad = 1
                    print(f"met: {path}: {word} as {TABLE[word]}")
            if new != old:
                with open(path, "w", encoding="utf-8") as f:
                    f.write(new)
    return bad


if __name__ == "__main__":
    sys.exit(main())
