#!/usr/bin/env python3
"""Says which functions of two static libraries have the same machine code, whatever their order and the names of their constants: a landing that moves text
alone changes no instruction, and then no benchmark is needed to know that nothing became slower. A function with another name and the same code is renamed.
Constants go by their place in the function: their values are not compared, nor those of tables.
usage: same_code.py BEFORE.a AFTER.a   needs objdump; ends with status 1 where a function differs"""
import re
import subprocess
import sys


def functions(archive):
    said = subprocess.run(["objdump", "-d", "-r", "--no-show-raw-insn", archive], check=True, capture_output=True, text=True).stdout
    found, lines = {}, []
    for line in said.splitlines():
        start = re.match(r"[0-9a-f]+ <(.*)>:", line)
        if start:
            lines = found.setdefault(start.group(1), [])
        elif re.match(r"\s+[0-9a-f]+:\s", line):
            text = re.sub(r"^\s+[0-9a-f]+:\s+|\s*#.*$", "", line)
            text = re.sub(r"[0-9a-f]+ <[^>]*?(\+0x[0-9a-f]+)?>", r"<\1>", text)  # a jump, by how far into the function
            lines.append(re.sub(r"\.LCPI\d+_", ".LCPI_", text))  # a constant, by its number in the function
    return {name: "\n".join(lines) for name, lines in found.items()}


def nameless(code):
    return re.sub(r"\.text\.\S+", "", code)


before, after = functions(sys.argv[1]), functions(sys.argv[2])
new = sorted(after.keys() - before.keys())
renamed = {}
for name in sorted(before.keys() - after.keys()):
    twin = next((other for other in new if nameless(after[other]) == nameless(before[name])), None)
    if twin:
        renamed[name] = twin
        new.remove(twin)
        print(f"renamed  {name} to {twin}")
wrong = [f"new      {name}" for name in new]
for name, code in before.items():
    for old, other in renamed.items():
        code = re.sub(rf"\.text\.{re.escape(old)}(?![\w:])", lambda _: f".text.{other}", code)
    there = renamed.get(name, name)
    if there not in after:
        wrong.append(f"gone     {name}")
    elif after[there] != code:
        wrong.append(f"differs  {name}")
print("\n".join(wrong + [f"{len(before)} functions before, {len(after)} after, {len(wrong)} with other instructions"]))
sys.exit(1 if wrong else 0)
