#!/usr/bin/env python3
"""Stands in for the kit's compiler: compiles the module that it is handed for another processor than x86-64.
usage: retarget.py CLANG TRIPLE ARGUMENT..   with the arguments of one compilation, `-x ir MODULE -o OBJECT` among them

The exported functions follow the C calling convention of x86-64; where the other processor's differs they are changed to it:
a large struct by value is a pointer to the caller's copy, a small argument is not widened by the caller, a large struct comes
back through a pointer in a register of its own, and a struct of an integer and a float in two integer registers. Only for
measuring and comparing (here.sh): nothing that is shipped goes through here."""
import re
import subprocess
import sys

clang, triple, arguments = sys.argv[1], sys.argv[2], sys.argv[3:]
module = arguments[arguments.index("-x") + 2]
text = module + ".ll"
subprocess.run(
    [clang, "--no-default-config", "--target=x86_64-unknown-linux-gnu", "-x", "ir", module, "-S", "-emit-llvm", "-O3", "-Xclang", "-disable-llvm-passes", "-o", text],
    check=True,
)

# a large struct comes back through a pointer: the first argument on x86-64, which is answered too; a register of its own elsewhere
LARGE = re.compile(r"^define (?:noundef )?ptr @(tj_\w+)\(ptr noundef %a0(.*)\)(.*)\{$")
MIXED = re.compile(r"^define (?:noundef )?(\{ (?:i64, double|i64, float|double, i64) \}) @(tj_\w+)\(([^)]*)\)(.*)\{$")
WHOLE = {"i64": "i64", "double": "i64", "float": "i32"}
lines, wrappers, returned = [], [], []
for line in open(text, encoding="utf-8"):
    line = line.rstrip("\n")
    if line.startswith("target datalayout"):
        continue
    if line.startswith("target triple"):
        line = f'target triple = "{triple}"'
    if line.startswith("attributes"):
        line = line.replace('"target-cpu"="x86-64"', "").replace('"probe-stack"="inline-asm"', "")
    if line.startswith("define") and " @tj_" in line:
        line = re.sub(r" byval\([^)]*\)", "", line)
        line = re.sub(r" (?:zero|sign)ext", "", line)
        large = LARGE.match(line)
        if large:
            name, params, rest = large.groups()
            line = line.replace(f"@{name}(", f"@{name}.large(").replace("define ", "define internal ", 1)
            returned.append((name, params))
        mixed = MIXED.match(line)
        if mixed:
            kind, name, params, rest = mixed.groups()
            line = line.replace(f"@{name}(", f"@{name}.mixed(").replace("define ", "define internal ", 1)
            wrappers.append((kind, name, params))
    lines.append(line)
for name, params in returned:
    lines.append(f"define void @{name}(ptr sret(i8) %a0{params}) {{")
    lines.append(f"  %r = call ptr @{name}.large(ptr %a0{params})")
    lines.append("  ret void")
    lines.append("}")
for kind, name, params in wrappers:
    parts = kind.strip("{ }").split(", ")
    lines.append(f"define {{ i64, i64 }} @{name}({params}) {{")
    lines.append(f"  %r = call {kind} @{name}.mixed({params})")
    for place, part in enumerate(parts):
        lines.append(f"  %p{place} = extractvalue {kind} %r, {place}")
        lines.append(f"  %b{place} = bitcast {part} %p{place} to {WHOLE[part]}")
        widened = "zext i32" if part == "float" else "bitcast i64"
        lines.append(f"  %q{place} = {widened} %b{place} to i64")
    lines.append("  %s0 = insertvalue { i64, i64 } undef, i64 %q0, 0")
    lines.append("  %s1 = insertvalue { i64, i64 } %s0, i64 %q1, 1")
    lines.append("  ret { i64, i64 } %s1")
    lines.append("}")
with open(text, "w", encoding="utf-8") as out:
    out.write("\n".join(lines) + "\n")

kept = [f"--target={triple}" if a.startswith("--target=") else text if a == module else a for a in arguments if not a.startswith("-march=")]
sys.exit(subprocess.run([clang, *kept]).returncode)
