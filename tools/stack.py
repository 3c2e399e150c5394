#!/usr/bin/env python3
"""The stack that each export of the x86-64 archive takes, in bytes, read off its code: frames, saved registers and return addresses along the deepest chain of
calls, and the red zone below a frame where it is used. Records that are passed by value are the caller's, and what memcpy and memset take is not counted.
usage: stack.py [ARCHIVE]   in the repository's root; the archive is the one that `rt lib --cpu=x86-64` leaves in crates/tilljingle unless one is named"""
import functools
import pathlib
import re
import shutil
import subprocess
import sys

if not shutil.which("rt"):
    sys.exit("The Rattle kit's command rt is not on the PATH.")
archive = sys.argv[1] if sys.argv[1:] else "crates/tilljingle/out/libtilljingle.a"
guide = subprocess.run(["rt", "doc"], capture_output=True, text=True, check=True).stdout.strip()
# the kit's compiler is the disassembler too, by the name that it is called by; a machine's own may not know x86-64
compiler = pathlib.Path(guide).parent / "toolchain/bin/clang"
read = subprocess.run(["llvm-objdump", "-dr", "-M", "intel", "--no-show-raw-insn", archive], executable=compiler, capture_output=True, text=True)
listing = read.stdout
if read.returncode or "elf64-x86-64" not in listing:
    sys.exit(f"stack.py: {archive} is no archive of x86-64 that can be read: {' '.join(read.stderr.split())}")
# a function's own section: its name, and then its instructions, a relocation below the call that it names
code = dict(re.findall(r"^[0-9a-f]+ <(.+)>:\n((?:.+\n)*)", listing, re.M))


def frame(text):
    """Saved registers, and what the end of the function gives back."""
    # a frame that is made in steps is given back at once
    given_back = [int(size, 16) for size in re.findall(r"\tadd\trsp, 0x([0-9a-f]{1,8})\n", text)]
    below = [int(size, 16) for size in re.findall(r"\[rsp - 0x([0-9a-f]+)\]", text)]
    return 8 * len(re.findall(r"\tpush\t", text)) + max(given_back, default=0) + (128 if below else 0)


@functools.lru_cache(None)
def chain(name):
    """Bytes and names of the deepest chain from this function on, its own return address included."""
    if name not in code:
        return 8, [name]
    callees = re.findall(r"\t(?:call|jmp)\t.*\n.*R_X86_64_\w+\s+(?:\.text\.)?([^\s]+?)(?:[-+]0x[0-9a-f]+)?\n", code[name])
    depth, names = max((chain(callee) for callee in set(callees) - {name}), default=(0, []))
    return 8 + frame(code[name]) + depth, [name] + names


for name in sorted((name for name in code if name.startswith("tj_")), key=lambda name: chain(name)[0]):
    print(f"{chain(name)[0]:6} {' > '.join(chain(name)[1])}")
