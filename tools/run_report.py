#!/usr/bin/env python3
"""Runs the report program where no contract reaches, after `rt run` in crates/report or after `rt ci`: how much of standard input it reads, and what it says
where that or standard output fails. Each run's standard output and standard error must be, byte for byte, what document 01 and the operating system's texts say.
usage: run_report.py [PROGRAM]   in the repository's root; the program is crates/report/out/report unless one is named"""
import os
import subprocess
import sys
import tempfile

program = sys.argv[1:2] or ["crates/report/out/report"]


def line(number, pairs):
    """A line of so many pairs, each of the codes 100 and 50."""
    digits = f"{number % 65536:04X}{pairs:02X}" + "00640032" * pairs
    return f"{digits}{-sum(bytes.fromhex(digits)) % 256:02X}\n".encode()


def figures(pairs, active, factor):
    return f"PAIRS {pairs}\nP {active}\nQ 00000000\nS {active}\nPF {factor}\n".encode()


# 65,536 bytes of right lines with room for their 3,863 pairs: 3,847 lines of one pair, 17 bytes each, and one of 16 pairs
most = b"".join(line(number, 1) for number in range(3847)) + line(3847, 16)
assert len(most) == 65536
LONG = b"INPUT TOO LONG\n"
# 01: 100 times 50 is 459C4000, and pf is 1
INPUTS = [
    ("no bytes", b"", figures(0, "00000000", "00000000")),
    ("65,536 bytes", most, figures(3863, "459C4000", "3F800000")),
    ("65,536 bytes, the last line not ended", most[:-1] + b"0", b"REFUSED 5 LINE 3848\n"),
    ("65,537 bytes", most + b"\n", LONG),
    ("65,553 bytes, a right line more", most + line(3848, 1), LONG),
    ("131,072 bytes", most + most, LONG),
]
wrong = 0


def held(what, found, wanted):
    global wrong
    if found != wanted:
        wrong += 1
        print(f"report on {what}: WRONG\n  wanted {wanted}\n  found  {found}")


for what, text, report in INPUTS:
    run = subprocess.run(program, input=text, capture_output=True)
    held(what + ", through a pipe", (run.stdout, run.stderr, run.returncode), (report, b"", 0))
    with tempfile.TemporaryFile() as file:
        file.write(text)
        file.seek(0)
        run = subprocess.run(program, stdin=file, capture_output=True)
    held(what + ", from a file", (run.stdout, run.stderr, run.returncode), (report, b"", 0))

# nothing is printed of an input that cannot be read, and an output that cannot be written is told
run = subprocess.run(program, capture_output=True, preexec_fn=lambda: os.close(0))
held("a closed input", (run.stdout, run.stderr), (b"", b"read: Bad file descriptor\n"))
with open("/dev/full", "wb") as full:
    run = subprocess.run(program, input=b"", stdout=full, stderr=subprocess.PIPE)
held("a full device", run.stderr, b"write: No space left on device\n")
run = subprocess.run(program, input=b"", stderr=subprocess.PIPE, preexec_fn=lambda: os.close(1))
held("a closed output", run.stderr, b"write: Bad file descriptor\n")
print(f"report: {2 * len(INPUTS) + 3} runs, {wrong} wrong")
sys.exit(1 if wrong else 0)
