#!/usr/bin/env python3
"""Compares the quarter wave's table with the sine, by whole numbers alone.

Reads the 1,025 entries out of crates/quarter/src/entries.rt and shows of each that it is the whole number nearest to 2^30 times the sine of
j/4096 of a turn. Every real number is held between two whole numbers of units of 2^-P, rounded outward: pi by Machin's formula, and the
sine by its series, whose partial sums lie below and above it in turn. Ends with status 1 at the first entry that is not the nearest.
"""
import pathlib
import re
import sys

P = 160
ONE = 1 << P
SOURCE = pathlib.Path(__file__).resolve().parent.parent / "crates/quarter/src/entries.rt"


def arctan_of_inverse(m):
    """arctan(1/m), below and above, in units of 2^-P: 1/m - 1/(3 m^3) + 1/(5 m^5) - .."""
    low = high = 0
    power, k, positive = m, 1, True
    while power * k <= ONE:
        down, up = ONE // (power * k), -(-ONE // (power * k))
        low, high = (low + down, high + up) if positive else (low - up, high - down)
        power, k, positive = power * m * m, k + 2, not positive
    # what is left of the series is less than its first term, which is less than a unit
    return low - 1, high + 1


def pi():
    """16 arctan(1/5) - 4 arctan(1/239)"""
    low5, high5 = arctan_of_inverse(5)
    low239, high239 = arctan_of_inverse(239)
    return 16 * low5 - 4 * high239, 16 * high5 - 4 * low239


def sine(x):
    """sin(x / 2^P), below and above, for an x from 0 to 2 * 2^P: there each term of the series is less than the one before."""
    low = high = 0
    down = up = x
    k, positive = 1, True
    while up > 1:
        low, high = (low + down, high + up) if positive else (low - up, high - down)
        down = down * x * x // ((k + 1) * (k + 2) << 2 * P)
        up = -(-up * x * x // ((k + 1) * (k + 2) << 2 * P))
        k, positive = k + 2, not positive
    return low - 1, high + 1


def entries(text):
    found = re.search(r"static QUARTER: \[u32; 1025\] = \[([0-9,\s]*)\];", text)
    if not found:
        sys.exit(f"{SOURCE}: no table found")
    return [int(word) for word in found.group(1).replace(",", " ").split()]


def main():
    table = entries(SOURCE.read_text())
    if len(table) != 1025:
        sys.exit(f"{SOURCE}: {len(table)} entries and not 1025")
    pi_low, pi_high = pi()
    for j, entry in enumerate(table):
        # j/4096 of a turn is j pi/2048; the sine rises up to a quarter of a turn, and is at most 1
        low = sine(j * pi_low // 2048)[0]
        high = min(sine(-(-j * pi_high // 2048))[1], ONE)
        # entry - 1/2 < 2^30 sin < entry + 1/2
        if not (2 * entry - 1) * ONE < low << 31 or not high << 31 < (2 * entry + 1) * ONE:
            sys.exit(f"{SOURCE}: entry {j} is {entry}, which is not shown to be the nearest")
    print("the table: 1025 entries, each the whole number nearest to 2^30 times the sine")


if __name__ == "__main__":
    main()
