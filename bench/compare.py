#!/usr/bin/env python3
"""Compares built programs on large scripts of some kinds, in turns in one run.

    compare.py [--rows N,N..] [--kinds KIND,KIND..] [--turns N] [--side 8|16] NAME=PROGRAM NAME=PROGRAM ..

Prints for each kind and each number of rows the least processor seconds of each program, its peak memory in MB (a small program shows
what the measuring process had when it began it), how many times as fast as the first it is, and whether all reports are the same.
"""
import argparse
import hashlib
import os
import pathlib
import subprocess
import sys
import tempfile

HERE = pathlib.Path(__file__).resolve().parent
ALONE = ("deeds", "sheets", "chains", "parts", "townships", "sections", "quarters", "cells", "plats", "plants")
MANY = ("bargains", "owners", "histories")
RUN = ("interleaved", "fifty", "short", "long", "reviewed", "crowd", "refused")


def run(program, command, script, report):
    """The processor seconds and the peak memory in MB of one run."""
    with open(script, "rb") as rows, open(report, "wb") as out:
        child = subprocess.Popen([program, command], stdin=rows, stdout=out)
        _, status, usage = os.wait4(child.pid, 0)
    if status != 0:
        sys.exit(f"compare.py: {program} didn't end well: status {status}")
    return usage.ru_utime + usage.ru_stime, usage.ru_maxrss / 1024


def sum_of(report):
    """A report's checksum, made piece by piece: what this script holds, the next program would begin with."""
    found = hashlib.sha256()
    with open(report, "rb") as rows:
        for piece in iter(lambda: rows.read(1 << 20), b""):
            found.update(piece)
    return found.hexdigest()


def compare(kind, rows, side, programs, turns, work):
    """A line for one kind and one number of rows."""
    script, report = f"{work}/script.csv", f"{work}/report.csv"
    with open(script, "wb") as out:
        subprocess.run([sys.executable, HERE / "generate.py", "--kind", kind, "--rows", str(rows), "--side", side], stdout=out, check=True)
    best, sums = {}, set()
    for _ in range(turns):
        for name, program in programs:
            spent = run(program, "alone" if kind in ALONE + MANY else "run", script, report)
            best[name] = min(best.get(name, spent), spent)
            sums.add(sum_of(report))
    first = best[programs[0][0]][0]
    told = [f"{name} {best[name][0]:.2f} s {best[name][1]:.0f} MB x{first / max(best[name][0], 0.001):.1f}" for name, _ in programs]
    return f"{kind:<12} {rows:>7}  {'  '.join(told)}  {'same' if len(sums) == 1 else 'DIFFERENT REPORTS'}"


def main():
    options = argparse.ArgumentParser(description="Compares built programs on large scripts, in turns in one run.")
    options.add_argument("--rows", default="10000", help="numbers of rows (default 10000)")
    options.add_argument("--kinds", default=",".join(ALONE[:4] + RUN), help="kinds of bench/generate.py")
    options.add_argument("--turns", type=int, default=3, help="runs of each program (default 3)")
    options.add_argument("--side", choices=("8", "16"), default="16", help="cells of a section's side (default 16)")
    options.add_argument("programs", nargs="+", metavar="NAME=PROGRAM")
    asked = options.parse_args()
    programs = [it.split("=", 1) for it in asked.programs]
    with tempfile.TemporaryDirectory() as work:
        for kind in asked.kinds.split(","):
            for rows in asked.rows.split(","):
                print(compare(kind, int(rows), asked.side, programs, asked.turns, work), flush=True)


if __name__ == "__main__":
    main()
