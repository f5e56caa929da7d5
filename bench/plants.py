#!/usr/bin/env python3
"""Times scripts of `alone` without a plant's file, on an empty one, and a script of no step on what then stands: plants.py [--program
PROGRAM] [--rows N] [--turns N] [KIND ..]

Prints for each kind of bench/generate.py the processor's seconds (the least of the turns) and the peak memory in MB of the script
alone, of the same with --plant on a file that isn't there, and of an empty script on the file that this leaves; the first ratio, which
is to be at most 1.15; and the bytes of the file. The reports have to be the same.
"""

import argparse
import filecmp
import os
import pathlib
import subprocess
import sys
import tempfile

from endings import BUILT, TOP

KINDS = ["deeds", "parts", "bargains", "unions"]
# Rows of unions are so long that no more of them fit into a script.
MOST_ROWS = {"unions": 17_000}


def run(program, words, script, report):
    """The seconds of the processor and the peak memory in MB of a run, which reads one file and writes another."""
    with open(script, "rb") as source, open(report, "wb") as sink:
        child = subprocess.Popen([program, *words], stdin=source, stdout=sink)
        _, status, used = os.wait4(child.pid, 0)
    if status != 0:
        sys.exit(f"{words}: ended with {status}")
    return used.ru_utime + used.ru_stime, used.ru_maxrss * 1024 / 1e6


def least(runs):
    """The least seconds of some runs, and their least memory."""
    seconds, memory = zip(*runs)
    return min(seconds), min(memory)


def time_kind(program, kind, rows, turns, folder):
    """Writes the line of a kind."""
    script, empty, plant, report, other = (folder / name for name in ("script", "empty", "plant", "report", "other"))
    words = [sys.executable, str(TOP / "bench" / "generate.py"), "--kind", kind, "--rows", str(rows)]
    with open(script, "wb") as sink:
        subprocess.run(words, stdout=sink, check=True)
    empty.touch()
    alone, kept, opened = [], [], []
    for _ in range(turns):
        plant.unlink(missing_ok=True)
        alone.append(run(program, ["alone"], script, report))
        kept.append(run(program, ["alone", "--plant", str(plant)], script, other))
        if not filecmp.cmp(report, other, shallow=False):
            sys.exit(f"{kind}: the reports differ")
        opened.append(run(program, ["alone", "--plant", str(plant)], empty, other))
    (seconds, memory), (longer, more), (again, held) = least(alone), least(kept), least(opened)
    ratio, size = longer / seconds, plant.stat().st_size
    print(f"{kind:10}{seconds:10.2f}{memory:6.0f}{longer:10.2f}{more:6.0f}{ratio:7.2f}{again:11.2f}{held:6.0f}{size:12,}", flush=True)


def main():
    options = argparse.ArgumentParser(description=__doc__, formatter_class=argparse.RawDescriptionHelpFormatter)
    options.add_argument("kinds", nargs="*", default=KINDS)
    options.add_argument("--program", default=str(BUILT))
    options.add_argument("--rows", type=int, default=100_000)
    options.add_argument("--turns", type=int, default=3)
    asked = options.parse_args()
    print(f"{'kind':10}{'alone, s':>10}{'MB':>6}{'kept, s':>10}{'MB':>6}{'ratio':>7}{'opened, s':>11}{'MB':>6}{'file':>12}")
    for kind in asked.kinds:
        rows = min(asked.rows, MOST_ROWS.get(kind, asked.rows))
        with tempfile.TemporaryDirectory() as folder:
            time_kind(asked.program, kind, rows, asked.turns, pathlib.Path(folder))


if __name__ == "__main__":
    main()
