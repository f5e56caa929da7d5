#!/usr/bin/env python3
"""Measures offices: offices.py [PROGRAM] [ROWS], by default the program that bin/prove builds, and 30000 rows.

For 1, 2, 4 and 8 examiners, each in townships of its own and all in one section, prints the wall time (the best of three runs),
the processor time of that run, the steps served a second, and how many transactions were committed and given up.
"""
import os
import subprocess
import sys
import tempfile
import time

HERE = os.path.dirname(os.path.realpath(__file__))


def run(program, examiners, script):
    """The seconds by the clock and of the processor, and the report, of one run."""
    with open(script) as source, tempfile.TemporaryFile("w+") as report:
        start = time.monotonic()
        words = [program, "office", "--examiners", str(examiners), "--tries", "10000"]
        child = subprocess.Popen(words, stdin=source, stdout=report)
        _, status, usage = os.wait4(child.pid, 0)
        wall = time.monotonic() - start
        report.seek(0)
        rows = report.read().splitlines()
    if status != 0:
        sys.exit(f"offices.py: the program didn't end well: status {status}, {rows[:1]}")
    return wall, usage.ru_utime + usage.ru_stime, rows


def main():
    program = sys.argv[1] if len(sys.argv) > 1 else f"{HERE}/../crates/titleplant/out/titleplant"
    rows = sys.argv[2] if len(sys.argv) > 2 else "30000"
    print(f"{'kind':<8} {'examiners':>9} {'steps':>7} {'wall':>7} {'cpu':>7} {'steps/s':>8} {'committed':>9} {'given up':>8}")
    with tempfile.TemporaryDirectory() as folder:
        for kind in ("own", "shared"):
            for examiners in (1, 2, 4, 8):
                script = f"{folder}/script.csv"
                words = [f"{HERE}/generate.py", "--kind", kind, "--rows", rows, "--examiners", str(examiners)]
                with open(script, "w") as out:
                    subprocess.run([sys.executable, *words], stdout=out, check=True)
                with open(script) as lines:
                    steps = sum(1 for line in lines if line[0].isdigit())
                wall, processor, report = min((run(program, examiners, script) for _ in range(3)), key=lambda it: it[0])
                done = [line.split(",") for line in report if ",done," in line]
                committed, given_up = sum(int(it[2]) for it in done), sum(int(it[4]) for it in done)
                figures = f"{steps:>7} {wall:>7.2f} {processor:>7.2f} {steps / wall:>8.0f} {committed:>9} {given_up:>8}"
                print(f"{kind:<8} {examiners:>9} {figures}", flush=True)


main()
