#!/usr/bin/env python3
"""Sheets a second that viewers are shown while one examiner commits: bench/views.py [--program PROGRAM].

An office commits 100, 1,000 or 10,000 records; then 1, 2 or 4 viewers ask for sheets of a section, each by a thread, while the
examiner commits 100 records more. The program (`crates/title_watch`, as the gate or `rt run` builds it) is run with so many sheets a
viewer and with none, and the difference of the times is the viewers'. Seconds by the clock, the less of three runs.
"""
import argparse
import pathlib
import subprocess
import time

TOP = pathlib.Path(__file__).resolve().parent.parent
SALES = 100


def seconds(program, viewers, records, sheets):
    """The least of three runs."""
    best = None
    for _ in range(3):
        begin = time.monotonic()
        subprocess.run([program, str(viewers), str(records), str(SALES), str(sheets)], stdout=subprocess.DEVNULL, check=True)
        spent = time.monotonic() - begin
        best = spent if best is None else min(best, spent)
    return best


def main():
    words = argparse.ArgumentParser(description=__doc__, formatter_class=argparse.RawDescriptionHelpFormatter)
    words.add_argument("--program", default=str(TOP / "crates" / "title_watch" / "out" / "title_watch"))
    words.add_argument("--sheets", type=int, default=200_000, help="how many each viewer asks for")
    told = words.parse_args()
    print("| Records | Viewers | Without sheets, s | With, s | Sheets a second |")
    print("|---|---|---|---|---|")
    for records in (100, 1_000, 10_000):
        for viewers in (1, 2, 4):
            without = seconds(told.program, viewers, records, 0)
            with_ = seconds(told.program, viewers, records, told.sheets)
            rate = viewers * told.sheets / max(with_ - without, 1e-9)
            print(f"| {records} | {viewers} | {without:.3f} | {with_:.3f} | {rate:,.0f} |")


if __name__ == "__main__":
    main()
