#!/usr/bin/env python3
"""Runs the built program titleplant on the greatest scripts that its limits allow: loads.py [--program PROGRAM] [LOAD..]

Prints for each load the bytes and rows of its script, the processor's and the clock's seconds, the peak memory in MB, the bytes of the
report, and how the run ended. A load that has to be refused ends with its fault. With no load named, all of them, some minutes;
"everything, 99,871" writes a report of 10 GB.
"""

import argparse
import os
import subprocess
import sys
import tempfile
import time

from endings import BUILT, TOP, fault_in, steps_told

BYTES, ROWS, EXAMINERS, STEPS, PARTIES = 16_777_216, 100_000, 9_999, 10_000, 65_536
QUARTERS = ["NE1/4", "NW1/4", "SW1/4", "SE1/4"]
TOWNSHIPS = [f"T{number}N R{range_}W" for number in range(1, 9) for range_ in range(1, 9)]
FRONT = ["township,T1N R1W", "party,ADAMS"]


def text(rows):
    return "".join(f"{row}\n" for row in rows).encode()


def made(kind, rows=ROWS):
    words = [sys.executable, str(TOP / "bench" / "generate.py"), "--kind", kind, "--rows", str(rows)]
    return subprocess.run(words, stdout=subprocess.PIPE, check=True).stdout


def cell(number):
    """One of the cells of a township, by number."""
    section, within = divmod(number % (36 * 256), 256)
    steps = "".join(QUARTERS[within >> shift & 3] for shift in (0, 2, 4, 6))
    return f"T1N R1W sec {section + 1} {steps}"


def deed(document, where, examiner=1, grantee="ADAMS", quantum="W1/1048576"):
    return f"{examiner},deed,{document},UNITED STATES,{grantee},S,{quantum},,{where}"


def to_bytes(script, bytes_=BYTES):
    """A script with spaces put in front of the line ends of its last rows, where a description stands, until it has so many bytes."""
    missing = bytes_ - len(script)
    rows = script.splitlines()
    place = len(rows) - 1
    while missing > 0:
        more = min(missing, 1_000 - len(rows[place].rsplit(b",", 1)[1]))
        rows[place] += b" " * more
        missing -= more
        place -= 1
    return b"".join(row + b"\n" for row in rows)


def greatest():
    """All rows and all bytes: deeds of cells, their descriptions with spaces behind them."""
    return to_bytes(text(FRONT + [deed(number, cell(number)) for number in range(1, ROWS - len(FRONT) + 1)]))


def long_descriptions():
    """Descriptions of 1,000 bytes: all that lie in the even columns of a section's cells, as many as fit, in sheets and deeds in turn."""
    parts, length = [], 0
    for within in range(0, 256, 2):
        part = cell(within).split("sec 1 ")[1]
        if length + len(part) + 1 < 970:
            parts.append(part)
            length += len(part) + 1
    rows, size = list(FRONT), 60
    for number in range(1, ROWS):
        where = f"T1N R1W sec {number % 36 + 1} {','.join(parts)}"
        where += " " * (1_000 - len(where))
        row = f'1,sheet,"{where}"' if number % 2 else f'1,deed,{number},UNITED STATES,ADAMS,S,W1/1048576,,"{where}"'
        if size + len(row) + 1 > BYTES:
            break
        rows.append(row)
        size += len(row) + 1
    return text(rows)


def long_transactions():
    """One examiner's transactions of 10,000 steps, of which the first are ended by a commit and the last by an abort."""
    rows = list(FRONT)
    for turn in range(9):
        rows.append("1,begin")
        rows += [deed(turn * STEPS + number, cell(turn * STEPS + number)) for number in range(1, STEPS + 1)]
        rows.append("1,abort" if turn == 8 else "1,commit")
    return text(rows)


def one_step_more():
    """A transaction of 10,000 steps, and 80,000 more that are answered `toolong`."""
    rows = FRONT + ["1,begin"] + [deed(number, cell(number)) for number in range(1, STEPS + 1)]
    return text(rows + [deed(number, cell(number)) for number in range(STEPS + 1, 90_001)] + ["1,commit"])


def parties(count=PARTIES - 1, owners=0):
    """As many parties as there may be, and a deed of a cell to each of so many of them."""
    names = [f"PARTY NUMBER {number} OF A LONG LIST OF PARTIES".ljust(60, "X") for number in range(1, count + 1)]
    rows = ["township,T1N R1W"] + [f"party,{name}" for name in names]
    rows += [deed(number, cell(0), grantee=names[number - 1], quantum="W1/4294967296") for number in range(1, owners + 1)]
    return text([*rows, f"1,sheet,{cell(0)}"])


def spread_parties():
    """As many parties as there may be, and a deed of a cell to each of 34,000, no two in one cell until all have one."""
    names = [f"PARTY {number}" for number in range(1, PARTIES)]
    rows = ["township,T1N R1W"] + [f"party,{name}" for name in names]
    return text(rows + [deed(number, cell(number), grantee=names[-number]) for number in range(1, 34_000)])


def townships(steps):
    """64 townships, with steps that name all of them."""
    return text([*(f"township,{name}" for name in TOWNSHIPS), "party,ADAMS", *steps])


def everything(count, posted=0):
    """Sheets of everything, after deeds of a section in each of so many townships."""
    deeds = [deed(number + 1, f"{TOWNSHIPS[number]} sec 1") for number in range(posted)]
    return townships(deeds + ["1,sheet,everything"] * count)


def deeds_of_everything(count):
    return townships(deed(number, "everything") for number in range(1, count + 1))


def all_open():
    """All examiners open, each with a post in a cell of its own, none of them committed."""
    begun = [f"{examiner},begin" for examiner in range(1, EXAMINERS + 1)]
    posts = [deed(examiner, cell(examiner % 9_000), examiner) for examiner in range(1, EXAMINERS + 1)]
    turns = [f"{examiner},chain,{cell(examiner % 9_000)}" for _ in range(7) for examiner in range(1, EXAMINERS + 1)]
    return text((FRONT + begun + posts + turns)[:ROWS])


def many_chains(count):
    """So many deeds of a section, and as many chains of it."""
    rows = FRONT + [deed(number, "T1N R1W sec 1") for number in range(1, count + 1)]
    return text(rows + ["1,chain,T1N R1W sec 1"] * count)


def office_day(examiners):
    """An office of so many examiners, all rows."""
    words = [sys.executable, str(TOP / "bench" / "generate.py"), "--kind", "own", "--rows", str(ROWS), "--examiners", str(examiners)]
    return subprocess.run(words, stdout=subprocess.PIPE, check=True).stdout


# Each load: the command, the script, and the fault it has to end with, if any.
LOADS = {
    "rows and bytes": ("alone", greatest, None),
    "a row more": ("alone", lambda: text(FRONT + ["1,sheet,T1N R1W"] * (ROWS - 1)), 31),
    "a byte more": ("alone", lambda: greatest() + b"\n", 32),
    "descriptions of 1,000 bytes": ("alone", long_descriptions, None),
    "9,999 open": ("run", all_open, None),
    "crowd": ("run", lambda: made("crowd"), None),
    "refused": ("run", lambda: made("refused"), None),
    "transactions of 10,000 steps": ("run", long_transactions, None),
    "80,000 steps too many": ("run", one_step_more, None),
    "65,536 parties": ("alone", parties, None),
    "65,537 parties": ("alone", lambda: parties(PARTIES), 31),
    "65,536 parties, each a cell": ("alone", spread_parties, None),
    "4,000 owners of a cell": ("alone", lambda: parties(4_000, 4_000), None),
    "8,000 owners of a cell": ("alone", lambda: parties(8_000, 8_000), None),
    "64 townships, sheets of them": ("alone", lambda: townships(f"1,sheet,{TOWNSHIPS[turn % 64]}" for turn in range(99_935)), None),
    "65 townships": ("alone", lambda: townships(["1,sheet,everything"]).replace(b"party,ADAMS", b"township,T9N R9W"), 31),
    "deeds of everything, 1,000": ("alone", lambda: deeds_of_everything(1_000), None),
    "everything, 1,000": ("alone", lambda: everything(1_000, 64), None),
    "everything, 10,000": ("alone", lambda: everything(10_000, 64), None),
    "everything, 99,871": ("alone", lambda: everything(99_871, 64), None),
    "everything, 10,000, nothing posted": ("alone", lambda: everything(10_000), None),
    "1,000 deeds and chains": ("alone", lambda: many_chains(1_000), None),
    "2,000 deeds and chains": ("alone", lambda: many_chains(2_000), None),
    "office of 8": ("office", lambda: office_day(8), None),
    "office of 64": ("office", lambda: office_day(64), None),
}
MEASURED = ["deeds", "sheets", "chains", "parts", "townships", "sections", "quarters", "cells", "plats", "interleaved", "short", "long",
            "reviewed"]
WORDS = {"office of 8": ["--examiners", "8", "--tries", "100"], "office of 64": ["--examiners", "64", "--tries", "100"]}


def last_line(report):
    """The last 100 bytes of a report, and all of a short one."""
    size = os.fstat(report.fileno()).st_size
    return os.pread(report.fileno(), 100, max(0, size - 100)), size


def run(program, name, command, script, fault):
    """A load's line, and whether it ended as it has to."""
    with tempfile.TemporaryFile() as source, tempfile.TemporaryFile() as report, tempfile.TemporaryFile() as errors:
        source.write(script)
        source.seek(0)
        start = time.monotonic()
        child = subprocess.Popen([program, command, *WORDS.get(name, [])], stdin=source, stdout=report, stderr=errors)
        _, status, usage = os.wait4(child.pid, 0)
        clock = time.monotonic() - start
        end, size = last_line(report)
        if fault:
            is_right = status == 256 and fault_in(end, command) == fault
        else:
            is_right = status == 0 and steps_told(end) is not None and os.fstat(errors.fileno()).st_size == 0
    seconds, memory = usage.ru_utime + usage.ru_stime, usage.ru_maxrss / 1024
    told = end.rstrip().rsplit(b"\n", 1)[-1].decode() if is_right else f"WRONG: wait status {status}, {end!r}"
    rows = script.count(b"\n")
    allowed = "" if fault or memory <= 500 + 2 * size / 1e6 else ", above twice its report and 500 MB"
    print(f"{name:<36} {len(script):>9} {rows:>7} {seconds:>7.2f} {clock:>7.2f} {memory:>8.0f} {size:>11}  {told}{allowed}", flush=True)
    return is_right


def main():
    options = argparse.ArgumentParser(description="Runs the built program on the greatest scripts that its limits allow.")
    options.add_argument("--program", default=str(BUILT), help="the built program (default: the one that bin/prove builds)")
    options.add_argument("loads", nargs="*", metavar="LOAD", help="; ".join([*LOADS, *MEASURED]))
    asked = options.parse_args()
    if not os.access(asked.program, os.X_OK):
        sys.exit(f"loads.py: {asked.program} isn't there; bin/prove builds it")
    known = dict(LOADS)
    for kind in MEASURED:
        command = "alone" if MEASURED.index(kind) < MEASURED.index("interleaved") else "run"
        known[kind] = (command, lambda kind=kind: made(kind), None)
    print(f"{'load':<36} {'bytes':>9} {'rows':>7} {'cpu, s':>7} {'wall, s':>7} {'MB':>8} {'report':>11}  end")
    are_right = True
    for name in asked.loads or known:
        if name not in known:
            options.error(f"no load named {name}")
        command, script, fault = known[name]
        are_right = run(asked.program, name, command, script(), fault) and are_right
    return 0 if are_right else 1


if __name__ == "__main__":
    sys.exit(main())
