#!/usr/bin/env python3
"""Shows which proofs a check took longest over: bench/slow_proofs.py [--least S] [CRATE ..], by default all crates.

`rt check` keeps each module that it has checked under out/incremental, as it goes. So the time between two of these files is what the
later one took, by the clock, where one check ran in the crate: of a function F in a module m, m.F.Lts is the borrow checker's part, .Tie
and .Kinds the parts on types, and .Proof the answers. The first file of a crate has the reading of all that it stands on in it. Standard
output gets a line for each that took at least S seconds (default 10), the longest first.

`rt ci` keeps nothing there. With --watch FOLDER, where FOLDER is the TMPDIR of an `rt ci` that runs, the folders that its checks have in
there are looked at until no check of a crate, program or test was there for ten minutes (or this is interrupted), and then the same is
told of each that was seen. Where checks stand still meanwhile, that counts as well.
"""
import argparse
import collections
import os
import pathlib
import re
import time

# What a folder of a check in TMPDIR is named, and a module's file there: its crate, and the module.
CHECK = re.compile(r"rattle-logic-built-locked-(\d+)-\d+")
MODULE = re.compile(r"Rattle-(\w+)-(?:proofs|specs|src)\b.*\.oantt")
# How often a gate is looked at, and how long without a check it has come to its edits, in seconds.
PAUSE = 20
PATIENCE = 600


def modules(folder):
    """The modules kept in a folder, by the moment at which each was."""
    files = ((it.stat().st_mtime, it.name) for it in folder.rglob("*.oantt"))
    return sorted(files)


def gaps(kept, crate, least):
    """How long each of some modules took, by the moments at which they were kept, at least so many seconds."""
    for (before, _), (moment, name) in zip(kept, kept[1:]):
        if moment - before >= least:
            yield moment - before, crate, name.removesuffix(".oantt").removesuffix(".decls")


def of_crate(crate, least):
    """The same of what `rt check` left in a crate's folder."""
    for folder in (crate / "out" / "incremental").glob("*"):
        yield from gaps(modules(folder), crate.name, least)


def is_running(process):
    return pathlib.Path(f"/proc/{process}").exists()


def watch(folder):
    """The modules of each check in a gate's TMPDIR, seen until none was there for long or this is interrupted."""
    seen = collections.defaultdict(dict)
    last = time.monotonic()
    try:
        while time.monotonic() - last < PATIENCE:
            for check in folder.iterdir():
                match = CHECK.fullmatch(check.name)
                if not match or not is_running(match[1]):
                    continue
                last = time.monotonic()
                try:
                    for file in os.scandir(check):
                        if file.name.endswith(".oantt") and file.name not in seen[check]:
                            seen[check][file.name] = file.stat().st_mtime
                except FileNotFoundError:
                    continue  # The check has ended.
            time.sleep(PAUSE)
    except KeyboardInterrupt:
        pass
    return seen


def of_gate(folder, least):
    """The same of the checks of a gate that runs."""
    for files in watch(folder).values():
        kept = sorted((moment, name) for name, moment in files.items())
        crates = collections.Counter(match[1] for _, name in kept if (match := MODULE.fullmatch(name)))
        if crates:
            yield from gaps(kept, crates.most_common(1)[0][0], least)


def main():
    options = argparse.ArgumentParser(description="Shows which proofs a check took longest over.")
    options.add_argument("crates", nargs="*", metavar="CRATE")
    options.add_argument("--least", type=float, default=10, metavar="S", help="at least so many seconds (default 10)")
    options.add_argument("--watch", type=pathlib.Path, metavar="FOLDER", help="the TMPDIR of a gate that runs")
    asked = options.parse_args()
    root = pathlib.Path(__file__).resolve().parent.parent / "crates"
    if asked.watch:
        slow = [it for it in of_gate(asked.watch, asked.least) if not asked.crates or it[1] in asked.crates]
    else:
        crates = [root / name for name in asked.crates or sorted(os.listdir(root))]
        slow = [it for crate in crates for it in of_crate(crate, asked.least)]
    for seconds, crate, name in sorted(slow, reverse=True):
        print(f"{seconds:6.0f} s  {crate:20} {name}")


if __name__ == "__main__":
    main()
