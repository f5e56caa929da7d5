#!/usr/bin/env python3
"""Compares docs/GUIDE.md with the data that the gate runs: each command of the guide is a stored one, and each script and
each report that the guide shows is its file, byte for byte. Names what differs, and ends with status 1 then."""

import csv
import pathlib
import re
import shlex
import sys

TOP = pathlib.Path(__file__).resolve().parent.parent
DATA = TOP / "crates" / "title_vectors" / "data"


def blocks(text):
    """The fenced blocks of a page, each with its last line end."""
    return re.findall(r"^```[a-z]*\n(.*?)^```$", text, re.M | re.S)


def stored_runs():
    with open(DATA / "runs.csv", newline="", encoding="utf-8") as table:
        return {row[0]: row[2:] for row in csv.reader(table)}


def stored_tracts():
    with open(DATA / "tracts.csv", newline="", encoding="utf-8") as table:
        return {row[0]: "".join(line + "\n" for line in row[2:]) for row in csv.reader(table)}


def check_script(words, path, following, runs):
    """A command that reads a script, which is shown after it, and then its report."""
    name = path.removeprefix("crates/title_vectors/data/").removesuffix(".csv")
    if runs.get(name) != words:
        yield f"{name}: runs.csv has {runs.get(name)}, the guide {words}"
        return
    for ending, shown in zip(("csv", "report"), following):
        if (DATA / f"{name}.{ending}").read_text(encoding="utf-8") != shown:
            yield f"{name}.{ending} isn't what the guide shows"


def check_tract(text, following, tracts):
    """A command that reads a description, and what it prints."""
    if tracts.get(text) != following[0]:
        yield f"tract {text}: tracts.csv has {tracts.get(text)!r}"


def faults(page):
    runs, tracts = stored_runs(), stored_tracts()
    shown = set()
    for place, block in enumerate(page):
        if not block.startswith("bin/titleplant "):
            continue
        words = shlex.split(block)[1:]
        following = page[place + 1:place + 3]
        if "<" in words:
            at = words.index("<")
            shown.add(words[at + 1])
            yield from check_script(words[:at], words[at + 1], following, runs)
        else:
            yield from check_tract(words[1], following, tracts)
    for name in runs:
        if name.startswith("guide/") and f"crates/title_vectors/data/{name}.csv" not in shown:
            yield f"{name} isn't in the guide"


def main():
    page = blocks((TOP / "docs" / "GUIDE.md").read_text(encoding="utf-8"))
    found = list(faults(page))
    for fault in found:
        print(fault)
    commands = sum(block.startswith("bin/titleplant ") for block in page)
    print(f"{commands} commands, {len(found)} faults")
    return 1 if found else 0


if __name__ == "__main__":
    sys.exit(main())
