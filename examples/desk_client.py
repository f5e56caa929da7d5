#!/usr/bin/env python3
"""A client of a desk on a plant's file: declares, posts, asks, handles each answer, and opens the file again where the desk was killed.

    desk_client.py FILE

It wants the program that bin/prove builds.
"""

import csv
import pathlib
import subprocess
import sys

TITLEPLANT = pathlib.Path(__file__).resolve().parent.parent / "bin" / "titleplant"
QUARTER = "T3N R2W sec 5 NE1/4"


class PassedOver(Exception):
    """A row was passed over, and nothing has changed. Has the fault's number and the row's."""


class Ended(Exception):
    """The desk has ended before it answered. Whether the row was in, `check` tells."""


class Desk:
    """A desk at the other end of two pipes; `last` is the last place in its file."""

    def __init__(self, file):
        self.file = file
        self.open()

    def open(self):
        """Opens the file, or opens it again."""
        told = subprocess.run([TITLEPLANT, "check", self.file], capture_output=True, encoding="utf-8").stdout
        self.last = int(dict(row[:2] for row in csv.reader(told.splitlines())).get("transactions", 0))
        words, pipe = [TITLEPLANT, "desk", "--plant", self.file], subprocess.PIPE
        self.process = subprocess.Popen(words, stdin=pipe, stdout=pipe, encoding="utf-8")
        self.rows = csv.writer(self.process.stdin, lineterminator="\n")

    def answer(self):
        """The next row of the answers. One that was broken off is none."""
        row = self.process.stdout.readline()
        fields = next(csv.reader([row]), [])
        if not row.endswith("\n") or fields == ["fault", "40"]:
            self.process.communicate()
            raise Ended
        if fields[0] == "fault" and (len(fields) == 2 or fields[1] == "38"):
            sys.exit(f"the desk has ended: {row}")
        return fields

    def ask(self, *row):
        """Sends a row. Its answer, and the rows of a sheet or a chain behind that."""
        try:
            self.rows.writerow(row)
            self.process.stdin.flush()
        except BrokenPipeError:
            pass  # (the answer will be missing)
        first = self.answer()
        if first[0] == "fault":
            raise PassedOver(int(first[1]), int(first[2]))
        count = int(first[2]) if first[1] in ("sheet", "chain") else 0
        return first, [self.answer() for _ in range(count)]

    def insist(self, task, *words):
        """Does a task, and again from its beginning where the desk ends meanwhile, unless it was in."""
        while True:
            last = self.last
            try:
                return task(self, *words)
            except Ended:
                self.open()
                if self.last > last:
                    return f"recorded at place {self.last}"

    def close(self):
        """Ends the rows. How many steps were answered."""
        return int(self.process.communicate()[0].removeprefix("end,"))


def declare(desk, kind, name):
    """Declares a township or a party, which may be there already."""
    try:
        return f"{name} is {kind} {desk.ask(kind, name)[0][1]}"
    except PassedOver as fault:
        return f"{name} is passed over, by number {fault.args[0]}"


def post(desk, examiner, *deed):
    """Posts a deed in a transaction of its own. What came of it, in words."""
    desk.ask(examiner, "begin")
    (_, reply, *why), _ = desk.ask(examiner, "deed", *deed)
    if reply == "posted":
        (_, _, place), _ = desk.ask(examiner, "commit")
        desk.last = int(place)
        return f"recorded at place {place}"
    desk.ask(examiner, "abort")
    if reply == "refused":
        return "refused by rule {0}, estate {1}, {2}".format(*why)
    return f"examiner {why[0]} is in the way" if reply == "conflict" else f"not posted: {reply} {why}"


def main():
    desk = Desk(sys.argv[1])
    for kind, name in (("township", "T3N R2W"), ("party", "ADAMS, J."), ("party", "BELL")):
        print(desk.insist(declare, kind, name))
    print(desk.insist(post, 1, 1, "UNITED STATES", "ADAMS, J.", "SOM", "W1/1", "", QUARTER))
    print(desk.insist(post, 1, 2, "ADAMS, J.", "BELL", "O", "W1/2", "", QUARTER))
    desk.process.kill()  # as a crash might
    print(desk.insist(post, 2, 3, "BELL", "ADAMS, J.", "O", "W1/1", "", QUARTER))
    desk.ask(2, "begin")
    for _, _, node, estate, name, share in desk.ask(2, "sheet", QUARTER)[1]:
        print(f"{node}, {estate}: {name} {share}")
    print(desk.close(), "steps")


if __name__ == "__main__":
    main()
