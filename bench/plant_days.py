#!/usr/bin/env python3
"""Days on a plant's file: scripts, and what each has to put into the file, report, and leave to stand.

    python3 bench/plant_days.py FOLDER

What is wanted is written down with each row that is put in: the program has no part in it. The days are written to FOLDER, which for
the program title_torn is crates/title_torn/data: NAME.csv is a script, NAME.block what comes into the file, NAME.report the report,
NAME.standing what stands then, in numbers but for the tail, and NAME.told what stands as a script, with nothing in it where there is
none. `bench/crashes.py` and `bench/kills.py` use the same days.

It also has a reader of plants' files that shares no code with the program.
"""
import csv
import io
import pathlib
import sys

HEAD = b"titleplant plant 1\n"
FIRST = "UNITED STATES"


class Fault(Exception):
    """The file is no plant: its row of this number."""


def row(*fields):
    """A row of CSV: a field with a comma or a quote is quoted, its quotes doubled."""
    def written(field):
        text = str(field)
        return '"' + text.replace('"', '""') + '"' if "," in text or '"' in text else text
    return ",".join(map(written, fields)) + "\n"


class Plant:
    """What stands so far: townships, names, places, posts, and which quarter sections are sold."""

    def __init__(self):
        self.rows = []
        self.townships, self.names, self.last, self.posts, self.sold, self.document = [], [FIRST], 0, 0, 0, 0

    def standing(self):
        return (f"townships,{len(self.townships)}\nparties,{len(self.names)}\ntransactions,{self.last}\n"
                f"posts,{self.posts}\n").encode()


class Day:
    """A script of a day, with what it has to come to. `command` is `run` or `alone`."""

    def __init__(self, plant, name, command):
        self.plant, self.name, self.command = plant, name, command
        self.script, self.rows, self.report, self.steps = [], [], [], 0
        self.began = plant.last
        self.kept = {}                               # of each examiner whose transaction is open, the rows it has posted

    def township(self, text, written=None):
        """Declares a township; `written` is how the script has it."""
        self.script.append(row("township", written or text))
        if text not in self.plant.townships:
            self.plant.townships.append(text)
            self.rows.append(("township", row("township", text)))

    def party(self, name):
        self.script.append(row("party", name))
        if name not in self.plant.names:
            self.plant.names.append(name)
            self.rows.append(("party", row("party", name)))

    def _step(self, *fields):
        self.steps += 1
        self.script.append(row(*fields))

    def _commits(self, examiner, posts):
        """The rows of a transaction."""
        self.plant.last += 1
        self.plant.posts += len(posts)
        if len(posts) == 1:
            self.rows.append(("post", posts[0]))
        else:
            self.rows.append(("post", row(examiner, "begin") + "".join(posts) + row(examiner, "commit")))

    def begin(self, examiner):
        self._step(examiner, "begin")
        self.kept[examiner] = []
        self.report.append(row(examiner, "began"))

    def commit(self, examiner):
        self._step(examiner, "commit")
        self._commits(examiner, self.kept.pop(examiner))
        self.report.append(row(examiner, "committed", self.plant.last))

    def abort(self, examiner):
        self._step(examiner, "abort")
        del self.kept[examiner]
        self.report.append(row(examiner, "aborted"))

    def post(self, examiner, *fields, kept=None):
        """A post that takes effect: `kept` is how the file has it, where that is otherwise than in the script."""
        self._step(examiner, *fields)
        kept = row(examiner, *(kept or fields))
        self.report.append(row(examiner, "posted"))
        if examiner in self.kept:
            self.kept[examiner].append(kept)
        else:
            self._commits(examiner, [kept])

    def refused(self, examiner, *fields, answer):
        """A post that takes effect nowhere. Outside a transaction it is one that posted nothing."""
        self._step(examiner, *fields)
        self.report.append(row(examiner, "refused", *answer))
        if examiner not in self.kept:
            self._commits(examiner, [])

    def sheet(self, examiner, text, owners):
        """A sheet of one node: `owners` are the rows of its estates."""
        self._step(examiner, "sheet", text)
        self.report.append(row(examiner, "sheet", len(owners)))
        for estate, name, share in owners:
            self.report.append(row(examiner, "row", text, estate, name, share))
        if examiner not in self.kept:
            self._commits(examiner, [])

    def quarter(self):
        """A quarter of a section of which nothing was sold yet."""
        place = self.plant.sold
        self.plant.sold += 1
        township = self.plant.townships[place // 144]
        return f"{township} sec {1 + place % 36} {('NE', 'NW', 'SW', 'SE')[place // 36 % 4]}1/4"

    def number(self):
        self.plant.document += 1
        return self.plant.document

    def sell(self, examiner, grantee, quantum="W1/2", reserve="", estates="S"):
        """The first owner sells a quarter."""
        self.post(examiner, "deed", self.number(), FIRST, grantee, estates, quantum, reserve, self.quarter())

    def whole(self):
        """What stands at the end of the day, as a script: declarations first."""
        self.plant.rows += [text for kind, text in self.rows if kind == "post"]
        declared = [row("township", text) for text in self.plant.townships] + [row("party", name) for name in self.plant.names[1:]]
        return "".join(declared + self.plant.rows).encode()

    def block(self):
        """What comes into the file behind an open gate and its line feed; nothing where nothing was committed or declared."""
        if not self.rows:
            return b""
        # Townships come first, then parties, then transactions in the order of their places.
        rows = [text for kind in ("township", "party", "post") for found, text in self.rows if found == kind]
        return ("".join(rows) + row("end", self.plant.last)).encode()

    def text(self):
        return "".join(self.script).encode()

    def told(self):
        return ("".join(self.report) + row("end", self.steps)).encode()


ODD_NAMES = ["+", "-", "end,1", "BELL, J.", '"QUOTED" & SONS', "O'HARA", '"' * 60, "commit", "1", "end", " SPACED ", "MÜLLER", "=1+1"]


def monday(plant):
    day = Day(plant, "monday", "alone")
    day.township("T3N R2W", "T. 3 N., R. 2 W.")
    day.township("T4N R2W")
    for name in ["ADAMS", *ODD_NAMES]:
        day.party(name)
    for place, name in enumerate(ODD_NAMES * 2):
        day.sell(1 + place % 5, name, *(("W1/2", ""), ("I1/4", ""), ("W1/1", "S1/8"))[place % 3])
    day.begin(7)
    for name in ODD_NAMES[:4]:
        day.sell(7, name)
    day.commit(7)
    day.begin(9999)
    day.commit(9999)
    day.begin(3)
    day.sheet(3, "T4N R2W sec 36 SE1/4", [(estate, FIRST, "1/1") for estate in "SOM"])
    day.commit(3)
    day.sheet(4, "T4N R2W sec 36 SE1/4", [(estate, FIRST, "1/1") for estate in "SOM"])
    nothing = "T4N R2W sec 36 SE1/4"
    day.refused(5, "deed", day.number(), "ADAMS", "-", "S", "W1/2", "", nothing, answer=(11, "S", nothing))
    return day


def tuesday(plant):
    day = Day(plant, "tuesday", "run")
    day.begin(2)
    day.begin(1)
    day.sell(1, "ADAMS")
    day.sell(2, "+")
    day.sell(1, "-")
    nothing = "T4N R2W sec 35 SE1/4"
    day.refused(2, "deed", day.number(), "O'HARA", "-", "O", "I1/2", "", nothing, answer=(11, "O", nothing))
    day.begin(3)
    day.sell(3, "end,1")
    day.commit(1)
    day.abort(3)
    day.plant.sold -= 1
    day.sheet(2, "T4N R2W sec 34 SE1/4", [(estate, FIRST, "1/1") for estate in "SOM"])
    day.commit(2)
    day.begin(3)
    day.sell(3, "BELL, J.")
    day.begin(4)
    day.sell(4, "ADAMS")
    day.commit(3)
    # Examiner 4 has no end: what it posted isn't recorded.
    day.plant.sold -= 1
    return day


def wednesday(plant):
    day = Day(plant, "wednesday", "alone")
    day.party("CLARK")
    day.township("T3N R2W")
    day.party("end,1")
    day.township("T5N R2W")
    for place in range(36):
        day.sell(11 + place % 3, ("CLARK", "ADAMS", "+", "end,1")[place % 4], estates=("S", "O", "SOM", "OM")[place % 4])
    return day


def thursday(plant):
    day = Day(plant, "thursday", "alone")
    day.party("ADAMS")
    day.begin(1)
    day.sheet(1, "T4N R2W sec 33 SE1/4", [(estate, FIRST, "1/1") for estate in "SOM"])
    day.abort(1)
    return day


def friday(plant):
    day = Day(plant, "friday", "alone")
    day.party("+,-")
    return day


# Each second column of cells, as a description: 128 nodes, whose texts are 2,800 bytes.
STRIPS = ", ".join(f"{a}1/2{b}1/2{c}1/2{d}1/2" for a, b, c, d in
                   [("W", x, y, z) for x in "WE" for y in "WE" for z in "WE"])


def saturday(plant):
    day = Day(plant, "saturday", "alone")
    number = day.number
    day.post(1, "deed", number(), FIRST, "+,-", "M", "W2/4", "", "Everything", kept=None)
    day.rows[-1] = ("post", row(1, "deed", day.plant.document, FIRST, "+,-", "M", "W1/2", "", "everything"))
    where = "T. 5 N., R. 2 W., Section 1: SE¼ of the SW¼, NE¼"
    number()
    day.post(2, "deed", day.plant.document, FIRST, "CLARK", "OM", "W1/4", "M1/16;O1/8", where,
             kept=("deed", day.plant.document, FIRST, "CLARK", "OM", "W1/4", "O1/8;M1/16", "T5N R2W sec 1 NE1/4, SE1/4SW1/4"))
    day.begin(3)
    number()
    day.post(3, "deed", day.plant.document, FIRST, '"' * 60, "S", "I1/2", "", f"T5N R2W sec 2 {STRIPS}",
             kept=("deed", day.plant.document, FIRST, '"' * 60, "S", "I1/2", "", "T5N R2W sec 2 cells" + " aaaa" * 16))
    number()
    day.post(3, "warranty", day.plant.document, '"' * 60, "ADAMS", "S", "W1/1", "S1/2", f"T5N R2W sec 2 {STRIPS}",
             kept=("warranty", day.plant.document, '"' * 60, "ADAMS", "S", "W1/1", "S1/2", "T5N R2W sec 2 cells" + " aaaa" * 16))
    day.commit(3)
    day.post(4, "release", number(), "CLARK", FIRST, "SOM", "T5N R2W")
    return day


def sunday(plant):
    day = Day(plant, "sunday", "run")
    day.township("T1S R1E", "t1s r1e")
    for examiner in range(1, 6):
        day.begin(examiner)
    for place in range(20):
        day.sell(1 + place % 5, ("CLARK", "ADAMS")[place % 2])
    for examiner in (3, 1, 5, 2, 4):
        day.commit(examiner)
    return day


def later(plant):
    day = Day(plant, "later", "alone")
    while plant.last < 200:
        day.sell(20 + plant.last % 7, ("CLARK", "ADAMS", "-", " SPACED ")[plant.last % 4])
    return day


DAYS = (monday, tuesday, wednesday, thursday, friday, saturday, sunday, later)


def days():
    """All the days, each with its block, report and standing as of its end, and what stands then as a script."""
    plant, made = Plant(), []
    for make in DAYS:
        day = make(plant)
        made.append((day.name, day.command, day.text(), day.block(), day.told(), plant.standing(), day.whole()))
    return made


# ---- another reader of plants' files

def fields_of(text):
    return next(csv.reader(io.StringIO(text), strict=True))


class Standing:
    """What a reader has found."""

    def __init__(self):
        self.townships, self.names, self.transactions = [], [FIRST], []

    def numbers(self):
        posts = sum(len(posts) for _, posts in self.transactions)
        return (f"townships,{len(self.townships)}\nparties,{len(self.names)}\ntransactions,{len(self.transactions)}\n"
                f"posts,{posts}\n").encode()


def read_block(found, lines, number):
    """Adds what the rows of a block say, the first standing in a row of the file."""
    inside = None
    for line in lines:
        text = line.decode("utf-8")
        if text.startswith("end,"):
            if inside is not None or text != f"end,{len(found.transactions)}":
                raise Fault(number)
            return
        try:
            fields = fields_of(text)
        except csv.Error as error:
            raise Fault(number) from error
        match fields:
            case ["township", name] if inside is None and name not in found.townships:
                found.townships.append(name)
            case ["party", name] if inside is None and name not in found.names:
                found.names.append(name)
            case [examiner, "begin"] if inside is None:
                inside = (examiner, [])
            case [examiner, "commit"] if inside is not None and inside[0] == examiner:
                found.transactions.append(inside)
                inside = None
            case [examiner, "deed" | "warranty" | "release", _, grantor, grantee, *_] if (
                    len(fields) == (7 if fields[1] == "release" else 9) and {grantor, grantee} <= set(found.names)
                    and (inside is None or inside[0] == examiner)):
                if inside is None:
                    found.transactions.append((examiner, [fields]))
                else:
                    inside[1].append(fields)
            case _:
                raise Fault(number)
        number += 1
    raise Fault(number)


def read_plant(file):
    """What stands in a file, and the place of the gate behind it."""
    if not file.startswith(HEAD):
        raise Fault(1)
    found, at, number = Standing(), len(HEAD), 2
    while file[at:at + 1] == b"+" and at + 1 < len(file):
        if file[at + 1:at + 2] != b"\n":
            raise Fault(number)
        lines, at, ended = [], at + 2, False
        while not ended:
            feed = file.find(b"\n", at)
            if feed < 0:
                raise Fault(number + 1 + len(lines))
            lines.append(file[at:feed])
            at = feed + 1
            ended = lines[-1].startswith(b"end,")
        read_block(found, lines, number + 1)
        number += 1 + len(lines)
    return found, at


def tail_of(file, gate):
    """How many bytes don't count."""
    return 0 if file[gate:] == b"-" else len(file) - gate


def main():
    folder = pathlib.Path(sys.argv[1])
    file = HEAD + b"-"
    for name, command, script, block, report, standing, told in days():
        # The cells of a section are no description.
        told = b"" if b" cells " in told else told
        for kind, text in (("csv", script), ("block", block), ("report", report), ("standing", standing), ("told", told)):
            (folder / f"{name}.{kind}").write_bytes(text)
        if block:
            file = file[:-1] + b"+\n" + block + b"-"
        found, gate = read_plant(file)
        assert found.numbers() == standing and tail_of(file, gate) == 0
        print(f"{name}: {command}, {len(script)} bytes of script, {len(block)} bytes of block, {standing!r}")


if __name__ == "__main__":
    main()
