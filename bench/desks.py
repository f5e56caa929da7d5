#!/usr/bin/env python3
"""Tries the built program's desk on a plant's file: by many examiners at one pipe, killed, cut off, flooded, at a terminal, by a clock.

    desks.py [--program PROGRAM] [--count N] [--seed N] [--folder FOLDER] [--fast FOLDER] [TRIAL..]

The rows are made here, with what each is to be answered and what it is to put into the file: the program has no part in that. A file is
read by the reader of plant_days.py.

fifty      fifty examiners through one pipe: rows that are sent ahead, and fifty that wait for their answers each. All answers are those
           that are due, the file has all that was committed, and the same rows as a script of `run` have the same report and come to the
           same transactions
examiners  9,999 examiners at once, each with a transaction open
kills      N times (1,000 where nothing is said) a desk of fifty is killed by signal 9 at a random moment. What was read is a beginning of
           the answers that are due; the file has what the first so many rows come to, and among them all whose answer was read
client     examples/desk_client.py: what it says; and N kills while it posts deeds one after another, of which each stands once
closed     the output is closed by its reader after so many bytes, or from the start; the input ends at each byte of a few rows
flood      rows that can't be served, 200,000 of them, among rows that can
terminal   at a terminal: rows that are typed, what is shown, and that nothing but answers goes to standard output
speed      on one that syncs at once: lone posts that are sent ahead, rows of a client that waits, on one processor with it; the first
           answer of a desk that is open; memory of a million lone posts

With no trial named, all of them. What is wrong is named, and the status is 1 then. FOLDER has the plants, else a temporary one; for `speed`
it is the other one, in memory where nothing is said.
"""

import bisect
import collections
import contextlib
import csv
import fcntl
import io
import os
import pathlib
import pty
import re
import select
import shlex
import shutil
import signal
import subprocess
import sys
import tempfile
import threading
import time
import types
import unittest.mock

from endings import BUILT, TOP
from kills import Trial, carry_out, parser_of
from plant_days import FIRST, ODD_NAMES, read_plant, row

sys.path.insert(0, str(TOP / "examples"))
import desk_client  # noqa: E402 (a file beside this folder)

TOWNSHIPS = [f"T{number}{north} R{range_}{east}" for number in (1, 2) for north in "NS" for range_ in range(1, 9) for east in "EW"]
QUARTERS = ["NE1/4", "NW1/4", "SW1/4", "SE1/4"]
PIECES_OF_ONE = 36 * 16


def piece(number):
    """A quarter of a quarter of a section."""
    township, rest = divmod(number, PIECES_OF_ONE)
    section, rest = divmod(rest, 16)
    return f"{TOWNSHIPS[township]} sec {section + 1} {QUARTERS[rest // 4]}{QUARTERS[rest % 4]}"


# ---- what is due

Post = collections.namedtuple("Post", "document giver taker piece")


class Plant:
    """What stands: townships, names, and of each transaction its examiner and its posts; of each piece its owner and its posts."""

    def __init__(self):
        self.townships, self.names, self.records, self.owners, self.chains = [], [FIRST], [], {}, {}

    def add(self, event):
        kind, what = event
        if kind == "township":
            self.townships.append(what)
        elif kind == "party":
            self.names.append(what)
        else:
            self.records.append(what)
            for post in what[1]:
                self.owners[post.piece] = post.taker
                self.chains.setdefault(post.piece, []).append((len(self.records), post))

    def copy(self):
        other = Plant()
        other.townships, other.names, other.records = self.townships[:], self.names[:], self.records[:]
        other.owners, other.chains = self.owners.copy(), {where: chain[:] for where, chain in self.chains.items()}
        return other

    def counts(self):
        return len(self.townships), len(self.names), len(self.records)

    def transactions(self):
        """As the other reader of files has them."""
        return [(str(examiner), [[str(examiner), "deed", str(post.document), post.giver, post.taker, "SOM", "W1/1", "", post.piece]
                                 for post in posts]) for examiner, posts in self.records]


class Open:
    """An open transaction: its posts, the pieces on which it has steps, and who owned what before."""

    def __init__(self):
        self.posts, self.pieces, self.before = [], set(), []


class Sitting:
    """Rows at a desk on top of what stands: their bytes, the answers that are due, and what each adds to the file."""

    def __init__(self, plant, chance, pieces):
        self.began, self.now = plant, plant.copy()
        self.chance, self.pieces = chance, pieces
        self.rows, self.due, self.count, self.steps = bytearray(), bytearray(), 0, 0
        self.ends = []               # of each line, where it ends among the rows, and its answer among the answers
        self.events = []             # what is added, and where the answer ends that tells it
        self.open, self.holders = {}, {}
        self.documents = 1 + sum(len(posts) for _, posts in plant.records)

    def say(self, text, answer="", event=None):
        """A row, its answer, and what it adds."""
        self.rows += text if isinstance(text, bytes) else text.encode()
        self.due += answer.encode()
        self.ends.append((len(self.rows), len(self.due)))
        if event:
            self.now.add(event)
            self.events.append((event, len(self.due)))

    def due_for(self, sent):
        """How many bytes of answers are due once so many of the rows were sent."""
        at = bisect.bisect_right(self.ends, (sent, len(self.due)))
        return self.ends[at - 1][1] if at else 0

    def declare(self, kind, name):
        self.count += 1
        number = len(self.now.townships) + 1 if kind == "township" else len(self.now.names)
        self.say(row(kind, name), row(kind, number), (kind, name))

    def pass_over(self, text, number):
        """A row that is passed over."""
        self.count += 1
        self.say(text if isinstance(text, bytes) else text + "\n", row("fault", number, self.count))

    def step(self, examiner, fields, answer, *more, event=None):
        self.count += 1
        self.steps += 1
        self.say(row(examiner, *fields), "".join([row(examiner, *answer), *(row(examiner, *it) for it in more)]), event)

    def begin(self, examiner):
        if examiner in self.open:
            return self.step(examiner, ["begin"], ["alreadyopen"])
        self.open[examiner] = Open()
        return self.step(examiner, ["begin"], ["began"])

    def in_the_way(self, examiner, where, is_post):
        """The least other examiner who has posted where one reads, or has read or posted where one posts."""
        read, posted = self.holders.get(where, (set(), set()))
        return min((posted | read if is_post else posted) - {examiner}, default=None)

    def asked(self, examiner, fields, where, is_post):
        """A step that asks of a piece: its transaction, or None where it is refused."""
        if examiner not in self.open:
            self.step(examiner, fields, ["notopen"])
            return None
        other = self.in_the_way(examiner, where, is_post)
        if other is not None:
            self.step(examiner, fields, ["conflict", other])
            return None
        self.holders.setdefault(where, (set(), set()))[is_post].add(examiner)
        self.open[examiner].pieces.add(where)
        return self.open[examiner]

    def owner(self, where):
        return self.now.owners.get(where, FIRST)

    def sheet(self, examiner, where):
        if self.asked(examiner, ["sheet", where], where, False):
            owned = [["row", where, estate, self.owner(where), "1/1"] for estate in "SOM"]
            self.step(examiner, ["sheet", where], ["sheet", 3], *owned)

    def chain(self, examiner, where):
        its = self.asked(examiner, ["chain", where], where, False)
        if its:
            listed = self.now.chains.get(where, []) + [(0, post) for post in its.posts if post.piece == where]
            entries = [["entry", place, post.document, "deed", post.giver, post.taker, "SOM"] for place, post in listed]
            self.step(examiner, ["chain", where], ["chain", len(entries)], *entries)

    def post(self, examiner, where, is_owner=True):
        """The owner sells all, or one who has nothing does."""
        owner, post = self.owner(where), None
        names = [name for name in self.now.names if name != owner]
        taker = self.chance.choice(names)
        giver = owner if is_owner else self.chance.choice([name for name in names if name != taker] or names)
        post = Post(self.documents, giver, taker, where)
        self.documents += 1
        fields = ["deed", post.document, giver, taker, "SOM", "W1/1", "", where]
        if giver == taker:
            if examiner in self.open:
                return self.step(examiner, fields, ["invalid", 2])
            return self.step(examiner, fields, ["notopen"])
        its = self.asked(examiner, fields, where, True)
        if its is None:
            return None
        if not is_owner:
            return self.step(examiner, fields, ["refused", 11, "S", where])
        its.posts.append(post)
        its.before.append((where, owner))
        self.now.owners[where] = taker
        return self.step(examiner, fields, ["posted"])

    def close(self, examiner):
        """The transaction that ends; others have its pieces to themselves."""
        its = self.open.pop(examiner)
        for where in its.pieces:
            for held in self.holders[where]:
                held.discard(examiner)
        return its

    def undo(self, examiner):
        for where, owner in reversed(self.close(examiner).before):
            self.now.owners[where] = owner

    def abort(self, examiner):
        if examiner not in self.open:
            return self.step(examiner, ["abort"], ["notopen"])
        self.undo(examiner)
        return self.step(examiner, ["abort"], ["aborted"])

    def commit(self, examiner):
        if examiner not in self.open:
            return self.step(examiner, ["commit"], ["notopen"])
        posts = self.close(examiner).posts
        return self.step(examiner, ["commit"], ["committed", len(self.now.records) + 1], event=("commit", (examiner, posts)))

    def any_row(self, examiner):
        """A row of an examiner: mostly on its own piece, now and then on one of all."""
        chance = self.chance
        where = piece(examiner if chance.random() < 0.8 else chance.randrange(1, self.pieces + 1))
        is_open, pick = examiner in self.open, chance.random()
        if is_open == (pick < 0.04):
            return self.begin(examiner)
        if pick < 0.4:
            return self.post(examiner, where)
        if pick < 0.45:
            return self.post(examiner, where, is_owner=False)
        if pick < 0.6:
            return self.sheet(examiner, where)
        if pick < 0.65:
            return self.chain(examiner, where)
        if pick < 0.67:
            return self.step(examiner, ["sheet", "T1N R1E sec 37"], ["description", 22])
        return self.abort(examiner) if pick < 0.72 else self.commit(examiner)

    def end(self):
        """The last row; what is open is undone."""
        for examiner in list(self.open):
            self.undo(examiner)
        self.due += row("end", self.steps).encode()


def sitting_on(plant, chance, examiners, townships=2):
    """Rows that begin a sitting: where nothing stands, with what is declared."""
    sitting = Sitting(plant, chance, examiners)
    if not plant.townships:
        for name in TOWNSHIPS[:townships]:
            sitting.declare("township", name)
    for name in ["ADAMS", *ODD_NAMES]:
        if name not in plant.names:
            sitting.declare("party", name)
    return sitting


# ---- a desk and what it says

class Desk:
    """A desk at the other end of two pipes: rows go in while answers come out."""

    def __init__(self, program, words, errors=subprocess.DEVNULL):
        self.process = subprocess.Popen([str(program), "desk", *map(str, words)], stdin=subprocess.PIPE, stdout=subprocess.PIPE,
                                        stderr=errors, bufsize=0, env={})
        self.into, self.out = self.process.stdin.fileno(), self.process.stdout.fileno()
        os.set_blocking(self.into, False)
        self.said, self.is_over = bytearray(), False

    def exchange(self, rows, wanted=None, seconds=120.0):
        """Sends rows, and reads until so many bytes were said in all, the desk has ended, or the time is over."""
        rows, until = memoryview(bytes(rows)), time.perf_counter() + seconds
        while not self.is_over and (rows or wanted is None or len(self.said) < wanted):
            left = until - time.perf_counter()
            if left <= 0:
                break
            readable, writable, _ = select.select([self.out], [self.into] if rows else [], [], left)
            if writable:
                rows = rows[self.write(rows):]
            if readable:
                self.read()

    def write(self, rows):
        try:
            return os.write(self.into, rows)
        except BlockingIOError:
            return 0
        except BrokenPipeError:
            return len(rows)

    def read(self):
        got = os.read(self.out, 1 << 20)
        self.said += got
        self.is_over = not got

    def end(self):
        """Ends the rows. The status, and all that was said."""
        self.process.stdin.close()
        while not self.is_over:
            self.read()
        self.process.stdout.close()
        return self.process.wait(), bytes(self.said)

    def kill(self):
        """Kills it. All that was said."""
        self.process.send_signal(signal.SIGKILL)
        return self.end()[1]

    def most_bytes(self):
        """The most memory that it had so far."""
        status = pathlib.Path(f"/proc/{self.process.pid}/status").read_text(encoding="ascii")
        return 1024 * int(re.search(r"VmHWM:\s*([0-9]+)", status)[1])

    def waits(self):
        """Waits until it reads standard input, and so waits for rows."""
        for _ in range(100_000):
            call = pathlib.Path(f"/proc/{self.process.pid}/syscall").read_text(encoding="ascii").split()
            if call[:2] == ["0", "0x0"]:
                return
            time.sleep(0.0001)


def desk_of(trial, **how):
    return Desk(trial.program, ["--plant", trial.path], **how)


def stands(trial, where, sitting, told):
    """What stands in the file, which is what the first rows come to that add so much, or more; None where it is something else."""
    if not trial.numbers(where):
        return None
    found, _ = read_plant(trial.content())
    wanted, plant = (len(found.townships), len(found.names), len(found.transactions)), sitting.began.copy()
    added = 0
    while plant.counts() != wanted and added < len(sitting.events):
        plant.add(sitting.events[added][0])
        added += 1
    if (found.townships, found.names, found.transactions) != (plant.townships, plant.names, plant.transactions()):
        return trial.fail(f"{where}: what stands is not what any first rows come to", wanted, plant.counts())
    if added < told:
        return trial.fail(f"{where}: told and not there", told, added)
    trial.counts["additions that were told"] += told
    trial.counts["that stood untold"] += added - told
    return plant


def differs(trial, where, said, due):
    """Names the first answer that isn't the due one."""
    at = next((at for at, (one, other) in enumerate(zip(said, due)) if one != other), min(len(said), len(due)))
    begin = due.rfind(b"\n", 0, at) + 1
    trial.fail(f"{where}: answers", bytes(said[begin:begin + 120]), bytes(due[begin:begin + 120]))


def judge(trial, where, sitting, said, is_whole):
    """Holds what was said and what stands against what is due. What stands; None where something is wrong."""
    if not (said == sitting.due if is_whole else sitting.due.startswith(said)):
        return differs(trial, where, said, sitting.due)
    told = sum(end <= len(said) for _, end in sitting.events)
    return stands(trial, where, sitting, told)


def ended_well(trial, where, sitting, desk):
    """Ends the rows and judges the whole."""
    sitting.end()
    status, said = desk.end()
    trial.counts["rows"] += sitting.count
    trial.counts["commits"] += sum(event[0] == "commit" for event, _ in sitting.events)
    if status != 0:
        trial.fail(f"{where}: the status", status, said[-200:])
    return judge(trial, where, sitting, said, True)


# ---- trials

def as_script(trial, where, sitting):
    """The rows as a script of `run`, whose report has to be the answers to all but the declarations."""
    path = trial.path.with_name("script")
    path.unlink(missing_ok=True)
    status, report, errors = trial.run(["run", "--plant", str(path)], bytes(sitting.rows))
    declared = len(re.match(rb"(?:(?:township|party),[0-9]+\n)*", sitting.due)[0])
    if (status, errors) != (0, b"") or report != sitting.due[declared:]:
        differs(trial, f"{where}, as a script", report, sitting.due[declared:])
    elif read_plant(path.read_bytes())[0].transactions != sitting.now.transactions():
        trial.fail(f"{where}: what the script leaves")
    path.unlink(missing_ok=True)


def fifty(trial):
    for number in range(10):
        trial.clear()
        sitting = sitting_on(Plant(), trial.chance, 50)
        desk = desk_of(trial)
        if number % 2:
            # Each waits for its answer, and then sends its next row.
            due_at = {examiner: 0 for examiner in range(1, 51)}
            desk.exchange(sitting.rows, len(sitting.due))
            while sitting.count < 9_000 and not desk.is_over:
                begin = len(sitting.rows)
                for examiner, end in due_at.items():
                    if end <= len(desk.said):
                        sitting.any_row(examiner)
                        due_at[examiner] = len(sitting.due)
                desk.exchange(sitting.rows[begin:], min(due_at.values()))
        else:
            while sitting.count < 9_000:
                sitting.any_row(trial.chance.randint(1, 50))
            desk.exchange(sitting.rows, len(sitting.due))
        ended_well(trial, f"fifty {number}", sitting, desk)
        as_script(trial, f"fifty {number}", sitting)


def examiners(trial):
    """All begin, post, ask and end, in another order each time."""
    trial.clear()
    sitting = sitting_on(Plant(), trial.chance, 9_999, townships=20)
    everybody = list(range(1, 10_000))
    for act in ("begin", "post", "sheet", "of another", "post", "chain", "end"):
        trial.chance.shuffle(everybody)
        for examiner in everybody:
            if act == "begin":
                sitting.begin(examiner)
            elif act == "post":
                sitting.post(examiner, piece(examiner))
            elif act == "of another":
                sitting.post(examiner, piece(trial.chance.choice(everybody)))
            elif act == "end":
                (sitting.abort if examiner % 7 == 0 else sitting.commit)(examiner)
            else:
                getattr(sitting, act)(examiner, piece(examiner))
    desk = desk_of(trial)
    desk.exchange(sitting.rows, len(sitting.due))
    ended_well(trial, "examiners", sitting, desk)


def how_long(trial, sitting):
    """How long a desk takes from its start on: to its first answer, and for the others."""
    first, start = sitting.ends[0][0], time.perf_counter()
    desk = desk_of(trial)
    desk.exchange(sitting.rows[:first], sitting.due_for(first))
    opened = time.perf_counter() - start
    desk.exchange(sitting.rows[first:], len(sitting.due))
    took = time.perf_counter() - start
    desk.kill()
    trial.clear()
    return opened, took - opened


def kills(trial):
    trial.clear()
    chance, plant = trial.chance, Plant()
    sitting = sitting_on(plant, chance, 50)
    for _ in range(1_500):
        sitting.any_row(chance.randint(1, 50))
    opened, took = how_long(trial, sitting)
    for number in range(trial.count):
        sitting = sitting_on(plant, chance, 50)
        for _ in range(chance.choice([30, 300, 1_500])):
            sitting.any_row(chance.randint(1, 50))
        until = time.perf_counter() + chance.uniform(0, 1.3 * (opened + took * sitting.count / 1_500))
        desk = desk_of(trial)
        # Some rows are sent once those before are answered; a part may end within a row.
        cuts = sorted(chance.randrange(len(sitting.rows)) for _ in range(chance.choice([0, 0, 1, 5])))
        for begin, end in zip([0, *cuts], [*cuts, len(sitting.rows)]):
            desk.exchange(sitting.rows[begin:end], sitting.due_for(end), until - time.perf_counter())
        desk.exchange(b"", None, until - time.perf_counter())
        said = desk.kill()
        trial.counts["killed"] += 1
        trial.counts["before all was answered"] += len(said) < len(sitting.due)
        plant = judge(trial, f"kill {number}", sitting, said, False)
        if plant is None or len(plant.records) > 2_000:
            trial.clear()
            plant = Plant()


TRANSCRIPT = """\
T3N R2W is township 1
ADAMS, J. is party 1
BELL is party 2
recorded at place 1
recorded at place 2
refused by rule 11, estate O, T3N R2W sec 5 NE1/4
T3N R2W sec 5 NE1/4, S: ADAMS, J. 1/1
T3N R2W sec 5 NE1/4, O: ADAMS, J. 1/2
T3N R2W sec 5 NE1/4, O: BELL 1/2
T3N R2W sec 5 NE1/4, M: ADAMS, J. 1/1
5 steps
"""


# What the client sends and reads is stored, and the gate answers these rows too.
STORED = TOP / "crates" / "title_vectors" / "data" / "rows" / "desk.a_client.desk.csv"


class Written(desk_client.Desk):
    """A client's desk that writes down the rows that were answered, and the answers."""

    rows_of_all, answers_of_all = [], []

    def open(self):
        super().open()
        self.sent = []
        self.rows = csv.writer(types.SimpleNamespace(write=self.write), lineterminator="\n")

    def write(self, text):
        self.sent.append(text)
        return self.process.stdin.write(text)

    def answer(self):
        fields = super().answer()
        self.rows_of_all += self.sent
        self.sent.clear()
        self.answers_of_all.append(row(*fields))
        return fields


def client_itself(trial):
    """What the client says, sends and reads."""
    trial.clear()
    said = io.StringIO()
    with contextlib.redirect_stdout(said), unittest.mock.patch("sys.argv", ["desk_client.py", str(trial.path)]), \
            unittest.mock.patch.object(desk_client, "Desk", Written):
        desk_client.main()
    if said.getvalue() != TRANSCRIPT:
        trial.fail("client: what it says", said.getvalue(), TRANSCRIPT)
    sent, told = "".join(Written.rows_of_all), "".join(Written.answers_of_all)
    if sent != STORED.read_text(encoding="utf-8"):
        trial.fail("client: its rows aren't those that are stored", sent)
    # (The stored answers are of one desk, whose end counts all the steps.)
    if told != re.sub(r"end,[0-9]+\n$", "", STORED.with_suffix(".report").read_text(encoding="utf-8")):
        trial.fail("client: its answers aren't those that are stored", told)


def posts_while_killed(trial, count):
    """The client posts deeds one after another, and its desk is killed so often meanwhile. How many deeds."""
    trial.clear()
    start = time.perf_counter()
    desk, is_done, killed = desk_client.Desk(trial.path), threading.Event(), []
    for kind, name in (("township", TOWNSHIPS[0]), ("party", "ADAMS"), ("party", "BELL, J.")):
        desk.insist(desk_client.declare, kind, name)
    took = time.perf_counter() - start

    def kill_now_and_then():
        while len(killed) < count and not is_done.wait(trial.chance.expovariate(1 / took)):
            if desk.process.poll() is None:
                desk.process.kill()
                killed.append(desk.process.pid)

    killer = threading.Thread(target=kill_now_and_then)
    killer.start()
    wanted, number = [], 0
    while killer.is_alive():
        number += 1
        (turn, place), owners = divmod(number - 1, 50), [FIRST, "ADAMS", "BELL, J."]
        deed = (number, owners[turn % 3], owners[(turn + 1) % 3], "SOM", "W1/1", "", piece(place))
        said = desk.insist(desk_client.post, 1 + number % 9, *deed)
        wanted.append((str(1 + number % 9), [[str(it) for it in (1 + number % 9, "deed", *deed)]]))
        if said != f"recorded at place {number}":
            trial.fail(f"client: deed {number}", said)
            break
    is_done.set()
    killer.join()
    trial.counts["killed"] += len(killed)
    trial.counts["deeds"] += number
    desk.insist(desk_client.declare, "party", "CLARK")
    desk.close()
    if not trial.numbers("client") or read_plant(trial.content())[0].transactions != wanted:
        trial.fail("client: what stands", number)


def client(trial):
    desk_client.TITLEPLANT = trial.program
    client_itself(trial)
    for part in range(10):
        posts_while_killed(trial, (trial.count + part) // 10)


def closed(trial):
    chance = trial.chance
    for number in range(100):
        trial.clear()
        sitting = sitting_on(Plant(), chance, 50)
        for _ in range(1_000):
            sitting.any_row(chance.randint(1, 50))
        sitting.end()
        desk = desk_of(trial, errors=subprocess.PIPE)
        fcntl.fcntl(desk.out, fcntl.F_SETPIPE_SZ, 4096)
        most = chance.choice([0, 1, chance.randrange(len(sitting.due))])
        rows = memoryview(bytes(sitting.rows))
        while rows and len(desk.said) < most:
            rows = rows[desk.write(rows[:512]):]
            if select.select([desk.out], [], [], 0.01)[0]:
                desk.said += os.read(desk.out, most - len(desk.said))
        desk.process.stdout.close()
        os.set_blocking(desk.into, True)
        while rows:
            rows = rows[desk.write(rows[:4096]):]
        desk.process.stdin.close()
        errors, status = desk.process.stderr.read(), desk.process.wait()
        desk.process.stderr.close()
        where = f"closed {number}, after {most} bytes"
        trial.counts[f"status {status}"] += 1
        # (A pipe that nobody reads any more takes nothing; what it holds already may be the last.)
        is_last = status == 0 and errors == b"" and len(sitting.due) - most <= 4096
        if (status, errors) != (1, b"error: the report can't be written\n") and not is_last:
            trial.fail(where, status, errors)
        judge(trial, where, sitting, desk.said, False)
    ends(trial)


def ends(trial):
    """The rows end at each byte: the last line may lack its end."""
    sitting = sitting_on(Plant(), trial.chance, 50)
    first = len(sitting.rows)
    for act in (sitting.begin, sitting.commit, sitting.begin):
        act(1)
    sitting.post(1, piece(1))
    sitting.sheet(1, piece(1))
    sitting.commit(1)
    for sent in range(first, len(sitting.rows) + 1):
        trial.clear()
        desk = desk_of(trial, errors=subprocess.PIPE)
        desk.exchange(sitting.rows[:sent], sitting.due_for(sent))
        status, said = desk.end()
        errors = desk.process.stderr.read()
        desk.process.stderr.close()
        where, whole = f"the rows end after {sent} bytes", sitting.due_for(sent)
        last = said[whole:].splitlines()
        if (status, errors) != (0, b"") or said[:whole] != sitting.due[:whole] or not last or not last[-1].startswith(b"end,"):
            trial.fail(where, status, errors, said[whole:])
        told = sum(end <= len(said) and said[:end] == sitting.due[:end] for _, end in sitting.events)
        stands(trial, where, sitting, told)
        trial.counts["ends"] += 1


def broken_rows(chance, sitting):
    """A row that is passed over, and its fault."""
    where = piece(chance.randint(1, 50))
    owner = sitting.owner(where)
    return chance.choice([
        (b"nonsense\n", 31), (b"help\n", 31), (b"1\n", 31), (b",\n", 31), (b"1,begin,more\n", 31), (b"0,begin\n", 31),
        (b"10000,begin\n", 31), (b"01,begin\n", 31), (b"1,Begin\n", 31), (b"fault,31,1\n", 31), (b"end,1\n", 31), (b"+\n", 31),
        (b"-\n", 31),
        (b'1,sheet,"' + where.encode() + b"\n", 31), (b'"1,begin\n', 31), (b'1,"begin\n', 31),
        (b"1,sheet," + where.encode() + b",\n", 31), (b"\xff\xfe1,begin\n", 31), (b"party,\xc0\x80\n", 31), (b"party,\n", 31),
        (b"party," + b"A" * 61 + b"\n", 31), (b"party,A\tB\n", 31), (b"1,begin\r1,abort\n", 31), (b"1" * 8_193 + b"\n", 31),
        (b'1,sheet,"' + b"x" * chance.choice([9_000, 70_000]) + b'"\n', 31), (b"\0\n", 31), (b"1,begin\0\n", 31),
        (b"z" + bytes(chance.choice([it for it in range(256) if it != 10]) for _ in range(chance.randrange(60))) + b"\n", 31),
        (row(1, "deed", 0, owner, "ADAMS", "S", "W1/1", "", where).encode(), 31),
        (row(1, "deed", 1, owner, "ADAMS", "SX", "W1/1", "", where).encode(), 31),
        (row(1, "deed", 1, owner, "ADAMS", "S", "W1/3", "", where).encode(), 31),
        (row(1, "deed", 1, owner, "ADAMS", "S", "W2/1", "", where).encode(), 31),
        (row(1, "release", 1, owner, "ADAMS", "S", "W1/1", "", where).encode(), 31),
        (row(1, "deed", 1, owner, "NOBODY", "S", "W1/1", "", where).encode(), 34),
        (row(1, "deed", 1, "NOBODY", owner, "S", "W1/1", "", where).encode(), 34),
        (b"party,UNITED STATES\n", 34), (row("party", ODD_NAMES[3]).encode(), 34), (b"township,everything\n", 31),
        (row("township", TOWNSHIPS[0]).encode(), 31), (b"township,T9N R99W\n", 35), (b"township,T0N R1W\n", 31),
    ])


def flood(trial):
    trial.clear()
    sitting = sitting_on(Plant(), trial.chance, 50)
    sitting.begin(1)
    faults = 0
    while faults < 200_000:
        pick = trial.chance.random()
        if pick < 0.01:
            sitting.any_row(trial.chance.randint(1, 50))
        elif pick < 0.02:
            sitting.say(trial.chance.choice([b"\n", b"\r\n", b"\r\r\n"]))
        else:
            sitting.pass_over(*broken_rows(trial.chance, sitting))
            faults += 1
    desk = desk_of(trial)
    desk.exchange(sitting.rows[:100_000], sitting.due_for(100_000))
    desk.waits()
    before, start = desk.most_bytes(), time.perf_counter()
    desk.exchange(sitting.rows[100_000:], len(sitting.due))
    seconds, grown = time.perf_counter() - start, desk.most_bytes() - before
    trial.counts["broken rows"] = faults
    trial.counts["broken rows a second"] = round(faults / seconds)
    trial.counts["kilobytes more"] = grown // 1024
    # (As many bytes of rows as a script may have are kept for a while, for sentences.)
    if grown > 40 << 20:
        trial.fail("flood: memory", grown)
    ended_well(trial, "flood", sitting, desk)


HELP = """row 4: the rows at a desk are
  township,TEXT
  party,NAME
  E,begin
  E,sheet,TEXT
  E,chain,TEXT
  E,deed,DOC,GRANTOR,GRANTEE,ESTATES,QUANTUM,RESERVE,TEXT
  E,warranty,DOC,GRANTOR,GRANTEE,ESTATES,QUANTUM,RESERVE,TEXT
  E,release,DOC,FROM,TO,ESTATES,TEXT
  E,commit
  E,abort
E is an examiner's number, 1 to 9999, and TEXT is land, as T3N R2W sec 5 NE1/4; titleplant run --help tells of all fields
the end of the input (Ctrl-D at a terminal) ends the desk"""
QUARTER = "T3N R2W sec 5 NE1/4"
SHEET = [f"1,row,{QUARTER}SE1/4,{estate},UNITED STATES,1/1" for estate in "SOM"]
# Rows that are typed, what is answered to each, and what is told beside that.
TYPED = [
    ("township,T3N R2W", ["township,1"], []),
    ("party,ADAMS", ["party,1"], []),
    ("1,begin", ["1,began"], []),
    ("", [], []),
    ("help", ["fault,31,4"], HELP.split("\n")),
    (f"1,deed,1,UNITED STATES,BELL,S,W1/2,,{QUARTER}", ["fault,34,5"],
     ['row 5: no party named "BELL" is declared above or in the plant']),
    ("party,BELL", ["party,2"], []),
    (f"1,deed,1,UNITED STATES,BELL,SX,W1/2,,{QUARTER}", ["fault,31,7"],
     ['row 7: ESTATES is "SX"; it must be one of S, O, M, SO, SM, OM, SOM']),
    (f"1,deed,1,UNITED STATES,BELL,S,W1/2,,{QUARTER}", ["1,posted"], []),
    ("township,T4N R2W", ["fault,35,9"],
     ["row 9: townships are declared before the first step; where transactions stand in the plant's file a script declares them, "
      "by titleplant run --plant"]),
    (f"1,sheet,{QUARTER}SE1/4", ["1,sheet,3", *SHEET], []),
    ("2,begin", ["2,began"], []),
    (f"2,chain,{QUARTER}", ["2,conflict,1"], []),
    ("1,commit", ["1,committed,1"], []),
    ("2,commit", ["2,committed,2"], []),
]
# The same at a desk that looks, on what that has left.
ONLY_LOOKS = "with --look nothing is kept: a row begins, asks for a sheet or a chain, or aborts"
LOOKED = [
    ("help", ["fault,31,1"], ["row 1: the rows at a desk with --look are", "  E,begin", "  E,sheet,TEXT", "  E,chain,TEXT", "  E,abort",
                              *HELP.split("\n")[-2:]]),
    ("1,begin", ["1,began"], []),
    ("1,commit", ["fault,31,3"], [f"row 3: {ONLY_LOOKS}"]),
    ("party,CLARK", ["fault,31,4"], [f"row 4: {ONLY_LOOKS}"]),
    (f"1,chain,{QUARTER}", ["1,chain,1", "1,entry,1,1,deed,UNITED STATES,BELL,S"], []),
    ("1,abort", ["1,aborted"], []),
]


class Screen:
    """A terminal whose other end is here."""

    def __init__(self):
        self.here, self.there = pty.openpty()
        self.shown = ""

    def until(self, text, seconds=10.0):
        """Reads until a text is shown behind what was shown; what is shown new."""
        until, begin = time.monotonic() + seconds, len(self.shown)
        while text not in self.shown[begin:]:
            left = until - time.monotonic()
            if left <= 0 or not select.select([self.here], [], [], left)[0]:
                break
            try:
                self.shown += os.read(self.here, 65_536).decode().replace("\r\n", "\n")
            except OSError:
                break
        return self.shown[begin:]

    def type(self, text):
        os.write(self.here, text.encode())

    def close(self):
        os.close(self.here)
        os.close(self.there)


def typed(trial, words, rows, is_all, last):
    """Rows that are typed, all three streams at a terminal or standard output elsewhere."""
    screen = Screen()
    with tempfile.TemporaryFile() as output:
        child = subprocess.Popen(words, stdin=screen.there, stdout=screen.there if is_all else output, stderr=screen.there, env={})
        for text, answers, told in rows:
            screen.type(text + "\n")
            wanted = "".join(line + "\n" for line in [text, *(answers if is_all else []), *told])
            shown = screen.until(wanted, 2.0)
            if shown != wanted:
                trial.fail(f"terminal: {text}", shown, wanted)
            trial.counts["rows typed"] += 1
        screen.type("\x04")
        status = child.wait(10)
        output.seek(0)
        said = output.read().decode()
    answered = "".join(line + "\n" for _, answers, _ in rows for line in [*answers]) + last
    if status != 0 or not is_all and said != answered:
        trial.fail("terminal: the end", status, said, answered)
    if is_all and not screen.until(last).endswith(last):
        trial.fail("terminal: the last row", screen.shown[-200:])
    screen.close()


def terminal(trial):
    """At a terminal, and in tmux; and a desk that looks."""
    words = [trial.program, "desk", "--plant", str(trial.path)]
    for is_all in (True, False):
        trial.clear()
        typed(trial, words, TYPED, is_all, "end,7\n")
        typed(trial, [*words, "--look"], LOOKED, is_all, "end,3\n")
    if shutil.which("tmux"):
        in_tmux(trial, words)


def in_tmux(trial, words):
    """The same in a window of tmux: its text is what a person sees."""
    trial.clear()
    tmux = ["tmux", "-L", f"desks-{os.getpid()}", "-f", "/dev/null"]
    command = shlex.join(words) + "; echo status $?; sleep 600"
    subprocess.run([*tmux, "new-session", "-d", "-x", "200", "-y", "200", command], check=True)

    def shown():
        said = subprocess.run([*tmux, "capture-pane", "-p"], stdout=subprocess.PIPE, encoding="utf-8", check=True).stdout
        return [line for line in said.splitlines() if line]

    try:
        wanted = []
        for keys, answers, told in [*(it for it in TYPED if it[0]), (None, ["end,7", "status 0"], [])]:
            subprocess.run([*tmux, "send-keys", *(["-l", keys] if keys else ["C-d"])], check=True)
            if keys:
                subprocess.run([*tmux, "send-keys", "Enter"], check=True)
            wanted += [*([keys] if keys else []), *answers, *told]
            until = time.monotonic() + 5
            while shown() != wanted and time.monotonic() < until:
                time.sleep(0.01)
            if shown() != wanted:
                trial.fail(f"tmux: {keys}", shown(), wanted)
                break
            trial.counts["rows typed in tmux"] += 1
    finally:
        subprocess.run([*tmux, "kill-server"], check=False)


# ---- speed

LONE = 1_000_000


def lone_rows(first, count):
    """Deeds, each in a transaction of its own: pieces go round among their owners."""
    owners, rows = [FIRST, "ADAMS", "BELL"], []
    for number in range(first, first + count):
        turn, place = divmod(number, 20 * PIECES_OF_ONE)
        giver, taker = owners[turn % 3], owners[(turn + 1) % 3]
        rows.append(f"1,begin\n1,deed,{number + 1},{giver},{taker},SOM,W1/1,,{piece(place)}\n1,commit\n")
    return "".join(rows).encode()


def lone_answers(first, count):
    return "".join(f"1,began\n1,posted\n1,committed,{number + 1}\n" for number in range(first, first + count)).encode()


DECLARED = "".join(row("township", name) for name in TOWNSHIPS[:20]) + "party,ADAMS\nparty,BELL\n"
TOLD = "".join(f"township,{number}\n" for number in range(1, 21)) + "party,1\nparty,2\n"


def figure(trial, what, value, wanted, is_least):
    print(f"  {what}: {value:,.{0 if value >= 100 else 2}f}, and {'at least' if is_least else 'at most'} {wanted:,} wanted", flush=True)
    if (value < wanted) if is_least else (value > wanted):
        trial.fail(f"speed: {what}", value, wanted)


def sent_ahead(trial):
    """A million lone posts that are sent ahead: how many a second, and what each takes."""
    trial.clear()
    desk = desk_of(trial)
    desk.exchange(DECLARED.encode(), len(TOLD))
    before, said, seconds = desk.most_bytes(), bytearray(desk.said), 0.0
    for first in range(0, LONE, 50_000):
        rows, due = lone_rows(first, 50_000), lone_answers(first, 50_000)
        desk.said.clear()
        start = time.perf_counter()
        desk.exchange(rows, len(due))
        seconds += time.perf_counter() - start
        if desk.said != due:
            differs(trial, f"speed: lone posts from {first}", desk.said, due)
            break
    after = desk.most_bytes()
    desk.end()
    if said != TOLD.encode() or not trial.numbers("speed: lone posts"):
        trial.fail("speed: lone posts", bytes(said))
    figure(trial, "lone posts a second, sent ahead", LONE / seconds, 40_000, True)
    figure(trial, "bytes a lone post", (after - before) / LONE, 300, False)


def waiting(trial):
    """A client that waits for each answer, on one processor with the desk."""
    trial.clear()
    allowed, count = os.sched_getaffinity(0), 0
    os.sched_setaffinity(0, {min(allowed)})
    try:
        desk = desk_of(trial)
        desk.exchange(DECLARED.encode(), len(TOLD))
        os.set_blocking(desk.into, True)
        rows, due = lone_rows(0, 20_000).splitlines(keepends=True), lone_answers(0, 20_000).splitlines(keepends=True)
        into, out, start = desk.into, desk.out, time.perf_counter()
        for sent, wanted in zip(rows, due):
            os.write(into, sent)
            if os.read(out, 4096) != wanted:
                trial.fail("speed: a client that waits", sent, wanted)
                break
            count += 1
        seconds = time.perf_counter() - start
        desk.end()
    finally:
        os.sched_setaffinity(0, allowed)
    figure(trial, "rows a second of a client that waits", count / seconds, 15_000, True)


def first_answers(trial):
    """The first answer of a desk that has opened a plant of 10,000 posts: the time from its row on."""
    trial.clear()
    desk = desk_of(trial)
    desk.exchange(DECLARED.encode() + lone_rows(0, 10_000), len(TOLD) + len(lone_answers(0, 10_000)))
    desk.end()
    took = []
    for number in range(50):
        desk = desk_of(trial)
        desk.waits()
        sent, due = ((b"1,begin\n", b"1,began\n"), (b"party,CLARK %d\n" % number, b"party,%d\n" % (3 + number // 2)))[number % 2]
        start = time.perf_counter()
        desk.exchange(sent, len(due))
        took.append(time.perf_counter() - start)
        if desk.said != due:
            differs(trial, "speed: the first answer", desk.said, due)
        desk.end()
    took.sort()
    figure(trial, "milliseconds to the first answer, half of them below", 1000 * took[len(took) // 2], 2, False)
    figure(trial, "milliseconds to the first answer, the longest", 1000 * took[-1], 2, False)


def speed(trial):
    if trial.options.fast:
        trial.path = pathlib.Path(trial.options.fast) / f"desks-{os.getpid()}" / "plant"
        trial.path.parent.mkdir()
    try:
        for part in (first_answers, waiting, sent_ahead):
            part(trial)
    finally:
        if trial.options.fast:
            shutil.rmtree(trial.path.parent)


TRIALS = {"fifty": fifty, "examiners": examiners, "kills": kills, "client": client, "closed": closed, "flood": flood,
          "terminal": terminal, "speed": speed}


def main():
    parser = parser_of(__doc__)
    parser.add_argument("--fast", default="/dev/shm", help="where those of `speed` lie, a folder in memory (default /dev/shm)")
    sys.exit(carry_out(TRIALS, parser.parse_args()))


if __name__ == "__main__":
    main()
