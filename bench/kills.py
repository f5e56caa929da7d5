#!/usr/bin/env python3
"""Kills the built program at random moments of days on a plant's file, and lets several have one file at once.

    kills.py [--program PROGRAM] [--count N] [--seed N] [--folder FOLDER] [TRIAL..]

kills     N times (1,000 where nothing is said) a day of plant_days.py is served and killed by signal 9 at a random moment. What stands
          then is what stood before, or that and all of the day, and where a byte of the report came, that: by another reader of the file
          and by `check`. Where it stood before, the day is served again, with `--after`, and may be killed again; else the next day is.
          A tail that the file has no more is kept beside it, behind those of before
second    one that reads its script has the file: a second is told so, and changes nothing; the first is killed, and the next is served
crowd     sixteen at once on a file that isn't there, each with one transaction: as many stand as were told of theirs, and the others were
          told that the file is in use
looks     sixteen looks at once beside scripts that post: each sees what stands or is told that the file is in use, no script is served
          while a look is at the file, and a look changes no byte and no name, also where bytes at its end don't count; a desk that
          looks passes over what would post
offices   N/10 times a script of an office of eight is killed at a random moment: what stands is what stood before, or that and all that it
          asks for, each examiner's transactions in their order, and where a byte of the report came, that; a report that came whole tells
          what a look tells then

With no trial named, all of them. What is wrong is named, and the status is 1 then.
"""

import argparse
import collections
import os
import pathlib
import random
import signal
import subprocess
import sys
import tempfile
import time

from crashes import BESIDE, all_days, kept_with, loose_in, told_cut
from endings import BUILT
from plant_days import HEAD, Fault, read_plant, row, tail_of


class Trial:
    """What was tried, and what was wrong."""

    def __init__(self, options, folder):
        self.options, self.program = options, str(options.program)
        self.path, self.chance = folder / "plant", random.Random(options.seed)
        self.count, self.counts, self.wrong = options.count, collections.Counter(), []

    def fail(self, what, *seen):
        self.counts["wrong"] += 1
        if len(self.wrong) < 20:
            self.wrong.append(f"{what}: " + ", ".join(repr(it)[:300] for it in seen))

    def begin(self, words, script=subprocess.PIPE):
        return subprocess.Popen([self.program, *words], stdin=script, stdout=subprocess.PIPE, stderr=subprocess.PIPE, env={})

    def run(self, words, script=b""):
        """One run: status, output and errors."""
        child = self.begin(words)
        output, errors = child.communicate(script)
        return child.returncode, output, errors

    def content(self):
        return self.path.read_bytes() if self.path.exists() else HEAD + b"-"

    def beside(self):
        path = self.path.parent / BESIDE
        return path.read_bytes() if path.exists() else b""

    def clear(self):
        for path in self.path.parent.iterdir():
            path.unlink()

    def numbers(self, where):
        """What stands, by another reader and by `check`; None where they differ."""
        content = self.content()
        try:
            found, gate = read_plant(content)
        except Fault as fault:
            self.fail(f"{where}: no plant, row {fault}", content[-200:])
            return None
        wanted = found.numbers() + b"tail,%d\n" % tail_of(content, gate)
        self.counts["torn"] += content[gate:] != b"-"
        if self.path.exists():
            status, output, errors = self.run(["check", str(self.path)])
            if (status, output, errors) != (0, wanted, b""):
                self.fail(f"{where}: check", status, output, errors, wanted)
                return None
        return found.numbers()


def killed(trial, script, words, seconds):
    """A run that is killed at a random moment: what it wrote, also on the errors, and whether it had ended."""
    with open(script, "rb") as source:
        child = trial.begin(words, source)
    delay = trial.chance.uniform(0, seconds)
    until = time.perf_counter() + delay
    while time.perf_counter() < until:
        pass
    child.send_signal(signal.SIGKILL)
    output, errors = child.communicate()
    return output, errors, child.returncode


def kills(trial):
    days, script = all_days(), trial.path.parent.parent / "script"
    trial.clear()
    # How long a day takes.
    took = {}
    for day in days:
        start = time.perf_counter()
        status, output, errors = trial.run([day.command, "--plant", str(trial.path)], day.script)
        took[day.name] = time.perf_counter() - start
        if status != 0 or output != day.report or trial.content() != day.after:
            return trial.fail(f"{day.name}: the day", status, output, errors)
    trial.clear()
    place = 0
    for number in range(trial.count):
        day = days[place]
        script.write_bytes(day.script)
        words = [day.command, "--plant", str(trial.path), "--after", str(day.last)]
        began, beside, tail = trial.content(), trial.beside(), loose_in(trial.content())
        output, errors, status = killed(trial, script, words, took[day.name] * 1.3)
        trial.counts["killed" if status == -9 else "ended before"] += 1
        trial.counts["with a byte of the report"] += bool(output)
        where = f"kill {number}, {day.name}"
        found = trial.numbers(where)
        content, kept, wanted = trial.content(), trial.beside(), kept_with(beside, tail)
        is_lost = not content.startswith(began)
        is_part = kept.startswith(beside) and (beside + tail).startswith(kept)
        if kept != wanted and (is_lost or not is_part) or status == 0 and told_cut(errors) != (len(tail), bool(tail), b""):
            trial.fail(f"{where}: what is kept", errors, kept[-200:], beside[-200:], tail)
        trial.counts["tails cut off"] += bool(tail) and is_lost
        is_after = found == day.standing and content.startswith(day.after[:-1])
        is_before = found == day.was and content.startswith(day.before[:-1])
        if status == 0 and output != day.report or output and not day.report.startswith(output):
            trial.fail(f"{where}: the report", status, output)
        if not is_after and (output or not is_before):
            trial.fail(f"{where}: neither before nor after, or told and not there", found, output, content[-200:])
            trial.clear()
            place = 0
            continue
        trial.counts["after" if is_after else "before"] += 1
        if is_after:
            place += 1
        if place == len(days):
            place = 0
            trial.clear()
    return None


def is_locked_by(process):
    """Waits until a process has locked a file."""
    for _ in range(10_000):
        rows = pathlib.Path("/proc/locks").read_text(encoding="utf-8").splitlines()
        if any(row.split()[1] == "FLOCK" and row.split()[4] == str(process) for row in rows):
            return True
        time.sleep(0.001)
    return False


def second(trial):
    """A second run on a file that one has."""
    day, later = all_days()[:2]
    for number in range(20):
        # A new file is there, which none has to make under another name first.
        trial.clear()
        trial.path.write_bytes(HEAD + b"-")
        words = [day.command, "--plant", str(trial.path)]
        first = trial.begin(words)
        first.stdin.write(day.script[:100])
        first.stdin.flush()
        if not is_locked_by(first.pid):
            trial.fail(f"second {number}: the first doesn't begin")
        status, output, errors = trial.run(words, day.script)
        if (status, output, errors.count(b"\n")) != (1, b"fault,37\n", 1):
            trial.fail(f"second {number}", status, output, errors)
        if trial.content() != HEAD + b"-":
            trial.fail(f"second {number}: the file", trial.content())
        if number % 2:
            first.kill()
            first.communicate()
            status, output, _ = trial.run(words, day.script)
        else:
            output, _ = first.communicate(day.script[100:])
            status = first.returncode
        if status != 0 or output != day.report or trial.content() != day.after:
            trial.fail(f"second {number}: the next", status, output)
        status, output, _ = trial.run([later.command, "--plant", str(trial.path)], later.script)
        if status != 0 or output != later.report or trial.content() != later.after:
            trial.fail(f"second {number}: the day after", status, output)
        trial.counts["seconds"] += 1


def crowd(trial):
    """Several runs at once, on a file that isn't there."""
    script = trial.path.parent.parent / "script"
    script.write_bytes(b"1,begin\n1,commit\n")
    for number in range(50):
        trial.clear()
        children = []
        for _ in range(16):
            with open(script, "rb") as source:
                children.append(trial.begin(["alone", "--plant", str(trial.path)], source))
        served = 0
        for child in children:
            output, errors = child.communicate()
            if child.returncode == 0 and output.startswith(b"1,began\n1,committed,"):
                served += 1
            elif (child.returncode, output) != (1, b"fault,37\n"):
                trial.fail(f"crowd {number}", child.returncode, output, errors)
        found = trial.numbers(f"crowd {number}")
        wanted = b"townships,0\nparties,1\ntransactions,%d\nposts,0\n" % served
        if found != wanted or served == 0 or len(list(trial.path.parent.iterdir())) != 1:
            trial.fail(f"crowd {number}: what stands", found, wanted, sorted(os.listdir(trial.path.parent)))
        trial.counts["served"] += served
        trial.counts["told that it is in use"] += len(children) - served


def deeds(examiner, section, numbers):
    """Transactions of an examiner: a section is granted, and quarters of it are sold by and by."""
    land, made = f"T3N R2W sec {section}", []
    for number in numbers:
        first = [number, "UNITED STATES", f"P{examiner}", "SOM", "W1/1", "", land]
        sales = [[number, f"P{examiner}", "LAST", "S", "I1/4", "", f"{land} {quarter}1/4"] for quarter in ("NE", "SW")]
        rows = [first, *sales] if number == numbers[0] else sales
        made.append(row(examiner, "begin") + "".join(row(examiner, "deed", *it) for it in rows) + row(examiner, "commit"))
    return made


OFFICE = 8
DECLARED = "township,T3N R2W\nparty,LAST\n" + "".join(f"party,P{examiner}\n" for examiner in range(1, OFFICE + 1))


def look_at_all(trial):
    """What a look tells of all land."""
    return trial.run(["alone", "--plant", str(trial.path), "--look"], b"1,sheet,everything\n")


def looks(trial):
    """Looks beside each other, and beside scripts that post."""
    script = trial.path.parent.parent / "script"
    script.write_bytes(b"1,sheet,everything\n1,chain,everything\n")
    trial.run(["run", "--plant", str(trial.path)], (DECLARED + "".join(deeds(1, 1, range(1, 2)))).encode())
    for number in range(50):
        if number % 2:
            with open(trial.path, "ab") as file:
                file.write(b"\nparty,")
        before, names = trial.content(), sorted(os.listdir(trial.path.parent))
        words = ["alone", "--plant", str(trial.path), "--look"]
        # One that reads its script has the file: others look, and nobody posts.
        first = trial.begin(words)
        if not is_locked_by(first.pid):
            trial.fail(f"looks {number}: the first doesn't begin")
        children = []
        for _ in range(16):
            with open(script, "rb") as source:
                children.append(trial.begin(words, source))
        seen = {(child.communicate()[0], child.returncode) for child in children}
        if len(seen) != 1 or not min(seen)[0].startswith(b"1,sheet,") or min(seen)[1] != 0:
            trial.fail(f"looks {number}: those beside it", seen)
        post = "".join(deeds(2, 2 + number % 35, [number + 2])).encode()
        status, output, _ = trial.run(["run", "--plant", str(trial.path)], post)
        if (status, output) != (1, b"fault,37\n"):
            trial.fail(f"looks {number}: a script beside a look", status, output)
        output, _ = first.communicate(script.read_bytes())
        if {(output, first.returncode)} != seen:
            trial.fail(f"looks {number}: the first", output, seen)
        # A desk that looks passes over what would post, and goes on.
        rows = f"1,begin\n{post.decode()}party,NEW\n1,chain,T3N R2W sec 1\n1,commit\n1,abort\n".encode()
        status, output, _ = trial.run(["desk", "--plant", str(trial.path), "--look"], rows)
        fields = [line.split(",") for line in output.decode().splitlines()]
        passed = [f"fault,31,{place}".split(",") for place in (3, 4, 5, 6, 7, 9)]
        told = [["1", "began"], ["2", "began"], *passed[:-1], ["1", "chain", "3"], passed[-1], ["1", "aborted"]]
        if status != 0 or [it for it in fields if it[1] != "entry"][:-1] != told or fields[-1] != ["end", "4"]:
            trial.fail(f"looks {number}: a desk that looks", status, output)
        if trial.content() != before or sorted(os.listdir(trial.path.parent)) != names:
            trial.fail(f"looks {number}: the file is another", trial.content()[-200:], before[-200:])
        trial.counts["looks"] += 17
        # One that posts has the file: nobody looks.
        writer = trial.begin(["run", "--plant", str(trial.path)])
        if not is_locked_by(writer.pid):
            trial.fail(f"looks {number}: the script doesn't begin")
        status, output, _ = look_at_all(trial)
        if (status, output) != (1, b"fault,37\n"):
            trial.fail(f"looks {number}: a look beside a script", status, output)
        writer.communicate(post)
        if writer.returncode != 0:
            trial.fail(f"looks {number}: the script", writer.returncode)
        trial.counts["told that it is in use"] += 2


def by_examiner(transactions):
    """The posts of each examiner's transactions, in their order."""
    found = collections.defaultdict(list)
    for examiner, posts in transactions:
        found[examiner].append(posts)
    return found


def offices(trial):
    """Offices that are killed."""
    took, place, stood, document = None, 0, 0, 0
    for number in range(trial.count // 10):
        if place == 0:
            trial.clear()
            stood, document = 0, 0
        sections = {examiner: 1 + (examiner - 1) * 4 + place for examiner in range(1, OFFICE + 1)}
        per = [deeds(examiner, section, range(document + 1, document + 6)) for examiner, section in sections.items()]
        script = (DECLARED if place == 0 else "") + "".join("".join(it) for it in zip(*per))
        wanted = by_examiner((fields[0][0], fields[1:-1]) for it in per for text in it
                             for fields in [[line.split(",") for line in text.splitlines()]])
        words = ["office", "--plant", str(trial.path), "--examiners", str(OFFICE), "--after", str(stood)]
        _, gate = read_plant(trial.content())
        before = trial.content()[:gate]
        source = trial.path.parent.parent / "script"
        source.write_bytes(script.encode())
        if took is None:
            start = time.perf_counter()
            trial.run(words, script.encode())
            took = time.perf_counter() - start
            trial.clear()
        output, errors, status = killed(trial, source, words, took * 1.3)
        trial.counts["killed" if status == -9 else "ended before"] += 1
        trial.counts["with a byte of the report"] += bool(output)
        where = f"office {number}"
        if trial.numbers(where) is None:
            return None
        found, _ = read_plant(trial.content())
        news = by_examiner(found.transactions[stood:])
        is_after = news == wanted
        if not is_after and (output or news or not trial.content().startswith(before)):
            return trial.fail(f"{where}: neither before nor after, or told and not there", news, output[:200], trial.content()[-200:])
        trial.counts["after" if is_after else "before"] += 1
        if status == 0:
            rows = output.decode().splitlines()
            tallies = [f"{examiner},done,5,0,0" for examiner in range(1, OFFICE + 1)] + [f"settled,{5 * OFFICE}"]
            _, seen, _ = look_at_all(trial)
            sheet = [line.replace("1,", "0,", 1) for line in seen.decode().splitlines()[:-1]]
            if rows[:OFFICE + 1] != tallies or rows[OFFICE + 1:-1] != sheet or rows[-1] != f"end,{21 * OFFICE}":
                trial.fail(f"{where}: the report", rows[:12], rows[-1], sheet[:3])
        if is_after:
            stood, document, place = len(found.transactions), document + 5, (place + 1) % 4
    return None


TRIALS = {"kills": kills, "second": second, "crowd": crowd, "looks": looks, "offices": offices}


def parser_of(words):
    """A parser of what a program with such trials is told."""
    parser = argparse.ArgumentParser(description=words, formatter_class=argparse.RawDescriptionHelpFormatter)
    parser.add_argument("--program", type=pathlib.Path, default=BUILT)
    parser.add_argument("--count", type=int, default=1000)
    parser.add_argument("--seed", type=int, default=1)
    parser.add_argument("--folder", help="where the plants lie; a folder of the disk, else a temporary one")
    parser.add_argument("trials", nargs="*", metavar="TRIAL")
    return parser


def carry_out(trials, options):
    """The trials that are asked for, one after another, each with a folder of its own; the status."""
    options.program = options.program.resolve()
    wrong = 0
    for name in options.trials or trials:
        start = time.monotonic()
        with tempfile.TemporaryDirectory(prefix="plants-", dir=options.folder) as top:
            folder = pathlib.Path(top) / "plants"
            folder.mkdir()
            trial = Trial(options, folder)
            trials[name](trial)
        words = ", ".join(f"{count} {what}" for what, count in sorted(trial.counts.items()))
        print(f"{name}: {words}; {trial.counts['wrong']} wrong; {time.monotonic() - start:.0f} s", flush=True)
        for line in trial.wrong:
            print(f"  WRONG {line}")
        wrong += trial.counts["wrong"]
    return 1 if wrong else 0


def main():
    sys.exit(carry_out(TRIALS, parser_of(__doc__).parse_args()))


if __name__ == "__main__":
    main()
