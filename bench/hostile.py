#!/usr/bin/env python3
"""Tries the built program titleplant on bad devices and on scripts that are cut or spoilt, and judges how each run ends.

    hostile.py [--program PROGRAM] [--count N] [--seed N] [--jobs N] [TRIAL..]

devices   input closed, a directory, endless, byte by byte; output closed, full, a file or a pipe that takes k bytes and no more;
          errors closed and full; words that are no text; terminals
bytes     a small script with each of the 256 bytes in place of each of its bytes
cuts      every beginning of each script of examples/, and of small scripts of some kinds of generate.py
mutated   N scripts (100,000 where nothing is said) with bits turned, rows exchanged, fields left out, quotes unbalanced and the like
tracts    N descriptions, good and bad: each node's text that is told is read again, and gives that node alone
shapes    scripts of 1 to 16 megabytes that are nothing but quotes, commas, line ends or the like: the time is linear in the bytes
memory    scripts of each command under a limit of the memory that rises until the report is whole: before that it is `fault,6`

With no trial named, all of them. Each run has to end with status 0 and a report whose last row is `end,K`, or with status 1 and one
line of a fault that docs/FORMATS.md lists for the command; never by a signal, and with at most one line on standard error (`tract`
shows a text with its fault: three). Where an output device takes no more, the status is 1 and what it took is the report's beginning.
The processor's time of a run may be 0.1 s, and 50 microseconds for each byte that it reads and writes (2 milliseconds in `office`, whose
threads begin transactions again and again). What is wrong is named, and the status is 1 then. The same seed gives the same scripts;
--show K writes the Kth of the mutated ones to standard output.
"""

import argparse
import collections
import fcntl
import itertools
import multiprocessing
import os
import pathlib
import random
import re
import resource
import subprocess
import sys
import termios
import threading
import time
import tty

from endings import BUILT, TOP, Ending, Runner, complaint, fault_in, lines, steps_told

EXAMPLES = TOP / "examples"
OFFICE = ["office", "--examiners", "2", "--tries", "100"]
WORDS = {"run": ["run"], "alone": ["alone"], "office": OFFICE}
UNWRITTEN = b"error: the report can't be written\n"

# What the runs of a trial came to: how often each, what was wrong, and the most processor seconds of one.
Found = collections.namedtuple("Found", "counts wrong most")


def found():
    return Found(collections.Counter(), [], [0.0])


def command_of(path):
    """The command of an example."""
    return "office" if "office" in path.name else "run" if "examiners" in path.name else "alone"


def examples():
    """The command and the bytes of each example, by name."""
    paths = sorted(path for path in EXAMPLES.glob("*.csv") if not path.name.endswith(".report.csv"))
    return {path.name: (command_of(path), path.read_bytes()) for path in paths}


def generated(kind, rows, seed=1):
    words = [sys.executable, str(TOP / "bench" / "generate.py"), "--kind", kind, "--rows", str(rows), "--seed", str(seed)]
    return subprocess.run([*words, "--townships", "2", "--parties", "4", "--examiners", "2"], stdout=subprocess.PIPE, check=True).stdout


def small():
    """Small scripts of some kinds of generate.py, with their commands."""
    kinds = {"deeds": "alone", "chains": "alone", "plats": "alone", "interleaved": "run", "short": "run", "refused": "run",
             "own": "office", "shared": "office"}
    return {kind: (command, generated(kind, 46)) for kind, command in kinds.items()}


def bound(ending, command, script):
    """The most seconds of the processor."""
    return 0.1 + (2e-3 if command == "office" else 5e-5) * (len(script) + len(ending.output))


def judge(ending, command, script, name, into):
    """Counts an ending, and notes what is wrong with it."""
    wrong = complaint(ending, command)
    if wrong is None and ending.processor > bound(ending, command, script):
        wrong = f"took {ending.processor:.2f} s of the processor for {len(script)} bytes"
    number = fault_in(ending.output, command)
    into.counts["wrong" if wrong else "report" if ending.status == 0 else f"fault {number}"] += 1
    into.most[0] = max(into.most[0], ending.processor)
    if wrong:
        into.wrong.append(f"{name}: {wrong}; output {ending.output[:60]!r}, errors {ending.errors[:100]!r}")


def tell(trial, into, start):
    told = ", ".join(f"{number} {ending}" for ending, number in sorted(into.counts.items()))
    runs, seconds = sum(into.counts.values()), time.monotonic() - start
    most = f"at most {into.most[0]:.2f} s of the processor"
    print(f"{trial}: {runs} runs: {told}; {len(into.wrong)} wrong; {most}; {seconds:.0f} s", flush=True)
    for wrong in into.wrong[:20]:
        print(f"  WRONG {wrong}", flush=True)


def gather(some, tasks, jobs):
    """What some tasks find, side by side."""
    if jobs == 1:
        parts = [some(task) for task in tasks]
    else:
        with multiprocessing.Pool(jobs) as pool:
            parts = pool.map(some, tasks, 1)
    whole = found()
    for part in parts:
        whole.counts.update(part.counts)
        whole.wrong.extend(part.wrong)
        whole.most[0] = max(whole.most[0], part.most[0])
    return whole


# Devices.


def expect(into, name, ending, status, output, most_lines=1):
    """Notes where an ending isn't this status with this output."""
    outputs = output if isinstance(output, tuple) else (output,)
    is_right = ending.status == status and ending.output in outputs and lines(ending.errors) <= most_lines
    into.counts["as wanted" if is_right else "wrong"] += 1
    into.most[0] = max(into.most[0], ending.processor)
    if not is_right:
        into.wrong.append(f"{name}: status {ending.status}, output {ending.output[:80]!r}, errors {ending.errors[:120]!r}")


def read_end(file, most=None):
    """All that comes out of a pipe or a terminal, or its first bytes."""
    taken = bytearray()
    while most is None or len(taken) < most:
        try:
            some = os.read(file, 65536 if most is None else most - len(taken))
        except OSError:
            break
        if not some:
            break
        taken += some
    return bytes(taken)


def bad_inputs(runner, into):
    """Inputs that can't be read, that are too long, and that come in small pieces."""
    script = (EXAMPLES / "first_run.csv").read_bytes()
    for command, words in WORDS.items():
        expect(into, f"{command}, input closed", runner.run(words, source=-1), 1, b"fault,32\n")
        for path, output in (("/", b"fault,32\n"), ("/dev/zero", b"fault,32\n"), ("/dev/urandom", None), ("/dev/null", None)):
            file = os.open(path, os.O_RDONLY)
            ending = runner.run(words, source=file)
            os.close(file)
            if output:
                expect(into, f"{command}, input {path}", ending, 1, output)
            elif path == "/dev/null" and command != "office":
                expect(into, f"{command}, input {path}", ending, 0, b"end,0\n", 0)
            else:
                judge(ending._replace(processor=0), command, b"", f"{command}, input {path}", into)
        written = os.open("/dev/null", os.O_WRONLY)
        expect(into, f"{command}, input open for writing alone", runner.run(words, source=written), 1, b"fault,32\n")
        os.close(written)
        waiting, kept = os.pipe()
        os.set_blocking(waiting, False)
        expect(into, f"{command}, input that has nothing yet and won't wait", runner.run(words, source=waiting), 1, b"fault,32\n")
        os.close(waiting)
        os.close(kept)
    reader, writer = os.pipe()
    child = runner.begin(["alone"], source=reader)
    for byte in script:
        os.write(writer, bytes([byte]))
        time.sleep(0.001)
    os.close(writer)
    status, _ = runner.wait(child)
    os.close(reader)
    report = (EXAMPLES / "first_run.report.csv").read_bytes()
    output, errors = os.pread(runner.output, 1 << 20, 0), os.pread(runner.errors, 1 << 20, 0)
    expect(into, "alone, input byte by byte", Ending(status, output, errors, 0, 0, 0), 0, report, 0)


def bad_outputs(runner, into):
    """Outputs that are closed or full from the beginning, and errors that are."""
    full = os.open("/dev/full", os.O_WRONLY)
    unread, unwritten = os.pipe()
    os.close(unread)
    outputs = {"closed": -1, "full": full, "a pipe that nobody reads": unwritten}
    runs = {name: (WORDS[command], script) for name, (command, script) in examples().items()}
    runs["tract"] = (["tract", "T3N R2W sec 5"], b"")
    runs["a bad tract"] = (["tract", "T3N R2W sec 5 NX1/4"], b"")
    runs["a script at fault"] = (["alone"], b"1,grant\n")
    runs["help"] = (["--help"], b"")
    for (name, (words, script)), (how, file) in itertools.product(runs.items(), outputs.items()):
        runner.feed(script)
        whole, alone = runner.run(words), runner.run(words, errors=file)
        ending = runner.run(words, output=file)
        expect(into, f"{name}, output {how}", ending, 1, b"", 1)
        if ending.errors != UNWRITTEN:
            into.wrong.append(f"{name}, output {how}: errors {ending.errors!r}")
        both = runner.run(words, output=file, errors=file)
        expect(into, f"{name}, output and errors {how}", both, 1, b"", 0)
        expect(into, f"{name}, errors {how}", alone, whole.status, whole.output, 0)
    runner.feed(b"")
    for word in ("run", "nonsense"):
        expect(into, f"{word}, all closed", runner.run([word], source=-1, output=-1, errors=-1), 1 if word == "run" else 2, b"", 0)
    os.close(full)
    os.close(unwritten)


def bad_words(runner, into):
    """Words that are no text: bytes that aren't UTF-8, alone and within a word."""
    for words in (["\udcff"], ["tract", "T3N R2W sec 5 NE\udcbc"], ["alone", "--plant=\udcc3"], ["office", "--examiners", "2\udc80"]):
        expect(into, f"words {words!a}", runner.run(words), 2, b"", 9)


def short_files(runner, into):
    """Files that take k bytes and no more, for each k below the report's length."""
    plain = resource.getrlimit(resource.RLIMIT_FSIZE)
    for name, (command, script) in examples().items():
        runner.feed(script)
        whole = runner.run(WORDS[command])
        for taken in range(len(whole.output)):
            errors, told = os.pipe()
            resource.setrlimit(resource.RLIMIT_FSIZE, (taken, plain[1]))
            try:
                ending = runner.run(WORDS[command], errors=told)
            finally:
                resource.setrlimit(resource.RLIMIT_FSIZE, plain)
            os.close(told)
            ending = ending._replace(errors=read_end(errors))
            os.close(errors)
            expect(into, f"{name}, a file that takes {taken} bytes", ending, 1, whole.output[:taken])
            if ending.errors != UNWRITTEN:
                into.wrong.append(f"{name}, a file that takes {taken} bytes: errors {ending.errors!r}")


def short_pipes(runner, into):
    """Pipes that are closed once k bytes were read, under a report that is longer than a pipe holds."""
    script = generated("plats", 400)
    runner.feed(script)
    whole = runner.run(["alone"])
    if len(whole.output) < 100_000:
        into.wrong.append("the report for the pipes is too short")
    for taken in [*range(0, 200), *range(200, len(whole.output) - 70_000, 9973)]:
        reader, writer = os.pipe()
        fcntl.fcntl(writer, fcntl.F_SETPIPE_SZ, 4096)
        child = runner.begin(["alone"], output=writer)
        os.close(writer)
        read = read_end(reader, taken)
        os.close(reader)
        status, _ = runner.wait(child)
        errors = os.pread(runner.errors, 1 << 20, 0)
        expect(into, f"a pipe closed after {taken} bytes", Ending(status, read, errors, 0, 0, 0), 1, whole.output[:taken])


def terminal():
    """A pseudo terminal that doesn't echo and changes no byte that is written: its two ends."""
    outer, inner = os.openpty()
    settings = termios.tcgetattr(inner)
    settings[tty.OFLAG] &= ~termios.OPOST
    settings[tty.LFLAG] &= ~termios.ECHO
    termios.tcsetattr(inner, termios.TCSANOW, settings)
    return outer, inner


def at_terminals(runner, words, script):
    """A run whose input, output and errors are three terminals."""
    ends = [terminal() for _ in range(3)]
    taken = [b"", b""]

    def take(place):
        taken[place] = read_end(ends[place + 1][0])

    threads = [threading.Thread(target=take, args=(place,)) for place in (0, 1)]
    child = runner.begin(words, *(inner for _, inner in ends))
    for thread in threads:
        thread.start()
    for row in script.splitlines(keepends=True):
        os.write(ends[0][0], row)
    os.write(ends[0][0], b"\x04")
    status, usage = runner.wait(child)
    for _, inner in ends:
        os.close(inner)
    for thread in threads:
        thread.join()
    for outer, _ in ends:
        os.close(outer)
    return Ending(status, taken[0], taken[1], 0, usage.ru_utime + usage.ru_stime, 0)


def terminals(runner, into):
    """Terminals, for each example and for a script with so many steps that the terminal is told how many are served."""
    for name, (command, script) in examples().items():
        runner.feed(script)
        whole = runner.run(WORDS[command])
        expect(into, f"{name}, terminals", at_terminals(runner, WORDS[command], script), 0, whole.output, 0)
    ending = at_terminals(runner, ["alone"], b"1,grant\n")
    expect(into, "a script at fault, terminals", ending, 1, b"fault,31,1\n")
    long = b"".join(b"%d,begin\n%d,abort\n" % (1 + turn % 9_999, 1 + turn % 9_999) for turn in range(15_000))
    ending = at_terminals(runner, ["run"], long)
    told = ending.errors
    expect(into, "30,000 steps, terminals", ending._replace(output=ending.output[-10:]), 0, b"end,30000\n")
    if not told or b"\n" in told or told.rstrip(b"\r ") == told:
        into.wrong.append(f"30,000 steps, terminals: the progress is {told[-80:]!r}")


def devices(asked):
    into = found()
    runner = Runner(asked.program)
    for part in (bad_inputs, bad_outputs, bad_words, short_files, short_pipes, terminals):
        part(runner, into)
    return into


# Scripts.


def run_spoilt(task):
    """Runs some spoilt scripts, each a command, a name and its bytes."""
    program, spoilt = task
    runner, into = Runner(program), found()
    for command, name, script in spoilt:
        runner.feed(script)
        judge(runner.run(WORDS[command]), command, script, name, into)
    return into


def in_parts(items, size):
    items = iter(items)
    return iter(lambda: list(itertools.islice(items, size)), [])


def bytes_exchanged(asked):
    """A small script of each command with each byte in place of each of its bytes."""
    spoilt = []
    short = b"township,T3N R2W\n1,begin\n1,sheet,T3N R2W sec 5\n1,commit\n"
    scripts = {"alone": (EXAMPLES / "first_run.csv").read_bytes(), "run": short, "office": short}
    for command, script in scripts.items():
        spoilt.extend((command, f"{command}, byte {place} is {byte}", script[:place] + bytes([byte]) + script[place + 1:])
                      for place in range(len(script)) for byte in range(256))
    return gather(run_spoilt, [(asked.program, part) for part in in_parts(spoilt, 2000)], asked.jobs)


def cuts(asked):
    """Every beginning of some scripts. One of whole rows is answered by the whole report's beginning, where it isn't an office's."""
    spoilt = []
    runner, whole_rows = Runner(asked.program), found()
    for name, (command, script) in {**examples(), **small()}.items():
        spoilt.extend((command, f"{name}, its first {length} bytes", script[:length]) for length in range(len(script) + 1))
        if command == "office":
            continue
        runner.feed(script)
        report = runner.run(WORDS[command]).output
        for length in [place + 1 for place, byte in enumerate(script) if byte == 10]:
            runner.feed(script[:length])
            ending = runner.run(WORDS[command])
            last = ending.output.rfind(b"end,")
            is_beginning = ending.status == 0 and report.startswith(ending.output[:last])
            whole_rows.counts["beginning of the report" if is_beginning else "wrong"] += 1
            if not is_beginning:
                whole_rows.wrong.append(f"{name}, its first {length} bytes: not the beginning of the whole report")
    into = gather(run_spoilt, [(asked.program, part) for part in in_parts(spoilt, 500)], asked.jobs)
    into.counts.update(whole_rows.counts)
    into.wrong.extend(whole_rows.wrong)
    return into


NUMBERS = [b"", b"0", b"-1", b"+1", b"01", b"9999", b"10000", b"4294967295", b"4294967296", b"18446744073709551616", b"9" * 40, b"1.5"]
TEXTS = [b"everything", b"T99N R99E sec 36", b"T0N R2W", b"T3N R2W sec 37", b"lot 3", b"\xc2\xbd", b"\xff\xfe", b"\x00", b"NE1/4" * 200,
         b"SOM", b"W1/4294967296", b"I1/3", b"O1/2;M1/1", b"UNITED STATES", b"begin", b"commit", b"abort", b"township", b"party",
         b"release", b"warranty", b"chain", b"sheet", b"deed", b" ", b"\t", b"\"", b"\"\"", b"'"]


def turn_bits(chance, rows, others):
    script = bytearray(b"".join(rows))
    for _ in range(chance.randint(1, 8)):
        if script:
            script[chance.randrange(len(script))] ^= 1 << chance.randrange(8)
    return bytes(script).splitlines(keepends=True)


def exchange_rows(chance, rows, others):
    first, second = chance.randrange(len(rows)), chance.randrange(len(rows))
    rows[first], rows[second] = rows[second], rows[first]
    return rows


def leave_out_row(chance, rows, others):
    del rows[chance.randrange(len(rows))]
    return rows


def repeat_rows(chance, rows, others):
    place = chance.randrange(len(rows))
    rows[place:place + 1] = [rows[place]] * chance.choice([2, 3, 50])
    return rows


def take_row(chance, rows, others):
    rows.insert(chance.randrange(len(rows) + 1), chance.choice(others))
    return rows


def change_field(chance, rows, others):
    """A field is left out, doubled, emptied, or exchanged for another one, a number or a text."""
    place = chance.randrange(len(rows))
    end = rows[place][len(rows[place].rstrip(b"\r\n")):]
    fields = rows[place].rstrip(b"\r\n").split(b",")
    which = chance.randrange(len(fields))
    change = chance.randrange(6)
    if change == 0:
        del fields[which]
    elif change == 1:
        fields.insert(which, fields[which])
    elif change == 2:
        fields[which] = chance.choice(NUMBERS)
    elif change == 3:
        fields[which] = chance.choice(TEXTS)
    elif change == 4:
        fields[which] = chance.choice(chance.choice(others).rstrip(b"\r\n").split(b","))
    else:
        other = chance.randrange(len(fields))
        fields[which], fields[other] = fields[other], fields[which]
    rows[place] = b",".join(fields) + end
    return rows


def insert(some):
    """Bytes that a function gives are put somewhere."""

    def put(chance, rows, others):
        script = b"".join(rows)
        place = chance.randrange(len(script) + 1)
        return (script[:place] + some(chance) + script[place:]).splitlines(keepends=True)

    return put


def leave_out_bytes(chance, rows, others):
    script = b"".join(rows)
    begin = chance.randrange(len(script) + 1)
    return (script[:begin] + script[begin + chance.randint(1, 30):]).splitlines(keepends=True)


def change_ends(chance, rows, others):
    end = chance.choice([b"\r\n", b"\r", b"\n\n", b"\n\r", b" \n", b"", b",\n", b"\x0b", b"\xe2\x80\xa8"])
    first = chance.randrange(len(rows))
    return rows[:first] + [row.rstrip(b"\r\n") + end for row in rows[first:first + chance.choice([1, 5, 10_000])]] + rows[first + 10_000:]


MUTATIONS = [
    turn_bits, exchange_rows, leave_out_row, repeat_rows, take_row, change_field, change_field, change_field, leave_out_bytes, change_ends,
    insert(lambda chance: b'"'), insert(lambda chance: b'"' * chance.randint(1, 9)),
    insert(lambda chance: bytes(chance.randrange(256) for _ in range(chance.randint(1, 12)))),
    insert(lambda chance: chance.choice([b"\xef\xbb\xbf", b"\x00", b"\x1a", b"\xc0\x80", b"\xf4\x90\x80\x80", b",", b"\r", b"\n"])),
]


def mutated_script(bases, seed, number):
    """The command and the bytes of one of the mutated scripts."""
    chance = random.Random(f"{seed} {number}")
    command, script = chance.choice(bases)
    others = chance.choice(bases)[1].splitlines(keepends=True)
    if chance.random() < 0.2:
        command = chance.choice(sorted(WORDS))
    rows = script.splitlines(keepends=True)
    for _ in range(chance.choice([1, 1, 1, 2, 3, 8])):
        if rows:
            rows = chance.choice(MUTATIONS)(chance, rows, others)
    return command, b"".join(rows)


def run_mutated(task):
    program, bases, seed, numbers = task
    runner, into = Runner(program), found()
    for number in numbers:
        command, script = mutated_script(bases, seed, number)
        runner.feed(script)
        judge(runner.run(WORDS[command]), command, script, f"mutated {number} of seed {seed}, {command}", into)
    return into


def bases():
    return [*examples().values(), *small().values()]


def mutated(asked):
    parts = in_parts(range(asked.count), 200)
    scripts = bases()
    return gather(run_mutated, [(asked.program, scripts, asked.seed, part) for part in parts], asked.jobs)


# Descriptions.

DECLARED = [f"T{number}{north}R{range_}{east}" for number in (1, 3, 99, 50) for north in ("N ", "S ")
            for range_ in (1, 2, 98, 99) for east in "EW"]
QUARTERS = ["ne", "nw", "sw", "se"]


def any_case(chance, text):
    return "".join(chance.choice([letter.upper(), letter]) for letter in text)


def padded(chance, words):
    """The words with spaces and periods about them, which are passed over."""
    return "".join(f"{word}{chance.choice(['', '', ' ', '. ', '  ', '.'])}" for word in words)


def step(chance):
    if chance.random() < 0.6:
        return [any_case(chance, chance.choice(QUARTERS)), chance.choice(["1/4", "/4", "\u00bc"])]
    return [any_case(chance, chance.choice("nsew")), chance.choice(["1/2", "/2", "\u00bd"])]


def part(chance):
    words = step(chance)
    for _ in range(chance.choice([0, 0, 1, 1, 2, 3, 4])):
        words += chance.choice([[], [], ["of"], ["of", "the"]]) + step(chance)
    return words


def good_or_nearly(chance):
    """A description in the grammar; its numbers may be out of range, its parts too small or one over another."""
    if chance.random() < 0.01:
        return any_case(chance, "everything")
    if chance.random() < 0.9:
        number, north, range_, east = re.fullmatch(r"T([0-9]+)([NS]) R([0-9]+)([EW])", chance.choice(DECLARED)).groups()
    else:
        number, north, range_, east = chance.choice(["0", "3", "100", "007"]), "N", str(chance.randint(0, 120)), "W"
    words = [any_case(chance, "t"), number, any_case(chance, north.lower()), chance.choice(["", ",", "-"]),
             any_case(chance, "r"), range_, any_case(chance, east.lower())]
    if chance.random() < 0.95:
        words += [chance.choice(["", ","]), any_case(chance, chance.choice(["sec", "section"])),
                  str(chance.randint(1, 36) if chance.random() < 0.95 else chance.choice([0, 37, 1000]))]
        words += parts_of(chance)
    return padded(chance, words)


def parts_of(chance):
    count = chance.choice([0, 1, 1, 1, 1, 2, 2, 3, 5])
    if count == 0:
        return chance.choice([[], [",", "all"], ["all"]])
    words = [chance.choice(["", ",", ":"]), *part(chance)]
    for _ in range(count - 1):
        words += [",", *part(chance)]
    return words


def spoilt_text(chance):
    """A description with some characters exchanged, left out or put in."""
    text = list(good_or_nearly(chance))
    for _ in range(chance.randint(1, 3)):
        place = chance.randrange(len(text) + 1)
        letter = chance.choice("neswtrofthalc0123456789/,:-. \u00bc\u00bd\u00be\u00e9x\"'\n\t")
        text[place:place + chance.randint(0, 2)] = chance.choice([[], [letter], [letter], [letter] * 40, list("lot 3")])
    return "".join(text)


def description(seed, number):
    chance = random.Random(f"tract {seed} {number}")
    return good_or_nearly(chance) if chance.random() < 0.6 else spoilt_text(chance)


def quoted(text):
    return '"' + text.replace('"', '""') + '"'


def sheets_told(runner, texts):
    """What a script tells of each of some descriptions: the nodes of its sheet, or the row that stands in its place."""
    declared = "".join(f"township,{name}\n" for name in DECLARED)
    script = declared + "".join(f"1,sheet,{quoted(text)}\n" for text in texts)
    runner.feed(script.encode())
    ending = runner.run(["alone"])
    if ending.status != 0 or steps_told(ending.output) != len(texts):
        raise ValueError(f"the script of descriptions ended with status {ending.status}: {ending.output[-80:]!r}")
    rows = iter(ending.output.decode().splitlines())
    told = []
    for _ in texts:
        row = next(rows).split(",")
        if row[1] == "sheet":
            told.append([next(rows).split(",") for _ in range(int(row[2]))])
        else:
            told.append(row)
    return told


def nodes_of(told):
    """The nodes of a sheet in which nothing is posted, None where there is no sheet: the same in the three estates."""
    if not told or not isinstance(told[0], list):
        return None
    nodes = [row[2] for row in told if row[3] == "S"]
    is_plain = all([row[2] for row in told if row[3] == estate] == nodes for estate in "OM")
    return nodes if is_plain and all(row[4:] == ["UNITED STATES", "1/1"] for row in told) else []


def acres_of(node):
    """Twice the acres of a node of a section."""
    return 1280 // 4 ** node.count("1/4")


def read_again(runner, texts, into):
    """Each node that these descriptions have is read again, and gives that node alone; the sheets of the texts."""
    told = sheets_told(runner, texts)
    nodes = sorted({node for sheet in told for node in nodes_of(sheet) or []})
    for node, sheet in zip(nodes, sheets_told(runner, nodes)):
        is_alone = nodes_of(sheet) == [node]
        into.counts["node read again" if is_alone else "wrong"] += 1
        if not is_alone:
            into.wrong.append(f"node {node!r} read again gives {sheet[:3]!r}")
    for text, sheet in zip(texts, told):
        listed = nodes_of(sheet)
        into.counts[f"{sheet[1]} {sheet[2] if len(sheet) > 2 else ''}".strip() if listed is None else "tract" if listed else "wrong"] += 1
        if listed == []:
            into.wrong.append(f"description {text!r} gives {sheet[:3]!r}")
    return told


def by_command(runner, text, sheet, into):
    """The command `tract` tells the same of a text as the script does, with the acres of its nodes."""
    ending = runner.run(["tract", "--", text])
    wrong = complaint(ending, "tract")
    rows = ending.output.decode().splitlines()
    nodes = nodes_of(sheet)
    if nodes and "sec" in nodes[0]:
        twice = sum(acres_of(node) for node in nodes)
        wanted = [f"node,{node}" for node in nodes] + [f"acres,{twice // 2}{'.5' if twice % 2 else ''}"]
        wrong = wrong or (None if rows == wanted else f"prints {rows[:3]!r}")
    elif nodes is None and sheet[1] == "description":
        wanted = f"fault,{','.join(sheet[2:])}"
        wrong = wrong or (None if rows == [wanted] else f"prints {rows[:3]!r} and not {wanted}")
    into.counts["wrong" if wrong else "by the command"] += 1
    into.most[0] = max(into.most[0], ending.processor)
    if wrong:
        into.wrong.append(f"tract {text!r}: {wrong}")


def try_tracts(task):
    program, seed, numbers = task
    runner, into = Runner(program), found()
    texts = [description(seed, number) for number in numbers]
    told = read_again(runner, texts, into)
    for text, sheet in list(zip(texts, told))[::20]:
        if "\0" not in text:
            by_command(runner, text, sheet, into)
    return into


def tracts(asked):
    return gather(try_tracts, [(asked.program, asked.seed, part) for part in in_parts(range(asked.count), 5000)], asked.jobs)


# Shapes.

SHAPES = {
    "quotes": b'"', "commas": b",", "line ends": b"\n", "carriage returns": b"\r", "zero bytes": b"\0", "bytes 255": b"\xff",
    "letters": b"a", "spaces": b" ", "quoted nothings": b'"",', "rows of one field": b"a\n", "quoted line ends": b'"\n"\n',
    "open quotes": b'"\n', "byte order marks": b"\xef\xbb\xbf", "examiners": b"1,", "begins": b"1,begin\n", "aborts": b"1,begin\n1,abort\n",
}
FRONT = b"township,T3N R2W\nparty,ADAMS\n"


def shapes(asked):
    """Large scripts of one shape, also as one field of a step: twice the bytes take no more than thrice the time."""
    runner, into = Runner(asked.program), found()
    limit = 16_777_216
    tried = {name: (b"", shape, b"") for name, shape in SHAPES.items()}
    tried.update({f"a description of {name}": (FRONT + b'1,sheet,"', SHAPES[name], b'"\n') for name in ("letters", "spaces", "commas")})
    for name, (front, shape, back) in tried.items():
        seconds = []
        for megabytes in (1, 2, 4, 8, 16):
            room = limit * megabytes // 16 - len(front) - len(back)
            script = front + shape * (room // len(shape)) + back
            runner.feed(script)
            ending = runner.run(["run"])
            judge(ending, "run", script, f"{megabytes} MB of {name}", into)
            seconds.append(ending.processor)
        if any(later > 3 * max(earlier, 0.05) for earlier, later in itertools.pairwise(seconds)):
            into.wrong.append(f"{name}: {', '.join(f'{it:.2f}' for it in seconds)} s for 1 to 16 MB")
    return into


# Memory.


def memory(asked):
    """Scripts under a limit of the memory that rises by a twentieth until the report is whole, twice in a row."""
    into = found()
    runner = Runner("/bin/sh")
    scripts = {"deeds": ("alone", 3_000), "plants": ("alone", 600), "chains": ("alone", 3_000), "crowd": ("run", 3_000),
               "interleaved": ("run", 3_000), "own": ("office", 300)}
    for kind, (command, rows) in scripts.items():
        runner.feed(generated(kind, rows))
        kilobytes, whole = 4_000, 0
        while whole < 2:
            ending = runner.run(["-c", 'ulimit -v "$0" && exec "$@"', str(kilobytes), asked.program, *WORDS[command]])
            name = f"{kind} of {rows} rows in {kilobytes} kilobytes"
            if ending.status == 127 or b"error while loading" in ending.errors:
                into.counts["not loaded"] += 1
            else:
                judge(ending._replace(processor=0), command, b"", name, into)
                if ending.status == 1 and fault_in(ending.output, command) not in (6, 9):
                    into.wrong.append(f"{name}: {ending.output[:60]!r}")
                whole = whole + 1 if ending.status == 0 else 0
            kilobytes += kilobytes // 20
    return into


TRIALS = {"devices": devices, "bytes": bytes_exchanged, "cuts": cuts, "mutated": mutated, "tracts": tracts, "shapes": shapes,
          "memory": memory}


def main():
    options = argparse.ArgumentParser(description="Tries the built program on bad devices and on scripts that are cut or spoilt.")
    options.add_argument("--program", default=str(BUILT), help="the built program (default: the one that bin/prove builds)")
    options.add_argument("--count", type=int, default=100_000, help="of mutated scripts and of descriptions (default 100000)")
    options.add_argument("--seed", type=int, default=1)
    options.add_argument("--jobs", type=int, default=1, help="so many runs side by side (default 1)")
    options.add_argument("--show", type=int, metavar="K", help="write the Kth mutated script, and run nothing")
    options.add_argument("trials", nargs="*", metavar="TRIAL", help=", ".join(TRIALS))
    asked = options.parse_args()
    if asked.show is not None:
        command, script = mutated_script(bases(), asked.seed, asked.show)
        print(f"for {command}:", file=sys.stderr)
        sys.stdout.buffer.write(script)
        return 0
    if not os.access(asked.program, os.X_OK):
        sys.exit(f"hostile.py: {asked.program} isn't there; bin/prove builds it")
    unknown = [trial for trial in asked.trials if trial not in TRIALS]
    if unknown:
        options.error(f"no trial named {unknown[0]}")
    is_wrong = False
    for trial in asked.trials or TRIALS:
        start = time.monotonic()
        into = TRIALS[trial](asked)
        tell(trial, into, start)
        is_wrong = is_wrong or bool(into.wrong)
    return 1 if is_wrong else 0


if __name__ == "__main__":
    sys.exit(main())
