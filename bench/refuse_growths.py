#!/usr/bin/env python3
"""Refuses each allocation of a built program's runs in turn, and judges how each run ends.

    refuse_growths.py [--program PROGRAM] [--first N] [--every K] [--most N] [--jobs N] [--from-then-on]
    refuse_growths.py [..] --command run|alone|office|words SCRIPT..
    refuse_growths.py [..] --program PROGRAM --same WORD..

A small library is compiled and loaded before the program; it counts the calls of malloc, calloc, realloc, aligned_alloc, memalign
and posix_memalign from the beginning of main on, by all threads, and refuses the Nth. A program is run once with nothing refused, and
then for N = 1, 2, .. until a run meets no refusal. What is asked for before main and after it is counted apart and told; nothing was
seen there yet, and nothing is refused there. (The loader takes its own memory before the library is in place: a program that can't be
loaded isn't tried.)

By default these are the runs of titleplant on each script of examples/, on scripts of 60 to 200 rows of each kind of generate.py, and
on some scripts and words at fault; of an office's allocations some 500 are refused, evenly spread. A run has to end as the one without
refusal did, or with the line `fault,6` alone and status 1, and with at most one line on standard error. A report of `office` may be
another one of those that its script allows, and the line is `fault,9` where it was the start of a thread that wanted memory.

With --same the program is one whose output has to be the same whatever is refused, as `title_trials growths`; it tells on standard error
how many calls wanted memory, which has to be one, or none. Where it is none, that is told: what was refused was only to shorten a list
(a realloc to fewer bytes); or it was room by a hint (a `collect` asks for as much as its iterator tells, and where that is refused at
once for no more than it needs); or the call was answered without it (a conflict is told also where the accesses couldn't be spread).

With --from-then-on all allocations after the Nth are refused with it.
"""

import argparse
import collections
import mmap
import multiprocessing
import os
import pathlib
import re
import struct
import subprocess
import sys
import tempfile
import time

from endings import BUILT, TOP, Runner, lines, steps_told

LIBRARY = r"""
#define _GNU_SOURCE
#include <dlfcn.h>
#include <errno.h>
#include <fcntl.h>
#include <malloc.h>
#include <stdlib.h>
#include <sys/mman.h>
#include <unistd.h>

void *__libc_malloc(size_t), *__libc_calloc(size_t, size_t), *__libc_realloc(void *, size_t), *__libc_memalign(size_t, size_t);

enum { BEFORE, MAIN, AFTER };

/* How many allocations each stage asked for, how many were refused, how many of these were to shorten what is there, and after how many
   the same thread asked next for no more than had been refused. */
struct tally {
    unsigned long asked[3], refused, shortened, lessened;
};

static struct tally own, *tally = &own;
static int stage;
static unsigned long first, last;
static int (*the_main)(int, char **, char **);

static __thread size_t just_refused __attribute__((tls_model("initial-exec")));

static int is_refused(size_t size) {
    if (just_refused != 0 && size <= just_refused)
        __atomic_add_fetch(&tally->lessened, 1, __ATOMIC_SEQ_CST);
    just_refused = 0;
    int at = __atomic_load_n(&stage, __ATOMIC_SEQ_CST);
    unsigned long number = __atomic_add_fetch(&tally->asked[at], 1, __ATOMIC_SEQ_CST);
    if (at != MAIN || number < first || number > last)
        return 0;
    __atomic_add_fetch(&tally->refused, 1, __ATOMIC_SEQ_CST);
    just_refused = size;
    errno = ENOMEM;
    return 1;
}

void *malloc(size_t size) { return is_refused(size) ? NULL : __libc_malloc(size); }
void *calloc(size_t count, size_t size) { return is_refused(count * size) ? NULL : __libc_calloc(count, size); }
void *realloc(void *old, size_t size) {
    if (!is_refused(size))
        return __libc_realloc(old, size);
    if (old != NULL && size <= malloc_usable_size(old))
        __atomic_add_fetch(&tally->shortened, 1, __ATOMIC_SEQ_CST);
    return NULL;
}
void *memalign(size_t align, size_t size) { return is_refused(size) ? NULL : __libc_memalign(align, size); }
void *aligned_alloc(size_t align, size_t size) { return is_refused(size) ? NULL : __libc_memalign(align, size); }
int posix_memalign(void **place, size_t align, size_t size) {
    void *made = is_refused(size) ? NULL : __libc_memalign(align, size);
    if (made == NULL)
        return ENOMEM;
    *place = made;
    return 0;
}

static int counted_main(int count, char **words, char **environment) {
    __atomic_store_n(&stage, MAIN, __ATOMIC_SEQ_CST);
    int status = the_main(count, words, environment);
    __atomic_store_n(&stage, AFTER, __ATOMIC_SEQ_CST);
    return status;
}

int __libc_start_main(int (*program)(int, char **, char **), int count, char **words, void (*init)(void), void (*fini)(void),
                      void (*loader_fini)(void), void *stack) {
    int (*next)(int (*)(int, char **, char **), int, char **, void (*)(void), void (*)(void), void (*)(void), void *) =
        dlsym(RTLD_NEXT, "__libc_start_main");
    the_main = program;
    return next(counted_main, count, words, init, fini, loader_fini, stack);
}

__attribute__((constructor)) static void begin(void) {
    const char *path = getenv("REFUSE_TALLY");
    int file = path == NULL ? -1 : open(path, O_RDWR | O_CLOEXEC);
    if (file >= 0) {
        struct tally *shared = mmap(NULL, sizeof *shared, PROT_READ | PROT_WRITE, MAP_SHARED, file, 0);
        close(file);
        if (shared != MAP_FAILED) {
            *shared = own;
            tally = shared;
        }
    }
    const char *text = getenv("REFUSE_FIRST");
    first = text == NULL ? ~0UL : strtoul(text, NULL, 10);
    text = getenv("REFUSE_LAST");
    last = text == NULL ? first : strtoul(text, NULL, 10);
}
"""

TALLY = struct.Struct("6L")
Tally = collections.namedtuple("Tally", "before main after refused shortened lessened")
Trial = collections.namedtuple("Trial", "name program words source kind")

# What is told where no call wanted memory, and where one did.
NONE_WANTED, ONE_WANTED = b": 0 wanted memory\n", b": 1 wanted memory\n"

# How many rows the scripts of each kind have that are made for this; each with few townships and parties.
SMALL = {
    "alone": {"deeds": 120, "sheets": 60, "chains": 120, "parts": 120, "townships": 60, "sections": 120, "quarters": 120,
              "cells": 200, "plats": 60, "plants": 60},
    "run": {"interleaved": 200, "short": 200, "long": 120, "reviewed": 120, "crowd": 120, "refused": 120},
    "office": {"own": 100, "shared": 100},
}
# An office's runs are long: of their allocations so many are refused, where no script is named.
FEW = 500
OFFICE_WORDS = ["office", "--examiners", "3", "--tries", "50"]

# Scripts at fault, and other words.
AT_FAULT = {
    "unknown word": b"township,T3N R2W\n1,grant,T3N R2W\n",
    "a bad field": b"township,T3N R2W\nparty,ADAMS\n1,deed,1,UNITED STATES,ADAMS,SX,W1/2,,T3N R2W sec 5\n",
    "too few fields": b"township,T3N R2W\nparty,ADAMS\n1,deed,1\n",
    "out of order": b"township,T3N R2W\n1,sheet,T3N R2W\nparty,ADAMS\n",
    "no such party": b"township,T3N R2W\n1,deed,1,UNITED STATES,ADAM,S,W1/2,,T3N R2W sec 5\n",
    "an unclosed quote": b'township,T3N R2W\nparty,"ADAMS\n1,sheet,T3N R2W\n',
    "a bad description": b"township,T3N R2W\n1,sheet,T3N R2W sec 5 NX1/4\n",
}
OTHER_WORDS = [
    [], ["--help"], ["run", "--help"], ["office", "--examiners", "65"], ["nonsense"], ["tract"],
    ["tract", "T3N R2W sec 5, W\u00bd of the W\u00bd"], ["tract", "everything"], ["tract", "T3N R2W sec 5 NX1/4"],
    ["tract", "T3N R2W sec 37"], ["tract", "T3N R2W sec 5 lot 3"], ["tract", "T3N R2W sec 5 " + "NE1/4SW1/4, " * 90],
]


class Refuser(Runner):
    """Runs a program with the Nth allocation refused, or with none."""

    def __init__(self, trial, work, options):
        super().__init__(trial.program, {"LD_PRELOAD": f"{work}/refuse.so"}, patience=options.patience)
        self.trial, self.options = trial, options
        path = pathlib.Path(work, f"tally.{os.getpid()}")
        path.write_bytes(bytes(TALLY.size))
        with open(path, "r+b") as file:
            self.tally = mmap.mmap(file.fileno(), TALLY.size)
        self.environment["REFUSE_TALLY"] = str(path)
        self.feed(trial.source)

    def refusing(self, number):
        """How a run ends, and what it asked for, with this allocation refused; none where it is 0."""
        self.environment["REFUSE_FIRST"] = str(number or 2**63)
        self.environment["REFUSE_LAST"] = str(2**63 if self.options.from_then_on or not number else number)
        self.tally[:] = bytes(TALLY.size)
        ending = self.run(self.trial.words)
        return ending, Tally(*TALLY.unpack(self.tally[:]))


def is_office_report(output, like):
    """Whether an output is a report of an office of as many examiners and steps as another, and its numbers agree."""
    rows, others = output.decode().splitlines(), like.decode().splitlines()
    done = [row for row in rows if re.fullmatch(r"[0-9]+,done,[0-9]+,[0-9]+,[0-9]+", row)]
    if len(done) != sum(",done," in row for row in others) or rows[:len(done)] != done:
        return False
    if rows[len(done)] != f"settled,{sum(int(row.split(',')[2]) for row in done)}":
        return False
    sheet = rows[len(done) + 1:-1]
    is_sheet = sheet == ["0,notownship"] or sheet[0] == f"0,sheet,{len(sheet) - 1}"
    return is_sheet and all(row.startswith("0,row,") for row in sheet[1:]) and rows[-1] == others[-1]


def complaint(trial, ending, tally, plain):
    """What is wrong with an ending where something was refused; None where nothing is."""
    if ending.status is None or ending.status < 0:
        return f"didn't end well: status {ending.status}"
    if trial.kind == "same":
        if (ending.status, ending.output) != (0, plain.output):
            return f"other output, status {ending.status}"
        is_told = ending.errors.endswith((ONE_WANTED, NONE_WANTED))
        return None if lines(ending.errors) == 1 and is_told else f"tells {ending.errors!r}"
    if lines(ending.errors) > max(1, lines(plain.errors)):
        return f"{lines(ending.errors)} lines on standard error"
    if ending.status == 0 and ending.errors != plain.errors:
        return "wrote to standard error beside status 0"
    if (ending.status, ending.output) in ((plain.status, plain.output), (1, b"fault,6\n")):
        return None
    if trial.kind == "office":
        if ending.status == 0 and is_office_report(ending.output, plain.output):
            return None
        if (ending.status, ending.output) == (1, b"fault,9\n"):
            return None
    return f"status {ending.status}, output {ending.output[:80]!r}"


def kind_of_end(ending, tally, plain):
    """What an ending is counted under."""
    if (ending.status, ending.output) == (plain.status, plain.output):
        if ending.errors.endswith(ONE_WANTED):
            return "as without refusal"
        if tally.shortened:
            return "as without refusal (a list not shortened)"
        if ending.errors.endswith(NONE_WANTED):
            return f"as without refusal ({'room by a hint' if tally.lessened else 'answered without it'})"
        return "as without refusal"
    return ending.output.decode().strip() if ending.status else "another report"


def refuse_some(task):
    """Refuses every so manieth allocation, from one on, until a run meets no refusal: the counts, the faults and the seconds."""
    trial, work, options, begin, step, plain = task
    refuser = Refuser(trial, work, options)
    counts, faults, slowest, number, missed = collections.Counter(), [], 0, begin, 0
    # In an office the number of allocations isn't the same in each run, so one run without a refusal says little.
    while missed < (3 if trial.kind == "office" else 1):
        ending, tally = refuser.refusing(number)
        if tally.refused == 0:
            missed += 1
        else:
            missed = 0
            wrong = complaint(trial, ending, tally, plain)
            counts["wrong" if wrong else kind_of_end(ending, tally, plain)] += 1
            slowest = max(slowest, ending.seconds)
            if wrong:
                faults.append(f"{trial.name}: allocation {number} refused: {wrong}")
        number += step
    return counts, faults, slowest


def refuse_all(trial, work, options):
    """A trial's line, and the counts and the faults of its runs."""
    refuser = Refuser(trial, work, options)
    plain, tally = refuser.refusing(0)
    start = time.monotonic()
    most = options.most or (FEW if trial.kind == "office" and not options.words else 0)
    every = max(options.every, -(-tally.main // most) if most else 1)
    places = range(options.jobs)
    tasks = [(trial, work, options, options.first + place * every, options.jobs * every, plain) for place in places]
    if options.jobs == 1:
        done = [refuse_some(tasks[0])]
    else:
        with multiprocessing.Pool(options.jobs) as pool:
            done = pool.map(refuse_some, tasks, 1)
    counts = sum((counts for counts, _, _ in done), collections.Counter())
    faults = [fault for _, faults, _ in done for fault in faults]
    if not is_plain(trial, plain):
        faults.append(f"{trial.name}: ended with status {plain.status} where nothing was refused: {plain.output[:80]!r}")
    told = ", ".join(f"{number} {ending}" for ending, number in sorted(counts.items()))
    seconds = time.monotonic() - start
    stages = f"{tally.before} before main, {tally.main} in it, {tally.after} after"
    which = " in turn" if every == 1 else f", one of each {every}"
    print(f"{trial.name}: {stages}; {sum(counts.values())} refused{which}: {told or 'none'}; {seconds:.0f} s", flush=True)
    for fault in faults[:10]:
        print(f"  WRONG {fault}", flush=True)
    return counts, faults


def is_plain(trial, plain):
    """Whether a run without refusal ended as it has to."""
    if trial.kind == "words":
        return plain.status in (0, 1, 2)
    if trial.kind == "same":
        return plain.status == 0 and plain.errors.endswith(NONE_WANTED)
    is_report = plain.status == 0 and steps_told(plain.output) is not None and plain.errors == b""
    return is_report or trial.name.startswith("fault") and plain.status == 1


def generated(kind, rows):
    words = [sys.executable, str(TOP / "bench" / "generate.py"), "--kind", kind, "--rows", str(rows)]
    return subprocess.run([*words, "--townships", "3", "--parties", "6", "--examiners", "3"], stdout=subprocess.PIPE, check=True).stdout


def command_of(path):
    """The command of an example."""
    name = path.name
    return "office" if "office" in name else "run" if "examiners" in name else "alone"


def words_of(command, path=None):
    if command != "office":
        return [command]
    return ["office", "--examiners", "2", "--tries", "100"] if path else OFFICE_WORDS


def all_trials(program):
    """The runs of titleplant that are tried where none is named."""
    for path in sorted((TOP / "examples").glob("*.csv")):
        if not path.name.endswith(".report.csv"):
            command = command_of(path)
            yield Trial(f"{command} {path.name}", program, words_of(command, path), path.read_bytes(), command)
    for command, kinds in SMALL.items():
        for kind, rows in kinds.items():
            yield Trial(f"{command} {kind} of {rows} rows", program, words_of(command), generated(kind, rows), command)
    for name, script in AT_FAULT.items():
        for command in ("alone", "office"):
            yield Trial(f"fault {command}: {name}", program, words_of(command), script, command)
    for words in OTHER_WORDS:
        yield Trial(f"words {' '.join(words)[:60]!r}", program, words, b"", "words")


def trials(asked):
    if asked.same:
        return [Trial(" ".join([pathlib.Path(asked.program).name, *asked.words]), asked.program, asked.words, b"", "same")]
    if asked.words:
        command = asked.command or "run"
        return [Trial(f"{command} {path}", asked.program, words_of(command), pathlib.Path(path).read_bytes(), command)
                for path in asked.words]
    return [trial for trial in all_trials(asked.program) if asked.command in (None, trial.kind)]


def main():
    options = argparse.ArgumentParser(description="Refuses each allocation of a built program's runs in turn.")
    options.add_argument("--program", default=str(BUILT), help="the built program (default: the one that bin/prove builds)")
    options.add_argument("--first", type=int, default=1, help="the first allocation that is refused (default 1)", metavar="N")
    options.add_argument("--every", type=int, default=1, help="refuse every Kth allocation alone", metavar="K")
    options.add_argument("--most", type=int, default=0, help="refuse about N of a run's allocations (default: all)", metavar="N")
    options.add_argument("--jobs", type=int, default=1, help="so many runs side by side (default 1)", metavar="N")
    options.add_argument("--from-then-on", action="store_true", help="refuse all that follow, too")
    options.add_argument("--patience", type=int, default=60, help="seconds that a run may take (default 60)", metavar="S")
    options.add_argument("--command", choices=("run", "alone", "office", "words"), help="of the scripts named, or else only its runs")
    options.add_argument("--same", action="store_true", help="the words are the program's own, and its output has to be the same")
    options.add_argument("words", nargs="*", metavar="SCRIPT")
    asked = options.parse_args()
    if not os.access(asked.program, os.X_OK):
        sys.exit(f"refuse_growths.py: {asked.program} isn't there; bin/prove builds it")
    start = time.monotonic()
    counts, faults = collections.Counter(), []
    with tempfile.TemporaryDirectory() as work:
        source = pathlib.Path(work, "refuse.c")
        source.write_text(LIBRARY)
        subprocess.run(["cc", "-O2", "-shared", "-fPIC", "-o", f"{work}/refuse.so", source, "-ldl"], check=True)
        asked_for = trials(asked)
        for trial in asked_for:
            of_trial = refuse_all(trial, work, asked)
            counts += of_trial[0]
            faults += of_trial[1]
    told = ", ".join(f"{number} {ending}" for ending, number in sorted(counts.items()))
    print(f"{len(asked_for)} runs, {sum(counts.values())} refusals: {told}; {len(faults)} wrong; {time.monotonic() - start:.0f} s")
    return 1 if faults else 0


if __name__ == "__main__":
    sys.exit(main())
