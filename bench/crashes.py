#!/usr/bin/env python3
"""Tears what the built program writes to a plant's file at each of its calls, and refuses each call in turn.

    crashes.py [--program PROGRAM] [--jobs N] [--every K] [--days NAME,..] [TRIAL..]

A small library is compiled and loaded before the program. It notes each write, cut and sync of a file in the folder of the plant, each
name that is made or taken away there, and each write to standard output, with their bytes, and can refuse the Kth with EIO or ENOSPC.
From these notes contents are made that a crash may leave after each call: what a sync has seen stays; of what was written since, any
bytes may stand in the range, and it may be longer or not; a cut may not have happened; a name may be there or not until its folder was
synced. A missing sync shows here, and in no kill, since what the system holds outlives a process. Each content is opened with the
program: `check` has to tell what another reader reads (bench/plant_days.py), which has to be what stood before the day, or that and all
of the day, and where a byte of the report was written, that. On one of K contents (4 where nothing is said) the day is then served again
with `--after` the last place of before: the file has to come to rest with the day in it once. Once a crash may leave the file without a
tail that it had, it has to leave that tail in the file beside (`.cut`), and whatever an opening cuts off has to come behind what is there.

rest      the days of plant_days.py, each on what the days before have left
tails     each day on a file that a crash has left: torn in each of six ways, and torn again while the program repairs it
new       a file that isn't there yet: its name comes with its head
syncs     each needed sync left out of the notes: something has to be wrong then
refused   each call of these refused, with EIO and with ENOSPC: the fault's line and status, and the content as above; a write that is
          refused is done by half or not at all
memory    each allocation refused
devices   standard streams that are closed; a file that can't grow above each size; what is no file, or may not be read or written to
full      a file system with room for each number of pages more, where one may be mounted: a new file, a block, a tail to be kept
offices   three days of an office of one examiner, whose order no timing changes, as `rest`, `tails` and `refused` do it
looks     a look at what each day leaves, at rest and torn: nothing is written, cut or named; a sync that fails is told
faults    each fault of a plant's file once, by a case of its own
large     a file of 1,000,000 rows and 65,535 parties

With no trial named, all of them. What is wrong is named, and the status is 1 then.
"""

import argparse
import collections
import errno
import fcntl
import itertools
import multiprocessing
import os
import pathlib
import re
import resource
import shutil
import struct
import subprocess
import sys
import tempfile
import time

from endings import BUILT, Ending, Runner
from plant_days import HEAD, Fault, days, read_plant, tail_of
from refuse_growths import LIBRARY as REFUSING, TALLY, Tally

LIBRARY = r"""
#define _GNU_SOURCE
#include <dlfcn.h>
#include <errno.h>
#include <fcntl.h>
#include <stdarg.h>
#include <stdint.h>
#include <stdio.h>
#include <stdlib.h>
#include <string.h>
#include <sys/stat.h>
#include <sys/syscall.h>
#include <sys/uio.h>
#include <unistd.h>

/* A note: what was called, whether it was refused, on which file, where, and how many bytes follow. */
struct note {
    uint32_t kind, refused;
    uint64_t file;
    int64_t place;
    uint64_t length;
};

static int notes = -1, refused_errno, half;
static long refused_call = -1, calls;
static char folder[4096];
static size_t folder_length;

__attribute__((constructor)) static void begin(void) {
    const char *where = getenv("CRASHES_NOTES"), *in = getenv("CRASHES_FOLDER");
    if (where == NULL || in == NULL)
        return;
    notes = atoi(where);
    folder_length = strlen(in);
    memcpy(folder, in, folder_length + 1);
    if (getenv("CRASHES_REFUSED") != NULL) {
        refused_call = atol(getenv("CRASHES_REFUSED"));
        refused_errno = atoi(getenv("CRASHES_ERRNO"));
        half = getenv("CRASHES_HALF") != NULL;
    }
}

static void add(const void *bytes, size_t length) {
    for (const char *at = bytes; length > 0;) {
        long count = syscall(SYS_write, notes, at, length);
        if (count <= 0)
            _exit(99);
        at += count;
        length -= count;
    }
}

static void put(char kind, int refused, uint64_t file, int64_t place, const void *bytes, size_t length) {
    int kept = errno;
    struct note note = {kind, refused, file, place, length};
    add(&note, sizeof note);
    add(bytes, length);
    errno = kept;
}

static int is_inside(const char *path) {
    return notes >= 0 && strncmp(path, folder, folder_length) == 0;
}

/* Whether a descriptor is that of a file in the folder, or of the folder itself. */
static int is_noted(int fd, struct stat *found) {
    char name[64], path[4096];
    if (notes < 0 || fd == notes || syscall(SYS_fstat, fd, found) != 0)
        return 0;
    snprintf(name, sizeof name, "/proc/self/fd/%d", fd);
    ssize_t length = syscall(SYS_readlink, name, path, sizeof path - 1);
    if (length < 0)
        return 0;
    path[length] = 0;
    return strncmp(path, folder, folder_length) == 0 && (S_ISREG(found->st_mode) || S_ISDIR(found->st_mode));
}

static int is_refused(void) {
    return calls++ == refused_call;
}

static ssize_t noted_write(int fd, const void *bytes, size_t length, int64_t place) {
    struct stat found;
    if (notes >= 0 && fd == 1) {
        ssize_t count = syscall(SYS_write, fd, bytes, length);
        if (count > 0)
            put('p', 0, 0, 0, bytes, count);
        return count;
    }
    int is_placed = place >= 0;
    if (!is_noted(fd, &found))
        return is_placed ? syscall(SYS_pwrite64, fd, bytes, length, place) : syscall(SYS_write, fd, bytes, length);
    if (!is_placed)
        place = syscall(SYS_fcntl, fd, F_GETFL) & O_APPEND ? found.st_size : syscall(SYS_lseek, fd, 0, SEEK_CUR);
    int refused = is_refused();
    ssize_t count = 0;
    if (refused && half)
        length = length / 2;
    if (!refused || half)
        count = is_placed ? syscall(SYS_pwrite64, fd, bytes, length, place) : syscall(SYS_write, fd, bytes, length);
    put('w', refused, found.st_ino, place, bytes, count < 0 ? 0 : count);
    if (refused)
        errno = refused_errno;
    return refused ? -1 : count;
}

ssize_t write(int fd, const void *bytes, size_t length) { return noted_write(fd, bytes, length, -1); }
ssize_t pwrite(int fd, const void *bytes, size_t length, off_t place) { return noted_write(fd, bytes, length, place); }
ssize_t pwrite64(int fd, const void *bytes, size_t length, off64_t place) { return noted_write(fd, bytes, length, place); }

ssize_t writev(int fd, const struct iovec *parts, int count) {
    ssize_t sum = 0;
    for (int part = 0; part < count; part++) {
        ssize_t done = write(fd, parts[part].iov_base, parts[part].iov_len);
        if (done < 0)
            return sum > 0 ? sum : -1;
        sum += done;
        if ((size_t)done < parts[part].iov_len)
            break;
    }
    return sum;
}

static int noted_cut(int fd, int64_t length) {
    struct stat found;
    if (!is_noted(fd, &found))
        return syscall(SYS_ftruncate, fd, length);
    int refused = is_refused();
    int result = refused && !half ? -1 : syscall(SYS_ftruncate, fd, length);
    put('c', refused || result != 0, found.st_ino, length, "", 0);
    if (refused)
        errno = refused_errno;
    return refused ? -1 : result;
}

int ftruncate(int fd, off_t length) { return noted_cut(fd, length); }
int ftruncate64(int fd, off64_t length) { return noted_cut(fd, length); }

static int noted_sync(int fd, long call) {
    struct stat found;
    if (!is_noted(fd, &found))
        return syscall(call, fd);
    int refused = is_refused();
    put(S_ISDIR(found.st_mode) ? 'd' : 's', refused, found.st_ino, 0, "", 0);
    if (refused)
        errno = refused_errno;
    return refused ? -1 : syscall(call, fd);
}

int fsync(int fd) { return noted_sync(fd, SYS_fsync); }
int fdatasync(int fd) { return noted_sync(fd, SYS_fdatasync); }

static uint64_t file_of(const char *path) {
    struct stat found;
    return syscall(SYS_lstat, path, &found) == 0 ? found.st_ino : 0;
}

int link(const char *from, const char *to) {
    if (!is_inside(to))
        return syscall(SYS_link, from, to);
    int refused = is_refused();
    int result = refused ? -1 : syscall(SYS_link, from, to);
    put('l', result != 0, file_of(from), 0, to, strlen(to));
    if (refused)
        errno = refused_errno;
    return result;
}

int unlink(const char *path) {
    if (!is_inside(path))
        return syscall(SYS_unlink, path);
    int result = syscall(SYS_unlink, path);
    put('u', result != 0, 0, 0, path, strlen(path));
    return result;
}

int rename(const char *from, const char *to) {
    uint64_t file = file_of(from);
    int result = syscall(SYS_rename, from, to);
    if (is_inside(to)) {
        put('l', result != 0, file, 0, to, strlen(to));
        put('u', result != 0, 0, 0, from, strlen(from));
    }
    return result;
}

static int noted_open(const char *path, int flags, int mode) {
    int is_made = is_inside(path) && (flags & O_CREAT) && file_of(path) == 0;
    int fd = syscall(SYS_openat, AT_FDCWD, path, flags, mode);
    struct stat found;
    if (fd >= 0 && is_made && syscall(SYS_fstat, fd, &found) == 0)
        put('o', 0, found.st_ino, 0, path, strlen(path));
    if (fd >= 0 && is_inside(path) && (flags & O_TRUNC) && syscall(SYS_fstat, fd, &found) == 0)
        put('c', 0, found.st_ino, 0, "", 0);
    return fd;
}

int open(const char *path, int flags, ...) {
    va_list rest;
    va_start(rest, flags);
    int mode = va_arg(rest, int);
    va_end(rest);
    return noted_open(path, flags, mode);
}

int open64(const char *path, int flags, ...) {
    va_list rest;
    va_start(rest, flags);
    int mode = va_arg(rest, int);
    va_end(rest);
    return noted_open(path, flags, mode);
}
"""

NOTE = struct.Struct("<IIQqQ")
# A call: `kind` is w (write), c (cut), s (sync), d (folder synced), o and l (a file, or another name of it, is made), u (a name goes)
# or p (standard output).
Note = collections.namedtuple("Note", "kind refused file place data")
NAME = "plant"
BESIDE = NAME + ".cut"
FOREVER = 10 ** 9


def build(folder):
    """The libraries, compiled into a folder: the one that notes calls."""
    for name, text in (("crashes", LIBRARY), ("refuse", REFUSING)):
        source = folder / f"{name}.c"
        source.write_text(text, encoding="utf-8")
        subprocess.run(["cc", "-O2", "-shared", "-fPIC", "-o", str(folder / f"{name}.so"), str(source), "-ldl"], check=True)
    return folder / "crashes.so"


def notes_in(text):
    at, found = 0, []
    while at < len(text):
        kind, refused, file, place, length = NOTE.unpack_from(text, at)
        at += NOTE.size
        found.append(Note(chr(kind), bool(refused), file, place, text[at:at + length]))
        at += length
    return found


# ---- what a crash leaves

class Kept:
    """A file: what the last sync saw, and the writes and cuts since."""

    def __init__(self, content=b""):
        self.synced, self.seen, self.since = content, content, []

    def add(self, note):
        if note.kind == "s":
            if not note.refused:
                self.synced, self.since = self.seen, []
            return
        self.since.append(note)
        if note.kind == "c" and note.refused:
            return
        self.seen = done(self.seen, note)


def done(content, note):
    """A content after a write or a cut."""
    if note.kind == "c":
        return content[:note.place].ljust(note.place, b"\0")
    return content[:note.place].ljust(note.place, b"\0") + note.data + content[note.place + len(note.data):]


class Disk:
    """The files of a folder, by number, and their names: those that are there for sure, and those that may be."""

    def __init__(self, names=None, files=None):
        self.names, self.sure, self.files = dict(names or {}), dict(names or {}), dict(files or {})
        self.maybe = {}

    def add(self, note):
        if note.kind == "d":
            if not note.refused:
                self.sure, self.maybe = dict(self.names), {}
        elif note.kind in "olu":
            if not note.refused:
                name = os.path.basename(note.data.decode())
                self.maybe.setdefault(name, {self.sure.get(name)})
                if note.kind in "ol":
                    self.names[name] = note.file
                else:
                    self.names.pop(name, None)
                self.maybe[name].add(self.names.get(name))
        elif note.kind != "p":
            self.files.setdefault(note.file, Kept()).add(note)

    def content(self, name):
        """What a read shows of a file, None where there is none of this name."""
        number = self.names.get(name)
        return None if number is None else self.files[number].seen

    def files_named(self, name):
        """The files that a crash may leave under a name, None for no file."""
        numbers = self.maybe.get(name, {self.names.get(name)})
        return [None if number is None else self.files.setdefault(number, Kept()) for number in sorted(numbers, key=str)]


SEEDS = [b"\n", b"\r\n", b"+", b"+\n", b"-", b"-\n", b'"', b"\xef\xbb\xbf", b"\0", b"1,commit\n", b"2,commit\nend,1\n-", b"end,#\n-",
         b"\nend,#\n+", b"+\nparty,EVE\nend,#\n+", b"7,deed,666,UNITED STATES,ADAMS,S,W1/2,,T3N R2W sec 1 NE1/4\nend,*\n-",
         b"+\n7,deed,666,UNITED STATES,ADAMS,S,W1/2,,T3N R2W sec 1 NE1/4\nend,*\n+", b"+\n7,begin\n7,commit\nend,*\n+", HEAD + b"+\n"]


def garbage(text, last):
    """What a torn write may leave in the place of a text: beginnings of it, and lies. `last` transactions stand."""
    if len(text) == 1:
        yield from (bytes([byte]) for byte in range(256))
    step = 1 + len(text) // 150
    yield from (text[:length] for length in itertools.chain(range(0, len(text), step), range(max(0, len(text) - 3), len(text))))
    for seed in SEEDS:
        lie = seed.replace(b"#", str(last).encode()).replace(b"*", str(last + 1).encode())
        for whole in {lie, lie * (1 + len(text) // len(lie))}:
            for length in {len(whole), len(whole) - 1, len(text)}:
                yield whole[:min(length, len(text))]


def torn(content, note, bytes_):
    """A content after a write that left these bytes: one that is written as it was stays as it is, and a hole has zero bytes."""
    there = content[note.place:note.place + len(note.data)]
    kept = sum(1 for _ in itertools.takewhile(lambda pair: pair[0] == pair[1], zip(there, note.data)))
    left = note.data[:kept] + bytes_[kept:]
    return content[:note.place].ljust(note.place if left else 0, b"\0") + left + content[note.place + len(left):]


def befores(kept, number):
    """What may be there where a call comes: of those that no sync has followed all were done, the writes alone, or none."""
    found = {kept.synced}
    for kinds in ("w", "wc"):
        content = kept.synced
        for earlier in kept.since[:number]:
            if earlier.kind in kinds:
                content = done(content, earlier)
        found.add(content)
    return found


def contents(kept, last):
    """The contents that a crash may leave of a file, as many as are tried."""
    found = {kept.seen, kept.synced}
    for number, note in enumerate(kept.since):
        left = garbage(note.data, last) if note.kind == "w" else [b""]
        for before, bytes_ in itertools.product(befores(kept, number), left):
            content = torn(before, note, bytes_) if note.kind == "w" else before
            found.add(content)
            for later in kept.since[number + 1:]:
                content = done(content, later)
            found.add(content)
    return sorted(found)


# ---- runs of the program

class Place:
    """A folder with a plant, and the program to run on it."""

    def __init__(self, options, library):
        self.options, self.library = options, library
        self.folder = pathlib.Path(tempfile.mkdtemp(prefix="crashes-", dir=options.folder))
        self.path = self.folder / NAME
        self.plain = Runner(options.program)

    def close(self):
        shutil.rmtree(self.folder)

    def lay(self, content, beside=None):
        """Puts a plant with this content, and what was kept beside it, into the empty folder; None for no file."""
        for path in self.folder.iterdir():
            path.unlink()
        for path, text in ((self.path, content), (self.folder / BESIDE, beside)):
            if text is not None:
                path.write_bytes(text)

    def content(self):
        return self.path.read_bytes() if self.path.exists() else None

    def beside(self):
        path = self.folder / BESIDE
        return path.read_bytes() if path.exists() else None

    def run(self, words, script=b""):
        self.plain.feed(script)
        return self.plain.run(words)

    def check(self):
        return self.run(["check", str(self.path)])

    def serve(self, day, *words):
        return self.run([day.command, "--plant", str(self.path), *day.words, *words], day.script)

    def noted(self, day, refused=None, number=errno.EIO, half=False):
        """A day, with the notes of its calls."""
        notes = os.memfd_create("notes", 0)
        os.set_inheritable(notes, True)
        environment = {"LD_PRELOAD": str(self.library), "CRASHES_NOTES": str(notes), "CRASHES_FOLDER": str(self.folder)}
        if refused is not None:
            environment |= {"CRASHES_REFUSED": str(refused), "CRASHES_ERRNO": str(number)} | ({"CRASHES_HALF": "1"} if half else {})
        runner = Runner(self.options.program, environment)
        runner.feed(day.script)
        paths = [path for path in (self.path, self.folder / BESIDE) if path.exists()]
        start = Disk({path.name: path.stat().st_ino for path in paths}, {path.stat().st_ino: Kept(path.read_bytes()) for path in paths})
        ending = runner.run([day.command, "--plant", str(self.path), *day.words])
        text = os.pread(notes, os.fstat(notes).st_size, 0)
        os.close(notes)
        return ending, start, notes_in(text)


def loose_in(content):
    """What an opening cuts off a file and keeps: what lies behind its blocks, but for a closed gate alone."""
    if content is None:
        return b""
    _, gate = read_plant(content)
    return content[gate:] if tail_of(content, gate) else b""


def kept_with(beside, tail):
    """What is kept once a tail was cut off; an opening that was broken off may have kept it before."""
    if not tail:
        return beside
    return (beside or b"") if (beside or b"").endswith(tail) else (beside or b"") + tail


TOLD_CUT = re.compile(rb"""([0-9]+) bytes? at the end of "[^"\n]*" didn't count, and (?:was|were) cut off; """
                      rb"""(?:it|they) (is|are|couldn't be) kept beside it in "plant\.cut"\n""")


def told_cut(errors):
    """The number of bytes that errors tell to be cut off, whether they are kept, and what is told beside that."""
    found = TOLD_CUT.match(errors)
    return (int(found[1]), found[2] in (b"is", b"are"), errors[found.end():]) if found else (0, False, errors)


class Day:
    """A day, with what stood before it and what stands after it."""

    words = ()

    def __init__(self, told, before):
        self.name, self.command, self.script, self.block, self.report, self.standing, self.told = told
        self.before = before
        self.after = before[:-1] + b"+\n" + self.block + b"-" if self.block else before
        self.was = read_plant(before)[0].numbers()
        self.last, self.next = last_in(self.was), last_in(self.standing)


def last_in(standing):
    """The last place, of what stands in numbers."""
    return int(standing.split(b"\n")[2].split(b",")[1])


def all_days():
    file, made = HEAD + b"-", []
    for told in days():
        made.append(Day(told, file))
        file = made[-1].after
    return made


# What an office of one examiner is asked for, puts into the file and reports, and what stands then: three days, of which the last keeps
# nothing.
DECLARED = b"township,T3N R2W\ntownship,T4N R2W\nparty,ADAMS\n"
SALES = (b"1,begin\n1,deed,1,UNITED STATES,ADAMS,S,W1/2,,T3N R2W\n1,deed,2,UNITED STATES,ADAMS,O,W1/1,,T4N R2W\n1,commit\n",
         b"1,deed,4,ADAMS,BELL,S,W1/2,,T3N R2W\n")
REST_OF_ALL = (b"0,row,T4N R2W,S,UNITED STATES,1/1\n0,row,T3N R2W,O,UNITED STATES,1/1\n0,row,T4N R2W,O,ADAMS,1/1\n"
               b"0,row,everything,M,UNITED STATES,1/1\n")
OFFICE_DAYS = [
    ("office", "office", DECLARED + SALES[0] + b"1,begin\n1,deed,3,UNITED STATES,ADAMS,S,W1/1,,T4N R2W\n1,abort\n",
     DECLARED + SALES[0] + b"end,1\n",
     b"1,done,1,1,0\nsettled,1\n0,sheet,6\n0,row,T3N R2W,S,UNITED STATES,1/2\n0,row,T3N R2W,S,ADAMS,1/2\n" + REST_OF_ALL + b"end,7\n",
     b"townships,2\nparties,2\ntransactions,1\nposts,2\n", DECLARED + SALES[0]),
    ("another office", "office", b"party,BELL\n1,begin\n" + SALES[1] + b"1,commit\n", b"party,BELL\n" + SALES[1] + b"end,2\n",
     b"1,done,1,0,0\nsettled,1\n0,sheet,6\n0,row,T3N R2W,S,UNITED STATES,1/2\n0,row,T3N R2W,S,BELL,1/2\n" + REST_OF_ALL + b"end,3\n",
     b"townships,2\nparties,3\ntransactions,2\nposts,3\n", DECLARED + b"party,BELL\n" + SALES[0] + SALES[1]),
    ("an office that keeps nothing", "office", b"1,begin\n1,deed,5,BELL,ADAMS,S,W1/2,,T3N R2W\n1,abort\n", b"",
     b"1,done,0,1,0\nsettled,0\n0,sheet,6\n0,row,T3N R2W,S,UNITED STATES,1/2\n0,row,T3N R2W,S,BELL,1/2\n" + REST_OF_ALL + b"end,3\n",
     b"townships,2\nparties,3\ntransactions,2\nposts,3\n", DECLARED + b"party,BELL\n" + SALES[0] + SALES[1]),
]


class OfficeDay(Day):
    """A day of an office of one examiner."""

    words = ("--examiners", "1")


def office_days():
    file, made = HEAD + b"-", []
    for told in OFFICE_DAYS:
        made.append(OfficeDay(told, file))
        file = made[-1].after
    return made


class Look(Day):
    """A look at what a day leaves."""

    words = ("--look",)

    def __init__(self, day):
        super().__init__((day.name, "alone", b"1,sheet,everything\n", b"", b"", day.standing, day.told), day.after)


class Seen(Exception):
    """What had to be seen was."""


class Trial:
    """What was tried, and what was wrong."""

    def __init__(self, place, every, stops=False):
        self.place, self.every, self.counts, self.wrong, self.stops = place, every, collections.Counter(), [], stops

    def fail(self, what, *seen):
        if self.stops:
            raise Seen(what)
        self.counts["wrong"] += 1
        if len(self.wrong) < 20:
            self.wrong.append(f"{what}: " + ", ".join(repr(it)[:300] for it in seen))

    def look(self, day, content, is_told, where, beside=None):
        """Opens a content that a crash may leave, with what may be kept beside."""
        self.place.lay(content, beside)
        if content is None:
            if is_told or day.before != HEAD + b"-":
                self.fail(f"{where}: there is no file")
            self.counts["no file"] += 1
            return self.serve_again(day, content, where, beside)
        ending = self.place.check()
        try:
            found, gate = read_plant(content)
        except Fault as fault:
            return self.fail(f"{where}: no plant, row {fault}", content[-200:], ending.output)
        numbers = found.numbers()
        wanted = numbers + b"tail,%d\n" % tail_of(content, gate)
        if ending.status != 0 or ending.output != wanted or ending.errors:
            self.fail(f"{where}: check", ending.status, ending.output, ending.errors, wanted, content[-200:])
        if self.place.content() != content or self.place.beside() != beside:
            self.fail(f"{where}: check changed the file, or kept something")
        is_after = numbers == day.standing and content.startswith(day.after[:-1])
        is_before = numbers == day.was and content.startswith(day.before[:-1]) and not is_told
        if not is_after and not is_before:
            return self.fail(f"{where}: neither before nor after", numbers, day.was, day.standing, content[-200:])
        self.counts["after" if is_after else "before"] += 1
        if (self.counts["after"] + self.counts["before"] * 7) % self.every == 0 or not day.block:
            self.serve_again(day, content, where, beside)

    def serve_again(self, day, content, where, beside=None):
        """Serves the day, where it doesn't count yet."""
        tail = loose_in(content)
        ending = self.place.serve(day, "--after", str(day.last))
        told, kept = told_cut(ending.errors)[:2], self.place.beside()
        if told != (len(tail), bool(tail)) or kept != kept_with(beside, tail):
            self.fail(f"{where}: what is kept", ending.errors, tail, beside, kept)
        self.counts["tails kept"] += bool(tail)
        found = self.place.content()
        is_refused = ending.status == 1 and ending.output == b"fault,47,%d\n" % day.next and day.next != day.last
        if found != day.after or not (is_refused or ending.status == 0 and ending.output == day.report):
            self.fail(f"{where}: served again", ending.status, ending.output[:200], ending.errors, found and found[-200:])
        self.counts["served again"] += 1

    def crash(self, day, start, notes, where, first=-1):
        """Opens what a crash may leave after each of the calls, from one on."""
        disk, is_told, seen, besides = start, False, set(), set()
        whole, beside = disk.content(NAME), disk.content(BESIDE)
        tail = loose_in(whole)
        for number in range(-1, len(notes)):
            if number >= 0:
                disk.add(notes[number])
                is_told = is_told or notes[number].kind == "p" and b"fault" not in notes[number].data
            if number < first:
                continue
            found = set()
            for kept in disk.files_named(NAME):
                found.update([None] if kept is None else contents(kept, day.last))
            for content in sorted(found, key=lambda it: it or b""):
                if (content, is_told) not in seen:
                    seen.add((content, is_told))
                    self.look(day, content, is_told, f"{where}, call {number}", disk.content(BESIDE))
            for kept in disk.files_named(BESIDE) if tail else []:
                for left in [None] if kept is None else contents(kept, day.last):
                    # Where the file may have lost its tail, that is kept; else the file as it was is opened beside what is left.
                    if any(not content.startswith(whole) for content in found):
                        if left != kept_with(beside, tail):
                            self.fail(f"{where}, call {number}: a tail is lost", left, tail)
                    elif left not in besides:
                        besides.add(left)
                        self.look(day, whole, False, f"{where}, call {number}, beside", left)

    def rest(self, day, content, where):
        """The day on a content, torn at each call."""
        self.place.lay(content)
        ending, start, notes = self.place.noted(day)
        if ending.status != 0 or ending.output != day.report or self.place.content() != day.after:
            self.fail(f"{where}: the day", ending.status, ending.output[:300], ending.errors[:300])
        # A tail that is cut off is told by a sentence, and nothing else is; it is kept.
        tail = loose_in(content)
        if told_cut(ending.errors) != (len(tail), bool(tail), b"") or self.place.beside() != kept_with(None, tail):
            self.fail(f"{where}: what is told of the tail, or kept", ending.errors, self.place.beside())
        ending = self.place.run(["check", "--script", str(self.place.path)])
        described, cells, _ = day.told.partition(b" cells ")
        wanted = (1, b"fault,48,%d\n" % (1 + described.count(b"\n"))) if cells else (0, day.told)
        if (ending.status, ending.output) != wanted:
            self.fail(f"{where}: as a script", ending.status, ending.output[:300], ending.errors)
        self.counts["calls"] += len(notes)
        self.crash(day, start, notes, where)
        return notes

    def refuse(self, day, content, where):
        """The day on a content with each call refused."""
        self.place.lay(content)
        _, _, notes = self.place.noted(day)
        notes = [note for note in notes if note.kind in "wcsdl"]
        plant, tail = self.place.path.stat().st_ino, loose_in(content)
        lines = lines_wanted(day, plant, notes)
        for half, number, (call, line) in itertools.product((False, True), (errno.EIO, errno.ENOSPC), enumerate(lines)):
            self.place.lay(content)
            is_kept = bool(tail) and not keeps_at(notes, call, plant)
            ending, start, notes_then = self.place.noted(day, call, number, half)
            name = f"{where}, call {call} refused ({errno.errorcode[number]}{', half' if half else ''})"
            self.counts["refused"] += 1
            if sum(note.refused for note in notes_then) != 1:
                self.fail(f"{name}: not refused once", notes_then)
            status, output = (0, day.report) if line is None else (1, line)
            if ending.status != status or ending.output != output or told_cut(ending.errors)[2].count(b"\n") != (line is not None):
                self.fail(name, ending.status, ending.output, ending.errors, line)
            self.counts[(line or b"the day all the same").decode().strip()] += 1
            # The tail is kept, or told to be lost where the file has it no more.
            beside, told = self.place.beside(), told_cut(ending.errors)[:2]
            if is_kept and beside != tail or told not in {(len(tail), is_kept)} | ({(0, False)} if line else set()):
                self.fail(f"{name}: what is kept", ending.errors, beside, tail)
            self.counts["told that it isn't kept"] += told == (len(tail), False) and bool(tail)
            for note in notes_then:
                start.add(note)
            for kept in start.files_named(NAME):
                for left in [None] if kept is None else contents(kept, day.last)[::5]:
                    self.look(day, left, ending.status == 0, name, beside)


def keeps_at(notes, at, plant):
    """Whether a call is one of those that keep a tail: of the file beside, or of the folder behind these."""
    return notes[at].kind in "wcs" and notes[at].file != plant or notes[at].kind == "d" and notes[at - 1].file != plant


def lines_wanted(day, plant, notes):
    """The line of each refused call, None where it doesn't matter: the last two open the gate, and the opening ends with the folder."""
    opened = max(at for at, note in enumerate(notes) if note.kind == "d")
    lines = []
    for at, note in enumerate(notes):
        if keeps_at(notes, at, plant):
            lines.append(None)
        elif at <= opened:
            lines.append(b"fault,36\n")
        elif day.block and at >= len(notes) - 2:
            lines.append(b"fault,40\n")
        else:
            lines.append(b"fault,39\n")
    return lines


def tails(day):
    """What a crash may have left in the place of the gate: of a block, half or whole, and a lie that would count behind an open gate."""
    staged = b"-\n" + day.block
    lie = b"x\n7,begin\n7,commit\nend,%d\n-" % (day.last + 1)
    return [b"", b"+", b"\n", lie, staged[:len(staged) // 2], staged + b"-"]


def try_rest(trial, day):
    trial.rest(day, day.before, day.name)


def try_tails(trial, day):
    for number, tail in enumerate(tails(day)):
        content = day.before[:-1] + tail
        if content != day.before:
            trial.rest(day, content, f"{day.name}, tail {number}")


def try_new(trial, day):
    if day.before == HEAD + b"-":
        trial.rest(day, None, "a new file")


def try_syncs(trial, day):
    """That these tries see a missing sync: each that is needed is left out of the notes, and then a content has to be wrong."""
    for content, needed in ((day.before, 2), (day.before[:-1] + tails(day)[3], 4)):
        trial.place.lay(content)
        file = trial.place.path.stat().st_ino
        _, _, notes = trial.place.noted(day)
        syncs = [at for at, note in enumerate(notes) if note.kind == "s" and note.file == file and day.block][-needed:]
        besides = [at for at, note in enumerate(notes) if note.kind == "s" and note.file != file]
        folders = [at for at, note in enumerate(notes) if note.kind == "d" and besides]
        # The folder of both is one: it is synced twice, and the name that is made is missing where neither is done.
        for left_out in [*([at] for at in [*syncs, *besides]), *([folders] if folders else [])]:
            asked = [note for at, note in enumerate(notes) if at not in left_out]
            probe = Trial(trial.place, FOREVER, stops=True)
            trial.counts["left out"] += 1
            try:
                probe.crash(day, Disk({NAME: file}, {file: Kept(content)}), asked, "a probe", left_out[0])
                trial.fail(f"{day.name}: that a sync is missing isn't seen", left_out, notes[left_out[0]])
            except Seen:
                trial.counts["seen"] += 1


def try_refused(trial, day):
    trial.refuse(day, day.before, day.name)
    trial.refuse(day, day.before[:-1] + b"-\nparty,", f"{day.name}, torn")
    if day.before == HEAD + b"-":
        trial.refuse(day, None, "a new file")


def try_offices(trial, day):
    if day.before == HEAD + b"-":
        for office in office_days():
            try_rest(trial, office)
            try_tails(trial, office)
            trial.refuse(office, office.before, office.name)


def try_looks(trial, day):
    look = Look(day)
    for content in (look.before, look.before[:-1] + tails(day)[3]):
        trial.place.lay(content)
        ending, _, notes = trial.place.noted(look)
        made = [note for note in notes if note.kind not in "sdp"]
        if ending.status != 0 or ending.errors or not ending.output.startswith(b"1,sheet,") or made:
            trial.fail(f"{day.name}: a look", ending.status, ending.output[:200], ending.errors, made)
        trial.counts["looks"] += 1
        syncs = sum(note.kind in "sd" for note in notes)
        for call in range(syncs):
            ending, _, notes = trial.place.noted(look, call)
            if (ending.status, ending.output) != (1, b"fault,36\n") or not any(note.refused for note in notes):
                trial.fail(f"{day.name}: a look whose sync fails", call, ending.status, ending.output[:200], ending.errors)
            trial.counts["syncs refused"] += 1
        if trial.place.content() != content or trial.place.beside() is not None:
            trial.fail(f"{day.name}: a look has left something", trial.place.content()[-200:], trial.place.beside())


def expect(trial, where, ending, status, output, content):
    """Sees that a run ended so, and that the file is this."""
    found = trial.place.content()
    trial.counts["ends"] += 1
    if (ending.status, ending.output) != (status, output) or found != content:
        trial.fail(where, ending.status, ending.output, ending.errors, found and found[-200:])


def try_streams(trial, day):
    """Standard streams that are closed: what is meant for them isn't in the file."""
    for content, closed in itertools.product((day.before, day.before[:-1] + b"-\nparty,"), itertools.product((False, True), repeat=3)):
        source, output, errors = (-1 if it else None for it in closed)
        trial.place.lay(content)
        trial.place.plain.feed(day.script)
        ending = trial.place.plain.run([day.command, "--plant", str(trial.place.path)], source, output, errors)
        status = 1 if source or output else 0
        told = b"" if output else b"fault,32\n" if source else day.report
        expect(trial, f"{day.name}, closed {closed}", ending, status, told, day.before if source else day.after)
        if trial.place.beside() != kept_with(None, loose_in(content)):
            trial.fail(f"{day.name}, closed {closed}: what is kept", trial.place.beside())


def try_limited(trial, day):
    """A file that can't grow above each size."""
    plain = resource.getrlimit(resource.RLIMIT_FSIZE)
    before, after = len(day.before), len(day.after)
    for most in range(before, after, 1 + (after - before) // 200):
        trial.place.lay(day.before)
        trial.place.plain.feed(day.script)
        errors = os.open("/dev/null", os.O_WRONLY)
        resource.setrlimit(resource.RLIMIT_FSIZE, (most, plain[1]))
        try:
            ending = trial.place.plain.run([day.command, "--plant", str(trial.place.path)], errors=errors)
        finally:
            resource.setrlimit(resource.RLIMIT_FSIZE, plain)
        os.close(errors)
        content = trial.place.content()
        trial.counts["ends"] += 1
        if (ending.status, ending.output) != (1, b"fault,39\n") or len(content) > most:
            trial.fail(f"{day.name}, at most {most} bytes", ending.status, ending.output)
        trial.look(day, content, False, f"{day.name}, at most {most} bytes")
        trial.place.lay(content)
        trial.serve_again(day, content, f"{day.name}, at most {most} bytes")


def as_nobody(program, words, script):
    """A run by a user who owns nothing."""
    ran = subprocess.run([str(program), *words], input=script, capture_output=True, env={}, user=65534, group=65534, check=False)
    return Ending(ran.returncode, ran.stdout, ran.stderr, 0, 0, 0)


def try_paths(trial, day):
    """What is no file, and files and folders that nobody may write to or read."""
    place, words = trial.place, [day.command, "--plant"]
    place.lay(day.before)
    (place.folder / "loose").symlink_to("nowhere")
    (place.folder / "linked").symlink_to(NAME)
    for path in ("", "/", "/dev/null", "/dev/full", "/proc/self/mem", str(place.folder), str(place.folder / "missing" / NAME),
                 str(place.folder / "loose"), str(place.path) + "/", "x" * 5000):
        for asked in ([*words, path], ["check", path]):
            expect(trial, f"{asked}", place.run(asked, day.script), 1, b"fault,36\n", day.before)
    expect(trial, "a link", place.run([*words, str(place.folder / "linked")], day.script), 0, day.report, day.after)
    place.lay(day.before)
    names = sorted(os.listdir(place.folder))
    os.chmod(place.folder, 0o755)
    if os.getuid() != 0:
        return trial.counts.update(["permissions not tried, but by root"])
    for mode, is_read in ((0o600, False), (0o644, True), (0o000, False)):
        os.chmod(place.path, mode)
        ending = as_nobody(trial.place.options.program, [*words, str(place.path)], day.script)
        expect(trial, f"mode {mode:o}", ending, 1, b"fault,36\n", day.before)
        ending = as_nobody(trial.place.options.program, ["check", str(place.path)], b"")
        wanted = (0, day.was + b"tail,0\n") if is_read else (1, b"fault,36\n")
        expect(trial, f"check, mode {mode:o}", ending, *wanted, day.before)
    ending = as_nobody(trial.place.options.program, [*words, str(place.folder / "new")], day.script)
    expect(trial, "a new file in a folder that nobody may write to", ending, 1, b"fault,36\n", day.before)
    if sorted(os.listdir(place.folder)) != names:
        trial.fail("a file is left", sorted(os.listdir(place.folder)))
    # A tail that can't be kept, since nobody may make a file there, or one is there that nobody may write to.
    for beside in (None, b"kept"):
        place.lay(day.before[:-1] + b"torn", beside)
        os.chmod(place.path, 0o666)
        ending = as_nobody(trial.place.options.program, [*words, str(place.path)], day.script)
        expect(trial, f"torn, beside {beside}", ending, 0, day.report, day.after)
        if told_cut(ending.errors) != (4, False, b"") or place.beside() != beside:
            trial.fail(f"torn, beside {beside}: what is told", ending.errors, place.beside())
    return None


def try_permitted(trial, day):
    """What is kept is for those who may read the file."""
    for mode in (0o600, 0o640, 0o666):
        trial.place.lay(day.before[:-1] + b"torn")
        os.chmod(trial.place.path, mode)
        mask = os.umask(0)
        ending = trial.place.serve(day)
        os.umask(mask)
        expect(trial, f"torn, mode {mode:o}", ending, 0, day.report, day.after)
        found = (trial.place.folder / BESIDE).stat().st_mode & 0o777
        if found != mode:
            trial.fail(f"torn, mode {mode:o}: what is kept", f"{found:o}")


def try_memory(trial, day):
    """Each allocation refused: the file stands as before, or the day was served without it."""
    refuse_from(trial, day, day.before)
    refuse_from(trial, day, day.before[:-1] + b"x\n")


def refuse_from(trial, day, content):
    work = trial.place.folder.parent
    tally = work / f"tally.{os.getpid()}"
    runner = Runner(trial.place.options.program, {"LD_PRELOAD": str(work / "refuse.so"), "REFUSE_TALLY": str(tally)})
    runner.feed(day.script)
    for number in itertools.count(1):
        trial.place.lay(content)
        tally.write_bytes(bytes(TALLY.size))
        runner.environment["REFUSE_FIRST"] = str(number)
        ending = runner.run([day.command, "--plant", str(trial.place.path)])
        if Tally(*TALLY.unpack(tally.read_bytes())).refused == 0:
            return
        where = f"{day.name}, allocation {number} refused"
        told, beside, tail = told_cut(ending.errors)[:2], trial.place.beside(), loose_in(content)
        is_lost = beside != kept_with(None, tail) and trial.place.content() != content
        if told[1] and beside != tail or is_lost and told != (len(tail), False):
            trial.fail(f"{where}: what is kept", ending.errors, beside, tail)
        trial.counts["told that it isn't kept"] += told == (len(tail), False) and bool(tail)
        if ending.status == 1 and ending.output == b"fault,6\n" and ending.errors.count(b"\n") <= 2:
            trial.counts["fault,6"] += 1
            # Nothing of the block was written: the file is as it was, or it was repaired.
            if trial.place.content() not in (content, day.before):
                trial.fail(f"{where}: the file", trial.place.content()[-200:])
        elif ending.status == 0 and ending.output == day.report and trial.place.content() == day.after:
            trial.counts["the day all the same"] += 1
        else:
            trial.fail(where, ending.status, ending.output, ending.errors, trial.place.content()[-200:])
        trial.look(day, trial.place.content(), ending.status == 0, where)


def try_devices(trial, day):
    try_streams(trial, day)
    try_limited(trial, day)
    try_paths(trial, day)
    try_permitted(trial, day)


PAGE = resource.getpagesize()


def pages(content):
    return -(-len(content or b"") // PAGE)


def resold(count, names):
    """The rows of deeds by which the quarters of a township go from the first name to the second and back."""
    for at in range(count):
        grantor, grantee = names if at // 144 % 2 == 0 else names[::-1]
        where = f"T3N R2W sec {1 + at % 36} {('NE', 'NW', 'SW', 'SE')[at // 36 % 4]}1/4"
        yield f"1,deed,{at + 1},{grantor},{grantee},S,W1/1,,{where}\n"


def long_day():
    """A day whose block has many pages."""
    count = 1000
    script = "".join(["township,T3N R2W\n", "party,ADAMS\n", *resold(count, ("UNITED STATES", "ADAMS"))]).encode()
    standing = b"townships,1\nparties,2\ntransactions,%d\nposts,%d\n" % (count, count)
    report = b"1,posted\n" * count + b"end,%d\n" % count
    return Day(("long", "alone", script, script + b"end,%d\n" % count, report, standing, script), HEAD + b"-")


def try_full(trial, day):
    """A small file system, in which so many pages are free, or so many names."""
    if day.last == 0 and day.name != "long":
        try_full(trial, long_day())
    point = tempfile.mkdtemp(dir=trial.place.options.folder)
    os.chmod(point, 0o755)
    made = subprocess.run(["mount", "-t", "tmpfs", "-o", "size=256k,nr_inodes=40", "tmpfs", point], capture_output=True, check=False)
    if made.returncode != 0:
        trial.counts["days not tried, since nothing may be mounted here"] += 1
        return
    try:
        small = Place(argparse.Namespace(**{**vars(trial.place.options), "folder": point}), trial.place.library)
        inside = Trial(small, 1)
        inside.counts, inside.wrong = trial.counts, trial.wrong
        torn = day.before[:-1] + b"-\n" + b"x" * 2 * PAGE
        for content, beside in ((day.before, None), (torn, None), (torn, b"k" * (PAGE - 3)), *([(None, None)] if day.last == 0 else [])):
            for free in range(pages(day.after) + pages(torn) + 2):
                fill(inside, day, content, beside, free)
            for names in range(3):
                fill_names(inside, day, content, beside, names)
    finally:
        subprocess.run(["umount", point], check=True)


def fill(trial, day, content, beside, free):
    """A day on a content where so many pages are free."""
    place, tail = trial.place, loose_in(content)
    place.lay(content, beside)
    filler = place.folder.parent / "filler"
    filler.write_bytes(bytes((os.statvfs(place.folder).f_bavail - free) * PAGE))
    ending = place.serve(day)
    filler.unlink()
    # A tail is kept first; then what it had is free.
    wanted = pages(kept_with(beside, tail)) - pages(beside)
    is_kept = bool(tail) and wanted <= free
    has_room = pages(day.after) <= free + pages(content) - (wanted if is_kept else 0)
    line = b"fault,36\n" if content is None and free == 0 else None if has_room or not day.block else b"fault,39\n"
    judge(trial, day, f"{day.name}, {free} pages free", ending, line, content, beside, is_kept)


def fill_names(trial, day, content, beside, free):
    """A day on a content where so many names may be made: a new file takes two on its way."""
    place = trial.place
    place.lay(content, beside)
    fillers = [place.folder.parent / f"filler{number}" for number in range(os.statvfs(place.folder).f_favail - free)]
    for filler in fillers:
        filler.touch()
    ending = place.serve(day)
    for filler in fillers:
        filler.unlink()
    is_kept = bool(loose_in(content)) and (beside is not None or free > 0)
    line = b"fault,36\n" if content is None and free < 2 else None
    judge(trial, day, f"{day.name}, {free} names free", ending, line, content, beside, is_kept)


def judge(trial, day, where, ending, line, content, beside, is_kept):
    """Sees that a day ended by this fault, or by none, that its tail was kept or not, and what stands then."""
    place, tail = trial.place, loose_in(content)
    found, kept = place.content(), place.beside()
    trial.counts[(line or b"the day").decode().strip()] += 1
    if (ending.status, ending.output) != ((0, day.report) if line is None else (1, line)) or line is None and found != day.after:
        trial.fail(where, ending.status, ending.output, ending.errors, line)
    trial.counts["tails not kept for want of room"] += bool(tail) and not is_kept
    if told_cut(ending.errors)[:2] != (len(tail), is_kept) or (kept or b"") != (kept_with(beside, tail) if is_kept else beside or b""):
        trial.fail(f"{where}: what is kept", ending.errors, kept and kept[-100:])
    if content is None and line == b"fault,36\n" and any(place.folder.iterdir()):
        trial.fail(f"{where}: a file is left", os.listdir(place.folder))
    if line is not None:
        trial.look(day, found, False, where, kept)
        trial.serve_again(day, place.content(), f"{where}, and then room", place.beside())


def try_faults(trial, day):
    """Each fault of a plant's file by a case of its own; the file stays."""
    if day.last != 0:
        return
    place = trial.place

    def end(content, words, line, script=b""):
        place.lay(content)
        expect(trial, line.decode(), place.run([*words, str(place.path)], script), 1, line, content)

    served = ["alone", "--plant"]
    place.lay(day.after)
    expect(trial, "fault,36", place.run([*served, str(place.folder)], day.script), 1, b"fault,36\n", day.after)
    with open(place.path, "rb") as other:
        fcntl.flock(other, fcntl.LOCK_EX)
        expect(trial, "fault,37", place.run([*served, str(place.path)], day.script), 1, b"fault,37\n", day.after)
        expect(trial, "a look meanwhile", place.check(), 0, day.standing + b"tail,0\n", day.after)
    end(day.after[1:], served, b"fault,38,1\n", day.script)
    end(day.after.replace(b"commit\nend,", b"abort\nend,"), served, b"fault,38,%d\n" % (day.after.count(b"\n") - 1), day.script)
    for call, line in ((-4, b"fault,39\n"), (-1, b"fault,40\n")):
        place.lay(day.before)
        _, _, notes = place.noted(day)
        place.lay(day.before)
        ending, _, _ = place.noted(day, call + sum(note.kind in "wcsdl" for note in notes))
        trial.counts["ends"] += 1
        if (ending.status, ending.output) != (1, line):
            trial.fail(line.decode(), ending.status, ending.output)
        trial.look(day, place.content(), False, line.decode())
    # BELL has all that ADAMS had, who has nothing of a township that joins.
    sold = (b"township,T3N R2W\nparty,ADAMS\nparty,BELL\n1,deed,1,UNITED STATES,ADAMS,S,W1/1,,T3N R2W\n"
            b"1,deed,2,ADAMS,BELL,S,W1/1,,everything\n")
    end(HEAD + b"+\n" + sold + b"end,2\n-", served, b"fault,46,2\n", b"township,T4N R2W\n")
    end(day.after, [*served[:1], "--after", "7", *served[1:]], b"fault,47,%d\n" % day.next, day.script)
    cells = b"1,deed,1,UNITED STATES,ADAMS,S,W1/1,,T3N R2W sec 5 cells" + b" aaaa" * 16 + b"\n"
    end(HEAD + b"+\ntownship,T3N R2W\nparty,ADAMS\n" + cells + b"end,1\n-", ["check", "--script"], b"fault,48,3\n")
    # A script has at most 100,000 rows and 16 MB.
    for name, count in (("B", 99_998), ('"' * 60, 99_000)):
        quoted = '"' + name.replace('"', '""') + '"' if '"' in name else name
        rows = ["township,T3N R2W\n", f"party,{quoted}\n", *resold(count + 1, ("UNITED STATES", quoted))]
        sums = list(itertools.accumulate(map(len, rows)))
        first = next(at for at in range(len(rows)) if at == 100_000 or sums[at] > 1 << 24)
        content = HEAD + b"+\n" + "".join(rows).encode() + b"end,%d\n-" % (count + 1)
        end(content, ["check", "--script"], b"fault,48,%d\n" % (first + 1))


def try_large(trial, day):
    """A file of 1,000,000 rows with all the parties that there may be: `check`, and a day on top of it."""
    if day.before != HEAD + b"-":
        return
    names = [f"P{number}" for number in range(1, 65536)]
    rows = ["township,T3N R2W\n", *(f"party,{name}\n" for name in names)]
    count = (1_000_000 - len(rows)) // 2 * 2
    for place in range(0, count, 2):
        where = f"T3N R2W sec {1 + place % 36} {('NE', 'NW', 'SW', 'SE')[place // 36 % 4]}1/4"
        name = names[place // 2 % len(names)]
        rows.append(f"1,deed,{place + 1},UNITED STATES,{name},S,W1/1,,{where}\n")
        rows.append(f"2,deed,{place + 2},{name},UNITED STATES,S,W1/1,,{where}\n")
    before = HEAD + b"+\n" + "".join(rows).encode() + b"end,%d\n-" % count
    trial.place.lay(before)
    ending = trial.place.check()
    wanted = b"townships,1\nparties,65536\ntransactions,%d\nposts,%d\ntail,0\n" % (count, count)
    if ending.status != 0 or ending.output != wanted:
        trial.fail("large, check", ending.status, ending.output, ending.errors)
    trial.counts[f"{len(rows)} rows checked in {ending.seconds:.1f} s and {ending.megabytes:.0f} MB"] += 1
    ending = trial.place.run(["check", "--script", str(trial.place.path)])
    if (ending.status, ending.output) != (1, b"fault,48,%d\n" % (1 + "".join(rows)[:1 << 24].count("\n"))):
        trial.fail("large, as a script", ending.status, ending.output[:300], ending.errors)
    script = b"1,deed,1,UNITED STATES,P65535,S,W1/2,,T3N R2W sec 5\n"
    trial.place.plain.feed(script)
    ending = trial.place.plain.run(["alone", "--plant", str(trial.place.path)])
    after = before[:-1] + b"+\n" + script + b"end,%d\n-" % (count + 1)
    if ending.status != 0 or ending.output != b"1,posted\nend,1\n" or trial.place.content() != after:
        trial.fail("large, a day", ending.status, ending.output, ending.errors)
    trial.counts[f"a day on them in {ending.seconds:.1f} s and {ending.megabytes:.0f} MB"] += 1
    trial.place.plain.feed(b"party,P65536\n")
    ending = trial.place.plain.run(["alone", "--plant", str(trial.place.path)])
    if ending.status != 1 or ending.output != b"fault,31,1\n" or trial.place.content() != after:
        trial.fail("large, a party more", ending.status, ending.output, ending.errors)


TRIALS = {"rest": try_rest, "tails": try_tails, "new": try_new, "syncs": try_syncs, "refused": try_refused,
          "memory": try_memory, "devices": try_devices, "full": try_full, "offices": try_offices, "looks": try_looks, "faults": try_faults,
          "large": try_large}


def one(task):
    """Runs a trial of a day."""
    options, library, name, day = task
    place = Place(options, library)
    trial = Trial(place, options.every)
    TRIALS[name](trial, day)
    place.close()
    return name, trial.counts, trial.wrong


def main():
    parser = argparse.ArgumentParser(description=__doc__, formatter_class=argparse.RawDescriptionHelpFormatter)
    parser.add_argument("--program", type=pathlib.Path, default=BUILT)
    parser.add_argument("--jobs", type=int, default=os.cpu_count())
    parser.add_argument("--every", type=int, default=4)
    parser.add_argument("--days", type=lambda names: names.split(","), help="names, with commas between them")
    parser.add_argument("trials", nargs="*", metavar="TRIAL")
    options = parser.parse_args()
    options.program = options.program.resolve()
    start, wrong = time.monotonic(), 0
    shared = pathlib.Path("/dev/shm")
    with tempfile.TemporaryDirectory(prefix="crashes-", dir=shared if shared.is_dir() else None) as folder:
        os.chmod(folder, 0o755)
        options.folder = folder
        library = build(pathlib.Path(folder))
        chosen = [day for day in all_days() if not options.days or day.name in options.days]
        tasks = [(options, library, name, day) for name in options.trials or TRIALS for day in chosen]
        sums, told = {}, {}
        with multiprocessing.Pool(options.jobs) as pool:
            for name, counts, failures in pool.imap_unordered(one, tasks, 1):
                sums.setdefault(name, collections.Counter()).update(counts)
                told.setdefault(name, []).extend(failures)
    for name, counts in sums.items():
        words = ", ".join(f"{count} {what}" for what, count in sorted(counts.items()))
        print(f"{name}: {words}; {counts['wrong']} wrong; {time.monotonic() - start:.0f} s")
        for line in told[name][:20]:
            print(f"  WRONG {line}")
        wrong += counts["wrong"]
    sys.exit(1 if wrong else 0)


if __name__ == "__main__":
    main()
