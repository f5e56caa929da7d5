"""How a program ends on given words and bytes: what the scripts that try a built program have in common."""

import collections
import os
import pathlib
import re
import select
import signal
import time

TOP = pathlib.Path(__file__).resolve().parent.parent
BUILT = TOP / "crates" / "titleplant" / "out" / "titleplant"

# The status is negative where a signal ended the program, and None where it was ended by the runner, out of patience.
Ending = collections.namedtuple("Ending", "status output errors seconds processor megabytes")

FAULT = re.compile(rb"fault,([0-9]+)(?:,([0-9]+))?\n")

# The faults that docs/FORMATS.md lists, of each command: a number, and whether a place follows it.
SCRIPT_FAULTS = {6: False, 31: True, 32: False, 34: True, 35: True}
WORKER_FAULTS = {1: False, 2: False, 3: False, 4: False, 5: False, 7: False, 9: False, 26: False}
OFFICE_FAULTS = {**SCRIPT_FAULTS, **WORKER_FAULTS, 41: True, 42: True, 43: True, 44: True, 45: True}
TRACT_FAULTS = {6: False, 21: True, 22: False, 23: False, 24: False, 25: False}
FAULTS = {"run": SCRIPT_FAULTS, "alone": SCRIPT_FAULTS, "office": OFFICE_FAULTS, "tract": TRACT_FAULTS}


def held(name, content=b""):
    """A file in memory with this content."""
    file = os.memfd_create(name)
    os.write(file, content)
    return file


def content(file):
    return os.pread(file, os.fstat(file).st_size, 0)


class Runner:
    """Runs a program again and again, each time on a file in memory, with its output and its errors in files in memory."""

    def __init__(self, program, environment=None, patience=60):
        self.program = str(program)
        self.environment = {} if environment is None else environment
        self.patience = patience
        self.source, self.output, self.errors = held("source"), held("output"), held("errors")

    def __del__(self):
        for file in (self.source, self.output, self.errors):
            os.close(file)

    def feed(self, script):
        """The bytes that the runs after this read."""
        os.ftruncate(self.source, 0)
        os.pwrite(self.source, script, 0)

    def run(self, words, source=None, output=None, errors=None):
        """One run, on the bytes that were fed, or from and to files of the caller's; a file below 0 is a closed one."""
        start = time.monotonic()
        child = self.begin(words, source, output, errors)
        status, usage = self.wait(child)
        seconds = time.monotonic() - start
        processor = usage.ru_utime + usage.ru_stime
        return Ending(status, content(self.output), content(self.errors), seconds, processor, usage.ru_maxrss / 1024)

    def begin(self, words, source=None, output=None, errors=None):
        """Begins a run, and gives its number."""
        for file in (self.output, self.errors):
            os.ftruncate(file, 0)
            os.lseek(file, 0, os.SEEK_SET)
        os.lseek(self.source, 0, os.SEEK_SET)
        asked = ((source, self.source), (output, self.output), (errors, self.errors))
        ends = [own if file is None else file for file, own in asked]
        actions = [(os.POSIX_SPAWN_DUP2, file, place) if file >= 0 else (os.POSIX_SPAWN_CLOSE, place) for place, file in enumerate(ends)]
        return os.posix_spawn(self.program, [self.program, *words], self.environment, file_actions=actions, setsigdef=[signal.SIGPIPE])

    def wait(self, child):
        """The status of a run, None where it went on for longer than the patience."""
        handle = os.pidfd_open(child)
        waiting = select.poll()
        waiting.register(handle, select.POLLIN)
        is_over = waiting.poll(self.patience * 1000)
        os.close(handle)
        if not is_over:
            os.kill(child, signal.SIGKILL)
        _, status, usage = os.wait4(child, 0)
        return os.waitstatus_to_exitcode(status) if is_over else None, usage


def lines(text):
    """How many lines a text has; a last one without its end counts too."""
    return text.count(b"\n") + (not text.endswith(b"\n") and text != b"")


def steps_told(report):
    """K of the last row `end,K`, None where there is no such row."""
    last = report[report.rfind(b"\n", 0, -1) + 1:]
    found = re.fullmatch(rb"end,([0-9]+)\n", last)
    return int(found[1]) if found else None


def fault_in(output, command):
    """The number of the fault whose line is all of an output, where docs/FORMATS.md lists it for the command; else None."""
    found = FAULT.fullmatch(output)
    if not found:
        return None
    number, place = int(found[1]), found[2]
    return number if FAULTS[command].get(number) == (place is not None) else None


def complaint(ending, command):
    """What is wrong with an ending: None for a report that ends with its last row or for one fault of the list."""
    status, output, errors = ending.status, ending.output, ending.errors
    if status is None:
        return "didn't end"
    if status == 0:
        if errors:
            return "wrote to standard error beside status 0"
        told = output.endswith(b"\n") and b"acres," in output if command == "tract" else steps_told(output) is not None
        return None if told else "status 0 without a whole report"
    if status != 1:
        return f"ended with status {status}"
    if fault_in(output, command) is None:
        return "status 1 without one line of a fault that is listed"
    most = 3 if command == "tract" else 1
    return None if lines(errors) <= most else f"{lines(errors)} lines on standard error"
