#!/usr/bin/env python3
"""Tries the must-fail edits that stand beside the gate: bench/edits.py [--all] [--list] [CRATE ..], by default all crates with edits.

The gate tries the edits of crates/NAME/must-fail. Others stand in crates/NAME/refused, files of the same form that no run of the
gate reads. They are laid into the must-fail folders of a copy of crates/, crates.txt and HANDLES, with --all beside those of the gate,
and `rt ci CRATE ..` runs over that copy. It takes what a gate on this machine has proved and tried, tries several edits side by
side, and keeps what came of each, so that another call tries only what has changed. (`rt must-fail` would begin with what `rt check`
left, prove the crates below one after another where it left nothing, and load their proofs for each edit.)

Standard error gets what rt says of the crates meanwhile. Standard output gets a line for each edit that isn't refused at a goal of
a value: it is NOT REFUSED, or a BAD EDIT, or refused only because a proof file names what it took away, or only by a limit of the
prover, or NOT TRIED. Then comes a table: of each crate the edits in the gate, those beside it, and how many of the tried ones were
refused. The status is 1 where one wasn't. With --list nothing is tried, and the table alone is printed.
"""

import argparse
import pathlib
import re
import shutil
import signal
import subprocess
import sys
import tempfile
import time

TOP = pathlib.Path(__file__).resolve().parent.parent
IN_GATE, BESIDE = "must-fail", "refused"
# What a file of an edit is named, as rt has it.
EDIT = re.compile(r"[A-Za-z0-9_-][A-Za-z0-9_.-]*\.edit")
TOLD = re.compile(r"rt: must-fail ([\w-]+)/(\S+\.edit): (.*)")
ENDED = re.compile(r"rt: [\w-]+(: its tests are)? (proved|NOT PROVED.*)")
SUMMARY = re.compile(r"\d+ passed, \d+ failed")
REFUSED = "refused, as it must be"


def crates():
    """The names of the crates, in the order of crates.txt."""
    rows = (re.split(r"[#:]", row)[0].split() for row in (TOP / "crates.txt").read_text(encoding="utf-8").splitlines())
    return [words[0] for words in rows if words]


def edits(crate, part):
    """The edits in a folder of the crate, by name, and the files there that are none."""
    folder = TOP / "crates" / crate / part
    files = sorted(it for it in folder.rglob("*") if not it.is_dir() and it.suffix != ".md") if folder.is_dir() else []
    good = {it.name: it for it in files if it.parent == folder and EDIT.fullmatch(it.name)}
    return good, [it for it in files if it not in good.values()]


def lay_out(copy, tried):
    """Copies the crates to a folder, the top of a repository of its own, with these edits of each in the place of those of the gate."""
    left_out = ("out", IN_GATE, BESIDE)
    for crate in crates():
        source = TOP / "crates" / crate

        def ignored(folder, names, top=str(source)):
            return [it for it in names if folder == top and it in left_out]

        shutil.copytree(str(source), str(copy / "crates" / crate), symlinks=True, ignore=ignored)
    for name in ("crates.txt", "HANDLES"):
        if (TOP / name).exists():
            shutil.copy2(str(TOP / name), str(copy / name))
    (copy / ".git").mkdir()
    for crate, files in tried.items():
        folder = copy / "crates" / crate / IN_GATE
        folder.mkdir()
        for file in files:
            shutil.copy2(str(file), str(folder / file.name))


def lines_of_gate(copy, names):
    """The lines that the gate over these crates of the copy says, as they come."""
    streams = {"stdin": subprocess.DEVNULL, "stdout": subprocess.PIPE, "stderr": subprocess.STDOUT, "errors": "replace"}
    # (in a session of its own, since it ends at once by a signal of ours, and at Ctrl-C only with the checks that run)
    gate = subprocess.Popen(["rt", "ci", *names], cwd=str(copy), start_new_session=True, **streams)
    try:
        for line in gate.stdout:
            yield line.rstrip("\n")
        if gate.wait() not in (0, 1):
            how = f"with status {gate.returncode}" if gate.returncode > 0 else f"by signal {-gate.returncode}"
            print(f"edits.py: rt ci was ended {how}, so edits may be untried: call this again", file=sys.stderr)
    finally:
        if gate.poll() is None:
            gate.terminate()
            gate.wait()
            # (the checks that end with it may still write into the copy for a moment)
            time.sleep(1)


def outcomes(lines):
    """What is said of each edit, by its crate and name. What is said of crates is passed on, in full where one isn't proved."""
    found, told, section = {}, None, None
    for line in lines:
        edit = TOLD.fullmatch(line)
        if line.startswith("== "):
            section = []
        if edit:
            told = edit[1], edit[2]
            found[told] = edit[3]
        elif section is not None:
            section.append(line)
            if ENDED.fullmatch(line):
                print(*(section if "NOT PROVED" in line else [line]), sep="\n", file=sys.stderr, flush=True)
                section = None
        elif told and not line.startswith("rt: ") and not SUMMARY.match(line):
            found[told] += f"\n    {line}"
        elif not SUMMARY.match(line):
            told = None
            print(line, file=sys.stderr, flush=True)
    return found


def attempt(tried):
    """What came of a try of each edit, by its crate and name."""
    with tempfile.TemporaryDirectory(prefix="edits-") as room:
        lay_out(pathlib.Path(room), tried)
        return outcomes(lines_of_gate(room, [*tried]))


def is_refused(outcome):
    """Whether an edit was refused at a goal of a value, as far as rt can tell."""
    return outcome.startswith(REFUSED) and not outcome.startswith(f"{REFUSED} (only ")


def table(rows, is_tried):
    """Prints the rows, and their sums: a crate, its edits in the gate, those beside it, those that were tried and those refused."""
    sums = ("all", *(sum(row[at] for row in rows) for at in range(1, 5)))
    print("| Crate | Edits in the gate | Edits beside it |" + " Refused |" * is_tried)
    print("|---|---|---|" + "---|" * is_tried)
    for crate, in_gate, beside, count, refused in [*rows, sums]:
        print(f"| {crate} | {in_gate} | {beside} |" + f" {refused} of {count} |" * is_tried)


def main():
    options = argparse.ArgumentParser(description=__doc__, formatter_class=argparse.RawDescriptionHelpFormatter)
    options.add_argument("crates", nargs="*", metavar="CRATE", help="a crate, as crates.txt names it")
    options.add_argument("--all", action="store_true", help="try the edits of the gate too")
    options.add_argument("--list", action="store_true", help="try nothing, and print the table alone")
    asked = options.parse_args()
    lacking = [it for it in asked.crates if it not in crates()]
    if lacking:
        options.error(f"crates.txt has no crate {lacking[0]}")
    wanted = [it for it in crates() if it in asked.crates or not asked.crates]
    in_gate, beside = ({it: edits(it, part) for it in wanted} for part in (IN_GATE, BESIDE))
    wanted = [it for it in wanted if any(in_gate[it]) or any(beside[it])]
    tried, odd = {}, []
    for crate in wanted:
        sources = [in_gate[crate], beside[crate]] if asked.all else [beside[crate]]
        twice = in_gate[crate][0].keys() & beside[crate][0].keys()
        if twice:
            options.error(f"{crate} has {min(twice)} both in {IN_GATE}/ and in {BESIDE}/: give one of them another name")
        files = [file for good, _ in sources for file in good.values()]
        odd += [file for _, bad in sources for file in bad]
        if files:
            tried[crate] = files
    found = attempt(tried) if tried and not asked.list else {}
    rows, is_well = [], not odd
    for file in odd if not asked.list else ():
        print(f"{file.relative_to(TOP)}: BAD EDIT: an edit stands right in its folder, and its name ends in .edit")
    for crate in wanted:
        files = tried.get(crate, [])
        told = [(file, found[crate, file.name]) for file in files if (crate, file.name) in found]
        refused = sum(is_refused(outcome) for _, outcome in told)
        for file, outcome in told:
            if not is_refused(outcome):
                print(f"{file.relative_to(TOP)}: {outcome}")
        if len(told) < len(files) and not asked.list:
            lost = len(files) - len(told)
            print(f"crates/{crate}: NOT TRIED: {lost} of its edits: it isn't proved, or rt has ended before, as told above")
        is_well = is_well and refused == len(files)
        rows.append((crate, len(in_gate[crate][0]), len(beside[crate][0]), len(files), refused))
    table(rows, not asked.list)
    return 0 if is_well or asked.list else 1


if __name__ == "__main__":
    signal.signal(signal.SIGTERM, lambda *_: sys.exit(143))
    try:
        sys.exit(main())
    except FileNotFoundError as error:
        sys.exit(f"edits.py: {error}" if error.filename != "rt" else "edits.py: the kit's command rt isn't on the path")
    except KeyboardInterrupt:
        sys.exit(130)
