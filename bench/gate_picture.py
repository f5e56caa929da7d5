#!/usr/bin/env python3
"""Runs the gate and shows where its time goes: bench/gate_picture.py [COMMAND ..], by default .ci/run, from the repository's root.

While the command runs, the checks that it has started are looked at twice a second (Linux, /proc), each with the processes that it has
started in its turn. Then standard error gets, crate by crate, the seconds of its own checks, of its tests, and of its must-fail edits,
each with the minutes of the clock from which and to which they ran, how many checks ran side by side in each minute, and the dearest
edits. What the command prints passes through; the exit status is its own.
"""
import os, subprocess, sys, threading, time

TICKS = os.sysconf("SC_CLK_TCK")


def processes():
    """All processes: parent, and processor seconds with those of the children that it has waited for."""
    found = {}
    for pid in filter(str.isdigit, os.listdir("/proc")):
        try:
            with open(f"/proc/{pid}/stat") as it:
                fields = it.read().rsplit(")", 1)[1].split()
        except OSError:
            continue
        found[int(pid)] = (int(fields[1]), sum(map(int, fields[11:15])) / TICKS)
    return found


def below(pid, children):
    """A process and all that it has started."""
    yield pid
    for child in children.get(pid, ()):
        yield from below(child, children)


def checks(command):
    """The checks that run now below the command: process, crate, kind, processor seconds with those of the processes that it started."""
    found, children = processes(), {}
    for pid, (parent, _) in found.items():
        children.setdefault(parent, []).append(pid)
    for pid in below(command, children):
        try:
            with open(f"/proc/{pid}/cmdline", "rb") as it:
                words = it.read().decode(errors="replace").split("\0")
            if len(words) < 2 or os.path.basename(words[0]) != "rattle" or words[1] not in ("check", "build"):
                continue
            name = words[words.index("--crate-name") + 1]
            folder = os.readlink(f"/proc/{pid}/cwd")
        except (OSError, ValueError):
            continue
        kind = "edits" if "rt-edit-" in folder else "tests" if "--test" in words else "check"
        yield pid, name, kind, sum(found[it][1] for it in below(pid, children) if it in found)


def watch(command, seen, lanes, done, start):
    while not done.wait(0.5):
        now, running = time.monotonic() - start, 0
        for pid, name, kind, spent in checks(command):
            first = seen.get((pid, name, kind), (now,))[0]
            seen[pid, name, kind] = (first, now, spent)
            running += 1
        lanes.setdefault(int(now // 60), []).append(running)


def table(seen, lanes, whole):
    rows = {}
    for (_, name, kind), (first, last, spent) in seen.items():
        count, seconds, begin, end = rows.get((name, kind), (0, 0.0, first, last))
        rows[name, kind] = (count + 1, seconds + spent, min(begin, first), max(end, last))
    print("| Crate | What | Checks | Processor seconds | Minutes of the clock |\n|---|---|---|---|---|", file=sys.stderr)
    for (name, kind), (count, seconds, begin, end) in sorted(rows.items(), key=lambda it: it[1][2]):
        print(f"| {name} | {kind} | {count} | {seconds:.0f} | {begin / 60:.1f} to {end / 60:.1f} |", file=sys.stderr)
    spent = sum(it[1] for it in rows.values())
    print(f"\nWhole run: {whole / 60:.1f} minutes of the clock, {spent / 60:.1f} of processor in checks.", file=sys.stderr)
    side_by_side = " ".join(f"{sum(it) / len(it):.1f}" for _, it in sorted(lanes.items()))
    print(f"Checks side by side, minute by minute: {side_by_side}", file=sys.stderr)


def dearest(seen, count=25):
    """The edits that took most, with their processor seconds. A crate's edits are tried in the order of their names, the first
    together with a whole proof of the crate, which is why it is left out."""
    spent = {}
    for (_, name, kind), (first, _, seconds) in seen.items():
        if kind == "edits":
            spent.setdefault(name, []).append((first, seconds))
    found = []
    for name, checks_of in spent.items():
        folder = f"crates/{name}/must-fail"
        edits = sorted(it for it in os.listdir(folder) if it.endswith(".edit")) if os.path.isdir(folder) else []
        found += [(seconds, f"{name}/{it}") for it, (_, seconds) in zip(edits, sorted(checks_of))][1:]
    print("\nThe dearest edits:", file=sys.stderr)
    for seconds, it in sorted(found, reverse=True)[:count]:
        print(f"{seconds:6.0f} s  {it}", file=sys.stderr)


def main():
    start, seen, lanes, done = time.monotonic(), {}, {}, threading.Event()
    command = subprocess.Popen(sys.argv[1:] or [".ci/run"])
    watcher = threading.Thread(target=watch, args=(command.pid, seen, lanes, done, start))
    watcher.start()
    try:
        status = command.wait()
    finally:
        done.set()
        watcher.join()
    table(seen, lanes, time.monotonic() - start)
    dearest(seen)
    return status


sys.exit(main())
