#!/bin/sh
# Measures the built program on large scripts of each kind: measure.sh [PROGRAM] [ROWS..]
# KINDS, where it is set, names the kinds.
# Prints for each kind and each number of rows the wall time (the best of three runs, or of those that were begun within
# ten seconds), the processor time of that run, the steps served a second, the peak memory, and how the wall time has grown
# since the size before, beside how the steps have.
# PROGRAM is the built program, or else the one that bin/prove builds; ROWS are 10000 30000 100000.
set -eu
here=$(dirname "$(readlink -f "$0")")
program=${1:-$here/../crates/titleplant/out/titleplant}
[ $# -gt 0 ] && shift
[ $# -gt 0 ] || set -- 10000 30000 100000
if [ ! -x "$program" ]; then
    echo "measure.sh: $program isn't there; bin/prove builds it" >&2
    exit 1
fi
work=$(mktemp -d)
trap 'rm -rf "$work"' EXIT
printf '%-12s %8s %8s %8s %8s %9s %8s %8s %8s\n' kind rows steps wall cpu steps/s MB time steps
for kind in ${KINDS:-deeds sheets chains parts interleaved short long reviewed crowd refused}; do
    case $kind in
        interleaved | fifty | short | long | reviewed | crowd | refused) command=run ;;
        *) command=alone ;;
    esac
    before=
    for rows in "$@"; do
        python3 "$here/generate.py" --kind "$kind" --rows "$rows" > "$work/script.csv"
        python3 - "$program" "$command" "$work" "$kind" "$rows" $before << 'PYTHON'
import os
import subprocess
import sys
import time

program, command, work, kind, rows = sys.argv[1:6]


def run():
    """The seconds by the clock and of the processor, and the peak memory in megabytes, of one run."""
    with open(f"{work}/script.csv") as script, open(f"{work}/report.csv", "w") as report:
        start = time.monotonic()
        child = subprocess.Popen([program, command], stdin=script, stdout=report)
        _, status, usage = os.wait4(child.pid, 0)
        wall = time.monotonic() - start
    if status != 0:
        sys.exit(f"measure.sh: the program didn't end well: status {status}")
    return wall, usage.ru_utime + usage.ru_stime, usage.ru_maxrss / 1024


with open(f"{work}/script.csv") as script:
    steps = sum(1 for row in script if row[0].isdigit())
runs = [run()]
while len(runs) < 3 and sum(wall for wall, _, _ in runs) < 10:
    runs.append(run())
wall, processor, memory = min(runs)
growth = ["", ""]
if len(sys.argv) > 6:
    growth = [f"x{wall / float(sys.argv[7]):.1f}", f"x{steps / int(sys.argv[6]):.1f}"]
line = f"{kind:<12} {rows:>8} {steps:>8} {wall:>8.2f} {processor:>8.2f} {steps / wall:>9.0f} {memory:>8.1f}"
print(f"{line} {growth[0]:>8} {growth[1]:>8}".rstrip(), flush=True)
with open(f"{work}/before", "w") as before:
    before.write(f"{steps} {wall}")
PYTHON
        before=$(cat "$work/before")
    done
done
