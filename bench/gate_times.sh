#!/bin/sh
# What each crate costs the gate from nothing: processor seconds of its proof, of its tests' proof and of its edits.
# A whole run of the gate in a fresh clone that takes nothing from earlier runs; the processors' time is read from /proc each second.
# Needs rt, git and python3, and an hour or more. Usage: bench/gate_times.sh
set -eu
top=$(cd "$(dirname "$0")/.." && pwd)
work=$(mktemp -d)
trap 'rm -rf "$work"' EXIT
git clone -q "$top" "$work/clone"
cat > "$work/sample.py" <<'EOF'
"""Writes, once the process given ends, a line a crate: the seconds of proofs, tests and edits."""
import os
import sys
import time

PARTS = ("proof", "tests", "edits")
TICKS = os.sysconf("SC_CLK_TCK")


def part_of(words, folder):
    """Which part of the gate's work a process of the prover does."""
    if "--test" in words:
        return "tests"
    return "edits" if "rt-edit" in folder else "proof"


def sample(taken):
    """Notes how long each process of the prover has run so far."""
    for name in filter(str.isdigit, os.listdir("/proc")):
        try:
            with open(f"/proc/{name}/cmdline", "rb") as it:
                words = it.read().decode(errors="replace").split("\0")
            if not words[0].endswith("/rattle") or "--crate-name" not in words:
                continue
            folder = os.readlink(f"/proc/{name}/cwd")
            with open(f"/proc/{name}/stat", encoding="utf-8") as it:
                fields = it.read().rsplit(") ", 1)[1].split()
        except (OSError, IndexError):
            continue
        crate = words[words.index("--crate-name") + 1]
        taken[name, fields[19]] = (crate, part_of(words, folder), (int(fields[11]) + int(fields[12])) / TICKS)


def table(taken):
    """The lines, dearest crate first, and the sums."""
    rows = {}
    for crate, part, seconds in taken.values():
        row = rows.setdefault(crate, dict.fromkeys(PARTS, 0.0))
        row[part] += seconds
    print(f"{'crate':20}" + "".join(f"{it:>8}" for it in PARTS) + f"{'all':>8}")
    for crate, row in sorted(rows.items(), key=lambda it: -sum(it[1].values())):
        print(f"{crate:20}" + "".join(f"{row[it]:8.0f}" for it in PARTS) + f"{sum(row.values()):8.0f}")
    sums = [sum(row[it] for row in rows.values()) for it in PARTS]
    print(f"{'all':20}" + "".join(f"{it:8.0f}" for it in sums) + f"{sum(sums):8.0f}")


def runs(process):
    """Whether the process is there and hasn't ended."""
    try:
        with open(f"/proc/{process}/stat", encoding="utf-8") as it:
            return it.read().rsplit(") ", 1)[1][0] != "Z"
    except OSError:
        return False


def main():
    """Samples until the gate ends."""
    gate, taken = sys.argv[1], {}
    while runs(gate):
        sample(taken)
        time.sleep(1)
    table(taken)


main()
EOF
cd "$work/clone"
start=$(date +%s)
rt ci --anew > "$work/gate.log" 2>&1 &
gate=$!
python3 "$work/sample.py" "$gate"
tail -1 "$work/gate.log"
echo "minutes: $((($(date +%s) - start) / 60))"
