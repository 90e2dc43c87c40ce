#!/usr/bin/env python3
"""Runs the merge gate from nothing, and tells how much processor time each crate took.

usage: gate_time.py [COMMAND..]

COMMAND is `rt ci --anew` unless said. Once a second the processor time of each process `rattle` that the
command started is read from /proc; a process that ends between two looks is counted up to the last look. The
table is printed as Markdown: seconds of processor time (user plus system) for the proof of each crate,
for the proof of its tests, and for its must-fail edits; and the time of the whole run, as the system
counts it. What `rt` itself, the built programs and the linker take is in the whole alone.

The time is the machine's, so what is compared must be measured on one machine.
"""

import collections
import os
import resource
import subprocess
import sys
import time

TICKS = os.sysconf("SC_CLK_TCK")


def here():
    return os.path.dirname(os.path.dirname(os.path.abspath(__file__)))


def processes():
    """Each process `rattle`: its name that stays its own, its folder, its words, its seconds."""
    for name in os.listdir("/proc"):
        if not name.isdigit():
            continue
        try:
            with open(f"/proc/{name}/stat") as file:
                stat = file.read()
            if stat[stat.index("(") + 1 : stat.rindex(")")] not in ("rattle", "antt-kernel"):
                continue
            fields = stat[stat.rindex(")") + 2 :].split()
            with open(f"/proc/{name}/cmdline") as file:
                words = file.read().split("\0")
            folder = os.readlink(f"/proc/{name}/cwd")
        except (OSError, ValueError):
            continue
        seconds = (int(fields[11]) + int(fields[12])) / TICKS
        yield f"{name}:{fields[19]}", folder, words, seconds


def kind_of(folder, words, root, run):
    """What a process does for the run `run` of `rt ci`, by the folder that it works in; None if it belongs to another."""
    if f"rt-edit-{run}-" in folder:
        return "edits"
    if folder.startswith(os.path.join(root, "crates")) or f"rt-copy-{run}-" in folder:
        return "tests" if "--test" in words else "proof"
    return None


def sample(seen, root, run):
    for key, folder, words, seconds in processes():
        kind = kind_of(folder, words, root, run)
        if kind and "--crate-name" in words:
            crate = words[words.index("--crate-name") + 1]
            seen[key] = (crate, kind, seconds)


def table(seen):
    rows = collections.defaultdict(lambda: collections.defaultdict(float))
    for crate, kind, seconds in seen.values():
        rows[crate][kind] += seconds
    kinds = ("proof", "tests", "edits")
    print("| crate | proof | tests | edits | in all |")
    print("|---|---|---|---|---|")
    for crate in sorted(rows, key=lambda crate: -sum(rows[crate].values())):
        row = rows[crate]
        cells = " | ".join(f"{row[kind]:.0f}" for kind in kinds)
        print(f"| {crate} | {cells} | {sum(row.values()):.0f} |")
    sums = [sum(row[kind] for row in rows.values()) for kind in kinds]
    print(f"| all | {' | '.join(f'{s:.0f}' for s in sums)} | {sum(sums):.0f} |")


def main():
    command = sys.argv[1:] or ["rt", "ci", "--anew"]
    root = here()
    seen = {}
    start = time.monotonic()
    run = subprocess.Popen(command, cwd=root)
    while run.poll() is None:
        sample(seen, root, run.pid)
        time.sleep(1)
    minutes = (time.monotonic() - start) / 60
    used = resource.getrusage(resource.RUSAGE_CHILDREN)
    table(seen)
    whole = (used.ru_utime + used.ru_stime) / 60
    print(f"{whole:.1f} minutes of processor time in all, {minutes:.1f} minutes from start to end")
    return run.returncode


if __name__ == "__main__":
    sys.exit(main())
