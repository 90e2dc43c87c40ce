#!/usr/bin/env python3
"""Runs scripts on two threads again and again, and replays each report.

usage: shared_runs.py [PROGRAM] [--runs N] [--jobs N] [--seed N]

PROGRAM is the built program; without it, crates/uring_cli/out/uring_cli of this repository, which
`rt run` leaves there. Each of N runs (200, unless said) has a script of its own, of 2,000 jobs unless
said, with links, drains, quiet jobs, cancels and choices, and sizes and a start position of its own.
Its report is replayed by the second reading of docs/DEFINITIONS.md in script_table.py, and not by the
program's own: each event must be one that may come there, each settling the one that the choices
name, each turn followed by a take or a settling before the next one, and each outcome that of the
replay. The first report that isn't so is named, and the status is then 1.
"""

import argparse
import pathlib
import random
import subprocess
import sys

from script_table import Run, hex_of

PROGRAM = pathlib.Path(__file__).parent.parent / "crates/uring_cli/out/uring_cli"
FILES = 4


def job_line(rng, number):
    """A job with its marks. A quiet one may stand where it moves no bytes and has a link."""
    kind = rng.choice(("nop", "read", "write", "fsync", "truncate", "cancel"))
    file = rng.randrange(FILES + 1)
    if kind == "read":
        words = f"read {file} {rng.randrange(512)} {rng.randrange(64)}"
    elif kind == "write":
        data = rng.randbytes(rng.randrange(1, 17)).hex()
        words = f"write {file} {rng.randrange(512)} {data}"
    elif kind == "fsync":
        words = f"fsync {file}"
    elif kind == "truncate":
        words = f"truncate {file} {rng.randrange(512)}"
    elif kind == "cancel":
        words = f"cancel {max(0, number - rng.randrange(4))}"
    else:
        words = "nop"
    link = rng.choice(("", "", "", " link", " hard"))
    quiet = " quiet" if link and kind not in ("read", "write") and rng.random() < 0.5 else ""
    drain = " drain" if rng.random() < 1 / 16 else ""
    return words + drain + quiet + link


def script_of(rng, jobs):
    lines = [f"file {n} {rng.randbytes(64).hex()}" for n in range(FILES)]
    lines += [f"choose {rng.randrange(8)}" for _ in range(rng.choice((0, jobs // 4)))]
    lines += [job_line(rng, number) for number in range(jobs - 1)]
    return lines + ["nop"]


class Replay(Run):
    """A run whose events come from a journal. What may settle is found as in `Run`, without going over
    the settled jobs in front."""

    def __init__(self, script):
        super().__init__(script, 0, 0)
        self.front = 0
        self.owed = False
        self.must_turn = False

    def drains_before(self, j):
        return any(self.jobs[i].drain and i not in self.outcomes for i in range(self.front, j))

    def may_settle(self, j):
        if j >= self.taken or j in self.outcomes:
            return False
        if j > 0 and self.linked(j - 1) and j - 1 not in self.outcomes:
            return False
        if self.drains_before(j):
            return False
        return not self.jobs[j].drain or j == self.front

    def severed(self, j):
        i = j - 1
        while i >= 0 and self.linked(i):
            if self.jobs[i].link == "link" and self.bad(i):
                return True
            i -= 1
        return False

    def named(self):
        ready = [j for j in range(self.front, self.taken) if self.may_settle(j)]
        choice = self.choices.pop(0) if self.choices else 1
        return (ready[(choice // 2) % len(ready)] if ready else None), choice

    def settles(self, j, result):
        """A settling of j: by a post with this result, or quietly."""
        chosen, choice = self.named()
        if chosen != j:
            raise ValueError(f"{j} settles, and {chosen} was chosen")
        self.outcomes[j] = self.settle(j)
        if self.is_quiet(j) != (result is None):
            raise ValueError(f"{j} ended quietly or not")
        if result is not None and self.outcomes[j][0] != result:
            raise ValueError(f"{j} has {self.outcomes[j][0]}")
        while self.front in self.outcomes:
            self.front += 1
        self.must_turn = result is not None and choice % 2 == 0

    def event(self, words):
        if self.must_turn and words[0] != "turn":
            raise ValueError("a turn was due")
        if words[0] == "turn":
            if self.owed:
                raise ValueError("a turn without a take or a settling")
            self.owed, self.must_turn = True, False
            return
        self.owed = False
        j = int(words[1])
        if words[0] == "take":
            if j != self.taken or j >= len(self.jobs):
                raise ValueError(f"{j} isn't the next to be taken")
            self.taken += 1
        elif words[0] == "post":
            self.settles(j, int(words[2]))
        elif words[0] == "quiet":
            self.settles(j, None)
        else:
            raise ValueError("no event")

    def out(self, j):
        result, buf = self.outcomes[j]
        told = "quiet" if self.is_quiet(j) else result
        return f"out {j} {told} {hex_of(buf) if self.jobs[j].moves else '-'}"


def replay(script, report):
    """Says what is wrong with a report, or nothing. Returns how many turns it has."""
    lines = report.splitlines()
    run = Replay(script)
    jobs = len(run.jobs)
    if len(lines) <= jobs or lines[-1] != "end":
        raise ValueError("no whole report")
    journal = lines[jobs:-1]
    for place, line in enumerate(journal):
        try:
            run.event(line.split(" "))
        except (ValueError, IndexError) as error:
            raise ValueError(f"event {place}, {line}: {error}") from None
    if run.owed:
        raise ValueError("the last turn has neither a take nor a settling")
    if run.front != jobs:
        raise ValueError(f"job {run.front} isn't settled")
    for j in range(jobs):
        if lines[j] != run.out(j):
            raise ValueError(f"{lines[j]} where {run.out(j)} is due")
    turns = sum(line.startswith("turn ") for line in journal)
    if turns > 2 * jobs:
        raise ValueError("more than two turns a job")
    return turns


def main():
    parser = argparse.ArgumentParser()
    parser.add_argument("program", nargs="?", default=str(PROGRAM))
    parser.add_argument("--runs", type=int, default=200)
    parser.add_argument("--jobs", type=int, default=2_000)
    parser.add_argument("--seed", type=int, default=1)
    options = parser.parse_args()
    turns = []
    for number in range(options.runs):
        rng = random.Random(options.seed * 1_000_003 + number)
        script = script_of(rng, options.jobs)
        size = 2 ** rng.randrange(9)
        sizes = ["--sq", str(size), "--cq", str(size * 2 ** rng.randrange(3))]
        start = ["--start", str(rng.choice((0, 4_294_967_295)))]
        words = [options.program, "shared", *sizes, *start]
        ran = subprocess.run(words, input="\n".join(script), capture_output=True, text=True)
        if ran.returncode != 0:
            sys.exit(f"run {number}: status {ran.returncode}: {ran.stderr.strip()}")
        try:
            turns.append(replay(script, ran.stdout))
        except ValueError as error:
            sys.exit(f"run {number}, {' '.join(words[1:])}: {error}")
    print(f"{options.runs} reports of {options.jobs} jobs replay; turns {min(turns)} to {max(turns)}")


if __name__ == "__main__":
    main()
