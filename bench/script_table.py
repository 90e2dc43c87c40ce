#!/usr/bin/env python3
"""The outcomes and journals that scripts with marks, cancels, quiet jobs and choices must give.

This is a second reading of docs/DEFINITIONS.md, written from its sentences over job numbers and
from nothing in crates/: what is linked, severed and may settle, what one settling gives, and how
a turn goes. It works out the report of the program's stored run, crates/uring_cli/stdin under the
words of crates/uring_cli/args, and a table of scripts and reports, whose test in
crates/run_tests/src/tests/scripts.rt runs each. Of the scripts without choices and cancels that stay within the
longest file it writes the outcomes alone into a second table, whose test in crates/std_tests/src/tests.rt runs each
over the files of a folder.

    python3 bench/script_table.py           writes the three files
    python3 bench/script_table.py --check   says whether the files are what it would write
"""

import pathlib
import sys

LIMIT = 16_777_216
# The formatter puts a row of at most so many characters on one line.
ONE_LINE = 60
CRATES = pathlib.Path(__file__).parent.parent / "crates"
TABLE = CRATES / "run_tests/src/tests/scripts/table.rt"
STD_TABLE = CRATES / "std_tests/src/tests/table.rt"
PROGRAM = CRATES / "uring_cli"

# Each row has the sizes of both rings, the position at which they begin, and a script.
GROUPS = [
    ("plain", "Jobs without marks, up to the last byte of a file and over small rings.", [
        ((8, 16, 0), "file 3 68656c6c6f;read 3 0 5"),
        ((8, 16, 0), "file 3 68656c6c6f;read 3 3 4"),
        ((8, 16, 0), "read 9 0 1"),
        ((8, 16, 0), "file 1 ab;truncate 1 3"),
        ((8, 16, 0), "file 1 -;write 1 16777216 00"),
        ((8, 16, 0), "file 1 -;write 1 16777215 00"),
        ((1, 2, 0), "nop;nop;nop"),
        ((2, 4, 4294967295), "nop;nop"),
        ((32768, 65536, 0), "file 3 68656c6c6f;read 3 0 5"),
    ]),
    ("drained", "Drained jobs wait for all before them, and all behind wait for them.", [
        ((2, 4, 0), "nop;nop;nop drain;nop;nop"),
        ((1, 2, 0), "file 1 -;write 1 0 aa;read 1 0 1 drain;write 1 0 bb"),
        ((8, 16, 0), "choose 2;nop;nop drain"),
        ((8, 16, 0), "choose 5;nop;nop;nop drain;nop"),
        ((8, 16, 0), "choose 3;choose 3;file 1 -;write 1 0 aa;write 1 1 bb drain;read 1 0 2 drain"),
        ((8, 16, 0), "nop;nop drain;nop"),
        ((4, 4, 0), "nop drain;nop;nop drain;nop;nop;nop drain"),
        ((8, 16, 0), "choose 3;nop;nop drain;nop"),
        ((8, 16, 0), "choose 0;nop drain;nop drain"),
        ((8, 16, 0), "choose 7;nop;nop;nop;nop drain;nop"),
    ]),
    ("soft_links", "A soft link is cut where its job fails or comes short.", [
        ((8, 16, 0), "file 3 ab;read 3 0 2 link;write 3 0 cc"),
        ((8, 16, 0), "read 9 0 1 link;nop link;nop;nop"),
        ((8, 16, 0), "file 1 -;write 1 16777216 00 link;write 1 0 11;read 1 0 1"),
        ((8, 16, 0), "file 1 -;write 1 5 - link;read 1 0 0 link;truncate 1 2;read 1 0 4"),
        ((4, 8, 0), "file 2 0102;fsync 2 link;fsync 3 link;fsync 2;fsync 2"),
        ((8, 16, 0), "nop link"),
        ((8, 16, 0), "file 3 ab;read 3 0 1 link;write 3 0 cc"),
    ]),
    ("hard_links", "A hard link isn't cut by its own job's result.", [
        ((8, 16, 0), "file 3 ab;read 3 0 2 hard;write 3 0 cc"),
        ((8, 16, 0), "nop link;read 9 0 1 hard;truncate 9 0 link;nop"),
        ((8, 16, 0), "choose 0;choose 0;nop hard;nop hard;nop"),
        ((8, 16, 0), "file 1 aabb;truncate 1 16777217 hard;truncate 1 1 link;read 1 0 2 link;nop"),
        ((8, 16, 0), "read 9 0 1 hard;nop link;fsync 9 link;nop;nop"),
    ]),
    ("links_over_turns", "A linked job is waited for over turns and choices.", [
        ((8, 16, 0), "choose 3;nop link;nop;nop"),
        ((2, 4, 0), "file 1 -;read 1 0 1 link;nop link;nop link;nop;nop"),
        ((1, 2, 0), "file 1 00;read 1 0 2 link;write 1 0 11;read 1 0 1"),
        ((8, 16, 0), "choose 5;nop link;nop;nop;nop link;nop"),
    ]),
    ("canceled", "A cancel marks another job that is taken and open; a marked job changes nothing.", [
        ((8, 16, 0), "choose 2;file 3 ab;read 3 0 1;cancel 0"),
        ((8, 16, 0), "choose 3;file 1 -;write 1 0 ff;cancel 0;read 1 0 1"),
        ((8, 16, 0), "choose 5;nop link;nop;cancel 1"),
        ((8, 16, 0), "choose 3;file 1 0a;truncate 1 0;cancel 0 hard;read 1 0 1"),
        ((8, 16, 0), "cancel 1;nop"),
    ]),
    ("cancels", "A cancel of what isn't open finds none, and of several the first marks.", [
        ((8, 16, 0), "cancel 7 link;nop;nop"),
        ((1, 2, 0), "cancel 1;nop;cancel 1"),
        ((8, 16, 0), "nop drain;cancel 0;cancel 1 drain"),
        ((8, 16, 0), "choose 5;choose 5;nop;nop;cancel 0;cancel 0"),
        ((8, 16, 0), "choose 3;nop;cancel 0 link;nop"),
        ((8, 16, 0), "choose 3;choose 3;nop;cancel 2;cancel 1"),
        ((8, 16, 0), "cancel 0"),
        ((8, 16, 0), "choose 3;nop;cancel 18446744073709551615"),
        ((8, 16, 0), "choose 5;nop;nop;cancel 0;cancel 0"),
        ((8, 16, 0), "choose 3;cancel 1;cancel 0"),
    ]),
    ("chosen", "A choice names the ready job that settles next, and an even one ends the turn.", [
        ((8, 16, 0), "choose 0;choose 0;choose 0;nop;nop;nop"),
        ((8, 16, 0), "choose 4294967294;nop;nop;nop"),
        ((8, 16, 0), "file 1 -;choose 5;write 1 0 01;choose 3;write 1 0 02;write 1 0 03;read 1 0 1"),
        ((8, 16, 0), "choose 3;choose 2;nop link;nop;nop drain;nop"),
        ((2, 4, 4294967295), "choose 2;nop;nop"),
        ((2, 2, 0), "choose 3;choose 4;nop;nop;nop;nop"),
        ((4, 4, 0), "choose 6;choose 1;choose 4;nop;nop;nop;nop;nop;nop"),
        ((1, 1, 0), "choose 2;choose 9;nop;nop"),
        ((8, 16, 0), "choose 2;nop;nop"),
        ((8, 16, 0), "choose 4294967295;nop;nop;nop"),
        ((2, 8, 0), "choose 2;choose 2;nop;nop;nop;nop;nop"),
    ]),
    ("quiet", "Nothing is posted for a quiet job that succeeds, and one that fails is posted.", [
        ((8, 16, 0), "nop quiet link;nop"),
        ((8, 16, 0), "file 1 ab;nop quiet link;fsync 1 quiet link;read 1 0 1;nop"),
        ((8, 16, 0), "fsync 9 quiet link;nop"),
        ((8, 16, 0), "nop;nop drain;nop drain quiet link;nop;nop"),
        ((8, 16, 0), "file 1 ab;read 9 0 1 link;truncate 1 0 quiet link;read 1 0 1;read 1 0 1"),
        ((8, 16, 0), "choose 3;file 1 ab;truncate 1 0 quiet link;read 1 0 1;cancel 0;read 1 0 1"),
        ((8, 16, 0), "choose 3;file 1 ab;write 1 0 ff;cancel 0 quiet link;read 1 0 1"),
        ((8, 16, 0), "nop;cancel 0 quiet link;nop;nop"),
        ((8, 16, 0), "file 1 aabb;truncate 1 1 quiet hard;read 1 0 2;nop"),
    ]),
    ("quiet_over_turns", "A quiet end uses up a choice, needs room but takes none, and ends no turn.", [
        ((8, 16, 0), "choose 0;nop quiet link;nop"),
        ((2, 2, 0), "choose 2;choose 4;choose 0;nop;nop;nop;nop quiet hard;nop quiet link;nop"),
        ((8, 16, 0), "choose 3;choose 5;choose 7;nop quiet link;nop;nop quiet link;nop;nop"),
        ((2, 2, 0), "choose 2;nop;nop;nop;nop quiet link;nop"),
        ((1, 1, 0), "nop quiet link;nop quiet link;nop"),
        ((1, 2, 0), "nop quiet link;nop"),
    ]),
]


def read_hex(text):
    return b"" if text == "-" else bytes.fromhex(text)


def hex_of(data):
    return data.hex() if data else "-"


class Job:
    def __init__(self, fields):
        self.link = fields.pop() if fields[-1] in ("link", "hard") else None
        self.quiet = fields[-1] == "quiet"
        if self.quiet:
            fields.pop()
        self.drain = fields[-1] == "drain"
        if self.drain:
            fields.pop()
        self.kind = fields[0]
        self.args = fields[1:]
        self.moves = self.kind in ("read", "write")
        if self.quiet and (self.moves or self.link is None):
            raise ValueError("a quiet job is no read or write, and has a link")
        self.buf = None
        if self.kind == "read":
            self.buf = bytes(int(self.args[2]))
        if self.kind == "write":
            self.buf = read_hex(self.args[2])


def parse(script):
    files, choices, jobs = {}, [], []
    for line in script:
        fields = line.split(" ")
        if line == "" or line[0] == "#":
            continue
        if fields[0] == "file":
            files[int(fields[1])] = read_hex(fields[2])
        elif fields[0] == "choose":
            choices.append(int(fields[1]))
        else:
            jobs.append(Job(fields))
    if jobs and jobs[-1].quiet:
        raise ValueError(f"bad job {len(jobs) - 1}")
    return files, choices, jobs


def step(files, job):
    """The file machine: a result, and the buffer after it. Files change in place."""
    if job.kind == "nop":
        return 0, job.buf
    file = int(job.args[0])
    if file not in files:
        return -9, job.buf
    held = files[file]
    if job.kind == "read":
        offset = int(job.args[1])
        count = min(len(job.buf), max(0, len(held) - offset))
        return count, held[offset:offset + count] + job.buf[count:]
    if job.kind == "write":
        offset, data = int(job.args[1]), job.buf
        if not data:
            return 0, data
        if offset + len(data) > LIMIT:
            return -27, data
        front = held[:offset] + bytes(max(0, offset - len(held)))
        files[file] = front + data + held[offset + len(data):]
        return len(data), data
    if job.kind == "fsync":
        return 0, job.buf
    size = int(job.args[1])
    if size > LIMIT:
        return -27, job.buf
    files[file] = held[:size] + bytes(max(0, size - len(held)))
    return 0, job.buf


class Run:
    def __init__(self, script, submissions, completions):
        self.files, self.choices, self.jobs = parse(script)
        self.submissions, self.completions = submissions, completions
        self.taken = 0
        self.outcomes = {}
        self.marked = set()
        self.journal = []

    def linked(self, i):
        return self.jobs[i].link is not None and i + 1 < len(self.jobs)

    def bad(self, i):
        if i not in self.outcomes:
            return False
        result, _ = self.outcomes[i]
        return result < 0 or (self.jobs[i].moves and result < len(self.jobs[i].buf))

    def is_quiet(self, j):
        """Whether nothing is posted for a job that has its outcome."""
        return self.jobs[j].quiet and self.outcomes[j][0] >= 0

    def severed(self, j):
        return any(
            self.jobs[i].link == "link" and self.bad(i) and all(self.linked(k) for k in range(i, j))
            for i in range(j)
        )

    def may_settle(self, j):
        if j >= self.taken or j in self.outcomes:
            return False
        if j > 0 and self.linked(j - 1) and j - 1 not in self.outcomes:
            return False
        if any(self.jobs[i].drain and i not in self.outcomes for i in range(j)):
            return False
        return not self.jobs[j].drain or all(i in self.outcomes for i in range(j))

    def settle(self, j):
        job = self.jobs[j]
        if self.severed(j) or j in self.marked:
            return -125, job.buf
        if job.kind == "cancel":
            t = int(job.args[0])
            if t != j and t < self.taken and t not in self.outcomes and t not in self.marked:
                self.marked.add(t)
                return 0, None
            return -2, None
        return step(self.files, job)

    def turn(self):
        started = min(self.submissions, len(self.jobs) - self.taken)
        self.journal.append(f"turn {started}")
        for _ in range(started):
            self.journal.append(f"take {self.taken}")
            self.taken += 1
        room = self.completions
        while room > 0:
            ready = [j for j in range(len(self.jobs)) if self.may_settle(j)]
            if not ready:
                return
            choice = self.choices.pop(0) if self.choices else 1
            j = ready[(choice // 2) % len(ready)]
            self.outcomes[j] = self.settle(j)
            if self.is_quiet(j):
                self.journal.append(f"quiet {j}")
                continue
            self.journal.append(f"post {j} {self.outcomes[j][0]}")
            room -= 1
            if choice % 2 == 0:
                return

    def report(self):
        while len(self.outcomes) < len(self.jobs):
            self.turn()
        outs = []
        for j, job in enumerate(self.jobs):
            result, buf = self.outcomes[j]
            told = "quiet" if self.is_quiet(j) else result
            outs.append(f"out {j} {told} {hex_of(buf) if job.moves else '-'}")
        return outs + self.journal + ["end"]


def rounded_up(count):
    size = 1
    while size < count:
        size *= 2
    return size


def report_of(submissions, completions, script):
    return Run(script, rounded_up(submissions), rounded_up(completions)).report()


def literal(lines):
    return '"' + "\\n".join(lines) + '\\n"'


def table():
    text = [
        "//! Scripts with marks, cancels, quiet jobs and choices over small rings, and their reports,",
        "//! which `bench/script_table.py` works out from the definitions.",
        "",
        "/// The sizes of both rings and the position at which they begin, a script, and its report.",
        "pub type Row = ((u32, u32, u32), &'static str, &'static str);",
    ]
    for name, about, rows in GROUPS:
        text += ["", f"/// {about}", f"pub fn {name}() -> [Row; {len(rows)}] {{", "    ["]
        for sizes, line in rows:
            script = line.split(";")
            text += [
                "        (",
                f"            {sizes},",
                f"            {literal(script)},",
                f"            {literal(report_of(sizes[0], sizes[1], script))},",
                "        ),",
            ]
        text += ["    ]", "}"]
    return "\n".join(text) + "\n"


def std_rows():
    """The scripts that real files answer as the definitions say, with the lines of their outcomes."""
    for _, _, rows in GROUPS:
        for sizes, line in rows:
            if "choose" in line or "cancel" in line:
                continue
            script = line.split(";")
            report = report_of(rounded_up(sizes[0]), rounded_up(sizes[1]), script)
            outs = [told for told in report if told.startswith("out ")]
            if not any(" -27 " in out for out in outs):
                yield sizes, script, outs


def std_table():
    rows = list(std_rows())
    text = [
        "//! Scripts without choices and cancels, and their outcomes, which `bench/script_table.py` works",
        "//! out from the definitions.",
        "",
        "/// The sizes of both rings and the position at which they begin, a script, and the first lines of",
        "/// its report.",
        "pub type Row = ((u32, u32, u32), &'static str, &'static str);",
        "",
        "/// Scripts that the files of a folder answer as those in memory do.",
        f"pub fn rows() -> [Row; {len(rows)}] {{",
        "    [",
    ]
    for sizes, script, outs in rows:
        parts = [str(sizes), literal(script), literal(outs)]
        row = "(" + ", ".join(parts) + ")"
        if len(row) <= ONE_LINE:
            text.append(f"        {row},")
        else:
            text += ["        (", *(f"            {part}," for part in parts), "        ),"]
    return "\n".join(text + ["    ]", "}"]) + "\n"


def stored_run():
    words = (PROGRAM / "args").read_text().split()[1:]
    options = dict(zip(words[::2], words[1::2]))
    submissions = int(options.get("--sq", 8))
    completions = int(options.get("--cq", 2 * submissions))
    script = (PROGRAM / "stdin").read_text().splitlines()
    return "\n".join(report_of(submissions, completions, script)) + "\n"


def main():
    made = {TABLE: table(), STD_TABLE: std_table(), PROGRAM / "stdout": stored_run()}
    if sys.argv[1:] == ["--check"]:
        same = all(path.read_text() == text for path, text in made.items())
        print("the files are as worked out" if same else "the files differ")
        sys.exit(0 if same else 1)
    for path, text in made.items():
        path.parent.mkdir(exist_ok=True)
        path.write_text(text)


if __name__ == "__main__":
    main()
