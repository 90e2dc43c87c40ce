#!/usr/bin/env python3
"""Runs scripts through `std` in a folder of its own, and compares them with `run`.

usage: std_runs.py

It compares the outcomes of all scripts of script_table.py that have no choices and no cancels and stay
within the longest file, then faults of a folder, then 10,000 jobs on 64 files and the bytes that the
files have then, and times these beside plain_calls.c, a plain program that makes the same calls, which
it compiles with `cc -O2`.

It runs the built program, crates/uring_cli/out/uring_cli. The status is 1 where something differs.
"""

import os
import pathlib
import random
import statistics
import subprocess
import sys
import tempfile
import time

from script_table import GROUPS, report_of, rounded_up

PROGRAM = pathlib.Path(__file__).resolve().parent.parent / "crates/uring_cli/out/uring_cli"
PLAIN_SOURCE = pathlib.Path(__file__).resolve().parent / "plain_calls.c"
FILES, JOBS, RUNS = 64, 10_000, 9
LONGEST_READ = 512
BEHIND_ALL = 4096


def call(words, script, folder):
    done = subprocess.run(words, input=script.encode(), capture_output=True, cwd=folder)
    return done.returncode, done.stdout.decode(), done.stderr.decode().strip()


def program(command, script, folder, options=()):
    return call([str(PROGRAM), command, *options], script, folder)


def outcomes(report):
    return [line for line in report.splitlines() if line.startswith("out ")]


def is_one_by_one(report):
    """Whether each entry's take is followed at once by its end."""
    events = [line.split() for line in report.splitlines() if line.split()[0] in ("take", "post", "quiet")]
    pairs = zip(events[::2], events[1::2])
    return len(events) % 2 == 0 and all(a[0] == "take" and b[0] != "take" and a[1] == b[1] for a, b in pairs)


def differences_of_table():
    compared = 0
    for _, _, rows in GROUPS:
        for (entries, completions, start), line in rows:
            script = line.split(";")
            worked_out = outcomes("\n".join(report_of(rounded_up(entries), rounded_up(completions), script)))
            if "choose" in line or "cancel" in line or any(" -27 " in out for out in worked_out):
                continue
            options = ["--sq", str(entries), "--cq", str(completions), "--start", str(start)]
            text = "\n".join(script) + "\n"
            with tempfile.TemporaryDirectory() as folder:
                status, told, _ = program("std", text, folder, options)
                _, by_run, _ = program("run", text, folder, options)
            compared += 1
            if status != 0 or outcomes(told) != worked_out or outcomes(by_run) != worked_out:
                yield f"{line}: {outcomes(told)}"
            if not is_one_by_one(told):
                yield f"{line}: the journal isn't one by one"
    print(f"{compared} scripts compared")


def differences_of_faults():
    hello = "file 3 68656c6c6f\nread 3 0 5\n"
    wanted = "out 0 5 68656c6c6f\nturn 1\ntake 0\npost 0 5\nend\n"
    with tempfile.TemporaryDirectory() as folder:
        if program("std", hello, folder) != (0, wanted, ""):
            yield "the first script in an empty folder"
        if pathlib.Path(folder, "f3").read_bytes() != b"hello":
            yield "the file that stays in the folder"
        if program("std", "read 9 0 1\nread 3 0 1\n", folder)[1].splitlines()[:2] != ["out 0 -9 00", "out 1 -9 00"]:
            yield "a file of a run before is no open file"
        if program("std", hello, folder, ["--idle", "0"])[0] != 2 or program("std", hello, folder, ["std"])[0] != 2:
            yield "words that are none of the command's"
    with tempfile.TemporaryDirectory() as folder:
        pathlib.Path(folder, "f4").mkdir()
        answer = program("std", "file 3 61\nfile 4 62\nfile 5 63\nread 3 0 1\n", folder)
        if answer != (10, "", "partner fault"):
            yield f"a file that can't be made: {answer}"
        if pathlib.Path(folder, "f3").read_bytes() != b"a" or pathlib.Path(folder, "f5").exists():
            yield "what was written before a file that can't be made"
    if os.geteuid() != 0:
        with tempfile.TemporaryDirectory() as folder:
            os.chmod(folder, 0o500)
            if program("std", hello, folder) != (10, "", "partner fault"):
                yield "a folder that can't be written"
    if os.path.exists("/dev/full"):
        with tempfile.TemporaryDirectory() as folder:
            os.symlink("/dev/full", pathlib.Path(folder, "f1"))
            report = program("std", "file 1 -\nwrite 1 0 61\nread 1 0 0\n", folder)[1]
            if outcomes(report)[:1] != ["out 0 -28 61"]:
                yield f"a full device: {report}"


def many_jobs():
    chance = random.Random(25)
    lines = [f"file {n} {chance.randbytes(chance.randrange(1, 4096)).hex()}" for n in range(FILES)]
    for _ in range(JOBS):
        number, offset, count = chance.randrange(FILES), chance.randrange(4096), chance.randrange(1, LONGEST_READ)
        if chance.random() < 0.5:
            lines.append(f"read {number} {offset} {count}")
        else:
            lines.append(f"write {number} {offset} {chance.randbytes(count).hex()}")
    return "\n".join(lines) + "\n"


def differences_of_many(script, plain):
    whole = script + "".join(f"read {n} 0 {2 * BEHIND_ALL}\n" for n in range(FILES))
    with tempfile.TemporaryDirectory() as folder:
        status, told, fault = program("std", whole, folder)
        _, by_run, _ = program("run", whole, folder)
        held = [pathlib.Path(folder, f"f{n}").read_bytes() for n in range(FILES)]
    if status != 0 or outcomes(told) != outcomes(by_run):
        yield f"the outcomes of {JOBS} jobs: status {status} {fault}"
    ends = [line.split() for line in outcomes(by_run)[-FILES:]]
    for number, (_, _, count, data) in enumerate(ends):
        if held[number] != bytes.fromhex(data)[:int(count)]:
            yield f"the bytes of file {number}"
    with tempfile.TemporaryDirectory() as folder:
        by_plain = call([plain], script, folder)[1]
    if outcomes(by_plain) != outcomes(told)[:JOBS]:
        yield "the outcomes of the plain program"


def seconds(words, script):
    with tempfile.TemporaryDirectory() as folder:
        begin = time.perf_counter()
        call(words, script, folder)
        return time.perf_counter() - begin


def times(script, plain):
    """The median of the program's times and of the plain program's, in turn."""
    ours, theirs = [], []
    for _ in range(RUNS):
        ours.append(seconds([str(PROGRAM), "std"], script))
        theirs.append(seconds([plain], script))
    return statistics.median(ours), statistics.median(theirs)


def main():
    script = many_jobs()
    with tempfile.TemporaryDirectory() as folder:
        plain = str(pathlib.Path(folder, "plain_calls"))
        subprocess.run(["cc", "-O2", "-o", plain, str(PLAIN_SOURCE)], check=True)
        found = [*differences_of_table(), *differences_of_faults(), *differences_of_many(script, plain)]
        for difference in found:
            print(f"differs: {difference}")
        ours, theirs = times(script, plain)
    print(f"{JOBS} jobs on {FILES} files: std {ours * 1000:.0f} ms, the plain program {theirs * 1000:.0f} ms, {ours / theirs:.2f} times")
    sys.exit(1 if found else 0)


if __name__ == "__main__":
    main()
