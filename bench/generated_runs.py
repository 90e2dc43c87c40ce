#!/usr/bin/env python3
"""What `gen N` must write, worked out apart from the program.

usage: generated_runs.py N             writes the four lines of N
       generated_runs.py --script N    writes the jobs of N as a script that `run --sq 64` takes
       generated_runs.py --check       compares both ways of working them out, for small N
       generated_runs.py --program     compares the built program, crates/uring_cli/out/uring_cli,
                                       with what is worked out, for several N up to 100000

The jobs are made by the rule in docs/DEFINITIONS.md ("Generated jobs"). A run without choices settles
them in their order, so a job that cancels finds no job to cancel, and a soft link is cut by the job
right before. `--check` runs the same jobs by the second reading in script_table.py too, turn by turn.
The status is 1 where two ways differ.
"""

import pathlib
import subprocess
import sys

from script_table import Run

PROGRAM = pathlib.Path(__file__).parent.parent / "crates/uring_cli/out/uring_cli"
GROUP = 64


def numbers(count):
    x = 1
    for _ in range(count):
        x = (1_664_525 * x + 1_013_904_223) % 2**32
        yield x


def job_lines(count):
    """The jobs of a number, each as the line of a script."""
    for place, x in enumerate(numbers(count)):
        file, offset = x // 256 % 4, x % 4096
        line = [
            "nop",
            f"read {file} {offset} {x // 4096 % 64}",
            f"write {file} {offset} " + f"{x // 16 % 256:02x}" * (x // 4096 % 16 + 1),
            f"fsync {file}",
            f"truncate {file} {offset}",
            f"cancel {x % (place + 1)}",
        ][x // 65536 % 6]
        drain = " drain" if x // 16_777_216 % 16 == 0 else ""
        yield line + drain + {1: " link", 2: " hard"}.get(x // 1_048_576 % 8, "")


def script(count):
    return [f"file {file} -" for file in range(4)] + list(job_lines(count))


def answer(files, words):
    """The result of a job that isn't severed, and whether it is bad for a soft link behind it."""
    if words[0] == "nop" or words[0] == "fsync":
        return 0, False
    if words[0] == "cancel":
        return -2, True
    data = files[int(words[1])]
    at = int(words[2])
    if words[0] == "truncate":
        del data[at:]
        data.extend(bytes(at - len(data)))
        return 0, False
    if words[0] == "read":
        asked = int(words[3])
        result = max(0, min(asked, len(data) - at))
        return result, result < asked
    laid = bytes.fromhex(words[3])
    data.extend(bytes(max(0, at - len(data))))
    data[at : at + len(laid)] = laid
    return len(laid), False


def summary(count):
    files = [bytearray() for _ in range(4)]
    negative = 0
    cut = False
    for line in job_lines(count):
        words = line.split(" ")
        result, bad = (-125, True) if cut else answer(files, words)
        negative += result < 0
        if words[-1] not in ("link", "hard"):
            cut = False
        elif words[-1] == "link":
            cut = cut or bad
    return told(count, negative, -(-count // GROUP), sum(map(len, files)))


def told(jobs, negative, turns, size):
    return f"jobs {jobs}\nnegative {negative}\nturns {turns}\nbytes {size}\n"


def summary_by_turns(count):
    run = Run(script(count), GROUP, 2 * GROUP)
    report = run.report()
    negative = sum(result < 0 for result, _ in run.outcomes.values())
    turns = sum(line.startswith("turn ") for line in report)
    return told(count, negative, turns, sum(map(len, run.files.values())))


def differing(counts, one, other):
    return [count for count in counts if one(count) != other(count)]


def written(count):
    return subprocess.run([PROGRAM, "gen", str(count)], env={}, capture_output=True, text=True, check=True).stdout


def main():
    words = sys.argv[1:]
    if words == ["--check"]:
        wrong = differing([*range(1, 70), 127, 128, 129, 200, 300], summary, summary_by_turns)
    elif words == ["--program"]:
        wrong = differing([1, 2, 63, 64, 65, 1000, 4097, 65536, 99_999, 100_000], summary, written)
    elif len(words) == 2 and words[0] == "--script":
        print("\n".join(script(int(words[1]))))
        return
    elif len(words) == 1:
        print(summary(int(words[0])), end="")
        return
    else:
        sys.exit(__doc__)
    if wrong:
        sys.exit(f"generated_runs.py: not the same for {wrong}")


if __name__ == "__main__":
    main()
