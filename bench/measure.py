#!/usr/bin/env python3
"""Measures the program `run`: time for a job, peak memory, and how both grow with four times the jobs.

usage: measure.py [PROGRAM] [--runs N]

PROGRAM is the built program; without it, crates/uring_cli/out/uring_cli of this repository, which
`rt run` leaves there. Two kinds of scripts are run, of 65,536 and of 262,144 jobs each:

  nop     jobs that do nothing
  bytes   three reads of 64 bytes for each write of 64 bytes, on one file of at most 4,160 bytes

Each of the two with 262,144 jobs is run by `shared` too, whose partner has a thread of its own.

Then 262,144 nops of which every second is quiet and linked to the next are run; the 262,144 nops are run
with rings of 1, of 64 and of 32,768 entries; and three more kinds of scripts with rings of 64 and of
4,096 entries:

  drained   nops, each fourth of them drained
  linked    nops in chains of four, by soft links
  chosen    nops, and for each of them a choice that names one deep among those that are ready

Where crates/ring_speed/out/ring_speed is there too, which `rt run` leaves there, it is run as well: a
million entries through a pair of rings of 64, and as many items through two deques. So is
crates/engine_speed/out/engine_speed: a million operations through an engine, in three ways; and
crates/shared_speed/out/shared_speed: ten million entries to another thread and back through a pair of
rings of 1,024, and as many items through two channels of that bound.

The program's command `gen 100000` is run too, and, where crates/gen_speed/out/gen_speed is there, which `rt run`
leaves there, as many of a number's jobs and four times as many by it, since the command takes no more.

Each script is run N times (3, unless said), and the shortest time counts. A run that doesn't end with
status 0, or whose report lacks a job or its end, stops the measuring with status 1. The goals are those of
docs/BENCH.md; a goal that is missed is named, and the status is then 1 too.
"""

import argparse
import os
import re
import subprocess
import sys
import tempfile
import time

FEW = 65_536
MANY = 262_144

GOAL_RATIO = 4.4
GOAL_NOP_MICROSECONDS = 1.0
GOAL_MEGABYTES = 400.0
GOAL_RING_RATIO = 1.5
GOAL_QUIET_RATIO = 1.2
GOAL_SHARED_RATIO = 1.3
GOAL_ENTRY_NANOSECONDS = 40.0
GOAL_NUMBER_NANOSECONDS = 250.0
GOAL_STATE_NANOSECONDS = 400.0
GOAL_STATES_RATIO = 1.5
GOAL_PAIR_NANOSECONDS = 60.0
GOAL_GENERATED_MICROSECONDS = 1.3
GOAL_GENERATED_MEGABYTES = 250.0

GENERATED = 100_000

PAIR_ITEMS = 10_000_000

RINGS = (1, 64, 32_768)

MARKED_RINGS = (64, 4_096)

INPUT_LIMIT = 16_777_216


def here():
    return os.path.dirname(os.path.dirname(os.path.abspath(__file__)))


def nop_lines(jobs):
    for _ in range(jobs):
        yield b"nop\n"


def bytes_lines(jobs):
    """Offsets lie below 4,096, so the file stays small; each fourth job is a write."""
    yield b"file 1 -\n"
    for job in range(jobs):
        offset = (job * 1_237) % 4_096
        if job % 4 == 0:
            yield b"write 1 %d %s\n" % (offset, (b"%02x" % (job // 4 % 256)) * 64)
        else:
            yield b"read 1 %d 64\n" % offset


def quiet_lines(jobs):
    for job in range(jobs):
        yield b"nop\n" if job % 2 == 1 else b"nop quiet link\n"


def drained_lines(jobs):
    for job in range(jobs):
        yield b"nop drain\n" if job % 4 == 3 else b"nop\n"


def linked_lines(jobs):
    for job in range(jobs):
        yield b"nop\n" if job % 4 == 3 else b"nop link\n"


def chosen_lines(jobs):
    """Odd choices, so that no turn ends early; their places go all over a ring of 4,096."""
    for job in range(jobs):
        yield b"choose %d\nnop\n" % ((job * 1_237) % 4_096 * 2 + 1)


def write_script(path, lines):
    """Writes line by line, so that this process stays small: a child's peak is never below its own."""
    with open(path, "wb") as out:
        for line in lines:
            out.write(line)
    size = os.path.getsize(path)
    if size > INPUT_LIMIT:
        sys.exit(f"measure.py: {path} has {size} bytes, more than the program takes")


def run_once(program, words, script, report):
    """Seconds and peak kilobytes of one run with these words, and its status."""
    with open(script, "rb") as source, open(report, "wb") as out:
        begin = time.perf_counter()
        pid = os.posix_spawn(
            program,
            [program, *words],
            {},
            file_actions=[
                (os.POSIX_SPAWN_DUP2, source.fileno(), 0),
                (os.POSIX_SPAWN_DUP2, out.fileno(), 1),
            ],
        )
        _, state, usage = os.wait4(pid, 0)
        seconds = time.perf_counter() - begin
    return seconds, usage.ru_maxrss, os.waitstatus_to_exitcode(state)


def check_report(report, jobs):
    """The report has an outcome for each job, in order, a post or a quiet end for each, and its last line."""
    outcomes = 0
    ends = 0
    last = b""
    with open(report, "rb") as lines:
        for last in lines:
            if last.startswith(b"out "):
                if not last.startswith(b"out %d " % outcomes):
                    sys.exit(f"measure.py: the line of outcome {outcomes} is {last!r}")
                outcomes += 1
            elif last.startswith((b"post ", b"quiet ")):
                ends += 1
    if outcomes != jobs or ends != jobs or last != b"end\n":
        sys.exit(f"measure.py: {outcomes} outcomes and {ends} ends for {jobs} jobs, last line {last!r}")


def measure(program, folder, name, lines, jobs, runs, options=(), command="run"):
    """The shortest time and the highest peak of some runs."""
    script = os.path.join(folder, f"{name}-{jobs}.script")
    report = os.path.join(folder, f"{name}-{jobs}.report")
    write_script(script, lines(jobs))
    best = None
    peak = 0
    for _ in range(runs):
        seconds, kilobytes, status = run_once(program, (command, *options), script, report)
        if status != 0:
            sys.exit(f"measure.py: {name} with {jobs} jobs ended with status {status}")
        best = seconds if best is None else min(best, seconds)
        peak = max(peak, kilobytes)
    check_report(report, jobs)
    os.remove(script)
    os.remove(report)
    return best, peak / 1024


def print_row(name, jobs, seconds, megabytes):
    each = seconds * 1_000_000 / jobs
    print(f"{name:12} {jobs:7} jobs   {seconds:8.3f} s   {each:8.3f} microseconds a job   {megabytes:7.1f} MB")


def measure_quiet(program, folder, runs, nops):
    """What a job costs where every second one is quiet, beside as many nops that took `nops` seconds."""
    seconds, peak = measure(program, folder, "quiet", quiet_lines, MANY, runs)
    print_row("quiet", MANY, seconds, peak)
    ratio = seconds / nops
    return judge(
        ratio <= GOAL_QUIET_RATIO,
        f"nops, every second quiet and linked: {ratio:.2f} times the time of as many nops (goal: at most {GOAL_QUIET_RATIO})",
    )


def measure_shared(program, folder, name, lines, runs, alone):
    """What the same script costs with the partner on a thread of its own, beside `run`, which took `alone` seconds."""
    seconds, peak = measure(program, folder, name, lines, MANY, runs, command="shared")
    print_row(f"shared {name}", MANY, seconds, peak)
    ratio = seconds / alone
    return judge(ratio <= GOAL_SHARED_RATIO, f"{name}: `shared` in {ratio:.2f} times the time of `run` (goal: at most {GOAL_SHARED_RATIO})")


def measure_number(program, words, jobs, runs):
    """The shortest time and the highest peak of some runs of a number's jobs, which read nothing."""
    best = None
    peak = 0
    for _ in range(runs):
        seconds, kilobytes, status = run_once(program, words, os.devnull, os.devnull)
        if status != 0:
            sys.exit(f"measure.py: {program} {' '.join(words)} ended with status {status}")
        best = seconds if best is None else min(best, seconds)
        peak = max(peak, kilobytes)
    print_row("generated", jobs, best, peak / 1024)
    return best, peak / 1024


def measure_generated(program, gen_speed, runs):
    """What a generated job costs, by the command, and how the time grows with four times the jobs."""
    seconds, peak = measure_number(program, ("gen", str(GENERATED)), GENERATED, runs)
    each = seconds * 1_000_000 / GENERATED
    met = judge(each <= GOAL_GENERATED_MICROSECONDS, f"generated: {each:.3f} microseconds a job (goal: at most {GOAL_GENERATED_MICROSECONDS})")
    met &= judge(peak <= GOAL_GENERATED_MEGABYTES, f"generated: peak {peak:.1f} MB (goal: at most {GOAL_GENERATED_MEGABYTES:.0f})")
    if os.access(gen_speed, os.X_OK):
        few, _ = measure_number(gen_speed, (str(GENERATED), "1"), GENERATED, runs)
        many, _ = measure_number(gen_speed, (str(4 * GENERATED), "1"), 4 * GENERATED, runs)
        met &= judge(many / few <= GOAL_RATIO, f"generated: four times the jobs in {many / few:.2f} times the time (goal: at most {GOAL_RATIO})")
    return met


def measure_rings(program, folder, runs):
    """How the time of the nops goes with the size of the rings."""
    times = {}
    for ring in RINGS:
        options = ("--sq", str(ring))
        seconds, peak = measure(program, folder, "nop", nop_lines, MANY, runs, options)
        print_row(f"--sq {ring}", MANY, seconds, peak)
        times[ring] = seconds
    print(f"       rings of 1 take {times[1] / times[64]:.2f} times the time of rings of 64")
    ratio = times[32_768] / times[64]
    return judge(
        ratio <= GOAL_RING_RATIO,
        f"rings of 32768 take {ratio:.2f} times the time of rings of 64 (goal: at most {GOAL_RING_RATIO})",
    )


def measure_marked(program, folder, runs):
    """How the time of marked and chosen jobs goes with their number, for two sizes of rings."""
    met = True
    for name, lines in (("drained", drained_lines), ("linked", linked_lines), ("chosen", chosen_lines)):
        for ring in MARKED_RINGS:
            options = ("--sq", str(ring))
            few, few_peak = measure(program, folder, name, lines, FEW, runs, options)
            print_row(f"{name} {ring}", FEW, few, few_peak)
            many, many_peak = measure(program, folder, name, lines, MANY, runs, options)
            print_row(f"{name} {ring}", MANY, many, many_peak)
            ratio = many / few
            met &= judge(
                ratio <= GOAL_RATIO,
                f"{name}, --sq {ring}: four times the jobs in {ratio:.2f} times the time (goal: at most {GOAL_RATIO})",
            )
    return met


def nanoseconds_of(program, names, words=()):
    """What the program says of each of its ways, in nanoseconds an item or an operation."""
    run = subprocess.run([program, *words], env={}, capture_output=True, text=True, check=True)
    times = {name: float(number) for name, number in re.findall(r"^([\w ]+): ([0-9.]+) ns an (?:item|operation)$", run.stderr, re.M)}
    if set(times) != set(names):
        sys.exit(f"measure.py: {program} said {run.stderr!r}")
    return times


def measure_entries(program, runs):
    """How long an entry takes through a pair of rings, beside an item through two deques."""
    names = ("rings", "deques")
    all_times = [nanoseconds_of(program, names) for _ in range(runs)]
    times = {name: sorted(times[name] for times in all_times) for name in names}
    for name, sorted_times in times.items():
        print(f"{name:12} {sorted_times[0]:.1f} to {sorted_times[-1]:.1f} nanoseconds an item, {sorted_times[len(sorted_times) // 2]:.1f} in the middle")
    middle = times["rings"][runs // 2]
    return judge(middle <= GOAL_ENTRY_NANOSECONDS, f"an entry through a pair of rings: {middle:.1f} nanoseconds (goal: at most {GOAL_ENTRY_NANOSECONDS:.0f})")


def measure_operations(program, runs):
    """How long an operation takes through an engine, by number and as a state."""
    names = ("by number", "64 states", "32768 states")
    all_times = [nanoseconds_of(program, names) for _ in range(runs)]
    middles = {}
    for name in names:
        times = sorted(times[name] for times in all_times)
        middles[name] = times[runs // 2]
        print(f"{name:12} {times[0]:.1f} to {times[-1]:.1f} nanoseconds an operation, {middles[name]:.1f} in the middle")
    ratio = middles["32768 states"] / middles["64 states"]
    met = judge(middles["by number"] <= GOAL_NUMBER_NANOSECONDS, f"an operation by number: {middles['by number']:.1f} nanoseconds (goal: at most {GOAL_NUMBER_NANOSECONDS:.0f})")
    met &= judge(middles["64 states"] <= GOAL_STATE_NANOSECONDS, f"an operation as a state: {middles['64 states']:.1f} nanoseconds (goal: at most {GOAL_STATE_NANOSECONDS:.0f})")
    return judge(ratio <= GOAL_STATES_RATIO, f"32768 states at once: {ratio:.2f} times the time of 64 (goal: at most {GOAL_STATES_RATIO})") and met


def measure_pair(program, runs):
    """How long an entry takes to another thread and back through a pair of rings, beside an item through two channels."""
    names = ("pair", "channels")
    all_times = [nanoseconds_of(program, names, (str(PAIR_ITEMS),)) for _ in range(runs)]
    middles = {}
    for name in names:
        times = sorted(times[name] for times in all_times)
        middles[name] = times[runs // 2]
        print(f"{name:12} {times[0]:.1f} to {times[-1]:.1f} nanoseconds an item, {middles[name]:.1f} in the middle")
    pair, channels = middles["pair"], middles["channels"]
    met = judge(pair <= GOAL_PAIR_NANOSECONDS, f"an entry to another thread and back: {pair:.1f} nanoseconds (goal: at most {GOAL_PAIR_NANOSECONDS:.0f})")
    return judge(pair < channels, f"the same through two channels: {channels:.1f} nanoseconds (goal: more than through the rings)") and met


def judge(ok, text):
    print(f"{'met   ' if ok else 'MISSED'} {text}")
    return ok


def main():
    parser = argparse.ArgumentParser(description="Measures the program `run`.")
    parser.add_argument("program", nargs="?", default=os.path.join(here(), "crates", "uring_cli", "out", "uring_cli"))
    parser.add_argument("--runs", type=int, default=3)
    words = parser.parse_args()
    if not os.access(words.program, os.X_OK):
        sys.exit(f"measure.py: there is no program {words.program}; build it by `rt run` in crates/uring_cli, or name it")
    program = os.path.abspath(words.program)
    met = True
    with tempfile.TemporaryDirectory() as folder:
        for name, lines in (("nop", nop_lines), ("bytes", bytes_lines)):
            few, few_peak = measure(program, folder, name, lines, FEW, words.runs)
            print_row(name, FEW, few, few_peak)
            many, many_peak = measure(program, folder, name, lines, MANY, words.runs)
            print_row(name, MANY, many, many_peak)
            ratio = many / few
            met &= judge(ratio <= GOAL_RATIO, f"{name}: four times the jobs in {ratio:.2f} times the time (goal: at most {GOAL_RATIO})")
            met &= judge(many_peak <= GOAL_MEGABYTES, f"{name}: peak {many_peak:.1f} MB (goal: at most {GOAL_MEGABYTES:.0f})")
            met &= measure_shared(program, folder, name, lines, words.runs, many)
            if name == "nop":
                each = many * 1_000_000 / MANY
                met &= judge(each <= GOAL_NOP_MICROSECONDS, f"{name}: {each:.3f} microseconds a job (goal: at most {GOAL_NOP_MICROSECONDS:.0f})")
                met &= measure_quiet(program, folder, words.runs, many)
        met &= measure_rings(program, folder, words.runs)
        met &= measure_marked(program, folder, words.runs)
    gen_speed = os.path.join(here(), "crates", "gen_speed", "out", "gen_speed")
    met &= measure_generated(program, gen_speed, words.runs)
    ring_speed = os.path.join(here(), "crates", "ring_speed", "out", "ring_speed")
    if os.access(ring_speed, os.X_OK):
        met &= measure_entries(ring_speed, max(words.runs, 5))
    engine_speed = os.path.join(here(), "crates", "engine_speed", "out", "engine_speed")
    if os.access(engine_speed, os.X_OK):
        met &= measure_operations(engine_speed, max(words.runs, 5))
    shared_speed = os.path.join(here(), "crates", "shared_speed", "out", "shared_speed")
    if os.access(shared_speed, os.X_OK):
        met &= measure_pair(shared_speed, max(words.runs, 5))
    sys.exit(0 if met else 1)


if __name__ == "__main__":
    main()
