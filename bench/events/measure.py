#!/usr/bin/env python3
"""Measures what calls of the event manager cost, from outside the program that makes them.

    python3 bench/events/measure.py [PROGRAM]

PROGRAM is a built `event_bench`; without it, crates/event_bench/out/event_bench. Each figure is the least of
several runs, less the least of as many runs without rounds, by the rounds of one thread. `processor` is the time
that all threads took together by the rounds of all of them, `wall` the time that passed by the rounds of one.
`instructions` are those of a round on one thread, the program's own code alone, as valgrind counts them; without
valgrind the column is empty. The first and last lines tell how loaded the machine was.
"""
import os
import re
import resource
import shutil
import subprocess
import sys
import time

HERE = os.path.dirname(os.path.abspath(__file__))
BUILT = os.path.join(HERE, "..", "..", "crates", "event_bench", "out", "event_bench")
# What a round is, and how many calls it makes.
CALLS = {"report": 1, "register": 2, "dispatch": 2, "cycle": 3}
SIZES = (8, 400)
THREADS = (1, 2, 4)
ROUNDS = 200_000
REPEATS = 5
# Rounds of a run whose instructions are counted: they are the same each time, and valgrind is slow.
COUNTED = 2_000
# No run may take longer than this.
SECONDS = 120


def one_run(program, what, size, threads, rounds):
    """Wall and processor seconds of one run, which must make all its rounds."""
    before = resource.getrusage(resource.RUSAGE_CHILDREN)
    start = time.monotonic()
    words = [program, what, str(size), str(threads), str(rounds)]
    made = subprocess.run(words, capture_output=True, text=True, timeout=SECONDS, check=True).stdout
    wall = time.monotonic() - start
    after = resource.getrusage(resource.RUSAGE_CHILDREN)
    if made != f"{threads * rounds} rounds\n":
        sys.exit(f"{' '.join(words)}: {made!r}")
    return wall, after.ru_utime + after.ru_stime - before.ru_utime - before.ru_stime


def least(program, what, size, threads, rounds):
    runs = [one_run(program, what, size, threads, rounds) for _ in range(REPEATS)]
    return min(wall for wall, _ in runs), min(spent for _, spent in runs)


def counted(program, what, size, rounds):
    """The instructions of one run of one thread."""
    words = ["valgrind", "--tool=callgrind", "--callgrind-out-file=/dev/null", program, what, str(size), "1", str(rounds)]
    told = subprocess.run(words, capture_output=True, text=True, timeout=SECONDS, check=True).stderr
    return int(re.search(r"Collected : (\d+)", told)[1])


def instructions(program, what, size):
    """The instructions of a round on one thread, or None where valgrind isn't there."""
    if shutil.which("valgrind") is None:
        return None
    return (counted(program, what, size, COUNTED) - counted(program, what, size, 0)) / COUNTED


def load():
    one, five, _ = os.getloadavg()
    return f"load {one:.2f} over the last minute and {five:.2f} over five, {os.cpu_count()} processors"


def cost(program, what, size, threads):
    """Nanoseconds of a round: as time passes for one thread, and of a processor."""
    full = least(program, what, size, threads, ROUNDS)
    empty = least(program, what, size, threads, 0)
    return (
        (full[0] - empty[0]) * 1e9 / ROUNDS,
        (full[1] - empty[1]) * 1e9 / (ROUNDS * threads),
    )


def main():
    program = sys.argv[1] if len(sys.argv) > 1 else BUILT
    print(load())
    costs = {}
    for what in CALLS:
        for size in SIZES:
            for threads in THREADS:
                costs[what, size, threads] = cost(program, what, size, threads)
    counts = {(what, size): instructions(program, what, size) for what in CALLS for size in SIZES}
    print(
        f"{'round':9} {'calls':>5} {'job':>4} {'threads':>7} {'wall ns':>8} {'processor ns':>12} {'instructions':>12}"
        f" {'wall':>6} {'processor':>9}"
    )
    for (what, size, threads), (wall, spent) in costs.items():
        one_wall, one_spent = costs[what, size, 1]
        count = counts[what, size] if threads == 1 else None
        print(
            f"{what:9} {CALLS[what]:5} {size:4} {threads:7} {wall:8.0f} {spent:12.0f} {'' if count is None else round(count):>12}"
            f" {wall / one_wall:6.2f} {spent / one_spent:9.2f}"
        )
    print()
    for what in CALLS:
        by_time = costs[what, 400, 1][1] / costs[what, 8, 1][1]
        line = f"{what}: a job of 400 bytes costs {by_time:.2f} times one of 8 by processor time"
        if counts[what, 8] is not None:
            line += f", {counts[what, 400] / counts[what, 8]:.2f} times by instructions"
        print(line)
    print(load())


if __name__ == "__main__":
    main()
