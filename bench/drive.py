#!/usr/bin/env python3
"""Measures what a request costs the server over memory, by the number of dispatchers, from outside the program.

    python3 bench/drive.py [-n RUNS] [PROGRAM]

PROGRAM is a built `warp_serve`; without it, crates/warp_serve/out/warp_serve. `drive 7 4000 5 D` serves 20,000 requests over 4,000
links of a net in memory. Of RUNS runs for each D (5 without -n), the one counts that took least processor time, all threads
together. The same command with one request of one link is taken off: that is what the program does before and behind the load.
"""
import argparse
import os
import subprocess
import sys

HERE = os.path.dirname(os.path.abspath(__file__))
BUILT = os.path.join(HERE, "..", "crates", "warp_serve", "out", "warp_serve")
SEED, CONNECTIONS, REQUESTS = 7, 4_000, 5
PRINTED = "connections 4000\nrequests 20000\nbytes 105202500\n"


def spent(program, connections, requests, dispatchers):
    """The processor seconds and the seconds of a run, and what it printed."""
    words = ["drive", *map(str, (SEED, connections, requests, dispatchers))]
    before = os.times()
    done = subprocess.run([program, *words], stdout=subprocess.PIPE, text=True, check=True)
    after = os.times()
    processor = after.children_user + after.children_system - before.children_user - before.children_system
    return processor, after.elapsed - before.elapsed, done.stdout


def least(program, dispatchers, runs):
    """The least processor seconds of the load alone, and the least seconds that passed."""
    loads = [spent(program, CONNECTIONS, REQUESTS, dispatchers) for _ in range(runs)]
    for *_, printed in loads:
        if printed != PRINTED:
            sys.exit(f"drive with {dispatchers} dispatchers printed {printed!r}")
    nothing = [spent(program, 1, 1, dispatchers) for _ in range(runs)]
    return min(load[0] for load in loads) - min(run[0] for run in nothing), min(load[1] for load in loads)


def main():
    parser = argparse.ArgumentParser()
    parser.add_argument("-n", type=int, default=5, metavar="RUNS")
    parser.add_argument("program", nargs="?", default=BUILT)
    given = parser.parse_args()
    first = None
    for dispatchers in (1, 2, 4):
        processor, passed = least(given.program, dispatchers, given.n)
        rate = CONNECTIONS * REQUESTS / processor
        first = first or rate
        print(f"{dispatchers} dispatchers: {rate:,.0f} requests a processor second, {rate / first:.2f} of one dispatcher's; {passed:.2f} s passed")
    print(f"load of the machine: {os.getloadavg()[0]:.1f} on {os.cpu_count()} processors")


main()
