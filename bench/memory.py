#!/usr/bin/env python3
"""Measures the resident memory of connections, from outside the program that holds them.

    python3 bench/memory.py [PROGRAM]

PROGRAM is a built `conn_bench`; without it, crates/conn_bench/out/conn_bench. Each figure is what 1,000 connections add to the
resident memory of a process that holds none, by their number. What a process shares with others counts in both.
"""
import os
import resource
import subprocess
import sys

HERE = os.path.dirname(os.path.abspath(__file__))
BUILT = os.path.join(HERE, "..", "crates", "conn_bench", "out", "conn_bench")
PAGE = resource.getpagesize()
COUNT = 1_000


def resident(program, past, count):
    """Bytes of resident memory of a process that holds so many connections."""
    with subprocess.Popen([program, past, str(count)], stdin=subprocess.PIPE, stdout=subprocess.PIPE, text=True) as run:
        line = run.stdout.readline()
        if line != f"{count} connections\n":
            sys.exit(f"{program} {past} {count}: {line!r}")
        with open(f"/proc/{run.pid}/statm", encoding="ascii") as it:
            pages = int(it.read().split()[1])
        run.stdin.write("\n")
        run.stdin.close()
    return pages * PAGE


def main():
    program = sys.argv[1] if len(sys.argv) > 1 else BUILT
    for past in ("new", "asked"):
        some, none = resident(program, past, COUNT), resident(program, past, 0)
        print(f"{past}: {(some - none) / COUNT:,.0f} bytes a connection ({some:,} less {none:,} by {COUNT:,})")


main()
