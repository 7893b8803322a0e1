"""Runs `warp_serve drive SEED CONNECTIONS REQUESTS DISPATCHERS`: what it prints, its status and its error line.

    drive.py [-v] PROGRAM [NAME..]     all checks, or those named; -v prints the name of each

The sums that are wanted are worked out here, from the table of the load alone.
"""
import os
import sys

from checks import USAGE, checks_in, main

# Bytes of the answer to each kind of request. The thousandth answer of a connection closes it, with 19 bytes more.
ANSWERS = (140, 1141, 141, 40141, 104, 133, 140, 141)
CLOSING = 19


def sums(seed, connections, requests):
    """The three lines that a load adds up to."""
    kinds = [(seed + 5 * i + 3 * j) % 8 for i in range(connections) for j in range(requests)]
    closing = CLOSING * connections if requests == 1000 else 0
    total = sum(ANSWERS[kind] for kind in kinds) + closing
    return f"connections {connections}\nrequests {len(kinds)}\nbytes {total}\n".encode()


def check_any_number_of_dispatchers(checks, program, _site):
    """The same load adds up to the same sums, whatever number of dispatchers serves it."""
    want = b"connections 200\nrequests 4000\nbytes 21040500\n"
    checks.equal("the sums as worked out here", sums(7, 200, 20), want)
    for dispatchers in (*range(1, 9), 64):
        got = program.run(["drive", "7", "200", "20", str(dispatchers)], timeout=120)
        checks.equal(f"drive 7 200 20 {dispatchers}", got, (0, want, ""))


def check_loads(checks, program, _site):
    """Loads of other sizes: the smallest, one of many links, and one whose connections are closed by their last answer."""
    for words in ((0, 1, 1, 1), (3, 1, 8, 2), (7, 4000, 5, 4), (5, 4000, 1, 3), (0, 1, 1000, 2), (9, 20, 1000, 4), (4294967295, 50, 7, 2)):
        got = program.run(["drive", *map(str, words)], timeout=120)
        checks.equal(f"drive {words}", got, (0, sums(*words[:3]), ""))


def check_runs_alike(checks, program, _site):
    """Threads may meet in any order: many runs of one load, more dispatchers than processors, print one thing."""
    want = (0, sums(11, 60, 6), "")
    for k in range(20):
        checks.equal(f"run {k}", program.run(["drive", "11", "60", "6", "8"], timeout=120), want)


def check_words(checks, program, _site):
    """Numbers in other spellings of the same value are taken, and each word out of its range is refused."""
    got = program.run(["drive", "0000000007", "010", "003", "02"])
    checks.equal("leading zeros", got, (0, sums(7, 10, 3), ""))
    for what, words in (
        ("no numbers", ["drive"]),
        ("three numbers", ["drive", "7", "200", "20"]),
        ("five numbers", ["drive", "7", "200", "20", "4", "1"]),
        ("a capital letter", ["Drive", "7", "200", "20", "4"]),
        ("eleven digits", ["drive", "00000000007", "200", "20", "4"]),
        ("a seed of 33 bits", ["drive", "4294967296", "200", "20", "4"]),
        ("no connection", ["drive", "7", "0", "20", "4"]),
        ("too many connections", ["drive", "7", "4001", "1", "4"]),
        ("no request", ["drive", "7", "200", "0", "4"]),
        ("too many requests", ["drive", "7", "1", "1001", "4"]),
        ("too many requests in all", ["drive", "7", "4000", "6", "4"]),
        ("no dispatcher", ["drive", "7", "200", "20", "0"]),
        ("too many dispatchers", ["drive", "7", "200", "20", "65"]),
        ("a sign", ["drive", "+7", "200", "20", "4"]),
        ("a letter", ["drive", "7", "200", "20", "4a"]),
        ("an empty word", ["drive", "7", "", "20", "4"]),
        ("a space", ["drive", "7", " 200", "20", "4"]),
        ("a digit that isn't ASCII", ["drive", "7", "200", "20", "４"]),
        ("a word that is no text", ["drive", "7", "200", "20", b"\xff"]),
    ):
        checks.equal(what, program.run(words), (2, b"", USAGE + "\n"))


def check_output_faults(checks, program, _site):
    """Where the output fails the status says so, and nothing is written beside it."""
    words = ["drive", "7", "10", "2", "2"]
    checks.equal("a closed standard output", program.run_closed(words), (11, ""))
    checks.equal("a full standard output", program.run_full(words), (11, ""))


def check_reads_nothing(checks, program, _site):
    """The load comes from its numbers: standard input is not read."""
    reader, writer = os.pipe()
    got = program.run(["drive", "7", "10", "2", "2"], stdin=reader)
    os.write(writer, b"x")
    left = os.read(reader, 2)
    os.close(reader)
    os.close(writer)
    checks.equal("an input that never comes", (got, left), ((0, sums(7, 10, 2), ""), b"x"))


if __name__ == "__main__":
    sys.exit(main("drive", checks_in(globals()), sys.argv[1:]))
