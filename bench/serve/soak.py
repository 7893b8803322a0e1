#!/usr/bin/env python3
"""Loads the server for a long while, in every style, and tells each minute what it holds: memory, descriptors, threads.

    python3 bench/serve/soak.py [MINUTES [PROGRAM]]         60 minutes where none are named

At the end memory and descriptors are to be what they were after the first minute. Each round of the load is wrk with connections that
stay open, wrk with requests behind each other, wrk with a connection for each request, ab, and a hundred clients that go away within
a large answer. Wanted, from Debian: wrk, apache2-utils. All traffic is on 127.0.0.1.
"""
import os
import re
import socket
import struct
import subprocess
import sys
import tempfile
import time
from pathlib import Path

HERE = Path(__file__).resolve().parent
BUILT = HERE.parent.parent / "crates" / "warp_serve" / "out" / "warp_serve"
ADDRESS = "127.0.0.1"
PIPELINED = 'local all\ninit = function() local each = {} for k = 1, 16 do each[k] = wrk.format("GET") end all = table.concat(each) end\nrequest = function() return all end\n'


def free_port():
    with socket.socket() as door:
        door.bind((ADDRESS, 0))
        return door.getsockname()[1]


def held(pid):
    """Resident memory in KiB, descriptors and threads."""
    status = Path(f"/proc/{pid}/status").read_text()
    return int(re.search(r"VmRSS:\s+(\d+)", status).group(1)), len(os.listdir(f"/proc/{pid}/fd")), int(re.search(r"Threads:\s+(\d+)", status).group(1))


def load(words):
    done = subprocess.run(list(map(str, words)), stdout=subprocess.PIPE, stderr=subprocess.STDOUT, text=True, timeout=120)
    asked = re.search(r"(\d+) requests in|Complete requests:\s+(\d+)", done.stdout)
    return int(asked.group(1) or asked.group(2)) if asked else 0


def go_away(port):
    """A client that asks for a large file and goes away within the answer."""
    with socket.create_connection((ADDRESS, port), 10) as link:
        link.sendall(b"GET /1000000.txt HTTP/1.1\r\nHost: a\r\n\r\n")
        link.recv(1000)
        link.setsockopt(socket.SOL_SOCKET, socket.SO_LINGER, struct.pack("ii", 1, 0))


def main():
    minutes = float(sys.argv[1]) if len(sys.argv) > 1 else 60
    program = sys.argv[2] if len(sys.argv) > 2 else BUILT
    with tempfile.TemporaryDirectory() as folder:
        root = Path(folder) / "root"
        root.mkdir()
        for size in (3, 1_000, 40_000, 1_000_000):
            (root / f"{size}.txt").write_bytes(bytes(97 + k % 26 for k in range(size)))
        script = Path(folder) / "pipelined.lua"
        script.write_text(PIPELINED)
        port = free_port()
        run = subprocess.Popen([program, "serve", root, ADDRESS, str(port), "2", "4294967295", "2"], stdout=subprocess.PIPE)
        try:
            if run.stdout.readline() != b"listening\n":
                sys.exit("the server doesn't listen")
            base = f"http://{ADDRESS}:{port}"
            began, told, requests, first = time.monotonic(), 0, 0, None
            while (passed := time.monotonic() - began) < 60 * minutes and run.poll() is None:
                requests += load(["wrk", "-t", 2, "-c", 200, "-d", "5s", base + "/3.txt"])
                requests += load(["wrk", "-t", 2, "-c", 50, "-d", "3s", "-s", script, base + "/1000.txt"])
                requests += load(["wrk", "-t", 2, "-c", 50, "-d", "3s", "-H", "Connection: close", base + "/40000.txt"])
                requests += load(["ab", "-q", "-k", "-n", 2_000, "-c", 20, base + "/1000000.txt"])
                for _ in range(100):
                    go_away(port)
                # Lingering links and silent ones are over behind this, and every file is closed.
                time.sleep(0 if passed < 60 * told else 8)
                if passed >= 60 * told:
                    memory, descriptors, threads = held(run.pid)
                    print(f"{passed / 60:.1f} minutes: {requests:,} requests, {memory:,} KiB, {descriptors} descriptors, {threads} threads", flush=True)
                    told = int(passed / 60) + 1
                    first = (memory, descriptors) if passed < 120 else first
            time.sleep(8)
            memory, descriptors, _ = held(run.pid)
            print(f"at first {first[0]:,} KiB and {first[1]} descriptors, at last {memory:,} KiB and {descriptors}")
        finally:
            run.kill()
            run.wait(timeout=20)


main()
