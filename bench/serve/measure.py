#!/usr/bin/env python3
"""Measures what a request costs the server over sockets, beside nginx, lighttpd and two bare C programs, from outside them all.

    python3 bench/serve/measure.py [--short] [--only WORD] [--rounds N] [--seconds S] [PROGRAM]

PROGRAM is a built `warp_serve`; without it, crates/warp_serve/out/warp_serve. It prints tables for docs/BENCHMARKS.md: about five
minutes with --short, and about an hour and a half without. --only takes the parts and the scenes in whose name the regular expression WORD is found.

Cost is processor time: what the server's process and those below it took, user and kernel together, by /proc/PID/stat, divided by
the requests that wrk had answered. All servers run at once, and one after the other is loaded for some seconds, so that what else
the machine does meets all of them; each figure is the median of its rounds. Wanted, from Debian: wrk, and as far as they are there
nginx, lighttpd, gcc, h2load (nghttp2-client), valgrind, strace. All traffic is on 127.0.0.1.
"""
import argparse
import contextlib
import os
import re
import resource
import shutil
import signal
import socket
import statistics
import subprocess
import sys
import tempfile
import time
from collections import namedtuple
from pathlib import Path

HERE = Path(__file__).resolve().parent
BUILT = HERE.parent.parent / "crates" / "warp_serve" / "out" / "warp_serve"
ADDRESS = "127.0.0.1"
SIZES = {"3 B": 3, "1 kB": 1_000, "40 kB": 40_000, "1 MB": 1_000_000}
TICK = os.sysconf("SC_CLK_TCK")
PAGE = resource.getpagesize()
ENDLESS = 4_294_967_295
DEPTH = 16
NGINX = """
daemon off; pid {folder}/nginx.pid; error_log /dev/null; worker_processes {workers}; worker_rlimit_nofile 16384; user nobody nogroup;
events {{ worker_connections 8192; }}
http {{
  access_log off; sendfile on; tcp_nopush on; tcp_nodelay on; keepalive_requests 1000; keepalive_timeout 65; default_type text/plain;
  open_file_cache max=1000; open_file_cache_valid 30s;
  client_body_temp_path {folder}/b; proxy_temp_path {folder}/p; fastcgi_temp_path {folder}/f; uwsgi_temp_path {folder}/u; scgi_temp_path {folder}/s;
  server {{ listen {address}:{port} backlog=4096; root {root}; }}
}}
"""
LIGHTTPD = """
server.document-root = "{root}"
server.bind = "{address}"
server.port = {port}
server.max-fds = 16384
server.max-connections = 8192
server.max-worker = {workers}
server.max-keep-alive-requests = 1000
server.max-keep-alive-idle = 65
server.listen-backlog = 4096
server.upload-dirs = ( "{folder}" )
mimetype.assign = ( ".txt" => "text/plain" )
"""
PIPELINED = """
local all
init = function(args)
  local each = {}
  for k = 1, %d do each[k] = wrk.format("GET") end
  all = table.concat(each)
end
request = function() return all end
""" % DEPTH

# What is asked for, how, over how many connections, and by how many dispatchers or workers.
Scene = namedtuple("Scene", "size style connections dispatchers")
# Of a run: requests, and the seconds of processor time that they took in the program and in the kernel.
Cost = namedtuple("Cost", "requests user kernel rate wrong")


def free_port():
    with socket.socket() as door:
        door.bind((ADDRESS, 0))
        return door.getsockname()[1]


def family(pid):
    """The process and all below it."""
    found = [pid]
    for task in Path(f"/proc/{pid}/task").iterdir():
        for child in (task / "children").read_text().split():
            found += family(int(child))
    return found


def ticks(pid):
    """The processor time of a process and of those below it, in the program and in the kernel, in seconds."""
    user = kernel = 0
    for member in family(pid):
        fields = Path(f"/proc/{member}/stat").read_text().rpartition(")")[2].split()
        user += int(fields[11])
        kernel += int(fields[12])
    return user / TICK, kernel / TICK


def resident(pid):
    """Bytes of resident memory of a process and of those below it."""
    return sum(int(Path(f"/proc/{member}/statm").read_text().split()[1]) * PAGE for member in family(pid))


class Running:
    """A server that listens, by its name, its port and its process."""

    def __init__(self, name, port, words, before=()):
        self.name, self.port = name, port
        # In a group of its own, since lighttpd with workers ends all of its group.
        self.run = subprocess.Popen(
            [*before, *map(str, words)], stdin=subprocess.DEVNULL, stdout=subprocess.DEVNULL, stderr=subprocess.DEVNULL, start_new_session=True
        )
        self.pid = self.run.pid
        end = time.monotonic() + 60
        while time.monotonic() < end and self.run.poll() is None:
            with contextlib.suppress(OSError):
                socket.create_connection((ADDRESS, port), 1).close()
                return
            time.sleep(0.02)
        raise RuntimeError(f"{name} doesn't listen: {words}")

    def stop(self):
        if self.run.poll() is None:
            self.run.send_signal(signal.SIGTERM)
        try:
            self.run.wait(timeout=20)
        except subprocess.TimeoutExpired:
            self.run.kill()
            self.run.wait(timeout=20)


class Bench:
    def __init__(self, program, folder, seconds, rounds):
        self.program, self.folder, self.seconds, self.rounds = program, Path(folder), seconds, rounds
        self.root = self.folder / "root"
        self.root.mkdir(mode=0o755)
        for size in SIZES.values():
            path = self.root / f"{size}.txt"
            path.write_bytes(bytes(97 + k % 26 for k in range(size)))
            path.chmod(0o644)
        (self.folder / "pipelined.lua").write_text(PIPELINED)
        self.peer = self.folder / "peer"
        if shutil.which("gcc"):
            subprocess.run(["gcc", "-O2", "-o", self.peer, HERE / "peer.c"], check=True)

    def ours(self, dispatchers, connections=ENDLESS, seconds=60, before=()):
        port = free_port()
        return Running("warp_serve", port, [self.program, "serve", self.root, ADDRESS, port, dispatchers, connections, seconds], before)

    def nginx(self, workers):
        port = free_port()
        path = self.folder / f"nginx.{port}.conf"
        path.write_text(NGINX.format(folder=self.folder, root=self.root, workers=workers, address=ADDRESS, port=port))
        return Running("nginx", port, ["nginx", "-p", self.folder, "-c", path])

    def lighttpd(self, workers):
        port = free_port()
        path = self.folder / f"lighttpd.{port}.conf"
        path.write_text(LIGHTTPD.format(folder=self.folder, root=self.root, workers=workers if workers > 1 else 0, address=ADDRESS, port=port))
        return Running("lighttpd", port, ["lighttpd", "-D", "-f", path])

    def bare(self, kind, scene):
        """One of the C programs, which takes each so many bytes for a request."""
        port = free_port()
        size = SIZES[scene.size]
        text = f"GET /{size}.txt HTTP/1.1\r\nHost: {ADDRESS}:{port}\r\n"
        text += "Connection: close\r\n" if scene.style == "closing" else ""
        return Running(kind, port, [self.peer, kind, port, len(text + "\r\n"), self.root / f"{size}.txt", 0 if scene.style == "closing" else 1])

    def servers(self, scene):
        made = [self.ours(scene.dispatchers)]
        if shutil.which("nginx"):
            made.append(self.nginx(scene.dispatchers))
        if shutil.which("lighttpd"):
            made.append(self.lighttpd(scene.dispatchers))
        if self.peer.exists() and scene.dispatchers == 1:
            made.append(self.bare("floor" if SIZES[scene.size] <= 1_000 else "pieces", scene))
        return made

    def load(self, server, scene, seconds):
        """What the requests of some seconds cost a server."""
        words = ["wrk", "-t", min(2, scene.connections), "-c", scene.connections, "-d", f"{seconds}s", "--timeout", "20s"]
        if scene.style == "pipelined":
            words += ["-s", self.folder / "pipelined.lua"]
        if scene.style == "closing":
            words += ["-H", "Connection: close"]
        words.append(f"http://{ADDRESS}:{server.port}/{SIZES[scene.size]}.txt")
        before = ticks(server.pid)
        done = subprocess.run(list(map(str, words)), stdout=subprocess.PIPE, stderr=subprocess.STDOUT, text=True, timeout=seconds + 90)
        # What it still has to do for links that wrk left counts too.
        time.sleep(0.05)
        after = ticks(server.pid)
        asked = re.search(r"(\d+) requests in ([\d.]+)(ms|s)", done.stdout)
        if not asked or int(asked.group(1)) == 0:
            raise RuntimeError(f"wrk and {server.name}, {scene}: {done.stdout}")
        requests = int(asked.group(1))
        rate = float(re.search(r"Requests/sec:\s+([\d.]+)", done.stdout).group(1))
        wrong = re.search(r"Non-2xx.*: (\d+)", done.stdout)
        return Cost(requests, after[0] - before[0], after[1] - before[1], rate, int(wrong.group(1)) if wrong else 0)

    def measure(self, scene):
        """The medians of the rounds, by the server's name: microseconds of a request, those in the program, and requests a second."""
        # Of many connections the making costs something too, and counts for less in a longer run.
        seconds = self.seconds if scene.connections <= 64 else max(3, 2 * self.seconds)
        servers = self.servers(scene)
        costs = {server.name: [] for server in servers}
        try:
            for server in servers:
                with contextlib.suppress(RuntimeError):
                    self.load(server, scene, 1)
            for _ in range(self.rounds):
                for server in servers:
                    costs[server.name].append(self.load(server, scene, seconds))
        finally:
            for server in servers:
                server.stop()
        found = {}
        for name, some in costs.items():
            each = [1e6 * (cost.user + cost.kernel) / cost.requests for cost in some]
            user = [1e6 * cost.user / cost.requests for cost in some]
            found[name] = statistics.median(each), statistics.median(user), statistics.median(cost.rate for cost in some), sum(cost.wrong for cost in some)
        return found


def scenes(short):
    """What is measured, those that matter most first."""
    if short:
        return [
            Scene("3 B", "keep-alive", 64, 1), Scene("1 kB", "keep-alive", 64, 1), Scene("3 B", "pipelined", 64, 1),
            Scene("40 kB", "keep-alive", 64, 1), Scene("1 MB", "keep-alive", 64, 1), Scene("3 B", "closing", 64, 1),
            Scene("3 B", "keep-alive", 1000, 1), Scene("3 B", "keep-alive", 4000, 1), Scene("3 B", "keep-alive", 64, 4),
        ]
    every = [
        Scene(size, style, connections, 1)
        for style in ("keep-alive", "closing", "pipelined") for size in SIZES for connections in (1, 64, 1000, 4000)
        if not (style == "pipelined" and SIZES[size] > 1_000)
    ]
    return every + [Scene(size, "keep-alive", connections, dispatchers) for dispatchers in (2, 4) for size in ("3 B", "40 kB") for connections in (64, 1000)]


def table_of_scenes(bench, chosen):
    """Processor time of a request beside the others."""
    print("| file | style | connections | dispatchers | warp_serve, us | of it in the program | nginx | lighttpd | to the better | bare C | to it |")
    print("|---|---|---|---|---|---|---|---|---|---|---|")
    base = {}
    for scene in chosen:
        try:
            found = bench.measure(scene)
        except (RuntimeError, subprocess.TimeoutExpired) as trouble:
            print(f"| {scene.size} | {scene.style} | {scene.connections} | {scene.dispatchers} | not measured: {str(trouble)[:200]!r} |", flush=True)
            continue
        ours, user, _, wrong = found["warp_serve"]
        peers = {name: found[name][0] for name in ("nginx", "lighttpd") if name in found}
        bare = next((found[name][0] for name in ("floor", "pieces") if name in found), None)
        cells = [scene.size, scene.style, scene.connections, scene.dispatchers, f"{ours:.2f}", f"{user:.2f}"]
        cells += [f"{peers[name]:.2f}" if name in peers else "" for name in ("nginx", "lighttpd")]
        cells += [f"{ours / min(peers.values()):.2f}" if peers else "", f"{bare:.2f}" if bare else "", f"{ours / bare:.2f}" if bare else ""]
        if wrong:
            cells[-1] += f" ({wrong} answers weren't 200)"
        print("| " + " | ".join(map(str, cells)) + " |", flush=True)
        base[scene] = ours
    for scene, ours in base.items():
        few = base.get(scene._replace(connections=64))
        if few and scene.connections > 64:
            print(f"\n{scene.size}, {scene.style}, {scene.dispatchers} dispatchers, {scene.connections} connections: {ours / few:.2f} of what it is at 64")


def shares(bench):
    """How evenly four dispatchers share the work, and what they answer beside one."""
    rates = {}
    for dispatchers in (1, 2, 4):
        server = bench.ours(dispatchers)
        try:
            scene = Scene("3 B", "keep-alive", 256, dispatchers)
            bench.load(server, scene, 1)
            before = {task.name: sum(map(int, (task / "stat").read_text().rpartition(")")[2].split()[11:13])) for task in Path(f"/proc/{server.pid}/task").iterdir()}
            cost = bench.load(server, scene, max(3, bench.seconds))
            after = {task.name: sum(map(int, (task / "stat").read_text().rpartition(")")[2].split()[11:13])) for task in Path(f"/proc/{server.pid}/task").iterdir()}
        finally:
            server.stop()
        took = [after[name] - before.get(name, 0) for name in after]
        parts = sorted((100 * part / sum(took) for part in took if part), reverse=True)
        rates[dispatchers] = cost.rate
        print(f"{dispatchers} dispatchers: {cost.rate:,.0f} requests a second ({cost.rate / rates[1]:.2f} of one), "
              f"{1e6 * (cost.user + cost.kernel) / cost.requests:.2f} us each, shares {' '.join(f'{part:.0f}' for part in parts)}")


def asked(server, requests, connections=8):
    """So many requests for 3 bytes, over connections that stay open."""
    words = ["h2load", "--h1", "-n", requests, "-c", connections, "-t", 1, f"http://{ADDRESS}:{server.port}/3.txt"]
    done = subprocess.run(list(map(str, words)), stdout=subprocess.PIPE, stderr=subprocess.STDOUT, text=True, timeout=300)
    if f"{requests} 2xx" not in done.stdout:
        raise RuntimeError(f"h2load: {done.stdout}")


def instructions(bench):
    """The program's own instructions for a request of 3 bytes, with all that its dispatcher does around it."""
    if not (shutil.which("valgrind") and shutil.which("h2load")):
        print("instructions: valgrind or h2load is missing")
        return
    counts = []
    for requests in (800, 7_200):
        out = bench.folder / f"callgrind.{requests}"
        server = bench.ours(1, 40, before=["valgrind", "--tool=callgrind", f"--callgrind-out-file={out}"])
        try:
            asked(server, requests)
            end = time.monotonic() + 60
            while server.run.poll() is None and time.monotonic() < end:
                with contextlib.suppress(OSError):
                    socket.create_connection((ADDRESS, server.port), 1).close()
            if server.run.poll() != 0:
                raise RuntimeError(f"the counted run ended with {server.run.poll()}")
        finally:
            server.stop()
        text = out.read_text()
        counts.append(int(re.search(r"^(?:summary|totals): (\d+)", text, re.MULTILINE).group(1)))
    print(f"instructions of a request of 3 bytes, in the program: {(counts[1] - counts[0]) / 6_400:,.0f}")
    if shutil.which("callgrind_annotate"):
        listed = subprocess.run(["callgrind_annotate", bench.folder / "callgrind.7200"], stdout=subprocess.PIPE, stderr=subprocess.DEVNULL, text=True, timeout=60)
        lines = [line for line in listed.stdout.splitlines() if re.match(r"\s*[\d,]+ \(", line)]
        for line in lines[:25]:
            print("    " + line[:150])


def memory(bench):
    """Resident memory of 1,000 connections."""
    for name, make in (("warp_serve", lambda: bench.ours(1)), ("nginx", lambda: bench.nginx(1)), ("lighttpd", lambda: bench.lighttpd(1))):
        if name != "warp_serve" and not shutil.which(name):
            continue
        figures = []
        for text in (b"", b"GET /3.txt HTTP/1.1\r\nHost: a\r\n\r\n"):
            server = make()
            try:
                with socket.create_connection((ADDRESS, server.port), 10) as first:
                    first.sendall(b"GET /3.txt HTTP/1.1\r\nHost: a\r\n\r\n")
                    first.recv(4096)
                time.sleep(0.2)
                before, links = resident(server.pid), []
                for _ in range(1_000):
                    link = socket.create_connection((ADDRESS, server.port), 10)
                    if text:
                        link.sendall(text)
                        link.recv(4096)
                    links.append(link)
                time.sleep(0.5)
                figures.append((resident(server.pid) - before) / 1_000)
                for link in links:
                    link.close()
            finally:
                server.stop()
        print(f"memory of a connection, {name}: {figures[0]:,.0f} bytes where it said nothing, {figures[1]:,.0f} where it asked once; {before:,} in all without any")


def calls(bench):
    """System calls of a request of 3 bytes and of one of 40 kB."""
    if not (shutil.which("strace") and shutil.which("h2load")):
        print("calls: strace or h2load is missing")
        return
    for file in (3, 40_000):
        server, out, count = bench.ours(1), bench.folder / f"strace.{file}", 5_000
        try:
            tracer = subprocess.Popen(["strace", "-f", "-c", "-o", out, "-p", str(server.pid)], stdout=subprocess.DEVNULL, stderr=subprocess.PIPE)
            time.sleep(1)
            words = ["h2load", "--h1", "-n", count, "-c", 64, "-t", 1, f"http://{ADDRESS}:{server.port}/{file}.txt"]
            subprocess.run(list(map(str, words)), stdout=subprocess.DEVNULL, stderr=subprocess.STDOUT, timeout=120)
            tracer.send_signal(signal.SIGINT)
            tracer.wait(timeout=30)
        finally:
            server.stop()
        each = []
        for line in out.read_text().splitlines():
            fields = line.split()
            if len(fields) >= 5 and re.fullmatch(r"[\d.]+", fields[0]) and fields[-1] != "total" and int(fields[3]) / count >= 0.005:
                each.append(f"{fields[-1]} {int(fields[3]) / count:.2f}")
        print(f"system calls of a request of {file:,} bytes, 64 connections: {', '.join(each)}")


def run_seconds(pid):
    """The processor time of all threads of a process, as the scheduler counts it, in seconds."""
    return sum(int((task / "schedstat").read_text().split()[0]) for task in Path(f"/proc/{pid}/task").iterdir()) / 1e9


def idle(bench):
    """The share of a processor that dispatchers take with nothing to do."""
    for dispatchers in (1, 4):
        server = bench.ours(dispatchers)
        try:
            time.sleep(1)
            began, before = time.monotonic(), run_seconds(server.pid)
            time.sleep(8)
            took = (run_seconds(server.pid) - before) / (time.monotonic() - began)
        finally:
            server.stop()
        print(f"idle, {dispatchers} dispatchers: {100 * took / dispatchers:.2f}% of a processor each")


PARTS = {"shares": shares, "memory": memory, "calls": calls, "idle": idle, "instructions": instructions}


def main():
    parser = argparse.ArgumentParser()
    parser.add_argument("--short", action="store_true")
    parser.add_argument("--only", default="")
    parser.add_argument("--rounds", type=int)
    parser.add_argument("--seconds", type=int)
    parser.add_argument("program", nargs="?", default=BUILT)
    given = parser.parse_args()
    resource.setrlimit(resource.RLIMIT_NOFILE, (min(16384, resource.getrlimit(resource.RLIMIT_NOFILE)[1]),) * 2)
    if not shutil.which("wrk"):
        sys.exit("wrk is missing: apt-get install wrk nginx lighttpd gcc nghttp2-client valgrind strace")
    # Whoever ends the script ends its servers with it.
    signal.signal(signal.SIGTERM, lambda *_: sys.exit("ended"))
    began = time.monotonic()
    with tempfile.TemporaryDirectory() as folder:
        os.chmod(folder, 0o755)
        bench = Bench(given.program, folder, given.seconds or (1 if given.short else 2), given.rounds or (3 if given.short else 5))
        chosen = [scene for scene in scenes(given.short) if re.search(given.only, " ".join(map(str, scene)))]
        if chosen:
            table_of_scenes(bench, chosen)
            print()
        for name, part in PARTS.items():
            if re.search(given.only, name):
                try:
                    part(bench)
                except (RuntimeError, OSError, subprocess.SubprocessError) as trouble:
                    print(f"{name}: not measured: {trouble!r}")
                sys.stdout.flush()
    print(f"load of the machine: {os.getloadavg()[0]:.1f} on {os.cpu_count()} processors; {time.monotonic() - began:.0f} s")


main()
