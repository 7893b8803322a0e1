"""Runs `warp_serve serve ROOT ADDR PORT DISPATCHERS CONNECTIONS SECONDS` over real sockets, and talks to it by real clients.

    serve.py [-v] PROGRAM [NAME..]     all checks, or those named; -v prints the name of each and its seconds

Every run ends by itself: whatever of its connections a check leaves over is used up by links that are closed at once, and then
it must print `connections N` and end with 0. All traffic is on 127.0.0.1, and every wait has an end.
"""
import contextlib
import http.client
import os
import re
import resource
import select
import shutil
import signal
import socket
import ssl
import struct
import subprocess
import sys
import threading
import time
from pathlib import Path

from checks import (
    EXAMPLES,
    TYPES,
    USAGE,
    NotRun,
    checks_in,
    get,
    main,
    pattern,
    peak_memory,
    read_answers,
    request,
    tool,
)

OPERATIONS = EXAMPLES / "operations"
HERE = "127.0.0.1"
# An address of a documentation net, that no machine has.
ELSEWHERE = "203.0.113.1"
WAIT = 30
# Links that the server holds at once, beside its listener. One more is closed unanswered.
HELD = 4095
# Descriptors that the checks want for their own side of so many links.
SPARE = 150
REQUESTS = 1000
BODY = 1_048_576
OK, NOT_FOUND, MOVED, TOO_LARGE = 200, 404, 301, 413
# For wrk: sixteen requests behind each other.
PIPELINED = """
local all
init = function(args)
  local each = {}
  for k = 1, 16 do each[k] = wrk.format("GET") end
  all = table.concat(each)
end
request = function() return all end
"""


def free_port():
    """A port at which nobody listens now."""
    with socket.socket() as door:
        door.bind((HERE, 0))
        return door.getsockname()[1]


def connect(port, timeout=WAIT):
    return socket.create_connection((HERE, port), timeout=timeout)


def read_to_end(link):
    """What comes until the peer ends, and whether it ended in order."""
    out = bytearray()
    try:
        while piece := link.recv(1 << 16):
            out += piece
    except ConnectionResetError:
        return bytes(out), False
    return bytes(out), True


class Stream:
    """A connection from which answers are read one by one."""

    def __init__(self, port, timeout=WAIT):
        self.link = connect(port, timeout)
        self.link.setsockopt(socket.IPPROTO_TCP, socket.TCP_NODELAY, 1)
        self.bytes = self.link.makefile("rb")

    def __enter__(self):
        return self

    def __exit__(self, *_):
        self.bytes.close()
        self.link.close()

    def send(self, text):
        self.link.sendall(text)

    def answer(self, method="GET"):
        """The status, the fields and the content of the next answer; status 0 where the peer ended."""
        line = self.bytes.readline()
        if not line:
            return 0, {}, b""
        fields = {}
        while (field := self.bytes.readline().strip()):
            name, _, value = field.partition(b":")
            fields[name.decode().lower()] = value.strip().decode()
        length = 0 if method == "HEAD" else int(fields.get("content-length", "0"))
        return int(line.split()[1]), fields, self.bytes.read(length)

    def ask(self, target, method="GET", more=""):
        """One request and its answer."""
        self.send(request(method, target, more))
        return self.answer(method)


def start(program, words, descriptors=None):
    """A run of the program, which may have so many descriptors."""
    limited = [] if descriptors is None else ["sh", "-c", f'ulimit -n {descriptors}; exec "$@"', "sh"]
    pipes = {"stdin": subprocess.DEVNULL, "stdout": subprocess.PIPE, "stderr": subprocess.PIPE}
    return subprocess.Popen([*limited, program.path, *map(str, words)], **pipes, **program.lowered())


class Server:
    """A run of `serve` that listens at a port that was free."""

    def __init__(self, program, root, connections, seconds=30, dispatchers=2, descriptors=None):
        self.connections = connections
        for _ in range(5):
            self.port = free_port()
            words = ["serve", root, HERE, self.port, dispatchers, connections, seconds]
            self.run = start(program, words, descriptors)
            said = threading.Timer(WAIT, self.run.kill)
            said.start()
            line = self.run.stdout.readline()
            said.cancel()
            if line == b"listening\n":
                self.base = f"http://{HERE}:{self.port}"
                return
            self.run.wait(timeout=WAIT)
        raise RuntimeError(f"the server doesn't listen: {line!r}, {self.run.stderr.read()!r}")

    def __enter__(self):
        return self

    def __exit__(self, *_):
        """Whatever happened, the run is over behind this."""
        if self.run.poll() is None:
            self.run.kill()
            self.run.wait(timeout=WAIT)
        self.run.stdout.close()
        self.run.stderr.close()

    def descriptors(self):
        return len(os.listdir(f"/proc/{self.run.pid}/fd"))

    def processor_seconds(self):
        """The processor time that it took until now."""
        ticks = Path(f"/proc/{self.run.pid}/stat").read_text().rpartition(")")[2].split()[11:13]
        return sum(map(int, ticks)) / os.sysconf("SC_CLK_TCK")

    def use_up(self):
        """Opens and closes links until the run ends."""
        end = time.monotonic() + WAIT
        while self.run.poll() is None and time.monotonic() < end:
            with contextlib.suppress(OSError):
                connect(self.port, 0.5).close()

    def finish(self, checks, what):
        """The run comes to its end, by the links that are still to come."""
        self.use_up()
        got = self.run.poll(), self.run.stdout.read() if self.run.poll() is not None else b"", b""
        if got[0] is not None:
            got = got[0], got[1], self.run.stderr.read()
        checks.equal(f"{what}: its end", got, (0, f"connections {self.connections}\n".encode(), b""))


class Beside:
    """A client that gets one file again and again on links of its own, and keeps how long each answer took."""

    # It goes on until it has asked as often, however soon what it stands beside is over.
    LEAST = 4

    def __init__(self, server, target, content):
        self.server, self.target, self.content = server, target, content
        self.seconds, self.wrong = [], []
        self.over = threading.Event()
        self.thread = threading.Thread(target=self.go, daemon=True)

    def go(self):
        while not self.over.is_set():
            began = time.monotonic()
            try:
                with Stream(self.server.port) as stream:
                    status, _, content = stream.ask(self.target, more="Connection: close\r\n")
                if (status, content) != (OK, self.content):
                    self.wrong.append(status)
            except OSError as error:
                self.wrong.append(error)
            self.seconds.append(time.monotonic() - began)
            time.sleep(0.05)

    def __enter__(self):
        self.thread.start()
        return self

    def __exit__(self, *_):
        self.stop()

    def stop(self):
        end = time.monotonic() + WAIT
        while len(self.seconds) < self.LEAST and time.monotonic() < end:
            time.sleep(0.05)
        self.over.set()
        self.thread.join(timeout=2 * WAIT)

    def check(self, checks, what, slowest=10):
        checks.equal(f"{what}: the client beside it is answered", (len(self.seconds) >= self.LEAST, self.wrong), (True, []))
        checks.equal(f"{what}: it waits {slowest} seconds at most", max(self.seconds, default=0) < slowest, True)


def begun(words, **more):
    """A client's run that has begun, with one pipe for all that it says."""
    pipes = {"stdin": subprocess.DEVNULL, "stdout": subprocess.PIPE, "stderr": subprocess.STDOUT}
    return subprocess.Popen([str(word) for word in words], **pipes, **more)


def said(words, timeout=60):
    """The status and the text of a client's run, which is ended where it takes too long."""
    run = begun(words)
    try:
        out, _ = run.communicate(timeout=timeout)
    except subprocess.TimeoutExpired:
        run.kill()
        run.communicate()
        raise
    return run.returncode, out.decode(errors="replace")


def number(pattern_, text):
    """The first number that stands so in a text; None where there is none."""
    found = re.search(pattern_, text)
    return int(found.group(1)) if found else None


def check_words(checks, program, site):
    """Each word out of its range is refused, with the usage line."""
    usual = [str(site.top), HERE, "8080", "2", "10", "30"]
    wrong = [(0, ""), (1, ""), (1, "127.0.0"), (1, "127.0.0.1.1"), (1, "127.0.0.256"), (1, "localhost"), (1, "::1"), (1, "127.0..1")]
    wrong += [(2, "0"), (2, "65536"), (2, "80a"), (2, ""), (2, "+80"), (3, "0"), (3, "65"), (4, "0"), (4, "4294967296")]
    wrong += [(5, "0"), (5, "86401"), (5, "-1"), (5, "1.5"), (5, "00000000030")]
    for place, word in wrong:
        words = [word if k == place else other for k, other in enumerate(usual)]
        checks.equal(f"serve {words}", program.run(["serve", *words]), (2, b"", USAGE + "\n"))
    for words in (usual[:-1], usual + ["1"], []):
        checks.equal(f"serve {words}", program.run(["serve", *words]), (2, b"", USAGE + "\n"))
    # The greatest and the least that may be said. The root isn't there, so none of them serves.
    for words in (["65535", "64", "4294967295", "86400"], ["1", "1", "1", "1"], ["0000000080", "01", "007", "00030"]):
        got = program.run(["serve", str(site.folder / "missing"), "0.0.0.0", *words])
        checks.equal(f"serve {words}, no root", got, (7, b"", "no such folder\n"))


def check_statuses(checks, program, site):
    """What keeps it from serving has a status and a line, the root before the port and the port before the output."""
    with socket.socket() as taken:
        taken.bind((HERE, 0))
        taken.listen()
        port = str(taken.getsockname()[1])
        rest = ["2", "10", "30"]
        for what, root, address, at, want in (
            ("a port that is taken", site.top, HERE, port, (12, b"", "cannot listen\n")),
            ("an address that isn't here", site.top, ELSEWHERE, "8080", (12, b"", "cannot listen\n")),
            ("a missing root and a taken port", site.folder / "missing", HERE, port, (7, b"", "no such folder\n")),
            ("a root that is a file", site.top / "a.txt", HERE, port, (7, b"", "no such folder\n")),
        ):
            checks.equal(what, program.run(["serve", str(root), address, at, *rest]), want)
    words = ["serve", str(site.top), HERE, str(free_port()), "2", "10", "30"]
    checks.equal("a full standard output", program.run_full(words), (11, ""))
    checks.equal("a closed standard output", program.run_closed(words), (11, ""))
    with Server(program, site.top, 3) as server:
        server.finish(checks, "a port that can be had again")
        words[3] = str(server.port)
        again = program.start(words)
        checks.equal("the same port, at once", again.stdout.readline(), b"listening\n")
        again.kill()
        again.communicate(timeout=WAIT)


def check_files(checks, program, site):
    """http.client gets each file, byte for byte, over one connection that stays open."""
    for dispatchers in (1, 2, 64):
        with Server(program, site.top, 1, dispatchers=dispatchers) as server:
            client = http.client.HTTPConnection(HERE, server.port, timeout=WAIT)
            for method in ("GET", "HEAD"):
                for name, content in site.files.items():
                    client.request(method, "/" + name)
                    answer = client.getresponse()
                    got = answer.status, answer.getheader("Content-Type"), answer.getheader("Content-Length"), answer.read()
                    want = OK, TYPES[Path(name).suffix], str(len(content)), content if method == "GET" else b""
                    checks.equal(f"{method} /{name}, {dispatchers} dispatchers", got, want)
            for method, target, status in (("GET", "/nope", NOT_FOUND), ("GET", "/sub", MOVED), ("DELETE", "/", 405), ("BREW", "/", 501)):
                client.request(method, target)
                answer = client.getresponse()
                checks.equal(f"{method} {target}", (answer.status, answer.read()), (status, b""))
            client.request("GET", "/sub?q=1")
            answer = client.getresponse()
            got = answer.status, answer.getheader("Location"), answer.read()
            checks.equal("a folder without its slash", got, (MOVED, "/sub/?q=1", b""))
            client.close()
            server.finish(checks, f"one connection, {dispatchers} dispatchers")


def check_pipelined(checks, program, site):
    """Requests that are sent in one piece are answered in order, up to the thousandth, which closes."""
    kinds = [("GET", "/" + name) for name in site.files] + [("HEAD", "/big.bin"), ("GET", "/nope"), ("GET", "/sub")]
    kinds = [kinds[k % len(kinds)] for k in range(REQUESTS)]
    text = b"".join(request(method, target) for method, target in kinds)
    with Server(program, site.top, 20) as server:
        with connect(server.port) as link:
            sender = threading.Thread(target=link.sendall, args=(text + get("/"),), daemon=True)
            sender.start()
            out, in_order = read_to_end(link)
            sender.join(timeout=WAIT)
        answers, left = read_answers(out, [method for method, _ in kinds])
        want = []
        for method, target in kinds:
            content = site.files.get(target[1:])
            status = OK if content is not None else {"/nope": NOT_FOUND, "/sub": MOVED}[target]
            want.append((status, content if content is not None and method == "GET" else b""))
        checks.equal("a thousand answers, in order", [(status, content) for status, _, _, content in answers], want)
        checks.equal("the thousandth closes", (out.count(b"\r\nConnection: close\r\n"), left, in_order), (1, b"", True))
        server.finish(checks, "pipelined")


def check_cut(checks, program, site):
    """Requests that come a byte at a time are answered as in one piece."""
    with Server(program, site.top, 5) as server:
        with Stream(server.port) as stream:
            for name in ("a.txt", "index.html"):
                for byte in get("/" + name):
                    stream.send(bytes([byte]))
                    time.sleep(0.002)
                status, _, content = stream.answer()
                checks.equal(f"/{name} in pieces of one byte", (status, content), (OK, site.files[name]))
        server.finish(checks, "in single bytes")


def check_bodies(checks, program, site):
    """A body that is taken is passed over; one that is too large is refused, and the client reads its answer whole."""
    large = 2 << 20
    chunk = b"%x\r\n" % (large // 2) + bytes(large // 2) + b"\r\n"
    with Server(program, site.top, 40, seconds=5) as server:
        for method, size, status in (("POST", BODY, 405), ("POST", 0, 405), ("POST", BODY + 1, TOO_LARGE), ("PUT", large, TOO_LARGE)):
            client = http.client.HTTPConnection(HERE, server.port, timeout=WAIT)
            client.request(method, "/a.txt", body=bytes(size))
            answer = client.getresponse()
            checks.equal(f"{method} of {size} bytes", (answer.status, answer.read()), (status, b""))
            client.close()
        for what, head, body in (
            ("with a length", f"Content-Length: {large}\r\n", bytes(large)),
            ("in chunks", "Transfer-Encoding: chunked\r\n", chunk + chunk + b"0\r\n\r\n"),
            ("of 16 KiB of a length of 2 GB", "Content-Length: 2000000000\r\n", bytes(16384)),
        ):
            for ends in (False, True):
                with connect(server.port) as link:
                    link.sendall(request("POST", "/a.txt", head) + body)
                    if ends:
                        link.shutdown(socket.SHUT_WR)
                    out, in_order = read_to_end(link)
                    got = out[:12], out[-4:], in_order
                    checks.equal(f"a body {what}, all sent before anything is read", got, (b"HTTP/1.1 413", b"\r\n\r\n", True))
        with Stream(server.port) as stream:
            status, _, _ = stream.ask("/a.txt", "POST", "Content-Length: 5\r\nExpect: 100-continue\r\n")
            checks.equal("leave to send a body", status, 100)
            stream.send(b"hello")
            checks.equal("the answer behind it", stream.answer()[0], 405)
        server.finish(checks, "bodies")


def check_endless_body(checks, program, site):
    """Who goes on sending after a refusal is cut off, and nobody else waits for it."""
    endless = request("POST", "/a.txt", "Content-Length: 2000000000\r\n")
    with Server(program, site.top, 1500, seconds=2, dispatchers=1) as server, Beside(server, "/a.txt", site.files["a.txt"]) as beside:
        began = time.monotonic()
        with connect(server.port) as link:
            link.sendall(endless)
            sent, cut = 0, False
            while not cut and time.monotonic() - began < 15:
                try:
                    sent += link.send(bytes(1024))
                    time.sleep(0.01)
                except OSError:
                    cut = True
        checks.equal("a body that goes on slowly is cut off", cut, True)
        began = time.monotonic()
        with connect(server.port) as link:
            cut = False
            try:
                link.sendall(endless)
                while time.monotonic() - began < 15:
                    link.send(bytes(1 << 16))
            except OSError:
                cut = True
        checks.equal("a body that goes on fast is cut off", cut, True)
        beside.stop()
        beside.check(checks, "an endless body")
        server.finish(checks, "endless bodies")


def check_half_close(checks, program, site):
    """A client that ends its side behind its request is answered whole, and then the connection is over."""
    size = 20 << 20
    path = site.add("half.bin", pattern(0, size))
    with Server(program, site.top, 10) as server:
        for name, content in (("a.txt", site.files["a.txt"]), ("half.bin", pattern(0, size))):
            with connect(server.port) as link:
                link.sendall(get("/" + name))
                link.shutdown(socket.SHUT_WR)
                time.sleep(0.05)
                out, in_order = read_to_end(link)
                got = out[:15], out.partition(b"\r\n\r\n")[2] == content, in_order
                checks.equal(f"/{name} after a half-close", got, (b"HTTP/1.1 200 OK", True, True))
        with connect(server.port) as link:
            link.sendall(get("/a.txt")[:-4])
            link.shutdown(socket.SHUT_WR)
            checks.equal("a half-close in a head", read_to_end(link), (b"", True))
        server.finish(checks, "half-closed")
    path.unlink()


def reset(link):
    """Closes a socket so that its peer is told of a reset."""
    link.setsockopt(socket.SOL_SOCKET, socket.SO_LINGER, struct.pack("ii", 1, 0))
    link.close()


def check_gone(checks, program, site):
    """Clients that go away before, within and behind an answer cost nobody else anything."""
    size = 64 << 20
    path = site.add("gone.bin", pattern(0, size))
    with Server(program, site.top, 800, seconds=2) as server:
        with Stream(server.port) as stream:
            stream.ask("/a.txt")
        time.sleep(0.3)
        before = server.descriptors()
        with Beside(server, "/a.txt", site.files["a.txt"]) as beside:
            for k in range(40):
                link = connect(server.port)
                link.sendall(get("/gone.bin"))
                if k % 4 < 3:
                    link.recv(1 << (4 * (k % 4) + 8))
                reset(link) if k % 2 else link.close()
            for k in range(200):
                link = connect(server.port)
                if k % 2:
                    link.sendall(get("/a.txt")[: k % 40])
                reset(link)
            with Stream(server.port) as stream:
                status, _, content = stream.ask("/gone.bin")
                checks.equal("the same file, whole", (status, content == pattern(0, size)), (OK, True))
        beside.check(checks, "clients that go away")
        end = time.monotonic() + 3 * 2 + 6
        while server.descriptors() > before and time.monotonic() < end:
            time.sleep(0.1)
        checks.equal("descriptors behind it, at most as many as before", server.descriptors() <= before, True)
        server.finish(checks, "clients that go away")
    path.unlink()


def check_silent(checks, program, site):
    """A connection on which nothing happens is closed after SECONDS to twice SECONDS."""
    seconds = 2
    with Server(program, site.top, 200, seconds=seconds) as server:
        with Stream(server.port) as stream:
            stream.ask("/a.txt")
        links, began = {}, {}
        for what, text in (
            ("nothing", b""),
            ("half a head", get("/a.txt")[:20]),
            ("a whole request", get("/a.txt")),
            ("half a body", request("POST", "/", "Content-Length: 9\r\n") + b"1234"),
        ):
            for k in range(3):
                name = f"{what}, {k}"
                links[name] = connect(server.port)
                links[name].sendall(text)
                if text == get("/a.txt"):
                    links[name].recv(1 << 16)
                began[name] = time.monotonic()
                time.sleep(0.15)
        ended = {}

        def wait_for(name):
            read_to_end(links[name])
            ended[name] = time.monotonic() - began[name]

        threads = [threading.Thread(target=wait_for, args=(name,), daemon=True) for name in links]
        for thread in threads:
            thread.start()
        for thread in threads:
            thread.join(timeout=WAIT)
        for name in links:
            # The clock counts whole seconds, so up to one is lost on either side.
            took = ended.get(name, 99)
            within = seconds - 1 <= took <= 2 * seconds + 1
            checks.equal(f"{name}: closed after {took:.2f} s, of {seconds} to {2 * seconds}", within, True)
            links[name].close()
        with Stream(server.port) as stream:
            for _ in range(6):
                time.sleep(seconds / 4)
                checks.equal("one that goes on isn't closed", stream.ask("/a.txt")[0], OK)
        server.finish(checks, "silent connections")


def lift_descriptors(wanted):
    """Lets this process have so many descriptors, as far as it may; how many it may have."""
    soft, hard = resource.getrlimit(resource.RLIMIT_NOFILE)
    if soft < wanted:
        most = wanted if hard == resource.RLIM_INFINITY else min(wanted, hard)
        resource.setrlimit(resource.RLIMIT_NOFILE, (most, hard))
    return resource.getrlimit(resource.RLIMIT_NOFILE)[0]


def is_ended(link):
    """Whether the peer of a link has ended, by a look that takes nothing."""
    link.setblocking(False)
    try:
        return link.recv(1, socket.MSG_PEEK) == b""
    except BlockingIOError:
        return False
    except ConnectionError:
        return True
    finally:
        link.settimeout(WAIT)


def check_held(checks, program, site):
    """As many connections as there may be are held open; the next is turned away, and each of them is served."""
    wanted = HELD + SPARE
    may = lift_descriptors(wanted + 100)
    count = min(wanted, may - 100)
    with Server(program, site.top, count + 200, seconds=600) as server:
        links = []
        for k in range(count):
            links.append(connect(server.port))
            if k % 500 == 499:
                # The system's queue of connections that wait to be accepted is bounded.
                links[-1].sendall(get("/a.txt"))
                links[-1].recv(1 << 16) if not is_ended(links[-1]) else b""
        time.sleep(0.5)
        turned = [k for k, link in enumerate(links) if is_ended(link)]
        held = [link for link in links if not is_ended(link)]
        if count == wanted:
            checks.equal("so many are held open, and so many turned away", (len(held), len(turned)), (HELD, SPARE))
            checks.equal("those that came first are held", turned and turned[0], HELD)
        else:
            checks.equal(f"{len(held)} held open", len(turned), 0)
        wrong = 0
        for link in held:
            with contextlib.suppress(OSError):
                link.sendall(get("/index.html"))
        for link in held:
            out = b""
            with contextlib.suppress(OSError):
                while not out.endswith(b"\r\n\r\nhi\n") and (piece := link.recv(4096)):
                    out += piece
            wrong += not out.endswith(b"\r\n\r\nhi\n")
        checks.equal(f"of {len(held)} held ones, so many aren't served", wrong, 0)
        for link in links:
            link.close()
        end, status = time.monotonic() + WAIT, 0
        while status != OK and time.monotonic() < end:
            with contextlib.suppress(OSError), Stream(server.port) as stream:
                status = stream.ask("/index.html")[0]
            time.sleep(0.05)
        checks.equal("one more, once they are gone", status, OK)
        server.finish(checks, "held connections")
    if count < wanted:
        raise NotRun(f"{may} descriptors are too few to fill the server, {count} were held")


def check_few_descriptors(checks, program, site):
    """Where the process may have few descriptors, those who are connected are served, some are turned away, and others come later."""
    most, crowd = 60, []
    with Server(program, site.top, 400, descriptors=most) as server:
        with Stream(server.port) as first, Stream(server.port) as second:
            for stream in (first, second):
                checks.equal("a connection", stream.ask("/a.txt")[::2], (OK, site.files["a.txt"]))
            for _ in range(2 * most):
                crowd.append(connect(server.port))
            time.sleep(0.5)
            turned = sum(map(is_ended, crowd))
            checks.equal("some are held and some turned away", 0 < turned < len(crowd), True)
            for _ in range(20):
                checks.equal("a file that is open, with no descriptor left", first.ask("/a.txt")[::2], (OK, site.files["a.txt"]))
            # A file that can't be opened is a fault, which ends this connection and no other.
            with contextlib.suppress(ConnectionError):
                status, _, content = second.ask("/big.bin")
                fine = (status, content) in ((OK, site.files["big.bin"]), (0, b""))
                checks.equal("a file that isn't open, with no descriptor left", fine, True)
            for link in crowd:
                link.close()
            time.sleep(0.5)
            checks.equal("the first one, afterwards", first.ask("/index.html")[::2], (OK, b"hi\n"))
        with Stream(server.port) as stream:
            checks.equal("another one, afterwards", stream.ask("/big.bin")[::2], (OK, site.files["big.bin"]))
        server.finish(checks, "few descriptors")


def check_replaced(checks, program, site):
    """A file that is replaced, taken away or new is seen within SECONDS, also under load."""
    seconds = 1
    path = site.add("news.txt", b"old\n")
    with Server(program, site.top, 50, seconds=seconds) as server:
        for what, change, target, want in (
            ("a file that is there", lambda: None, "/news.txt", (OK, b"old\n")),
            ("a file that isn't there", lambda: None, "/later.txt", (NOT_FOUND, b"")),
            ("a file that is replaced", lambda: new.rename(path), "/news.txt", (OK, b"new one\n")),
            ("a file that is taken away", path.unlink, "/news.txt", (NOT_FOUND, b"")),
            ("a file that is new", lambda: new.rename(site.top / "later.txt"), "/later.txt", (OK, b"new one\n")),
        ):
            new = site.add("new.txt", b"new one\n")
            change()
            began, seen = time.monotonic(), False
            # A connection answers a thousand requests, so a change is waited for on several.
            while not seen and time.monotonic() - began < seconds + 2:
                with Stream(server.port) as stream:
                    for _ in range(200):
                        seen = stream.ask(target)[::2] == want
                        if seen:
                            break
                        time.sleep(0.002)
            checks.equal(f"{what} is seen within {seconds + 2} seconds", seen, True)
        server.finish(checks, "a folder that changes")


def check_stopped(checks, program, site):
    """A server that the system stops for a while goes on where it was."""
    with Server(program, site.top, 30, seconds=30) as server:
        with Stream(server.port) as before:
            before.ask("/a.txt")
            server.run.send_signal(signal.SIGSTOP)
            time.sleep(0.1)
            links = [Stream(server.port) for _ in range(10)]
            for link in (before, *links):
                link.send(get("/index.html"))
            answered, _, _ = select.select([stream.link for stream in (before, *links)], [], [], 0.3)
            checks.equal("nobody is answered while it is stopped", answered, [])
            server.run.send_signal(signal.SIGCONT)
            for link in (before, *links):
                checks.equal("each is answered afterwards", link.answer()[::2], (OK, b"hi\n"))
            for link in links:
                link.__exit__()
        server.finish(checks, "stopped and continued")


def check_large_file(checks, program, site):
    """Large files go to several clients at once, one of them slow, from a server that never holds much of them."""
    size = 256 << 20
    path = site.add_large("large.bin", size, b"hello")
    results = []
    with Server(program, site.top, 8, seconds=30) as server:

        def fetch(pause):
            with Stream(server.port, 60) as stream:
                stream.send(get("/large.bin"))
                taken, last = 0, b""
                head = stream.bytes.readline()
                while stream.bytes.readline().strip():
                    pass
                while taken < size and (piece := stream.bytes.read(min(1 << 20, size - taken))):
                    taken, last = taken + len(piece), piece
                    time.sleep(pause)
                results.append((head, taken, last[-5:]))

        threads = [threading.Thread(target=fetch, args=(pause,), daemon=True) for pause in (0, 0, 0.005)]
        for thread in threads:
            thread.start()
        for thread in threads:
            thread.join(timeout=90)
        checks.equal("three clients of a large file", results, [(b"HTTP/1.1 200 OK\r\n", size, b"hello")] * 3)
        peak = peak_memory(server.run)
        checks.equal(f"memory for it, {peak} KiB", peak < 64 * 1024, True)
        server.finish(checks, "a large file")
    path.unlink()


def check_curl(checks, program, site):
    """curl keeps a connection, asks for heads, follows a redirection, and sends requests behind each other."""
    curl = tool("curl")
    usual = ["-s", "--noproxy", "*", "-m", WAIT]
    nothing = ["-o", "/dev/null", "-w"]
    body = site.folder / "body"
    body.write_bytes(bytes(2_000_000))
    with Server(program, site.top, 7) as server:
        a, at_a = site.files["a.txt"].decode(), server.base + "/a.txt"
        at_nope, at_sub = [*nothing, "%{http_code} ", server.base + "/nope"], server.base + "/sub/"
        for what, words, want in (
            ("two files on one connection", ["-w", "%{num_connects} ", at_a, server.base + "/index.html"], a + "1 hi\n0 "),
            ("HEAD", ["-I", *nothing, "%{http_code} %{size_download}", server.base + "/big.bin"], "200 0"),
            ("a folder without its slash", ["-L", "-w", "%{http_code} %{num_redirects}", server.base + "/sub"], "sub\n200 1"),
            ("several by --next", [at_a, "--next", *usual, "-I", *at_nope, "--next", *usual, at_sub], a + "404 sub\n"),
            ("a body that is too large", ["-H", "Expect:", "--data-binary", f"@{body}", "-w", "%{http_code}", at_a], "413"),
            ("HTTP/1.0", ["-0", at_a], a),
        ):
            checks.equal(f"curl: {what}", said([curl, *usual, *words]), (0, want))
        server.finish(checks, "curl")


def check_wrk(checks, program, site):
    """wrk keeps many connections busy, with one request at a time, with many behind each other, and with a close behind each."""
    wrk = tool("wrk")
    script = site.folder / "pipelined.lua"
    script.write_text(PIPELINED)
    for what, words in (("keep-alive", []), ("pipelined", ["-s", script]), ("closing", ["-H", "Connection: close"])):
        with Server(program, site.top, 200_000) as server:
            status, text = said([wrk, "-t", 2, "-c", 100, "-d", "1", *words, server.base + "/a.txt"])
            asked = number(r"(\d+) requests in", text)
            checks.equal(f"wrk, {what}: {text}", (status, asked is not None and asked > 100), (0, True))
            # What was sent behind the last request that a connection answers counts as errors of reading and writing.
            wrong = re.search(r"Non-2xx.*|connect [1-9]\d*|timeout [1-9]\d*", text)
            checks.equal(f"wrk, {what}: errors", wrong and wrong.group(0), None)


def check_ab(checks, program, site):
    """ab gets as many answers as it asks for, each of the same length."""
    ab = tool("ab")
    count = 3_000
    with Server(program, site.top, count + 300) as server:
        for words in ([], ["-k"]):
            status, text = said([ab, "-q", "-n", count, "-c", 50, *words, server.base + "/a.txt"])
            got = [number(rf"{name}:\s+(\d+)", text) for name in ("Complete requests", "Failed requests", "Non-2xx responses")]
            checks.equal(f"ab {words}: {text if got[0] is None else ''}", (status, *got), (0, count, 0, None))
        server.finish(checks, "ab")


def check_h2load(checks, program, site):
    """h2load in its mode of HTTP/1.1 gets each answer."""
    h2load = tool("h2load")
    count = 10_000
    with Server(program, site.top, 200) as server:
        status, text = said([h2load, "--h1", "-n", count, "-c", 50, "-t", 2, server.base + "/a.txt"])
        got = number(r"(\d+) succeeded", text), number(r"(\d+) failed", text), number(r"status codes: (\d+) 2xx", text)
        checks.equal(f"h2load: {text if got[0] is None else ''}", (status, *got), (0, count, 0, count))
        server.finish(checks, "h2load")


class Proxy:
    """HAProxy with the file of examples/operations, at ports and with a certificate of its own."""

    def __init__(self, folder, behind):
        self.port = free_port()
        self.certificate = folder / "certificate.pem"
        self.key = folder / "key.pem"
        asked = "req -x509 -newkey rsa:2048 -nodes -days 2 -subj /CN=localhost -addext subjectAltName=DNS:localhost,IP:127.0.0.1"
        made = said([tool("openssl"), *asked.split(), "-keyout", self.key, "-out", self.certificate])
        if made[0]:
            raise NotRun(f"openssl makes no certificate: {made[1]}")
        both = folder / "both.pem"
        both.write_bytes(self.certificate.read_bytes() + self.key.read_bytes())
        text = (OPERATIONS / "haproxy.cfg").read_text()
        self.changed = []
        for old, new in (
            ("*:443", f"{HERE}:{self.port}"),
            ("*:80", f"{HERE}:{free_port()}"),
            ("127.0.0.1:8080", f"{HERE}:{behind}"),
            ("/etc/haproxy/warp_serve.pem", str(both)),
            ("    user haproxy\n    group haproxy\n", ""),
        ):
            self.changed.append((old, text.count(old)))
            text = text.replace(old, new)
        self.file = folder / "haproxy.cfg"
        self.file.write_text(text)

    def start(self):
        self.run = begun([tool("haproxy"), "-db", "-f", self.file])
        end = time.monotonic() + WAIT
        while time.monotonic() < end and self.run.poll() is None:
            with contextlib.suppress(OSError):
                connect(self.port, 1).close()
                return self
            time.sleep(0.05)
        raise RuntimeError(f"haproxy doesn't listen: {self.run.poll()}")

    def stop(self):
        self.run.terminate()
        try:
            return self.run.communicate(timeout=WAIT)[0]
        except subprocess.TimeoutExpired:
            self.run.kill()
            return self.run.communicate(timeout=WAIT)[0]


def check_haproxy(checks, program, site):
    """HAProxy ends TLS before it, by the file of examples/operations: Python's client checks its certificate and gets each file."""
    tool("haproxy")
    folder = site.folder / "proxy"
    folder.mkdir()
    with Server(program, site.top, 500) as server:
        proxy = Proxy(folder, server.port)
        checks.equal("each line of haproxy.cfg that is changed stands there once", [old for old, count in proxy.changed if count != 1], [])
        checks.equal("haproxy takes the file", said([tool("haproxy"), "-c", "-f", proxy.file])[0], 0)
        proxy.start()
        try:
            context = ssl.create_default_context(cafile=str(proxy.certificate))
            client = http.client.HTTPSConnection("localhost", proxy.port, timeout=WAIT, context=context)
            for _ in range(3):
                for name, content in site.files.items():
                    client.request("GET", "/" + name)
                    answer = client.getresponse()
                    checks.equal(f"https /{name}", (answer.status, answer.read()), (OK, content))
            client.request("POST", "/a.txt", body=bytes(2_000_000))
            checks.equal("a body that is too large, by TLS", client.getresponse().status, TOO_LARGE)
            client.close()
            if shutil.which("h2load"):
                status, text = said(["h2load", "-n", 5000, "-c", 20, "-m", 10, f"https://localhost:{proxy.port}/a.txt"])
                got = number(r"(\d+) succeeded", text), number(r"status codes: (\d+) 2xx", text)
                checks.equal(f"h2load of HTTP/2 before it: {text if got[0] is None else ''}", (status, *got), (0, 5000, 5000))
        finally:
            proxy.stop()
        server.finish(checks, "haproxy")


def check_unit(checks, program, site):
    """The systemd unit is one that systemd takes, and what it starts is a server."""
    text = (OPERATIONS / "warp_serve.service").read_text()
    given = dict(pair.split("=") for pair in re.search(r"^Environment=(.*)", text, re.MULTILINE).group(1).split())
    words = re.search(r"^ExecStart=(.*)", text, re.MULTILINE).group(1).split()
    checks.equal("the program of the unit", words[:2], ["/usr/local/bin/warp_serve", "serve"])
    given.update(ROOT=str(site.top), PORT=str(free_port()), CONNECTIONS="1")
    words = [given[word.strip("${}")] if word.startswith("$") else word for word in words[1:]]
    run = start(program, words)
    try:
        checks.equal("the unit's words", run.stdout.readline(), b"listening\n")
        with Stream(int(given["PORT"])) as stream:
            checks.equal("a file of it", stream.ask("/index.html")[::2], (OK, b"hi\n"))
        checks.equal("its end", (run.wait(timeout=WAIT), run.stdout.read(), run.stderr.read()), (0, b"connections 1\n", b""))
    finally:
        run.kill()
        run.communicate(timeout=WAIT)
    unit = site.folder / "warp_serve.service"
    unit.write_text(text.replace("/usr/local/bin/warp_serve", str(program.path)))
    checks.equal("systemd-analyze verify", said([tool("systemd-analyze"), "verify", unit]), (0, ""))


def check_slowhttptest(checks, program, site):
    """Slow heads, slow bodies, ranges without end and slow readers hold nobody else up."""
    slow = tool("slowhttptest")
    path = site.add("slow.bin", pattern(0, 1 << 20))
    usual = ["-c", 300, "-r", 300, "-l", 5, "-i", 1, "-p", 3, "-v", 1]
    modes = (
        ("heads", ["-H", "-x", 24]),
        ("bodies", ["-B", "-s", 65536, "-x", 10]),
        ("ranges", ["-R", "-a", 5, "-b", 500]),
        ("readers", ["-X", "-w", 64, "-y", 256, "-n", 1, "-z", 16, "-k", 3]),
    )
    with Server(program, site.top, 20_000, seconds=2) as server:
        with Beside(server, "/a.txt", site.files["a.txt"]) as beside:
            runs = []
            for _, words in modes:
                runs.append(begun([slow, *usual, *words, "-u", server.base + "/slow.bin"], cwd=site.folder))
            for (what, _), run in zip(modes, runs):
                try:
                    out, _ = run.communicate(timeout=WAIT)
                except subprocess.TimeoutExpired:
                    run.kill()
                    out, _ = run.communicate(timeout=WAIT)
                down = re.search(rb"service available:.*NO", out)
                got = run.returncode, down and down.group(0)
                checks.equal(f"slowhttptest of {what} ends, and finds the service there", got, (0, None))
        beside.check(checks, "slow clients")
        checks.equal("the server is still there", server.run.poll(), None)
    path.unlink()


def check_chromium(checks, program, site):
    """A browser shows the site of the repository, with its script run and its pictures."""
    browser = next((path for name in ("chromium", "chromium-browser", "google-chrome") if (path := shutil.which(name))), None)
    if browser is None:
        raise NotRun("chromium is missing")
    top = site.examples()
    title = re.search(r"<title>(.*?)</title>", (top / "index.html").read_text()).group(1)
    shot = site.folder / "shot.png"
    usual = "--headless --no-sandbox --disable-gpu --no-first-run --disable-background-networking --virtual-time-budget=3000"
    usual = [browser, *usual.split(), f"--user-data-dir={site.folder / 'browser'}"]
    with Server(program, top, 500) as server:
        status, text = said([*usual, "--dump-dom", server.base + "/"], timeout=60)
        shown = re.search(r"<title>(.*?)</title>", text)
        checks.equal(f"the title in a browser{'' if shown else ': ' + text}", (status, shown and shown.group(1)), (0, title))
        status, text = said([*usual, f"--screenshot={shot}", "--window-size=900,700", server.base + "/"], timeout=60)
        picture = shot.read_bytes() if shot.exists() else b""
        checks.equal(f"a screenshot: {text}", (status, picture[:8], len(picture) > 5000), (0, b"\x89PNG\r\n\x1a\n", True))
        server.finish(checks, "a browser")


if __name__ == "__main__":
    sys.exit(main("serve", checks_in(globals()), sys.argv[1:]))
