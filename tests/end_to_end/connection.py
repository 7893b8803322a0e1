"""Runs `warp_serve connection ROOT` over pipes and sockets: what it writes, its status and its error line, on real folders.

    connection.py [-v] PROGRAM [NAME..]     all checks, or those named; -v prints the name of each
"""
import http.client
import os
import re
import select
import socket
import subprocess
import sys
import threading
import time
from pathlib import Path

from checks import (
    DATE,
    TYPES,
    USAGE,
    answer_of,
    checks_in,
    get,
    lay,
    main,
    pattern,
    peak_memory,
    read_answers,
    request,
    tool,
)


def compare_files(checks, program, top, files):
    """Each file of a folder comes byte for byte, with its type and length, under a Date."""
    for name, content in files.items():
        status, out, error = program.run(["connection", str(top)], get("/" + name))
        dates = len(DATE.findall(out))
        kind = TYPES[Path(name).suffix]
        checks.equal(f"GET /{name}", (status, dates, DATE.sub(b"\r\n", out, count=1), error), (0, 1, answer_of(content, kind), ""))


def check_files(checks, program, site):
    """Each file of a real folder comes byte for byte, with its type and length, under a Date."""
    compare_files(checks, program, site.top, site.files)


def check_site(checks, program, site):
    """The site of the repository is served whole, each file with its type."""
    top = site.examples()
    files = {str(p.relative_to(top)): p.read_bytes() for p in sorted(top.rglob("*")) if p.is_file()}
    compare_files(checks, program, top, files)
    text = b"".join(get("/" + name) for name in files)
    status, out, error = program.run(["connection", str(top)], text)
    want = b"".join(answer_of(content, TYPES[Path(name).suffix]) for name, content in files.items())
    checks.equal("the whole site on one connection", (status, DATE.sub(b"\r\n", out), error), (0, want, ""))


def check_paths(checks, program, site):
    """What is not in the folder is not found, whatever the path says."""
    lay(site.folder / "outside.txt", b"outside\n")
    for target in ("/nope", "/secret.txt", "/../outside.txt", "/%2e%2e/outside.txt", "/a%2Fb", "//a.txt", "/.x", "/a.txt/"):
        status, out, error = program.run(site.root, get(target))
        checks.equal(f"GET {target}", (status, out[:24], error), (0, b"HTTP/1.1 404 Not Found\r\n", ""))
    status, out, error = program.run(site.root, get("/sub?q=1"))
    checks.equal("GET /sub?q=1", (status, out[:32], b"\r\nLocation: /sub/?q=1\r\n" in out, error), (0, b"HTTP/1.1 301 Moved Permanently\r\n", True, ""))


def check_statuses(checks, program, site):
    """Each end of a connection has its status and its error line."""
    root = site.root
    whole = get("/", "Connection: close\r\n")
    for what, words, text, status, line in (
        ("no input", root, b"", 0, ""),
        ("a closing answer", root, whole, 0, ""),
        ("input cut in a head", root, b"GET /a HT", 1, "input cut short\n"),
        ("no words", [], whole, 2, USAGE + "\n"),
        ("no root", ["connection"], whole, 2, USAGE + "\n"),
        ("an empty root", ["connection", ""], whole, 2, USAGE + "\n"),
        ("one word too many", ["connection", "a", "b"], whole, 2, USAGE + "\n"),
        ("a misspelled command", ["conection", "a"], whole, 2, USAGE + "\n"),
        ("a word that is no text", ["connection", b"\xff"], whole, 2, USAGE + "\n"),
        ("a missing root", ["connection", str(site.folder / "missing")], whole, 7, "no such folder\n"),
        ("a root that is a file", ["connection", str(site.top / "a.txt")], whole, 7, "no such folder\n"),
        ("bytes that are no request", root, b"\0\r\n\r\n", 0, ""),
        ("a command that isn't there", ["server", str(site.top), "127.0.0.1", "8080", "2", "1", "30"], whole, 2, USAGE + "\n"),
    ):
        got = program.run(words, text)
        checks.equal(what, (got[0], got[2]), (status, line))


def check_faults(checks, program, site):
    """A fault of a stream ends the connection with that stream's status."""
    checks.equal("a closed standard output", program.run_closed(site.root, get("/")), (4, "write fault\n"))
    folder_in = os.open(site.folder, os.O_RDONLY)
    got = program.run(site.root, stdin=folder_in)
    os.close(folder_in)
    checks.equal("an input that is a folder", (got[0], got[1], got[2]), (3, b"", "read fault\n"))


def check_cutting(checks, program, site):
    """Requests that come a byte at a time are answered as in one piece: the first forty bytes each after a wait."""
    text = get("/") + get("/a.txt") + request("HEAD", "/a.txt")
    _, whole, _ = program.run(site.root, text)
    run = program.start(site.root)
    for k in range(len(text)):
        run.stdin.write(text[k : k + 1])
        run.stdin.flush()
        if k < 40:
            time.sleep(0.005)
    out, error = run.communicate(timeout=60)
    same = DATE.sub(b"\r\n", out) == DATE.sub(b"\r\n", whole)
    checks.equal("pieces of one byte", (run.returncode, len(out), same, error), (0, 140 + 1141 + 141, True, b""))


def post(fields, body=b""):
    return request("POST", "/a.txt", fields) + body


def status_lines(out):
    """The status line of each answer, in order."""
    return re.findall(rb"HTTP/1\.1 \d\d\d [A-Za-z ]+", out)


NOT_ALLOWED = b"HTTP/1.1 405 Method Not Allowed"
GO_ON = b"HTTP/1.1 100 Continue"


def check_bodies(checks, program, site):
    """Bodies are passed over, and the requests behind them are answered and none in them."""
    hidden = get("/big.bin")
    chunked = b"5;a=b\r\nhello\r\n" + b"%x\r\n" % len(hidden) + hidden + b"\r\n0\r\nT: 1\r\n\r\n"
    for what, text in (
        ("a body with a length", post("Content-Length: 5\r\n", b"hello")),
        ("a body that is a request", post(f"Content-Length: {len(hidden)}\r\n", hidden)),
        ("a body in chunks", post("Transfer-Encoding: chunked\r\n", chunked)),
        ("a body of 1 MiB", post("Content-Length: 1048576\r\n", b"G" * 1048576)),
    ):
        status, out, error = program.run(site.root, text + get("/"))
        checks.equal(what, (status, status_lines(out), out.endswith(b"\r\n\r\nhi\n"), error), (0, [NOT_ALLOWED, b"HTTP/1.1 200 OK"], True, ""))
    got = program.run(site.root, post("Content-Length: 5\r\n", b"hell"))
    checks.equal("a body cut short", got, (1, b"", "input cut short\n"))


def check_framings(checks, program, site):
    """What two servers may frame differently is refused and closes, and nothing behind it is answered."""
    for fields, body, line in (
        ("Content-Length: 5, 6\r\n", b"hello", b"HTTP/1.1 400 Bad Request"),
        ("Content-Length: 5\r\nContent-Length: 6\r\n", b"hello", b"HTTP/1.1 400 Bad Request"),
        ("Content-Length: +5\r\n", b"hello", b"HTTP/1.1 400 Bad Request"),
        ("Content-Length: 5\r\nTransfer-Encoding: chunked\r\n", b"0\r\n\r\n", b"HTTP/1.1 400 Bad Request"),
        ("Transfer-Encoding: chunked, gzip\r\n", b"0\r\n\r\n", b"HTTP/1.1 400 Bad Request"),
        ("Transfer-Encoding: chunked, chunked\r\n", b"0\r\n\r\n", b"HTTP/1.1 400 Bad Request"),
        ("Transfer-Encoding: gzip, chunked\r\n", b"0\r\n\r\n", b"HTTP/1.1 501 Not Implemented"),
        ("Transfer-Encoding: chunked\r\n", b"0x5\r\nhello\r\n0\r\n\r\n", b"HTTP/1.1 400 Bad Request"),
        ("Transfer-Encoding: chunked\r\n", b"5\nhello\r\n0\r\n\r\n", b"HTTP/1.1 400 Bad Request"),
        ("Transfer-Encoding: chunked\r\n", b"100001\r\n", b"HTTP/1.1 413 Content Too Large"),
        ("Content-Length: 1048577\r\n", b"", b"HTTP/1.1 413 Content Too Large"),
        ("Expect: a miracle\r\nContent-Length: 5\r\n", b"hello", b"HTTP/1.1 417 Expectation Failed"),
    ):
        status, out, error = program.run(site.root, post(fields, body) + get("/"))
        closes = b"\r\nConnection: close\r\n\r\n" in out
        checks.equal(fields.strip() + " and " + repr(body), (status, status_lines(out), closes, error), (0, [line], True, ""))


def check_interim(checks, program, site):
    """A client that waits for leave to send its body gets it before the body is sent."""
    run = program.start(site.root)
    run.stdin.write(post("Expect: 100-continue\r\nContent-Length: 5\r\n"))
    run.stdin.flush()
    ready, _, _ = select.select([run.stdout], [], [], 30)
    leave = run.stdout.read1(4096) if ready else b""
    checks.equal("leave to send the body", leave, GO_ON + b"\r\n\r\n")
    out, error = run.communicate(b"hello" + get("/"), timeout=60)
    checks.equal("the answers behind it", (run.returncode, status_lines(out), error), (0, [NOT_ALLOWED, b"HTTP/1.1 200 OK"], b""))


def check_http_client(checks, program, site):
    """Python's `http.client` reads each answer on one connection as it is meant, and nothing is left over."""
    kinds = [("GET", "/" + name) for name in site.files] + [("HEAD", "/" + name) for name in site.files]
    kinds += [("GET", "/nope"), ("GET", "/sub"), ("OPTIONS", "*"), ("DELETE", "/"), ("BREW", "/")]
    text = b"".join(request(method, target) for method, target in kinds)
    _, out, _ = program.run(site.root, text)
    want = []
    for method, target in kinds:
        content = site.files.get(target[1:])
        if content is not None:
            kind = TYPES[Path(target).suffix]
            want.append((200, kind, str(len(content)), content if method == "GET" else b""))
        else:
            status = {"/nope": 404, "/sub": 301, "*": 200, "/": 405 if method == "DELETE" else 501}[target]
            want.append((status, None, "0", b""))
    answers, left = read_answers(out, [method for method, _ in kinds])
    for (method, target), got, one in zip(kinds, answers, want):
        checks.equal(f"{method} {target}, read by http.client", got, one)
    checks.equal("what http.client left unread", left, b"")


class Door:
    """A listening socket that gives each connection to a run of its own, as inetd does."""

    def __init__(self, program, words):
        self.program, self.words = program, words
        self.listener = socket.create_server(("127.0.0.1", 0))
        self.port = self.listener.getsockname()[1]
        self.runs = []
        threading.Thread(target=self.serve, daemon=True).start()

    def serve(self):
        while True:
            try:
                link, _ = self.listener.accept()
            except OSError:
                return
            with link:
                self.runs.append(self.program.start(self.words, stdin=link, stdout=link, stderr=None))

    def close(self):
        """The statuses of the runs, once each has ended."""
        self.listener.close()
        return [run.wait(timeout=60) for run in self.runs]


def check_sockets(checks, program, site):
    """Over a socket Python's client keeps one connection for several requests, and closes it."""
    door = Door(program, site.root)
    client = http.client.HTTPConnection("127.0.0.1", door.port, timeout=60)
    for name, content in site.files.items():
        client.request("GET", "/" + name)
        answer = client.getresponse()
        checks.equal(f"GET /{name} over a socket", (answer.status, answer.read()), (200, content))
    client.request("POST", "/a.txt", body=b"hello", headers={"Expect": "100-continue"})
    answer = client.getresponse()
    checks.equal("POST over a socket", (answer.status, answer.getheader("Allow"), answer.read()), (405, "GET, HEAD, OPTIONS", b""))
    client.close()
    checks.equal("one connection for all of it", door.close(), [0])


def check_curl(checks, program, site):
    """curl gets a file, follows the redirection of a folder and waits for leave to send a body."""
    curl = tool("curl")
    door = Door(program, site.root)
    base = f"http://127.0.0.1:{door.port}"
    for what, words, want in (
        ("a file", ["/a.txt"], site.files["a.txt"] + b"200"),
        ("a folder without its slash", ["-L", "/sub"], site.files["sub/index.html"] + b"200"),
        ("HEAD", ["-I", "-o", "/dev/null", "/big.bin"], b"200"),
        ("a body after leave", ["-H", "Expect: 100-continue", "--data-binary", "x" * 4096, "/a.txt"], b"405"),
    ):
        url = base + words.pop()
        done = subprocess.run(
            [curl, "-s", "--noproxy", "*", "-m", "30", "-w", "%{http_code}", *words, url], stdout=subprocess.PIPE, timeout=60
        )
        checks.equal(f"curl: {what}", (done.returncode, done.stdout), (0, want))
    checks.equal("curl: the statuses of the runs", set(door.close()), {0})


def check_odd_entries(checks, program, site):
    """Links are followed, to a file and no further than they lead; what is no file is 404 at once."""
    top = site.folder / "odd"
    top.mkdir(mode=0o755)
    lay(top / "plain.txt", b"plain\n")
    (top / "to_file.txt").symlink_to("plain.txt")
    (top / "to_nowhere.txt").symlink_to("missing.txt")
    (top / "circle.txt").symlink_to("round.txt")
    (top / "round.txt").symlink_to("circle.txt")
    (top / "folder.txt").mkdir(mode=0o755)
    lay(top / "größe ß.txt", "süß\n".encode())
    os.mkfifo(top / "pipe.txt")
    (top / "pipe.txt").chmod(0o644)
    found, absent = b"HTTP/1.1 200 OK", b"HTTP/1.1 404 Not Found"
    for what, target, line, content in (
        ("a link to a file", "/to_file.txt", found, b"plain\n"),
        ("a link to nowhere", "/to_nowhere.txt", absent, b""),
        ("links in a circle", "/circle.txt", absent, b""),
        ("a folder with the name of a file", "/folder.txt", absent, b""),
        ("a name in UTF-8", "/gr%C3%B6%C3%9Fe%20%C3%9F.txt", found, "süß\n".encode()),
        ("a pipe", "/pipe.txt", absent, b""),
    ):
        began = time.monotonic()
        status, out, error = program.run(["connection", str(top)], get(target), timeout=20)
        head, _, got = out.partition(b"\r\n\r\n")
        checks.equal(what, (status, head.split(b"\r\n")[0], got, error), (0, line, content, ""))
        checks.equal(what + ", at once", time.monotonic() - began < 10, True)


def read_head(stream):
    """The head of an answer, from a pipe."""
    head = b""
    while not head.endswith(b"\r\n\r\n"):
        byte = stream.read(1)
        if not byte:
            break
        head += byte
    return head


def check_shrinking(checks, program, site):
    """A file that shrinks while it is served ends the connection as a fault of the folder, and no wrong byte is sent."""
    size, left = 64 << 20, 1 << 20
    path = site.add("shrinks.bin", pattern(0, size))
    run = program.start(site.root)
    run.stdin.write(get("/shrinks.bin") + get("/"))
    run.stdin.flush()
    head = read_head(run.stdout)
    got = run.stdout.read(100_000)
    os.truncate(path, left)
    # What the pipe's reader holds already is read by it alone, so `communicate` would leave it out.
    run.stdin.close()
    got += run.stdout.read()
    error = run.stderr.read()
    run.wait(timeout=60)
    path.unlink()
    checks.equal("the head of a file that shrinks", f"Content-Length: {size}\r\n".encode() in head, True)
    checks.equal("its bytes", (got == pattern(0, len(got)), 100_000 <= len(got) <= left), (True, True))
    checks.equal("its end", (run.returncode, error), (5, b"file fault\n"))


def check_large_file(checks, program, site):
    """A file of 3 GiB is served by a process that never holds 16 MiB."""
    size, piece = 3 << 30, 1 << 20
    path = site.add_large("large.bin", size, b"hello")
    run = program.start(site.root)
    run.stdin.write(get("/large.bin"))
    run.stdin.flush()
    head = read_head(run.stdout)
    zeros, taken, right = bytes(piece), 0, True
    while taken < size:
        got = run.stdout.read(min(piece, size - taken))
        if not got:
            break
        want = zeros[: len(got)] if taken + len(got) <= size - 5 else zeros[: len(got) - 5] + b"hello"
        right = right and got == want
        taken += len(got)
    memory = peak_memory(run)
    rest, error = run.communicate(timeout=60)
    path.unlink()
    checks.equal("the head of 3 GiB", f"Content-Length: {size}\r\n".encode() in head, True)
    checks.equal("3 GiB of content", (taken, right, rest, run.returncode, error), (size, True, b"", 0, b""))
    checks.equal(f"memory for 3 GiB, {memory} KiB", memory < 16 * 1024, True)


if __name__ == "__main__":
    sys.exit(main("connection", checks_in(globals()), sys.argv[1:]))
