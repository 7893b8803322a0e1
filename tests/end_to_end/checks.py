"""What the checks of every command share: the program, the folder that it serves, requests and answers, and how a script of
checks is run.
"""
import http.client
import io
import os
import re
import shutil
import subprocess
import tempfile
import time
from pathlib import Path

USAGE = (
    "usage: warp_serve connection ROOT | serve ROOT ADDR PORT DISPATCHERS CONNECTIONS SECONDS"
    " | drive SEED CONNECTIONS REQUESTS DISPATCHERS"
)
TYPES = {
    ".html": "text/html; charset=utf-8",
    ".txt": "text/plain; charset=utf-8",
    ".css": "text/css; charset=utf-8",
    ".js": "text/javascript; charset=utf-8",
    ".json": "application/json",
    ".svg": "image/svg+xml",
    ".png": "image/png",
    ".bin": "application/octet-stream",
}
EXAMPLES = Path(__file__).resolve().parent.parent.parent / "examples"
SITE = EXAMPLES / "site"
DATE = re.compile(rb"\r\nDate: (Mon|Tue|Wed|Thu|Fri|Sat|Sun), \d\d [A-Z][a-z][a-z] \d{4} \d\d:\d\d:\d\d GMT\r\n")
NOBODY = 65534


class Program:
    """The program in a folder of its own, that an unprivileged user can reach."""

    def __init__(self, built, folder):
        self.path = Path(folder) / "warp_serve"
        shutil.copy(built, self.path)
        self.path.chmod(0o755)

    def lowered(self):
        """What makes a run one of nobody, where this is root."""
        return {"user": NOBODY, "group": NOBODY, "extra_groups": []} if os.geteuid() == 0 else {}

    def start(self, words, **streams):
        """A run whose pipes stay in the caller's hands."""
        for name in ("stdin", "stdout", "stderr"):
            streams.setdefault(name, subprocess.PIPE)
        return subprocess.Popen([self.path, *words], **streams, **self.lowered())

    def run(self, words, text=b"", timeout=60, **streams):
        """The status, the bytes written and the error text of a run, as nobody where this is root."""
        given = {} if "stdin" in streams else {"input": text}
        streams.setdefault("stdout", subprocess.PIPE)
        done = subprocess.run(
            [self.path, *words], stderr=subprocess.PIPE, timeout=timeout, **self.lowered(), **given, **streams
        )
        return done.returncode, done.stdout, done.stderr.decode()

    def run_closed(self, words, text=b""):
        """The status and the error text of a run whose standard output nobody reads."""
        reader, writer = os.pipe()
        os.close(reader)
        status, _, error = self.run(words, text, stdout=writer)
        os.close(writer)
        return status, error

    def run_full(self, words):
        """The status and the error text of a run whose standard output has no room."""
        with open("/dev/full", "wb") as full:
            status, _, error = self.run(words, stdout=full)
        return status, error


def lay(path, content):
    """Writes a file that everybody may read."""
    path.write_bytes(content)
    path.chmod(0o644)
    return path


def make_readable(top):
    """Lets everybody read a folder and all below it."""
    for path in [top, *top.rglob("*")]:
        path.chmod(0o755 if path.is_dir() else 0o644)


def make_folder(top):
    """A folder of its own, with files of each kind, one that may not be read, and one below."""
    files = {
        "index.html": b"hi\n",
        "a.txt": bytes(97 + k % 26 for k in range(1000)),
        "big.bin": bytes(k % 251 for k in range(40000)),
        "empty.txt": b"",
        "sub/index.html": b"sub\n",
    }
    for name, content in files.items():
        (top / name).parent.mkdir(exist_ok=True)
        (top / name).write_bytes(content)
    make_readable(top)
    (top / "secret.txt").write_bytes(b"not for everybody\n")
    (top / "secret.txt").chmod(0)
    return files


class Site:
    """The folders that the checks serve."""

    def __init__(self, folder):
        self.folder = Path(folder)
        self.top = self.folder / "root"
        self.files = make_folder(self.top)
        self.root = ["connection", str(self.top)]

    def add(self, name, content):
        """Puts a file more into the folder. Who adds it takes it away."""
        return lay(self.top / name, content)

    def add_large(self, name, size, last):
        """Puts a file of so many bytes into the folder: none but the last ones take room."""
        path = self.add(name, b"")
        with open(path, "r+b") as file:
            file.truncate(size)
            file.seek(size - len(last))
            file.write(last)
        return path

    def examples(self):
        """A copy of the site of the repository, that everybody may read."""
        top = self.folder / "site"
        if not top.exists():
            shutil.copytree(SITE, top)
            make_readable(top)
        return top


def pattern(start, size):
    """Bytes of a file whose byte k is k mod 251."""
    cycle = bytes(range(251))
    shift = start % 251
    return (cycle[shift:] + cycle * (size // 251 + 1))[:size]


def request(method, target, more=""):
    return f"{method} {target} HTTP/1.1\r\nHost: a\r\n{more}\r\n".encode()


def get(target, more=""):
    return request("GET", target, more)


def answer_of(content, kind, connection=""):
    """The one answer with a file, with the Date left as it is cut out of what was written."""
    head = f"HTTP/1.1 200 OK\r\nServer: warp-profile\r\nContent-Type: {kind}\r\nContent-Length: {len(content)}\r\n"
    return (head + connection + "\r\n").encode() + content


class Kept(io.BytesIO):
    """Bytes that `http.client` reads answers from as if they came from a socket."""

    def makefile(self, *_):
        return self

    def close(self):
        """Several answers are read from the same bytes."""


def read_answers(out, methods):
    """The status, type, length and content of each answer, as Python's own client reads them, and what it left unread."""
    stream, answers = Kept(out), []
    for method in methods:
        answer = http.client.HTTPResponse(stream, method=method)
        answer.begin()
        content = answer.read()
        answers.append((answer.status, answer.getheader("Content-Type"), answer.getheader("Content-Length"), content))
    return answers, stream.read()


def peak_memory(process):
    """The most memory that a running process has held, in KiB."""
    text = Path(f"/proc/{process.pid}/status").read_text()
    return int(re.search(r"VmHWM:\s+(\d+) kB", text).group(1))


class NotRun(Exception):
    """A check that can't be run here, with the reason."""


def tool(name):
    """The tool's path, or the check isn't run."""
    path = shutil.which(name)
    if path is None:
        raise NotRun(f"{name} is missing")
    return path


class Checks:
    """How many comparisons passed and failed, and which checks weren't run."""

    def __init__(self):
        self.passed = self.failed = 0
        self.not_run = []

    def equal(self, what, got, want):
        if got == want:
            self.passed += 1
        else:
            self.failed += 1
            print(f"end to end: {what}: got {str(got)[:400]}, not {str(want)[:400]}")

    def carry_out(self, name, check, program, site):
        """Carries out one check. Whatever keeps it from its end is a failure."""
        try:
            check(self, program, site)
        except NotRun as reason:
            self.not_run.append(f"{name} ({reason})")
        except (subprocess.TimeoutExpired, OSError, RuntimeError, http.client.HTTPException) as trouble:
            self.equal(f"{name}: it comes to its end", repr(trouble), "no trouble")


def checks_in(names):
    """The checks of a script by their names: its functions that begin with `check_`."""
    return {name.removeprefix("check_"): value for name, value in names.items() if name.startswith("check_")}


def main(command, named, words):
    """Carries out the checks of a command that the words name, or all of them. The status is 1 where one failed."""
    loud = "-v" in words
    built, *names = [word for word in words if word != "-v"]
    unknown = [name for name in names if name not in named]
    if unknown:
        print(f"end to end: no check of {command} is named {unknown[0]}; there are {', '.join(named)}")
        return 2
    checks = Checks()
    with tempfile.TemporaryDirectory() as folder:
        os.chmod(folder, 0o755)
        program, site = Program(built, folder), Site(folder)
        for name in names or named:
            began = time.monotonic()
            checks.carry_out(name, named[name], program, site)
            if loud:
                print(f"{name}: {time.monotonic() - began:.1f} s", flush=True)
    print(f"{command}: {checks.passed} passed, {checks.failed} failed")
    if checks.not_run:
        print(f"end to end: NOT RUN: {', '.join(checks.not_run)}")
    return 1 if checks.failed else 0
