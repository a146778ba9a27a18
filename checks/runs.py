"""Runs of the program for the checks: servers of a copied vault, what they report and say, how they end and what they leave.

A check is rows of a case and its words. A case is a function of a folder of its own and these words, and returns what is wrong.
"""

import contextlib
import os
import re
import shutil
import signal
import socket
import subprocess
import tempfile
import threading
from concurrent.futures import ThreadPoolExecutor
from typing import NamedTuple

from ninep import Refused, SocketSession

TOP = os.path.dirname(os.path.dirname(os.path.abspath(__file__)))
PROGRAM = os.path.abspath(os.environ.get("VAULTD", os.path.join(TOP, "crates", "vaultd", "out", "vaultd")))
SAMPLE = os.path.join(TOP, "sample", "v")
KEYS, HELD = b"0" * 128, {b"/a": b"hello"}  # by the sample vault
ROOT = "d/KG/6TFDGKXGZEGWRZOGTDFDF4YEGAZO6Q"  # the root's folder under keys of zeros
PATIENCE = 60  # seconds, after which a run is ended


class Run(NamedTuple):
    """The status of a run that came to its end, none of one that had to be ended; its standard output, and its standard error."""

    status: int
    out: bytes
    err: bytes = b""

    def plain(self):
        """Without what it said on standard error."""
        return self._replace(err=b"")


def counts(done=0, cut=0, read=0, write=0):
    """The report of a server whose sessions ended in these ways."""
    return b"sessions %d done %d cut %d bad 0 read %d write %d memory 0 limit 0\n" % (done + cut + read + write, done, cut, read, write)


def sample(place):
    """A copy of the sample vault, which never had a journal."""
    return shutil.copytree(SAMPLE, os.path.join(place, "v"))


def run(words, given=b"", seconds=PATIENCE, **how):
    """A whole run."""
    try:
        done = subprocess.run([PROGRAM, *words], input=given, capture_output=True, timeout=seconds, **how)
        return Run(done.returncode, done.stdout, done.stderr)
    except subprocess.TimeoutExpired as late:
        return Run(None, late.stdout or b"", late.stderr or b"")


def serving(vault, address, *more):
    """The words of a server under raw keys."""
    return ["serve", vault, "--listen", address, "--raw-key", *more]


class Server:
    """A run of a server, which is ended at the latest with its block, or once patience is at its end. What it says on standard error goes to a file, so that it
    never waits."""

    def __init__(self, words, given=KEYS + b"\n", prefix=(), patience=PATIENCE, **how):
        self.words, self.err = words, tempfile.TemporaryFile()
        self.program = subprocess.Popen([*prefix, PROGRAM, *words], stdin=subprocess.PIPE, stdout=subprocess.PIPE, **({"stderr": self.err} | how))
        self.timer = threading.Timer(patience, self.kill)
        self.timer.start()
        with contextlib.suppress(BrokenPipeError):
            self.program.stdin.write(given)
        with contextlib.suppress(BrokenPipeError):
            self.program.stdin.close()

    def __enter__(self):
        return self

    def __exit__(self, *_):
        self.timer.cancel()
        self.kill()
        self.program.wait()
        self.program.stdout.close()
        self.err.close()

    def kill(self):
        # (strace that is killed would let go on what it runs)
        with contextlib.suppress(OSError), open(f"/proc/{self.program.pid}/task/{self.program.pid}/children", encoding="ascii") as children:
            for child in children.read().split():
                os.kill(int(child), signal.SIGKILL)
        self.program.kill()

    def begin(self):
        """Waits until it serves."""
        first = self.program.stdout.readline()
        if first != b"serving\n":
            raise SystemExit(f"{self.words}: {first!r} in place of serving, status {self.program.wait()}, {self.told()!r}")
        return self

    def told(self):
        """What it has said so far."""
        return os.pread(self.err.fileno(), 1 << 20, 0)

    def connect(self):
        address = self.words[self.words.index("--listen") + 1]
        if address.startswith("unix:"):
            link = socket.socket(socket.AF_UNIX)
            link.connect(address[len("unix:") :])
        else:
            link = socket.create_connection(("127.0.0.1", self.port()))
        link.settimeout(PATIENCE)
        return link

    def port(self):
        """The port that it says it was given."""
        return int(re.search(rb"^listening at 127\.0\.0\.1:(\d+)$", self.told(), re.MULTILINE)[1])

    def session(self):
        return SocketSession(self.connect())

    def tree(self):
        """What one more client sees."""
        session = self.session()
        found = session.tree()
        session.end()
        return found

    def end(self):
        """How it comes to its end, from the first line on that wasn't read yet."""
        out = self.program.stdout.read()
        return Run(self.program.wait(), out, self.told())

    def refused(self):
        """What a start comes to that isn't to serve: if it does, it is ended at once."""
        first = self.program.stdout.readline()
        if first == b"serving\n":
            self.kill()
        found = self.end()
        return found._replace(out=first + found.out)

    def stop(self, number=signal.SIGTERM):
        self.program.send_signal(number)
        return self.end()


def refused(words, given=KEYS + b"\n", **how):
    with Server(words, given, **how) as server:
        return server.refused()


def state_of(top):
    """What is at each path of a folder: its kind, mode, number, length and times of change, and a file's bytes."""
    found = {}
    for folder, folders, files in os.walk(top):
        for name in [".", *folders, *files]:
            path = os.path.normpath(os.path.join(folder, name))
            stat = os.lstat(path)
            found[path] = [stat.st_mode, stat.st_ino, stat.st_nlink, stat.st_size, stat.st_mtime_ns, stat.st_ctime_ns]
        for name in files:
            path = os.path.join(folder, name)
            if os.path.isfile(path):
                with open(path, "rb") as file:
                    found[path].append(file.read())
    return found


def changed(top, before):
    """Where a folder isn't as it was."""
    now = state_of(top)
    return [f"not as it was: {os.path.relpath(path, top)}" for path in sorted({*now, *before}) if now.get(path) != before.get(path)]


def differs(what, found, wanted):
    return [] if found == wanted else [f"{what}: {found!r:.300} in place of {wanted!r:.300}"]


def lacks(what, text, *needles):
    """Which of these a text has not."""
    return [f"{what}: no {needle!r} in {text!r:.500}" for needle in needles if needle not in text]


def refusal(call, *words):
    """Why a request is refused, or none."""
    try:
        call(*words)
    except Refused as error:
        return str(error)
    return None


def tried(case, *words):
    """What is wrong in a row."""
    with tempfile.TemporaryDirectory() as place:
        try:
            wrong = case(os.path.realpath(place), *words)
        except (SystemExit, OSError, AssertionError, Refused, subprocess.SubprocessError) as error:
            wrong = [repr(error)]
    row = " ".join([case.__name__.replace("_", " "), *(str(word) for word in words if isinstance(word, (str, int)))])
    return [f"{row}: {what}" for what in wrong]


def checked(rows, at_once=1):
    """Tries the rows, so many at once, and returns the status."""
    # Where a shell had it ignored, as it has SIGINT in what it runs in the background, the program would ignore it too.
    signal.signal(signal.SIGINT, signal.default_int_handler)
    with ThreadPoolExecutor(at_once) as pool:
        wrong = [what for some in pool.map(lambda row: tried(*row), rows) for what in some]
    for what in wrong:
        print(what)
    print(f"{len(rows)} rows" + (f", {len(wrong)} wrong" if wrong else ""))
    return min(len(wrong), 1)
