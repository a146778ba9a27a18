"""A small 9P2000 client over a program's standard streams or a socket, for the checks, the model and the benches."""

import os
import socket
import struct
import subprocess

NO_FID = 0xFFFFFFFF
NO_TAG = 0xFFFF
DIRECTORY = 0x80
KINDS = {"version": 100, "auth": 102, "attach": 104, "flush": 108, "walk": 110, "open": 112, "create": 114, "read": 116, "write": 118, "clunk": 120}
KINDS |= {"remove": 122, "stat": 124, "wstat": 126}  # the types of requests (intro(5)); a reply's is one more
ERROR = 107


class Refused(Exception):
    """An Rerror, with its text."""


def string(data):
    return struct.pack("<H", len(data)) + data


def message(kind, body=b"", tag=1):
    """A request of a kind, with its fields' bytes."""
    return struct.pack("<IBH", 7 + len(body), KINDS[kind], tag) + body


def times_in(reply, is_list):
    """Where a reply has the two times (8 bytes) of each of its stats: of an Rstat, or of an Rread that lists a directory."""
    at = {KINDS["stat"] + 1: 9, KINDS["read"] + 1: 11 if is_list else len(reply)}.get(reply[4], len(reply))
    while at + 41 <= len(reply):
        yield at + 25
        at += 2 + struct.unpack_from("<H", reply, at)[0]


def without_times(reply, is_list):
    """A reply with zeros in place of its stats' times."""
    blank = bytearray(reply)
    for at in times_in(reply, is_list):
        blank[at : at + 8] = bytes(8)
    return bytes(blank)


class Stat:
    """A stat of 9P2000 (stat(5)), cut off the front of bytes."""

    def __init__(self, data):
        (size,) = struct.unpack_from("<H", data)
        self.whole = data[: size + 2]
        self.qid_kind, self.version, self.number = struct.unpack_from("<BIQ", data, 8)
        self.mode, self.accessed, self.modified, self.length = struct.unpack_from("<IIIQ", data, 21)
        (count,) = struct.unpack_from("<H", data, 41)
        self.name = data[43 : 43 + count]


def stats(data):
    """The stats that bytes consist of."""
    while data:
        stat = Stat(data)
        yield stat
        data = data[len(stat.whole) :]


class Session:
    """One session with a program that serves over its standard streams, after the line of its secret."""

    def __init__(self, words, secret, size=65560):
        self.program = subprocess.Popen(words, stdin=subprocess.PIPE, stdout=subprocess.PIPE)
        self.program.stdin.write(secret + b"\n")
        self.begin(self.program.stdin, self.program.stdout, size)

    def begin(self, sink, source, size):
        self.sink, self.source, self.next = sink, source, 1
        reply = self.ask("version", struct.pack("<I", size) + string(b"9P2000"), NO_TAG)
        (self.size,) = struct.unpack_from("<I", reply)
        self.ask("attach", struct.pack("<II", 0, NO_FID) + string(b"u") + string(b""))

    def ask(self, kind, body, tag=1):
        self.sink.write(message(kind, body, tag))
        self.sink.flush()
        (size,) = struct.unpack("<I", self.take(4))
        reply = self.take(size - 4)
        if reply[0] == ERROR:
            raise Refused(reply[5:].decode())
        if reply[0] != KINDS[kind] + 1:
            raise SystemExit(f"a T{kind} was answered by a message of type {reply[0]}")
        return reply[3:]

    def take(self, count):
        data = self.source.read(count)
        if len(data) < count:
            raise SystemExit("the program's replies end within a message")
        return data

    def walk(self, names):
        """A new fid for the node at a path from the root, or what refused it."""
        fid, self.next = self.next, self.next + 1
        start = 0
        while True:
            some = names[:16]
            body = struct.pack("<IIH", start, fid, len(some)) + b"".join(map(string, some))
            (count,) = struct.unpack_from("<H", self.ask("walk", body))
            if count < len(some):
                raise Refused("not walked whole")
            names = names[16:]
            if not names:
                return fid
            start = fid

    def open(self, fid, mode=0):
        return self.ask("open", struct.pack("<IB", fid, mode))

    def read(self, fid, at, count):
        return self.ask("read", struct.pack("<IQI", fid, at, count))[4:]

    def read_all(self, fid, count=None):
        """All bytes of an open file or directory, in pieces of at most so many."""
        count = count or self.size - 24
        data = []
        at = 0
        while piece := self.read(fid, at, count):
            data.append(piece)
            at += len(piece)
        return b"".join(data)

    def stat(self, fid):
        return Stat(self.ask("stat", struct.pack("<I", fid))[2:])

    def clunk(self, fid):
        self.ask("clunk", struct.pack("<I", fid))

    def create(self, fid, name, is_dir=False, mode=1):
        """Makes a file or a directory in the one of a fid, which then is the new node's and open."""
        permissions = 0x800001ED if is_dir else 0x1A4
        return self.ask("create", struct.pack("<I", fid) + string(name) + struct.pack("<IB", permissions, 0 if is_dir else mode))

    def write(self, fid, at, data):
        """How many bytes were written."""
        return struct.unpack("<I", self.ask("write", struct.pack("<IQI", fid, at, len(data)) + data))[0]

    def remove(self, fid):
        self.ask("remove", struct.pack("<I", fid))

    def change(self, fid, name=b"", length=2**64 - 1, modified=2**32 - 1):
        """A wstat (stat(5)) that leaves untouched what isn't given."""
        stat = b"\xff" * 27 + struct.pack("<IQ", modified, length) + string(name) + string(b"") * 3
        self.ask("wstat", struct.pack("<IHH", fid, len(stat) + 2, len(stat)) + stat)

    def tree(self, names=()):
        """What a client sees below a directory: the bytes of each file and link, None of a directory, by paths."""
        fid, found = self.walk(list(names)), {}
        self.open(fid)
        for stat in stats(self.read_all(fid)):
            path = [*names, stat.name]
            if stat.qid_kind == DIRECTORY:
                found[b"/" + b"/".join(path)] = None
                found.update(self.tree(path))
            else:
                one = self.walk(path)
                self.open(one)
                found[b"/" + b"/".join(path)] = self.read_all(one)
                self.clunk(one)
        self.clunk(fid)
        return found

    def end(self):
        """Ends the input, and gives the program's status."""
        self.program.stdin.close()
        rest = self.program.stdout.read()
        if rest:
            raise SystemExit("bytes after the last reply")
        return self.program.wait()


class SocketSession(Session):
    """One session over a connected socket."""

    def __init__(self, link, size=65560):
        self.link = link
        self.begin(link.makefile("wb"), link.makefile("rb"), size)

    def end(self):
        """Ends the conversation; the server has to end it too."""
        self.link.shutdown(socket.SHUT_WR)
        rest = self.source.read()
        self.link.close()
        if rest:
            raise SystemExit("bytes after the last reply")


def free_port():
    """A port that nobody listens at now."""
    with socket.socket() as probe:
        probe.bind(("127.0.0.1", 0))
        return probe.getsockname()[1]


class Served:
    """A program that serves a vault at `unix:PATH` or `127.0.0.1:PORT`, and is ready for clients."""

    def __init__(self, program, vault, secret, address, sessions, at_once, raw=True, prefix=()):
        words = [*prefix, program, "serve", vault, "--listen", address, "--sessions", str(sessions), "--at-once", str(at_once)]
        self.address = address
        self.program = subprocess.Popen(words + ["--raw-key"] * raw, stdin=subprocess.PIPE, stdout=subprocess.PIPE)
        self.program.stdin.write(secret + b"\n")
        self.program.stdin.close()
        first = self.program.stdout.readline()
        if first != b"serving\n":
            raise SystemExit(f"the program doesn't serve at {address}: {first!r}")

    def connect(self):
        if self.address.startswith("unix:"):
            link = socket.socket(socket.AF_UNIX)
            link.connect(self.address[len("unix:") :])
        else:
            host, _, port = self.address.rpartition(":")
            link = socket.create_connection((host, int(port)))
            link.setsockopt(socket.IPPROTO_TCP, socket.TCP_NODELAY, 1)
        return link

    def descriptors(self):
        return len(os.listdir(f"/proc/{self.program.pid}/fd"))

    def resident(self):
        """KiB of resident memory."""
        with open(f"/proc/{self.program.pid}/status", encoding="ascii") as file:
            return int(next(line for line in file if line.startswith("VmRSS")).split()[1])

    def end(self, seconds=60):
        """The status and the last line, once all sessions are done."""
        status = self.program.wait(seconds)
        return status, self.program.stdout.read().decode()
