"""A session of 9P2000 of one client over a tree: its messages in their order, each answered before the next."""

import struct
import time

from ninep import DIRECTORY, ERROR, NO_FID, Refused, stats, string

from .messages import NoMessage, read_message
from .tree import DIRECTORY_BIT, TRUNCATES, refuse_if

SMALLEST, LARGEST = 2048, 65560  # sizes of messages that are agreed on, in bytes
LEAST_FRAME = 7  # a size, a type and a tag
OVERHEAD = 24  # bytes of a message that carries a file's bytes beside them
MOST_FIDS = 1024
WRITES_ONLY, RUNS = 1, 3  # modes of an open (open(5)); the others are 0 for reading and 2 for both
GOOD_MODE = 3 | TRUNCATES
GOOD_PERMISSIONS = DIRECTORY_BIT | 0o777


class Fid:
    def __init__(self, qid):
        kind, _, self.node = struct.unpack("<BIQ", qid)
        self.is_directory = kind == DIRECTORY
        self.mode, self.offset, self.last_name = None, 0, None  # no mode before it is open; how far a directory is listed, by bytes and by name


class Session:
    """`ask` takes a request of the tree and a moment, and gives its answer or raises Refused; `clock` gives the moment."""

    def __init__(self, ask, clock=lambda: int(time.time())):
        self.ask, self.clock = ask, clock
        self.size, self.fids, self.rest = None, {}, b""  # the agreed size of messages; bytes that are no whole frame yet
        self.asked = None  # what the last message asked of the tree

    def feed(self, data):
        """The replies to the messages that these bytes complete, and how the session ended: ("bad", size) of a frame, ("cut", bytes of a frame, bytes
        that it would have had), ("done",), or None if it goes on. No bytes are the end of the input."""
        self.rest += data
        replies, wanted = b"", 4
        while len(self.rest) >= 4:
            (wanted,) = struct.unpack_from("<I", self.rest)
            if not LEAST_FRAME <= wanted <= (self.size or LARGEST):
                return replies, ("bad", wanted)
            if len(self.rest) < wanted:
                break
            frame, self.rest, wanted = self.rest[:wanted], self.rest[wanted:], 4
            replies += self.answer(frame)
        if data:
            return replies, None
        return replies, ("cut", len(self.rest), wanted) if self.rest else ("done",)

    def answer(self, frame):
        """The reply to a whole frame."""
        self.asked = None
        try:
            kind, body = frame[4] + 1, self.body(frame)
        except Refused as refused:
            kind, body = ERROR, string(str(refused).encode())
        return struct.pack("<IB", 7 + len(body), kind) + frame[5:7] + body

    def body(self, frame):
        try:
            kind, fields = read_message(frame)
        except NoMessage as error:
            raise Refused("bad message" if error.is_known else "unknown message") from None
        refuse_if(kind != "version" and self.size is None, "no version")
        return getattr(self, kind)(*fields)

    def request(self, *request):
        self.asked = request
        return self.ask(request, self.clock())

    def fid(self, number):
        refuse_if(number not in self.fids, "unknown fid")
        return self.fids[number]

    def closed(self, number):
        fid = self.fid(number)
        refuse_if(fid.mode is not None, "fid is open")
        return fid

    def opened(self, number, refused_modes):
        fid = self.fid(number)
        refuse_if(fid.mode is None, "fid is not open")
        refuse_if(fid.mode & 3 in refused_modes, "not permitted")
        return fid

    def refuse_unless_free(self, number):
        refuse_if(number == NO_FID, "unknown fid")
        refuse_if(number in self.fids, "fid in use")
        refuse_if(len(self.fids) >= MOST_FIDS, "too many fids")

    def version(self, size, text):
        self.fids, self.size = {}, None
        refuse_if(size < SMALLEST, "message size too small")
        size = min(size, LARGEST)
        if text.split(b".")[0] != b"9P2000":
            return struct.pack("<I", size) + string(b"unknown")
        self.size = size
        return struct.pack("<I", size) + string(b"9P2000")

    def auth(self, fid, user, tree):
        raise Refused("authentication not required")

    def attach(self, fid, authentication, user, tree):
        refuse_if(authentication != NO_FID, "authentication not required")
        self.refuse_unless_free(fid)
        qid = self.request("look", 0)
        self.fids[fid] = Fid(qid)
        return qid

    def flush(self, tag):
        return b""

    def walk(self, number, new, names):
        fid = self.closed(number)
        if new != number:
            self.refuse_unless_free(new)
        qids = self.request("walk", fid.node, names) if names else []
        if len(qids) == len(names):
            self.fids[new] = Fid(qids[-1] if qids else struct.pack("<BIQ", DIRECTORY * fid.is_directory, 0, fid.node))
        return struct.pack("<H", len(qids)) + b"".join(qids)

    def open(self, number, mode):
        fid = self.closed(number)
        refuse_if(mode & ~GOOD_MODE, "not permitted")
        qid = self.request("open", fid.node, mode)
        fid.mode, fid.offset, fid.last_name = mode, 0, None
        return qid + struct.pack("<I", self.size - OVERHEAD)

    def create(self, number, name, permissions, mode):
        fid = self.closed(number)
        refuse_if(permissions & ~GOOD_PERMISSIONS or mode & ~GOOD_MODE, "not permitted")
        is_directory = permissions & DIRECTORY_BIT != 0
        refuse_if(is_directory and mode != 0, "is a directory")
        qid = self.request("create", fid.node, name, is_directory)
        self.fids[number] = Fid(qid)
        self.fids[number].mode = mode
        return qid + struct.pack("<I", self.size - OVERHEAD)

    def read(self, number, offset, count):
        fid, count = self.opened(number, (WRITES_ONLY,)), min(count, self.size - OVERHEAD)
        data = self.listed(fid, offset, count) if fid.is_directory else self.request("read", fid.node, offset, count)
        return struct.pack("<I", len(data)) + data

    def listed(self, fid, offset, count):
        """A list goes on where the last one ended, or begins again."""
        refuse_if(offset not in (0, fid.offset), "bad offset")
        after = fid.last_name if offset else None
        data = self.request("list", fid.node, after, count)
        names = [stat.name for stat in stats(data)]
        fid.offset, fid.last_name = offset + len(data), names[-1] if names else after
        return data

    def write(self, number, offset, data):
        fid = self.opened(number, (0, RUNS))
        return struct.pack("<I", self.request("write", fid.node, offset, data))

    def clunk(self, number):
        self.fid(number)
        del self.fids[number]
        return b""

    def remove(self, number):
        """The fid is gone whatever the tree answers."""
        node = self.fid(number).node
        del self.fids[number]
        self.request("remove", node)
        return b""

    def stat(self, number):
        return string(self.request("stat", self.fid(number).node))

    def wstat(self, number, stat):
        """One that leaves all as it is asks for a sync."""
        node = self.fid(number).node
        if all(value is None for value in stat.values()):
            self.request("sync", node)
        else:
            self.request("change", node, stat)
        return b""
