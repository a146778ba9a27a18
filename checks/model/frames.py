"""Random frames of 9P2000, good and hostile, by a seed. They are drawn for the state of the model's session and tree, so that they meet something."""

import random
import struct
import unicodedata

from ninep import KINDS, NO_FID, message, string

from .messages import STAT_FIELDS, spelled_stat
from .session import LARGEST, MOST_FIDS, SMALLEST
from .tree import CHUNK, DIRECTORY_BIT, LARGEST_FILE, LARGEST_GAP, TRUNCATES, Tree, nfc

NEW_NAMES = [f"n{number}" for number in range(8)]
NEW_NAMES += ["e\u0301", "\u00e9", "\u2126", "\u03a9", "\u0344x", "\u1112\u1161\u11ab", "\ud55c", "A" * 146, "A" * 147, "B" * 200, "\u00e9" * 120]
NEW_NAMES += ["L" * 1024, "M" * 1025, "e\u0301" * 512, "e\u0301" * 513, "\u0958" * 170 + "abcd", "\u0958" * 170 + "abcde", "\U0001f600"]
NEW_NAMES += ["a b", ".x", "...", "~", "\x01", "\x7f", "\ufeff"]
WRONG_NAMES = [b"", b".", b"..", b"/", b"a/b", b"\0", b"a\0", b"../a", b"x/", b"\xff", b"\xc3", b"\xed\xa0\x80", b"\xf4\x90\x80\x80", b"\xc0\xaf"]
WRONG_NAMES += [b"M" * 1025, b"N" * 1600]
VERSIONS = [(16, b"9P2000"), (2, b"9P2000.u"), (1, b"9P2000.L"), (1, b"9P2000."), (1, b"9P2000.9P2000"), (1, b"9P200"), (1, b"9P20000"), (1, b"")]
VERSIONS += [(1, b"."), (1, b"unknown"), (1, b"9p2000"), (1, b"\xff")]
WRONG_TYPES = [0, 1, 99, 101, 103, 105, 106, 107, 109, 117, 127, 128, 255]
WRONG_MODES = [0x40, 0x20, 0x80, 4, 8, 0xFF, 0x41, 0x50]
UNTOUCHED = {"type": 2**16 - 1, "dev": 2**32 - 1, "qid": b"\xff" * 13, "mode": 2**32 - 1, "atime": 2**32 - 1, "mtime": 2**32 - 1, "length": 2**64 - 1}
UNTOUCHED |= {"name": b"", "uid": b"", "gid": b"", "muid": b""}
MOST_BYTES = 64 << 20  # that one script writes, before its writes become small


class Frames:
    """Draws frames for a model's session over a tree; `shown` has what the server told of a node's times, by number."""

    def __init__(self, seed, tree, session, mixes_qids=False):
        self.random, self.tree, self.session, self.mixes_qids = random.Random(seed), tree, session, mixes_qids
        self.shown, self.volume = {}, 0

    def chance(self, probability):
        return self.random.random() < probability

    def some(self, *weighted):
        """One of the second parts of pairs, by their weights."""
        return self.random.choices([value for _, value in weighted], [weight for weight, _ in weighted])[0]

    # ---- fids, nodes, names and places

    def fid(self, test=lambda fid: True, miss=0.08):
        """Mostly a fid that is there and passes the test, gladly of a node that is there, or that has damaged chunks."""
        good = [number for number, fid in self.session.fids.items() if test(fid)]
        there = [number for number in good if self.session.fids[number].node in self.tree.rows]
        good = there if there and self.chance(0.95) else good
        damaged = [number for number in there if self.tree.rows[self.session.fids[number].node].bad_chunks]
        good = damaged if damaged and self.chance(0.25) else good
        if good and self.random.random() > miss:
            return self.random.choice(good)
        return self.random.choice([*range(10), NO_FID, NO_FID - 1, self.random.getrandbits(32)] + list(self.session.fids)[:8])

    def new_fid(self):
        if self.chance(0.1):
            return self.fid(miss=0.3)
        free = [number for number in range(24) if number not in self.session.fids]
        if free and self.chance(0.95):
            return self.random.choice(free)
        return self.random.choice([NO_FID, 0x7FFFFFFF, 0x80000000, self.random.getrandbits(32)])

    def node(self, number):
        """That of a fid, or None."""
        fid = self.session.fids.get(number)
        return self.tree.rows.get(fid.node) if fid else None

    def new_name(self):
        return self.random.choice(WRONG_NAMES) if self.chance(0.2) else self.random.choice(NEW_NAMES).encode()

    def old_name(self, node):
        """Mostly that of a child of the node, at times in another form of Unicode."""
        if node is None or not node.children or not self.chance(0.9):
            return self.new_name()
        damaged = [name for name in sorted(node.children) if self.tree.rows[node.children[name]].bad_chunks]
        name = self.random.choice(damaged if damaged and self.chance(0.3) else sorted(node.children))
        return unicodedata.normalize("NFD", name.decode()).encode() if self.chance(0.1) else name

    def around(self, number):
        return max(0, number + self.random.choice([-2, -1, 0, 0, 0, 1, 2])) % 2**64

    def place(self, node):
        """A place in a file: near its ends, those of its chunks, or those of what is allowed."""
        length = len(node.content) if node else 0
        if node and node.bad_chunks and self.chance(0.5):
            chunk = self.random.choice(sorted(node.bad_chunks)) + self.random.choice([0, 0, 1])
            return self.around(CHUNK * chunk + self.random.choice([0, self.random.randrange(CHUNK)]))
        if self.chance(0.9):
            near = [0, 0, 0, 1, 100, length, length, length // 2, CHUNK, CHUNK, 2 * CHUNK, length + CHUNK, length // CHUNK * CHUNK]
            return self.around(self.random.choice(near))
        return self.around(self.random.choice([length + LARGEST_GAP, LARGEST_FILE, 2**32, 2**63, 2**64 - 1]))

    def size(self):
        return self.session.size or LARGEST

    def is_directory(self, node):
        return node is not None and node.kind == "directory"

    # ---- the fields of each message

    def version(self):
        sizes = [(3, SMALLEST), (2, 8192), (3, LARGEST), (2, LARGEST + 1), (1, 2**32 - 1), (1, SMALLEST - 1), (1, 0)]
        size = self.some(*sizes, (1, self.random.randrange(SMALLEST, LARGEST + 1)))
        return struct.pack("<I", size) + string(self.some(*VERSIONS))

    def auth(self):
        return struct.pack("<I", self.new_fid()) + string(b"u") + string(b"")

    def attach(self):
        fids = struct.pack("<II", self.new_fid(), self.some((9, NO_FID), (1, self.fid())))
        user = string(self.random.choice([b"", b"u", b"\xc3\xa9", b"x" * 900]))
        return fids + user + string(self.random.choice([b"", b"/", b"a"]))

    def flush(self):
        return struct.pack("<H", self.random.getrandbits(16))

    def walk(self):
        fid = self.fid(lambda fid: fid.mode is None)
        node, names = self.node(fid), []
        for _ in range(self.some((2, 0), (6, 1), (3, 2), (2, 3), (1, self.random.randrange(4, 18)))):
            name = self.some((8, None), (1, b".."), (1, self.new_name()))
            name = self.old_name(node) if name is None else name
            names.append(name)
            if node is not None:
                node = self.tree.rows[node.parent] if name == b".." else self.tree.rows.get(node.children.get(nfc(name), -1))
        new = fid if self.chance(0.15) else self.new_fid()
        return struct.pack("<IIH", fid, new, len(names)) + b"".join(map(string, names))

    def mode(self):
        reading, writing, both, running = 0, 1, 2, 3
        truncating = [(1, TRUNCATES), (2, TRUNCATES | writing), (1, TRUNCATES | both), (1, TRUNCATES | running)]
        return self.some((4, reading), (3, writing), (4, both), (1, running), *truncating, (1, self.random.choice(WRONG_MODES)))

    def open(self):
        fid = self.fid(lambda fid: fid.mode is None)
        mode = 0 if self.is_directory(self.node(fid)) and self.chance(0.8) else self.mode()
        return struct.pack("<IB", fid, mode)

    def create(self):
        fid = self.fid(lambda fid: fid.mode is None and (fid.is_directory or self.chance(0.1)))
        node, is_directory = self.node(fid), self.chance(0.35)
        name = self.old_name(node) if self.chance(0.2) else self.new_name()
        permissions = (DIRECTORY_BIT if is_directory else 0) | self.random.choice([0, 0x1FF, 0x1A4, 0x180])
        wrong = [(1, 0x200), (1, 0x40000000), (1, 0x20000000), (1, 0x04000000), (1, self.random.getrandbits(32))]
        permissions |= self.some((20, 0), *wrong)
        mode = 0 if is_directory and self.chance(0.85) else self.mode()
        return struct.pack("<I", fid) + string(name) + struct.pack("<IB", permissions, mode)

    def read(self):
        number = self.fid(lambda fid: fid.mode is not None)
        fid, node = self.session.fids.get(number), self.node(number)
        if fid and fid.is_directory:
            at = self.some((4, fid.offset), (3, 0), (1, self.around(fid.offset)))
        else:
            at = self.place(node)
        near_a_stat = self.random.choice([64, 65, 66, 70, 130, 131, 200])
        small, near_the_most = self.random.randrange(3000), self.around(self.size() - 24)
        count = self.some((2, 0), (2, 1), (3, near_a_stat), (3, small), (2, near_the_most), (1, LARGEST), (1, 2**32 - 1), (1, CHUNK))
        return struct.pack("<IQI", number, at, count)

    def write(self):
        fid = self.fid(lambda fid: fid.mode is not None and not fid.is_directory)
        at, room, node = self.place(self.node(fid)), self.size() - 23, self.node(fid)
        count = min(room, self.some((2, 0), (4, 1), (4, self.random.randrange(100)), (2, self.random.randrange(5000)), (2, CHUNK), (1, room)))
        if self.volume > MOST_BYTES:
            at, count = min(at, 1000), min(count, 100)
        self.volume += count + self.gap(node, at)
        data = self.random.randbytes(count) if count < 1000 else bytes([self.random.getrandbits(8)]) * count
        told = self.some((30, count), (1, count + 1), (1, max(0, count - 1)), (1, 2**32 - 1))
        return struct.pack("<IQI", fid, at, told) + data

    def gap(self, node, at):
        """How many zeros a write or another length there makes."""
        return max(0, at - len(node.content)) if node and at <= len(node.content) + LARGEST_GAP else 0

    def clunk(self):
        return struct.pack("<I", self.fid(miss=0.2))

    def remove(self):
        return struct.pack("<I", self.fid(lambda fid: fid.node != 0, 0.05))

    def stat(self):
        return struct.pack("<I", self.fid())

    def wstat(self):
        fid = self.fid(lambda fid: fid.node or self.chance(0.3))
        body = spelled_stat(self.changed_fields(self.node(fid)))
        size, whole = len(body), len(body) + 2
        if self.chance(0.06):
            size, whole = (number + self.random.choice([-1, 0, 1]) for number in (size, whole))
        if self.chance(0.02):
            body += b"!"
        return struct.pack("<IHH", fid, whole % 65536, size % 65536) + body

    def changed_fields(self, node):
        """The fields of a stat: some as the server last told them, some that a wstat may change, some others."""
        old = node.fields() if node else Tree().rows[0].fields()
        known = node is not None and self.shown.get(node.number) == (node.version, node.moment)
        same = []
        if self.chance(0.4):
            same = [field for field in STAT_FIELDS if self.chance(0.3) and (known or field not in ("atime", "mtime"))]
        put = UNTOUCHED | {field: old[field] for field in same}
        few = [(1, plan) for plan in ("name length", "length mtime", "name mtime", "odd", "name odd")]
        plan = self.some((3, ""), (5, "name"), (4, "length"), (3, "mtime"), *few)
        if "name" in plan:
            put["name"] = self.changed_name(node, old)
        if "length" in plan:
            put["length"] = self.changed_length(node, old)
        if "mtime" in plan:
            put["mtime"] = self.some((3, self.random.getrandbits(32)), (1, 7), (1, 0))
        if "odd" in plan:
            field = self.random.choice("type dev qid mode mode atime uid gid muid".split())
            put[field] = self.odd_value(field, old)
        return put

    def changed_name(self, node, old):
        parent = self.tree.rows.get(node.parent) if node else None
        other_form = unicodedata.normalize("NFD", old["name"].decode()).encode()
        return self.some((6, self.new_name()), (1, self.old_name(parent)), (1, old["name"]), (1, other_form))

    def changed_length(self, node, old):
        length = self.some((2, 0), (4, self.place(node)), (1, old["length"]))
        if self.gap(node, length):
            if self.volume > MOST_BYTES:
                length = min(length, len(node.content) + 10)
            self.volume += length - len(node.content)
        return length

    def odd_value(self, field, old):
        """One that a wstat can't give its field."""
        if field in ("uid", "gid", "muid"):
            return self.random.choice([b"u", b"vault", b"Vault", b"\xff"])
        if field == "qid":
            return self.odd_qid(old["qid"])
        return self.random.choice([0, 0x1A4, 0x180, 0x800001ED, 1]) & UNTOUCHED[field]

    def odd_qid(self, old):
        if self.mixes_qids and self.chance(0.5):
            return self.random.choice([old[:1] + b"\xff" * 12, b"\xff" * 5 + old[5:]])
        return self.random.choice([old, bytes(13), old[:5] + b"\x09" * 8])

    # ---- frames

    def kind(self):
        if self.session.size is None and self.chance(0.6):
            return "version"
        if not self.session.fids and self.chance(0.7):
            return "attach"
        fids = self.session.fids.values()
        closed, opened = any(fid.mode is None for fid in fids), any(fid.mode is not None for fid in fids)
        written = any(fid.mode is not None and fid.mode & 3 in (1, 2) for fid in fids)
        kinds = [(0.1, "version"), (0.3, "auth"), (0.5, "attach"), (0.4, "flush"), (0.3 + 12 * closed, "walk"), (0.2 + 4 * closed, "open")]
        kinds += [(0.2 + 4 * closed, "create"), (0.3 + 10 * opened, "read"), (0.3 + 10 * written, "write"), (1 if len(fids) < 9 else 7, "clunk")]
        kinds += [(0.8 if len(fids) < 6 else 2.5, "remove"), (4, "stat"), (8, "wstat")]
        return self.some(*kinds)

    def frame(self):
        """A frame of at least 7 bytes and at most the agreed size, its size right."""
        kind = self.kind()
        tag = self.random.choice([1, 1, 1, 0, 0xFFFF, 0xFFFE, self.random.getrandbits(16)])
        frame = self.spoiled(message(kind, getattr(self, kind)(), tag))[: self.size()]
        return struct.pack("<I", len(frame)) + frame[4:]

    def spoiled(self, frame):
        """At times of another type, shorter, longer, or with another byte."""
        hostile = self.random.random()
        if hostile < 0.01:
            return frame[:4] + bytes([self.random.choice([*WRONG_TYPES, self.random.getrandbits(8)])]) + frame[5:]
        if hostile < 0.025:
            return frame[: self.random.randrange(7, len(frame) + 1)]
        if hostile < 0.04:
            return frame + self.random.randbytes(self.random.randrange(1, 9))
        if hostile < 0.05 and len(frame) > 7:
            at = self.random.randrange(7, len(frame))
            return frame[:at] + bytes([self.random.getrandbits(8)]) + frame[at + 1 :]
        return frame

    def batch(self, burst):
        """A frame, and at times further ones that are sent with it."""
        frames = [self.frame()]
        while self.chance(burst) and frames[-1][4] != KINDS["version"] and len(frames) < 6:
            frames.append(self.frame())
        return frames

    def most_fids(self):
        """Frames that make as many fids as there may be and more, of one that isn't open, and give some back."""
        base = self.random.choice([number for number, fid in self.session.fids.items() if fid.mode is None])
        first, each = 100000, self.random.choice([1, 1, 7])
        frames = [message("walk", struct.pack("<IIH", base, first + number, 0)) for number in range(MOST_FIDS + 2)]
        frames.append(message("attach", struct.pack("<II", 5000, NO_FID) + string(b"") + string(b"")))
        return frames + [message("clunk", struct.pack("<I", first + number)) for number in range(0, MOST_FIDS, each)]

    def last(self):
        """The bytes behind the last frame: none, a part of a frame, or one of a wrong size."""
        size = struct.pack("<I", self.random.choice([0, 1, 6, self.size() + 1, LARGEST + 1, 2**31, 2**32 - 1]))
        parts = [self.frame()[: self.random.randrange(1, 7)], self.frame()[:-1]]
        return self.random.choice([b"", b"", *parts, size, size + b"more", message("clunk", bytes(4)) + size])


class QuietFrames(Frames):
    """Frames that ask for no change."""

    def frame(self):
        while True:
            frame = super().frame()
            truncates = frame[4] == KINDS["open"] and any(mode & TRUNCATES for mode in frame[11:12])
            if frame[4] not in (KINDS["create"], KINDS["write"], KINDS["remove"], KINDS["wstat"]) and not truncates:
                return frame
