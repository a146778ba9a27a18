"""The plain file tree that a vault stands for, and what each request answers and changes in it, one after another.

There are no ciphers and no devices here, so what is refused for their sake (`device fault`, `place taken`, `out of memory` and the like) never
comes. Names and contents are bytes, moments are seconds since 1970.
"""

import struct
import unicodedata

from ninep import DIRECTORY, Refused, string

from .messages import STAT_FIELDS, spelled_stat

CHUNK = 32768  # clear bytes of a file's chunk
LARGEST_GAP = 1 << 20  # from a file's end to where a write begins
LARGEST_FILE = 1 << 40
MOST_NODES = 1 << 20
LONGEST_NAME = 1024
DIRECTORY_BIT = 0x80000000  # of a mode
TRUNCATES = 0x10  # a bit of the mode of an open
MODES = {"directory": 0x800001ED, "file": 0x1A4, "link": 0x124, "bad": 0x124}


def refuse_if(test, text):
    if test:
        raise Refused(text)


def nfc(raw):
    """The NFC form of a text, or None of what isn't UTF-8."""
    try:
        return unicodedata.normalize("NFC", raw.decode()).encode()
    except UnicodeDecodeError:
        return None


def clear_name(raw):
    """The name, in NFC, that these bytes are."""
    name = nfc(raw)
    refuse_if(name is None or raw in (b"", b".", b"..") or b"/" in raw or b"\0" in raw, "bad name")
    refuse_if(len(name) > LONGEST_NAME, "name too long")
    return name


class Node:
    """A file, a directory, a link (whose content is its target), or a bad node, which is nothing of these.

    The last five attributes are marks, of what a damaged vault has on its disk.
    """

    def __init__(self, number, parent, name, kind, content, moment):
        self.number, self.parent, self.name, self.kind = number, parent, name, kind  # the root is its own parent
        self.moment, self.version = moment, 0  # the version counts changes
        self.content, self.children = bytearray(content), {}  # the numbers of the children by name
        self.bad_size = False  # no content has its file's size
        self.bad_header = False  # its file's header doesn't open
        self.bad_chunks = set()  # the numbers of the chunks that don't open
        self.foreign_within = False  # an entry that belongs to no node is in the directory's folder
        self.foreign_beside = False  # a further entry has its name, or is in its own folder

    @property
    def length(self):
        return 0 if self.bad_size else len(self.content)

    @property
    def qid(self):
        return struct.pack("<BIQ", DIRECTORY if self.kind == "directory" else 0, self.version % 2**32, self.number)

    def fields(self):
        fixed = {"type": 0, "dev": 0, "qid": self.qid, "mode": MODES[self.kind], "atime": self.moment, "mtime": self.moment, "length": self.length}
        return fixed | {"name": self.name, "uid": b"vault", "gid": b"vault", "muid": b"vault"}

    def stat(self):
        return string(spelled_stat(self.fields()))

    def touch(self, moment):
        self.version, self.moment = self.version + 1, moment

    def slice(self, at, count):
        data = bytes(self.content[at : at + count])
        chunks = range(at // CHUNK, (at + len(data) - 1) // CHUNK + 1) if data else ()
        refuse_if(data and (self.bad_header or self.bad_chunks & set(chunks)), "damaged")
        return data

    def splice(self, at, data):
        """Puts bytes there, and zeros before them from the end on. No clear byte of a chunk that doesn't open can be kept."""
        length, end = len(self.content), at + len(data)
        start = min(at, length)
        chunks = range(start // CHUNK, (end - 1) // CHUNK + 1)
        kept = [number for number in self.bad_chunks if number * CHUNK < start or end < min((number + 1) * CHUNK, length)]
        refuse_if(self.bad_header or any(number in chunks for number in kept), "damaged")
        self.bad_chunks = self.bad_chunks - set(chunks)
        self.content.extend(bytes(max(0, at - length)))
        self.content[at:end] = data

    def cut(self, length):
        refuse_if(self.bad_header or length % CHUNK and length // CHUNK in self.bad_chunks, "damaged")
        self.bad_chunks = {number for number in self.bad_chunks if number * CHUNK < length}
        del self.content[length:]


class Tree:
    """Nodes by number. A request is a tuple of its name, that of one of the methods behind `step`, a node's number and further arguments."""

    def __init__(self, moment=0):
        self.rows, self.next = {}, 0
        self.shares_identifiers = False  # a mark: two directories of the vault name one folder
        self.add(None, b"/", "directory", b"", moment)

    def add(self, parent, name, kind, content, moment):
        node = self.rows[self.next] = Node(self.next, parent.number if parent else 0, name, kind, content, moment)
        if parent:
            parent.children[name] = node.number
        self.next += 1
        return node

    @classmethod
    def of(cls, files, moment=0, marks=None, shares_identifiers=False):
        """The tree of files: by its path the bytes of a file, None of a directory, ("link", target), or "bad". Marks are attributes of nodes by path.

        Numbers are given level by level, in each directory in the order of the names' bytes.
        """
        tree, below = cls(moment), {}
        for path, what in files.items():
            parent, _, name = path.strip("/").rpartition("/")
            below.setdefault(parent, []).append((clear_name(name.encode()), name, what))
        queue = [("", tree.rows[0])]
        for path, parent in queue:
            for name, part, what in sorted(below.pop(path, ()), key=lambda entry: entry[0]):
                assert name not in parent.children, name
                node = tree.add(parent, name, *kind_and_content(what), moment)
                if what is None:
                    queue.append((f"{path}/{part}".strip("/"), node))
        assert not below, below
        for path, fields in (marks or {}).items():
            assert fields.keys() <= vars(tree.at(path)).keys()
            vars(tree.at(path)).update(fields)
        tree.shares_identifiers = shares_identifiers
        return tree

    def at(self, path):
        node = self.rows[0]
        for part in filter(None, path.split("/")):
            node = self.rows[node.children[nfc(part.encode())]]
        return node

    def files(self, node=None, path=""):
        """What `of` takes."""
        node, found = node or self.rows[0], {}
        for name, number in sorted(node.children.items()):
            child, at = self.rows[number], f"{path}/{name.decode()}"
            content = bytes(child.content)
            found[at] = {"directory": None, "bad": "bad", "link": ("link", content), "file": content}[child.kind]
            found |= self.files(child, at)
        return found

    def step(self, request, moment):
        """What a request answers, or what refuses it."""
        name, number, *arguments = request
        refuse_if(name == "remove" and number == 0, "not permitted")
        refuse_if(number not in self.rows, "removed")
        return getattr(self, name)(self.rows[number], moment, *arguments)

    def look(self, node, moment):
        return node.qid

    def walk(self, node, moment, names):
        """The qids of the names that are there, of one at least."""
        qids = []
        for raw in names:
            try:
                node = self.stepped_to(node, raw)
            except Refused:
                if not qids:
                    raise
                break
            qids.append(node.qid)
        return qids

    def stepped_to(self, node, raw):
        refuse_if(node.kind != "directory", "not a directory")
        if raw == b"..":
            return self.rows[node.parent]
        name = clear_name(raw)
        refuse_if(name not in node.children, "file does not exist")
        return self.rows[node.children[name]]

    def open(self, node, moment, mode):
        """The qid; after a truncation with the new version."""
        refuse_if(node.kind == "bad", "damaged")
        refuse_if(node.kind == "directory" and mode != 0, "is a directory")
        refuse_if(node.kind == "link" and (mode & 3 in (1, 2) or mode & TRUNCATES), "not permitted")
        if mode & TRUNCATES:
            refuse_if(node.bad_size, "damaged")
            node.cut(0)
            node.touch(moment)
        return node.qid

    def create(self, node, moment, raw, is_directory):
        """The new node's qid, of version 0."""
        refuse_if(node.kind != "directory", "not a directory")
        name = clear_name(raw)
        refuse_if(name in node.children, "file exists")
        refuse_if(len(self.rows) >= MOST_NODES or self.next == 2**64 - 1, "vault full")
        new = self.add(node, name, "directory" if is_directory else "file", b"", moment)
        node.touch(moment)
        return new.qid

    def read(self, node, moment, at, count):
        refuse_if(node.kind == "directory", "is a directory")
        refuse_if(node.kind == "bad" or node.bad_size, "damaged")
        return node.slice(at, count)

    def list(self, node, moment, after, count):
        """At most so many bytes of whole stats, of the names behind one, or of all where that is None."""
        refuse_if(node.kind != "directory", "not a directory")
        stats = b""
        for name in sorted(name for name in node.children if after is None or name > after):
            stat = self.rows[node.children[name]].stat()
            refuse_if(not stats and len(stat) > count, "count too small")
            if len(stats) + len(stat) > count:
                break
            stats += stat
        return stats

    def write(self, node, moment, at, data):
        """How many bytes were written."""
        refuse_if(node.kind == "directory", "is a directory")
        refuse_if(node.kind == "bad", "damaged")
        refuse_if(node.kind == "link", "not permitted")
        if data:
            refuse_if(node.bad_size, "damaged")
            refuse_if(at + len(data) > LARGEST_FILE, "file too large")
            refuse_if(at > len(node.content) + LARGEST_GAP, "gap too large")
            node.splice(at, data)
            node.touch(moment)
        return len(data)

    def remove(self, node, moment):
        refuse_if(node.kind == "bad", "damaged")
        refuse_if(node.children, "directory not empty")
        self.refuse_if_foreign(node, node.foreign_within)
        parent = self.rows[node.parent]
        del self.rows[node.number], parent.children[node.name]
        parent.touch(moment)

    def refuse_if_foreign(self, node, more=False):
        refuse_if(more or node.foreign_beside or node.kind == "directory" and self.shares_identifiers, "foreign")

    def stat(self, node, moment):
        return node.stat()

    def change(self, node, moment, stat):
        """Changes what a stat gives, as `Fields.stat` reads it, and the node's is not: one of its name and its length, and its times."""
        refuse_if(node.kind == "bad", "damaged")
        old = node.fields()
        new = {field for field in STAT_FIELDS if stat[field] is not None and stat[field] != old[field]}
        if stat["name"] is not None and nfc(stat["name"]) == node.name:
            new -= {"name"}
        refuse_if(new - {"name", "length", "mtime"}, "not permitted")
        refuse_if({"name", "length"} <= new, "one change at a time")
        refuse_if("length" in new and node.kind == "directory", "is a directory")
        refuse_if("length" in new and node.kind == "link", "not permitted")
        refuse_if("name" in new and node.number == 0, "not permitted")
        if "name" in new:
            self.rename(node, moment, stat["name"])
        if "length" in new:
            self.resize(node, moment, stat["length"])
        if stat["mtime"] is not None:
            node.moment = stat["mtime"]

    def rename(self, node, moment, raw):
        name, parent = clear_name(raw), self.rows[node.parent]
        refuse_if(name in parent.children, "file exists")
        self.refuse_if_foreign(node)
        del parent.children[node.name]
        parent.children[name], node.name = node.number, name
        parent.touch(moment)

    def resize(self, node, moment, length):
        old = len(node.content)
        refuse_if(node.bad_size, "damaged")
        refuse_if(length > LARGEST_FILE, "file too large")
        refuse_if(length > old + LARGEST_GAP, "gap too large")
        if length < old:
            node.cut(length)
        else:
            node.splice(old, bytes(length - old))
        node.touch(moment)

    def sync(self, node, moment):
        """Changes nothing."""


def kind_and_content(what):
    """Those of a node, of what `Tree.of` takes."""
    if isinstance(what, tuple):
        return what
    return {type(None): ("directory", b""), str: ("bad", b""), bytes: ("file", what)}[type(what)]
