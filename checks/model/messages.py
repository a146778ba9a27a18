"""Messages of 9P2000 (intro(5)): a request's frame as fields, and the bytes of a stat."""

import struct

from ninep import KINDS, string

NAMES = {number: name for name, number in KINDS.items()}
STAT_FIELDS = ["type", "dev", "qid", "mode", "atime", "mtime", "length", "name", "uid", "gid", "muid"]  # stat(5)
FIXED, TEXTS = STAT_FIELDS[:7], STAT_FIELDS[7:]
WIDTHS = [2, 4, 13, 4, 4, 4, 8]  # bytes of each of the fixed fields
MOST_NAMES = 16  # of a walk

# The fields of each request. A digit is a number of so many bytes, `s` a string, `n` the names of a walk, `d` the data of a write, and `t` a stat.
FORMS = {
    "version": "4s",
    "auth": "4ss",
    "attach": "44ss",
    "flush": "2",
    "walk": "44n",
    "open": "41",
    "create": "4s41",
    "read": "484",
    "write": "48d",
    "clunk": "4",
    "remove": "4",
    "stat": "4",
    "wstat": "4t",
}


class NoMessage(Exception):
    """A frame that spells no request; `is_known` tells whether it has the type of one."""

    def __init__(self, is_known):
        super().__init__()
        self.is_known = is_known


def is_text(data):
    try:
        data.decode()
    except UnicodeDecodeError:
        return False
    return True


def spelled_stat(fields):
    """The bytes of a stat with these fields, without the size that is before them."""
    return struct.pack("<HI13sIIIQ", *(fields[name] for name in FIXED)) + b"".join(string(fields[name]) for name in TEXTS)


class Fields:
    """Takes fields off the front of a message's body."""

    def __init__(self, body):
        self.body, self.at = body, 0

    def take(self, count):
        if self.at + count > len(self.body):
            raise NoMessage(True)
        self.at += count
        return self.body[self.at - count : self.at]

    def number(self, width):
        return int.from_bytes(self.take(width), "little")

    def text(self):
        data = self.take(self.number(2))
        if not is_text(data):
            raise NoMessage(True)
        return data

    def names(self):
        count = self.number(2)
        if count > MOST_NAMES:
            raise NoMessage(True)
        return [self.text() for _ in range(count)]

    def data(self):
        return self.take(self.number(4))

    def stat(self):
        """Its fields by name, None of each that is to stay as it is: of a fixed one all bits are set, a text is empty. A qid is one field."""
        whole, start = self.number(2), self.at
        size = self.number(2)
        fixed, texts = [self.take(width) for width in WIDTHS], [self.text() for _ in TEXTS]
        if not self.at - start == whole == size + 2:
            raise NoMessage(True)
        fields = {name: None if data == b"\xff" * len(data) else data for name, data in zip(FIXED, fixed)}
        fields = {name: data if data is None or name == "qid" else int.from_bytes(data, "little") for name, data in fields.items()}
        return fields | {name: text or None for name, text in zip(TEXTS, texts)}

    def field(self, form):
        readers = {"s": self.text, "n": self.names, "d": self.data, "t": self.stat}
        return readers[form]() if form in readers else self.number(int(form))


def read_message(frame):
    """A request's kind and fields. The frame is whole and its size is right."""
    if frame[4] not in NAMES:
        raise NoMessage(False)
    kind, fields = NAMES[frame[4]], Fields(frame[7:])
    read = [fields.field(form) for form in FORMS[kind]]
    if fields.at < len(fields.body):
        raise NoMessage(True)
    return kind, read
