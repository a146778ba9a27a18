"""A server beside the model: both get the same random frames one by one, and each reply must have the same bytes but for the times in stats."""

import os
import queue
import select
import socket
import struct
import subprocess
import threading
import time

from ninep import ERROR, KINDS, Refused, times_in, without_times

from .frames import Frames
from .messages import NAMES
from .session import Session
from .tree import Tree

PATIENCE = 30  # seconds without a reply
MOST_SECONDS = 60  # that a time in a stat may be off
MAY_REFUSE = (b"out of memory",)  # refusals that a server may give where the model has none
TOGETHER = 50  # frames of a long row that are sent at once


class Server:
    """A server that one client talks to; `send` and `take` are those of its link."""

    def reply(self):
        """The next whole reply, or what there is of it."""
        head = self.take(4)
        size = struct.unpack("<I", head)[0] if len(head) == 4 else 4
        return head + (self.take(min(size, 1 << 20) - 4) if size > 4 else b"")


class Streams(Server):
    """A program that serves over its standard streams, behind the line of its secret. A write to it never blocks the reader."""

    def __init__(self, words, secret=None, **further):
        self.program = subprocess.Popen(words, stdin=subprocess.PIPE, stdout=subprocess.PIPE, **further)
        self.waiting = queue.Queue()
        threading.Thread(target=self.write_waiting, daemon=True).start()
        if secret is not None:
            self.send(secret + b"\n")

    def write_waiting(self):
        try:
            while (data := self.waiting.get()) is not None:
                self.program.stdin.write(data)
                self.program.stdin.flush()
            self.program.stdin.close()
        except OSError:
            pass  # the program has ended

    def send(self, data):
        self.waiting.put(data)

    def take(self, count):
        data, descriptor = b"", self.program.stdout.fileno()
        while len(data) < count and select.select([descriptor], [], [], PATIENCE)[0] and (more := os.read(descriptor, count - len(data))):
            data += more
        return data

    def finish(self):
        """Ends the input; the status, None of a program that doesn't end, and the bytes behind the last reply."""
        self.waiting.put(None)
        rest = self.take(1 << 20)
        try:
            return self.program.wait(PATIENCE), rest
        except subprocess.TimeoutExpired:
            self.program.kill()
            self.program.wait()
            return None, rest


class Link(Server):
    """One connection to a server, which goes on when that ends."""

    def __init__(self, link):
        self.link = link
        link.settimeout(2 * PATIENCE)

    def send(self, data):
        self.link.sendall(data)

    def take(self, count):
        data = b""
        while len(data) < count and (more := self.link.recv(count - len(data))):
            data += more
        return data

    def finish(self):
        try:
            self.link.shutdown(socket.SHUT_WR)
            rest = self.take(1 << 20)
        except OSError:  # the server has ended the session already
            rest = b""
        self.link.close()
        return 0, rest


class Comparison:
    """`server` gets `count` frames that are drawn from `seed`. It is to serve these files with these marks (see `Tree.of`).

    `tells_now`: times in stats are looked at. `status`: that with which the server has to end, where that isn't None. `stop_after`: so many differences
    end it. What is found: `frames` that were compared, `refused`, how many of them only the server refused, `differences`, and `kinds`, how often
    each message met each answer. In the end `tree` is what the model has.
    """

    def __init__(
        self, server, files, seed, count, marks=None, shares_identifiers=False, draws=Frames, mixes_qids=False, tells_now=True, status=0, stop_after=1
    ):
        self.server, self.seed, self.count, self.tells_now, self.status, self.stop_after = server, seed, count, tells_now, status, stop_after
        self.tree = Tree.of(files, int(time.time()), marks, shares_identifiers)
        self.refusal = None  # by the server, where it may refuse what the model does
        self.session = Session(self.ask)
        self.script = draws(seed, self.tree, self.session, mixes_qids)
        self.frames, self.refused, self.differences, self.kinds, self.ahead = 0, 0, [], {}, []

    def ask(self, request, moment):
        """Where the server refused a request that it may refuse, the model refuses it too."""
        if self.refusal is not None:
            raise Refused(self.refusal)
        return self.tree.step(request, moment)

    def run(self):
        """All of it; gives itself."""
        sent, goes_on = 0, True
        while goes_on and sent < self.count:
            batch = self.batch()
            if len(batch[0]) > self.script.size():
                continue
            sent += len(batch)
            self.send(b"".join(batch))
            for frame in batch:
                goes_on = goes_on and self.has_answered(frame)
        if goes_on:
            self.end()
        else:
            self.server.finish()
        return self

    def batch(self):
        """The next frames that are sent at once."""
        if not self.ahead and self.script.chance(0.0005) and any(fid.mode is None for fid in self.session.fids.values()):
            self.ahead = self.script.most_fids()
        if self.ahead:
            batch, self.ahead = self.ahead[:TOGETHER], self.ahead[TOGETHER:]
            return batch
        return self.script.batch(0.1)

    def send(self, data):
        """At times in two pieces."""
        if self.script.chance(0.02) and len(data) > 8:
            cut = self.script.random.randrange(1, len(data))
            self.server.send(data[:cut])
            time.sleep(0.002)
            data = data[cut:]
        self.server.send(data)

    def differs(self, what, frame=b"", found=b"", wanted=b""):
        """Notes a difference; whether it goes on."""
        self.differences.append(Difference(self.seed, self.frames, what, frame, found, wanted))
        return len(self.differences) < self.stop_after

    def has_answered(self, frame):
        """Awaits the reply to a frame; whether it goes on."""
        found = self.server.reply()
        self.frames += 1
        may_refuse = found[4:5] == bytes([ERROR]) and found[9:] in MAY_REFUSE
        self.refusal = found[9:].decode() if may_refuse else None
        self.refused += may_refuse
        wanted = self.session.answer(frame)
        asked = self.session.asked
        is_list = asked is not None and asked[0] == "list"
        self.count_kind(frame, wanted)
        if len(found) < 7 or without_times(found, is_list) != without_times(wanted, is_list):
            return self.differs("reply" if len(found) >= 7 else "no whole reply in time", frame, found, wanted)
        if not self.tells_now:
            return True
        if not all(self.is_now(found, wanted, at) or self.differs("times", frame, found, wanted) for at in times_in(wanted, is_list)):
            return False
        if wanted[4] == KINDS["stat"] + 1:
            self.take_moment(self.tree.rows[asked[1]], found)
        return True

    def count_kind(self, frame, wanted):
        kind = NAMES.get(frame[4], "?"), wanted[9:].decode() if wanted[4] == ERROR else "ok"
        self.kinds[kind] = self.kinds.get(kind, 0) + 1

    def is_now(self, found, wanted, at):
        """Whether both times of a stat are one moment, and about the model's."""
        accessed, modified = struct.unpack_from("<II", found, at)
        (moment,) = struct.unpack_from("<I", wanted, at + 4)
        return accessed == modified and abs(modified - moment) <= MOST_SECONDS

    def take_moment(self, node, found):
        """The clocks may be a second apart: the model takes the moment that the server tells, so that it can be put in a wstat."""
        (node.moment,) = struct.unpack_from("<I", found, 9 + 29)
        self.script.shown[node.number] = node.version, node.moment

    def end(self):
        """What is sent last, perhaps no whole frame, and how the server ends then."""
        last = self.script.last()
        self.server.send(last)
        wanted, end = self.session.feed(last) if last else (b"", None)
        if end is None:
            _, end = self.session.feed(b"")
        status, found = self.server.finish()
        if found != wanted:
            self.differs(f"bytes after the end {end}", last, found, wanted)
        if status is None or self.status not in (None, status):
            self.differs(f"status {status} after the end {end}", last)


class Difference:
    def __init__(self, seed, number, what, frame=b"", found=b"", wanted=b""):
        self.seed, self.number, self.what, self.frame, self.found, self.wanted = seed, number, what, frame, found, wanted

    def show(self):
        print(f"DIFFERENCE seed {self.seed}, frame {self.number}: {self.what}")
        kind = NAMES.get(self.frame[4], "?") if len(self.frame) > 4 else ""
        replies = [("found", self.found, error_in(self.found)), ("wanted", self.wanted, error_in(self.wanted))]
        for name, data, words in [("frame", self.frame, kind), *replies]:
            print(f"  {name:<6} {shortened(data)} {words}")


def error_in(reply):
    return reply[9:].decode("utf-8", "replace") if reply[4:5] == bytes([ERROR]) else ""


def shortened(data):
    return data.hex() if len(data) <= 200 else f"{data[:150].hex()}..({len(data)} bytes)..{data[-30:].hex()}"
