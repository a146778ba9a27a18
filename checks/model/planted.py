"""Random trees by a seed, planted as vaults, whole or damaged."""

import os
import random
import shutil

from .tree import CHUNK, Tree
from .vaults import HEADER, SEALED_CHUNK, Vault

LENGTHS = [0, 1, 5, 100, CHUNK - 1, CHUNK, CHUNK + 1, 2 * CHUNK, 100000, 3 * CHUNK + 17]
KINDS = ["file", "file", "file", "directory", "directory", "link"]
TARGETS = [b"a", b"../b", b"", b"t" * 300]
OVERHEAD = SEALED_CHUNK - CHUNK
FOREIGN_NAMES = [".DS_Store", "x.c9r", "AAAA.c9s", "copy (1).c9r"]
DIRECTORY_DAMAGES = ["foreign", "foreign", "further", "empty identifier", "long identifier", "shared identifier", "no folder"]
FILE_DAMAGES = ["size", "header", "chunks", "chunks", "chunks", "chunks", "chunks", "further"]


def sample_tree(seed):
    """Files as `Tree.of` takes them, of telling lengths, in directories, with links, long and composed names."""
    pick = random.Random(f"tree {seed}")
    files, directories = {}, [""]
    for _ in range(pick.choice([0, 1, 10, 20, 30, 40])):
        parent = pick.choice(directories)
        name = pick.choice(["a", "b", "c", "d", "\u00e9", "x" * 146, "x" * 147, "y" * 250, "\u6f22\u5b57" * 20, f"f{pick.randrange(9)}"])
        path = f"{parent}/{name}"
        if path in files:
            continue
        kind = pick.choice(KINDS)
        if kind == "directory":
            files[path] = None
            directories.append(path)
        else:
            files[path] = ("link", pick.choice(TARGETS)) if kind == "link" else pick.randbytes(pick.choice(LENGTHS))
    return files


class Planted:
    """A vault under keys of zeros in a folder that has these files. The model's tree of it is `Tree.of(files, moment, marks, shares_identifiers)`."""

    def __init__(self, top, files):
        self.vault, self.files, self.marks, self.shares_identifiers = Vault(top), dict(files), {}, False
        self.identifiers, self.places = {"": b""}, {}
        self.vault.make_root()
        for path, what in files.items():
            self.plant(path, what)

    def plant(self, path, what):
        parent, _, name = path.rpartition("/")
        directory = self.identifiers[parent]
        self.places[path] = self.vault.place(directory, name)
        if what is None:
            self.identifiers[path] = self.vault.put_directory(directory, name)
        elif isinstance(what, tuple):
            self.vault.put_link(directory, name, what[1])
        else:
            self.vault.put_file(directory, name, what)

    def mark(self, path, **fields):
        self.marks.setdefault(path, {}).update(fields)

    def content_place(self, path):
        """The host's file of a node: its bytes, or a directory's identifier."""
        place = self.places[path]
        inside = [os.path.join(place, name) for name in ("contents.c9r", "symlink.c9r", "dir.c9r")]
        return next(filter(os.path.exists, inside), place)

    def put_further(self, path):
        put(os.path.join(self.places[path], "more"), b"?")
        self.mark(path, foreign_beside=True)


class Damaged(Planted):
    """Such a vault with damages by a seed: wrong sizes, headers and chunks, bad nodes, foreign and further entries, shared identifiers."""

    def __init__(self, top, files, seed):
        super().__init__(top, files)
        self.random, self.kept = random.Random(f"damage {seed}"), set()  # the directories whose identifier another one shares stay
        for path, what in files.items():
            if self.random.random() > 0.6:
                continue
            if what is None:
                self.damage_directory(path)
            else:
                self.damage_file(path)

    def damage_directory(self, path):
        kind = self.random.choice(DIRECTORY_DAMAGES)
        is_empty = not any(other.startswith(path + "/") for other in self.files)
        if kind == "foreign":
            put(os.path.join(self.vault.folder(self.identifiers[path]), self.random.choice(FOREIGN_NAMES)), b"?")
            self.mark(path, foreign_within=True)
        elif kind == "further":
            self.put_further(path)
        elif is_empty and path not in self.kept and self.makes_bad(path, kind):
            self.files[path] = "bad"
            self.marks.pop(path, None)
            self.identifiers.pop(path)

    def makes_bad(self, path, kind):
        """Damages an empty directory so that it is none any more; whether that was done."""
        if kind == "no folder":
            shutil.rmtree(self.vault.folder(self.identifiers[path]))
            return True
        other = self.random.choice([at for at in self.identifiers if at != path])
        identifier = self.identifiers[other]
        if kind == "shared identifier":
            if not self.is_shared_by(path, identifier):
                return False
            self.kept |= {at for at, its in self.identifiers.items() if its == identifier}
            self.shares_identifiers = True
        identifiers = {"empty identifier": b"", "long identifier": b"x" * 1001, "shared identifier": identifier}
        put(self.content_place(path), identifiers[kind])
        return True

    def is_shared_by(self, path, identifier):
        """Whether a directory can name another's folder and be the bad one: the first of both in the order of their numbers keeps it."""
        if not identifier or self.identifiers[path] == identifier:
            return False
        first = next(at for at, its in self.identifiers.items() if its == identifier)
        tree = Tree.of(self.files)
        return tree.at(first).number < tree.at(path).number

    def damage_file(self, path):
        place = self.content_place(path)
        size = os.path.getsize(place)
        kind = self.random.choice(FILE_DAMAGES)
        if kind == "size":
            os.truncate(place, self.bad_size(size))
            self.mark(path, bad_size=True)
        elif kind == "header":
            flip(place, self.random.randrange(HEADER))
            self.mark(path, bad_header=True)
        elif kind == "chunks" and size > HEADER:
            self.mark(path, bad_chunks=self.damage_chunks(place, size))
        elif kind == "chunks" and self.random.random() < 0.5:
            put(place, bytes(OVERHEAD), "ab")  # an empty chunk whose tag is wrong
            self.mark(path, bad_chunks={0})
        elif kind == "further" and os.path.isdir(self.places[path]):
            self.put_further(path)

    def bad_size(self, size):
        """One that no content has: there is a part of the header, or of the last chunk's own bytes."""
        if size < 100 or self.random.random() < 0.5:
            return self.random.choice([0, 1, HEADER - 1, HEADER + 1, HEADER + OVERHEAD - 1])
        return HEADER + (size - HEADER) // SEALED_CHUNK * SEALED_CHUNK + self.random.randrange(1, OVERHEAD)

    def damage_chunks(self, place, size):
        """The numbers of the chunks that don't open any more."""
        count = -(-(size - HEADER) // SEALED_CHUNK)
        numbers = set(self.random.sample(range(count), self.random.randrange(1, count + 1)))
        for number in numbers:
            flip(place, HEADER + number * SEALED_CHUNK + self.random.randrange(OVERHEAD))
        return numbers


def put(path, data, mode="wb"):
    with open(path, mode) as file:
        file.write(data)


def flip(path, at):
    """Changes one bit of a byte."""
    with open(path, "r+b") as file:
        file.seek(at)
        (byte,) = file.read(1)
        file.seek(at)
        file.write(bytes([byte ^ 0x40]))
