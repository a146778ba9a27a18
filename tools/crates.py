"""The crates that crates.txt lists and what each has, and whether a program is newer than their sources."""

import os
import re
import subprocess

TOP = os.path.dirname(os.path.dirname(os.path.abspath(__file__)))
PROVED = os.path.join(TOP, "crates", "vaultd", "out", "vaultd")
UNPROVED = os.path.join(TOP, "out", "unproved", "vaultd")


def lines():
    """The line of crates.txt for each crate."""
    with open(os.path.join(TOP, "crates.txt"), encoding="utf-8") as file:
        found = [line.partition("#")[0].strip() for line in file]
    return {line.partition(":")[0].split()[0]: line for line in found if line}


def below(names, found):
    """These crates and those that they stand on, as far as crates.txt has them."""
    kept, more = set(), list(names)
    while more:
        name = more.pop()
        if name in found and name not in kept:
            kept.add(name)
            more += found[name].partition(":")[2].split()
    return kept


def folder_of(name):
    return os.path.join(TOP, "crates", name)


def bytes_of(name, part):
    """The file `stdin`, `stdout`, `args` or `status` of a program, or None."""
    path = os.path.join(folder_of(name), part)
    if not os.path.isfile(path):
        return None
    with open(path, "rb") as file:
        return file.read()


def data_of(name):
    """The files of a program's folder `data`: what each is called there, and its path."""
    folder = os.path.join(folder_of(name), "data")
    for place, _, names in os.walk(folder):
        for file in names:
            path = os.path.join(place, file)
            yield os.path.relpath(path, folder), path


def sources_of(name):
    """The texts of a crate's code."""
    for place, _, names in os.walk(os.path.join(folder_of(name), "src")):
        for file in names:
            with open(os.path.join(place, file), encoding="utf-8") as text:
                yield text.read()


def size_below(name, found):
    """The bytes of code of a crate and of those that it stands on."""
    return sum(len(text) for crate in below([name], found) for text in sources_of(crate))


def has_tests(name):
    return any(re.search(r"#\s*\[\s*test\s*]", text) for text in sources_of(name))


def is_program(name):
    return os.path.isfile(os.path.join(folder_of(name), "src", "main.rt"))


def is_current(program):
    """Whether a program is there and no source is newer."""
    return subprocess.run([os.path.join(TOP, "tools", "is-current"), program]).returncode == 0


def processors():
    return len(os.sched_getaffinity(0))


def free_memory():
    """Bytes that can be used without swapping."""
    with open("/proc/meminfo", encoding="ascii") as file:
        return next(int(line.split()[1]) * 1024 for line in file if line.startswith("MemAvailable:"))

