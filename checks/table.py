"""The checks over the built program, each a row of `CHECKS`: what is served is compared with other implementations, and clients, stops, refused memory and
broken vaults of every kind are tried. Each takes the program from the variable VAULTD."""

import importlib.util
import os
import shutil
from typing import NamedTuple

TOP = os.path.dirname(os.path.dirname(os.path.abspath(__file__)))
CRASH = os.path.join(TOP, "crates", "journal_crash", "out", "journal_crash")
PACKAGE, COMPILER, TRACER = "the Python package cryptography", "a C compiler, cc", "strace"
CRASHES = "crates/journal_crash/out/journal_crash, which the gate builds"


class Check(NamedTuple):
    name: str
    words: list
    needs: tuple = ()
    # Whether it looks at times or at memory, so that nothing may run beside it.
    is_alone: bool = False
    # What is run in its place over a build without proofs, if that is less, and why nothing is.
    smaller: list = None
    unproved: str = ""


def frames(count, *more):
    return ["checks/model/differ", "--runs", "1", "--count", str(count), *more]


SCRYPT = "it derives keys from passwords, a minute or two each without proofs"
SLOW = "without proofs it takes a quarter of an hour or more"
CHECKS = [
    Check("the sample vault", ["./first-run"]),
    Check("the model's own rows", ["checks/model/rows"]),
    Check("the manual page, the completions and what is printed", ["checks/pages"]),
    Check("secrets that are asked for at a terminal", ["checks/prompts"]),
    Check("what is installed", ["checks/installed"], unproved="the proved program is what is installed"),
    Check("the vaults of another implementation", ["checks/trees"]),
    Check("lists in pieces of every size", ["checks/lists"], (PACKAGE,), smaller=["checks/lists", "60"]),
    Check("entries that change their kind", ["checks/kinds"], (PACKAGE,)),
    Check("demonstrations", ["checks/demo"], unproved=SLOW),
    Check("demonstrations, one client after another", ["checks/demo-in-turn"], (PACKAGE,), unproved=SLOW),
    Check("many clients at once", ["checks/clients"], is_alone=True, unproved="the address sanitizer keeps memory, which it measures"),
    Check("clients that change a vault, and kills", ["checks/changes"], smaller=["checks/changes", "--kills", "4"]),
    Check("starts and stops", ["checks/starts"], is_alone=True, unproved=SCRYPT),
    Check("refused memory", ["checks/memory", "10"], (COMPILER,), unproved="the address sanitizer has a malloc of its own"),
    Check("what is flushed before each answer", ["checks/flushes"], (TRACER,), smaller=["checks/flushes", "--no-make"]),
    Check("one server at a vault, or several that only read", ["checks/locks"], smaller=["checks/locks", "100"]),
    Check("what is called before the lock is taken, and to read alone", ["checks/locks", "--traced"], (TRACER,)),
    Check("open journals that are shown and closed", ["checks/recovers"]),
    Check("another program beside a server", ["checks/beside"]),
    Check("secrets in files", ["checks/secrets"], smaller=["checks/secrets", "--raw-key"]),
    Check("what is said on standard error", ["checks/told"]),
    Check("clients that say nothing", ["checks/idle"], is_alone=True),
    Check("kills amid commits", ["bench/crash", "--built", "200"], (CRASHES,)),
    Check("random frames against the model", frames(2000, "--seed", "1"), (PACKAGE,)),
    Check("random frames over damaged vaults", frames(2000, "--damaged", "--seed", "2"), (PACKAGE,)),
    Check("many clients beside the model", ["checks/model/differ", "--at-once"], (PACKAGE,), unproved=SLOW),
    Check("clients that change the same files, beside the model", ["checks/orders"], (PACKAGE,)),
    Check("vaults made here and read by another implementation", ["checks/made"], (PACKAGE,), unproved=SCRYPT),
    Check("good and broken key files", ["checks/model/key-files", "--count", "100"], (PACKAGE,), unproved=SCRYPT),
    Check("key files made here", ["checks/model/key-files", "--made"], (PACKAGE,), unproved=SCRYPT),
]
IS_THERE = {
    PACKAGE: lambda: importlib.util.find_spec("cryptography") is not None,
    COMPILER: lambda: shutil.which("cc") is not None,
    TRACER: lambda: shutil.which("strace") is not None,
    CRASHES: lambda: os.access(CRASH, os.X_OK),
}


def lacking(check):
    """What the check needs and this machine lacks."""
    return [need for need in check.needs if not IS_THERE[need]()]
