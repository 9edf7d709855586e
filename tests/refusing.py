"""Runs the program where the system refuses one of its calls, by a library that is loaded before it (refuse.c)."""
import contextlib
import os
import subprocess
import tempfile

from model import Outcome, fault
from running import difference, outcome, shown

HERE = os.path.dirname(os.path.realpath(__file__))
# No run asks for more calls of a kind than this, or it is taken for one that never ends.
MOST_CALLS = 1_000_000


@contextlib.contextmanager
def library():
    """The library, built from its source."""
    with tempfile.TemporaryDirectory() as folder:
        path = f"{folder}/refuse.so"
        subprocess.run(["cc", "-O2", "-shared", "-fPIC", "-o", path, f"{HERE}/refuse.c", "-ldl"], check=True)
        yield path


def environment(loaded, kind=None, number=0, single=False):
    """What the program is started with: the library, which call it refuses, and whether streams take single bytes."""
    more = {"LD_PRELOAD": loaded}
    if kind:
        more["SCR_REFUSE"] = f"{kind} {number}"
    if single:
        more["SCR_SINGLE"] = "1"
    return {**os.environ, **more}


def refused(kind, whole):
    """The outcomes that a run may have whose call was refused: its whole outcome is known."""
    def is_front(out):
        return whole.out.startswith(out)

    return {
        "read": lambda found: found == fault(3, "read fault"),
        "write": lambda found: found._replace(out=b"") == fault(4, "write fault") and is_front(found.out),
        "memory": lambda found: found._replace(out=b"") == fault(5, "out of memory") and is_front(found.out),
        "thread": lambda found: found == whole,
    }[kind]


def one_refused(loaded, program, words, data, kind, number, whole, single=False):
    """A run whose call of this number is refused: whether it was done nevertheless, and what is wrong with it."""
    found = outcome(program, words, data, env=environment(loaded, kind, number, single))
    if found == whole or refused(kind, whole)(found):
        return found == whole, None
    wanted = f"{kind} {number} refused: status {found.status}, {found.err[:200]!r}, {len(found.out)} bytes of a report"
    return False, f"words: {shown(words)}\ncame:   {wanted}\n" + (difference(found, whole) or "")


def each_refused(loaded, program, words, data, kind, whole, step=1, single=False):
    """What is wrong with a run of which each call of a kind is refused in turn, until one is done; step by step."""
    for number in range(1, MOST_CALLS, step):
        done, wrong = one_refused(loaded, program, words, data, kind, number, whole, single)
        if wrong or done:
            return wrong
    return f"words: {shown(words)}\nno run is done"


def whole_outcome(program, words, data):
    """The outcome where nothing is refused, which is a good one."""
    found = outcome(program, words, data)
    return found if found.status == 0 else Outcome(None, b"", found.err)
