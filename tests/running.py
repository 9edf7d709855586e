"""Runs the program, and says how what came differs from what was wanted."""
import contextlib
import os
import resource
import subprocess
import tempfile

from model import Outcome, answer

SECONDS = 120
NEVER = f"none after {SECONDS} seconds"


@contextlib.contextmanager
def file_of(data):
    with tempfile.TemporaryFile() as file:
        file.write(data)
        file.seek(0)
        yield file


def start(program, words, closed=None, memory=None, **streams):
    """Starts the program; closed is the number of a stream that it doesn't get, memory the bytes that it may have at most."""
    def prepare():
        if closed is not None:
            os.close(closed)
        if memory:
            resource.setrlimit(resource.RLIMIT_AS, (memory, memory))

    streams = {"stdout": subprocess.PIPE, "stderr": subprocess.PIPE, **streams}
    words = [word.encode() if isinstance(word, str) else word for word in words]
    return subprocess.Popen([program, *words], preexec_fn=prepare if closed is not None or memory else None, **streams)


def ended(process, feed=None):
    """The outcome of a started program, which is killed where it doesn't end in time."""
    with process:
        try:
            out, err = process.communicate(feed, timeout=SECONDS)
        except subprocess.TimeoutExpired:
            process.kill()
            return Outcome(NEVER, b"", b"")
    return Outcome(process.returncode, out or b"", err or b"")


def outcome(program, words, data=b"", **streams):
    with file_of(data) as file:
        return ended(start(program, words, **{"stdin": file, **streams}))


def shown(words):
    """The words as text, cut where they are very long."""
    texts = [(os.fsdecode(word) if isinstance(word, bytes) else word)[:200] for word in words]
    return " ".join(text if text.isascii() and text.isprintable() and text and " " not in text else repr(text) for text in texts)


def difference(found, wanted, words=()):
    """Says in a few lines how an outcome differs from the wanted one, or is None."""
    lines = [f"words: {shown(words)}"] if words else []
    if found.status != wanted.status:
        lines += [f"wanted: status {wanted.status}, {wanted.err[:200]!r}", f"came:   status {found.status}, {found.err[:200]!r}"]
        return "\n".join(lines)
    for name, one, other in (("standard output", found.out, wanted.out), ("standard error", found.err, wanted.err)):
        if one != other:
            mine, theirs = one.splitlines(True), other.splitlines(True)
            differ = (at for at, pair in enumerate(zip(mine, theirs)) if len(set(pair)) > 1)
            at = next(differ, min(len(mine), len(theirs)))
            lines += [f"wanted: {name}, line {at + 1}: {b''.join(theirs[at:at + 1])[:200]!r}"]
            lines += [f"came:   {name}, line {at + 1}: {b''.join(mine[at:at + 1])[:200]!r}"]
            return "\n".join(lines)
    return None


def bytes_read(words, status, data):
    """How much of a capture a call must have read, where that is known: nothing, or all of it."""
    if status == 1 or words[0] == "load":
        return 0
    return len(data) if status == 0 else None


def compare(program, words, data=b"", known=None):
    """What is wrong with a call over the data; known is the outcome, where it can be written down."""
    words = words.split() if isinstance(words, str) else words
    wanted = answer(words, data)
    if known and known != wanted:
        return "the model errs\n" + difference(wanted, known, words)
    with file_of(data) as file:
        found = ended(start(program, words, stdin=file))
        read = os.lseek(file.fileno(), 0, os.SEEK_CUR)
    wrong, wanted_read = difference(found, wanted, words), bytes_read(words, wanted.status, data)
    if not wrong and wanted_read not in (None, read):
        return f"words: {shown(words)}\nwanted: {wanted_read} bytes of the capture are read\ncame:   {read}"
    return wrong


def same(program, calls, data=b""):
    """What is wrong where calls over the same data don't all have one outcome, that of the first."""
    first, *others = [(words, outcome(program, words.split(), data)) for words in calls]
    for words, found in others:
        if found != first[1]:
            return f"like: {first[0]}\n" + difference(found, first[1], words.split())
    status, _, err = first[1]
    return None if status == 0 else f"words: {first[0]}\nwanted: status 0\ncame:   status {status}, {err[:200]!r}"


def good(text):
    """The outcome of a call that ends well, from its report, whose lines may be indented here."""
    return Outcome(0, "".join(f"{line.strip()}\n" for line in text.strip().splitlines()).encode(), b"")
