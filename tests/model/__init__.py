"""What the program must answer, computed from the definitions alone. Nothing of it is shared with the program.

`answer(words, data)` is the whole outcome of a call. As a program: python3 tests/model WORD.. < CAPTURE
"""
import collections
import functools

from . import blocks, folds, generator, plan, reading, report, stream
from .frames import fields
from .reading import Malformed
from .words import Refused, settings

Outcome = collections.namedtuple("Outcome", "status out err")
Packet = collections.namedtuple("Packet", "time frame")


def fault(status, cause):
    """The outcome of a call that ends with a fault: its line, and no report."""
    return Outcome(status, b"", f"scr: {cause}\n".encode())


@functools.lru_cache(maxsize=4)
def packets(capture):
    """The time and the fields of each frame of a capture."""
    known = functools.lru_cache(maxsize=100_000)(fields)
    form = blocks if capture.startswith(blocks.FIRST) else reading
    return [Packet(time, known(frame)) for time, frame in form.records(capture)]


def planned_over(command, given, data):
    """The plan of a run over this standard input, and the packet of each number that it may keep."""
    if command == "replay":
        return stream.read(given["program"], data)
    if command == "load":
        data = generator.capture(given["start"], given["frames"], given["hosts"])
    read = packets(data)
    if command == "plain":
        given = {**given, "cores": 1, "history": 0, "drop": [], "repeat": [], "delay": []}
    link = plan.Link(given["drop"], given["repeat"], given["delay"])
    return plan.Plan(len(read), given["cores"], given["history"], link), dict(enumerate(read, 1))


def report_of(command, given, planned, read):
    """The report over a plan: the verdicts on the packets that are kept, and the counts."""
    kept = sorted(planned.kept)
    verdicts, flows = folds.fold(given, [read[number] for number in kept])
    lines = report.lines(command, folds.names_of(given), planned, dict(zip(kept, verdicts)), flows)
    return "".join(f"{line}\n" for line in lines).encode()


def answer(words, data=b""):
    """The outcome of a call with these words over this standard input."""
    try:
        command, given = settings(words)
        planned, read = planned_over(command, given, data)
    except Refused as refused:
        return fault(1, f"word {refused.number}: {refused.cause}")
    except Malformed as malformed:
        return fault(malformed.status, malformed.cause)
    if command == "spray":
        return Outcome(0, stream.streamed(given["program"], planned, list(read.values())), b"")
    return Outcome(0, report_of(command, given, planned, read), b"")
