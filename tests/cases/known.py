"""Captures that many cases use, and reports written down from the numbers that stand in them."""
from captures import capture, header, record, udp
from model import Outcome

SOURCE, OTHER_SOURCE = udp("10.0.0.1"), udp("10.0.0.3")
FOUR = capture([SOURCE] * 4)
FOUR_REPORT = b"""1 PASS
2 PASS
3 DROP
4 DROP
frames 4 delivered 4 kept 4
core 0 delivered 4 carried 4 recovered 0 skipped 0
flows 1
verdict PASS 2
verdict DROP 2
verdict OTHER 0
"""
assert (len(FOUR), len(FOUR_REPORT)) == (256, 161)
PASSING = ("PASS", "DROP", "OTHER")
HEAVY = ("PASS", "HEAVY", "OTHER")
STATES = ("SYN_SENT", "SYN_RECV", "ESTABLISHED", "FIN_WAIT", "LAST_ACK", "TIME_WAIT", "CLOSED", "INVALID", "OTHER")
SYN, SYN_ACK, ACK, PUSH, FIN_ACK, RST = 0x02, 0x12, 0x10, 0x18, 0x11, 0x04


def timed(frames, times):
    """A capture of the frames at these times in microseconds."""
    return header() + b"".join(record(frame, *divmod(time, 1_000_000)) for frame, time in zip(frames, times))


def whole(verdicts, frames, cores, flows, names=PASSING):
    """A report. verdicts: names for frames 1, 2 and so on, or pairs with the number; frames: all, delivered, kept;
    cores: delivered, carried, recovered and skipped of each."""
    verdicts = verdicts.split() if isinstance(verdicts, str) else verdicts
    verdicts = list(enumerate(verdicts, 1)) if verdicts and isinstance(verdicts[0], str) else verdicts
    lines = [f"{number} {name}" for number, name in verdicts]
    lines.append("frames %d delivered %d kept %d" % frames)
    lines += [f"core {core} delivered %d carried %d recovered %d skipped %d" % counts for core, counts in enumerate(cores)]
    lines.append(f"flows {flows}")
    lines += [f"verdict {name} {sum(1 for _, given in verdicts if given == name)}" for name in names]
    return Outcome(0, "".join(f"{line}\n" for line in lines).encode(), b"")


def plain(verdicts, flows, names=PASSING):
    """The report of `plain`."""
    total = len(verdicts.split())
    return whole(verdicts, (total, total, total), [], flows, names)


def one_core(verdicts, flows, names=PASSING):
    """The report of a run on one core without drops."""
    total = len(verdicts.split())
    return whole(verdicts, (total, total, total), [(total, total, 0, 0)], flows, names)
