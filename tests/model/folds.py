"""What a call runs: one program, a table of rules, or a chain of two programs."""
from .programs import PROGRAMS, Table
from .tables import TABLE

FIRSTS, SECONDS = ("ddos", "heavy", "bucket", "knock"), tuple(PROGRAMS)
NAMES = (*PROGRAMS, "chain", "table")


def names_of(given):
    """The names of the verdicts, in their order."""
    if given["program"] == "chain":
        return (*PROGRAMS[given["second"]].names, "STOPPED")
    return {**PROGRAMS, "table": TABLE}[given["program"]].names


def fold(given, packets):
    """The verdict on each packet, and how many entries there are behind the last."""
    if given["program"] == "chain":
        return fold_of_two(PROGRAMS[given["first"]], PROGRAMS[given["second"]], given, packets)
    return fold_of_one({**PROGRAMS, "table": TABLE}[given["program"]], given, packets)


def fold_of_one(program, given, packets):
    """One core, one packet after the other."""
    table, verdicts = Table(given["flows"]), []
    for packet in packets:
        looked_at = packet.frame.kind in program.kinds
        verdicts.append(program.step(table, packet, given) if looked_at else "OTHER")
    return verdicts, len(table.entries)


def fold_of_two(first, second, given, packets):
    """Two folds and a filter: the second one's is over the packets that the first lets pass."""
    of_first, entries = fold_of_one(first, given, packets)
    passed = [verdict in ("PASS", "OTHER") for verdict in of_first]
    of_second, more = fold_of_one(second, given, [packet for packet, passes in zip(packets, passed) if passes])
    rest = iter(of_second)
    return [next(rest) if passes else "STOPPED" for passes in passed], entries + more
