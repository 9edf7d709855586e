"""The lines of the report."""
import collections


def lines(command, names, plan, verdicts, flows):
    """The report's lines: verdicts are by number, of all packets that were kept."""
    given = [(number, verdicts[number]) for number in plan.delivered]
    if command != "load":
        yield from (f"{number} {verdict}" for number, verdict in given)
    yield f"frames {plan.frames} delivered {len(plan.delivered)} kept {len(plan.kept)}"
    if command != "plain":
        for core in range(plan.cores):
            counts = plan.counts(core)
            yield f"core {core} " + " ".join(f"{name} {count}" for name, count in counts._asdict().items())
    yield f"flows {flows}"
    totals = collections.Counter(verdict for _, verdict in given)
    yield from (f"verdict {name} {totals[name]}" for name in names)
