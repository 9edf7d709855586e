"""Steps of a chain beside those of its two programs, and of tables of rules beside those of the door, by `scr run`."""
from made import KNOCKS, datagrams, write_capture
from measuring import best_times, report_of

FRAMES, CORES = 100_000, 16
MOST_CHAIN, MOST_TABLE, MOST_RULES = 1.2, 2, 256
# Nothing is dropped before the second program.
ALL_PASS = "threshold=4294967295"
CALLS = {
    # The tracker looks at no datagram, so that this is what goes with a step and is none.
    "no step": ["program=conn"],
    "ddos": ["program=ddos", ALL_PASS],
    "heavy": ["program=heavy"],
    "chain of both": ["program=chain", "first=ddos", "second=heavy", ALL_PASS],
    "knock": ["program=knock"],
}


def door():
    """The rules of the door."""
    for state, port in enumerate(KNOCKS):
        yield f"{state}:d{port}>{state + 1}/D"
        if state:
            yield f"{state}:d{KNOCKS[0]}>1/D"
        yield f"{state}:*>0/D"
    yield f"{len(KNOCKS)}:*>{len(KNOCKS)}/P"


def many_rules():
    """The same behind rules of other states, as many as there may be."""
    rules = list(door())
    others = [f"{4 + number % 12}:d{number}>0/D" for number in range(MOST_RULES - len(rules))]
    return [*others, *rules]


def combined(program, folder):
    """The table of all calls, and whether the tables of rules had the report of the door."""
    path = f"{folder}/combined"
    write_capture(path, FRAMES, datagrams)
    words = {**CALLS, "9 rules": ["program=table", f"table={','.join(door())}"],
             "256 rules": ["program=table", f"table={','.join(many_rules())}"]}
    # All cores take all steps, and the capture is read once, whatever their count is.
    one, all_cores = ([[program, "run", *it, f"cores={cores}", "history=0", "threads=no"] for it in words.values()]
                      for cores in (1, CORES))
    same = len({report_of(call, path) for name, call in zip(words, all_cores) if name in ("knock", "9 rules", "256 rules")}) == 1
    if not same:
        print("run program=table: the report DIFFERS from that of the door")
    seconds = best_times(one + all_cores, path)[1]
    each = {name: 1e9 * (more - less) / (CORES - 1) / FRAMES for name, less, more in zip(words, seconds, seconds[len(words):])}
    steps = {name: it - each["no step"] for name, it in each.items()}
    beside = {"chain of both": (steps["ddos"] + steps["heavy"], MOST_CHAIN),
              "9 rules": (steps["knock"], MOST_TABLE), "256 rules": (steps["knock"], MOST_TABLE)}
    rows = [["program", "ns a frame and core", "of the step", "beside"]]
    rows += [[name, f"{each[name]:,.1f}", f"{steps[name]:,.1f}", told(steps[name], *beside[name]) if name in beside else ""]
             for name in words]
    return rows, same


def told(step, other, most):
    """The ratio of a step to what it is measured by, which is marked where it is above what is wanted."""
    return f"{step / other:.2f}" + (" above" if step > most * other else "")
