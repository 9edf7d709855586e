"""Calls that must agree with each other, by the program's own outputs.

The model makes captures here, and says which frames carry which packets; it isn't asked for a verdict.
"""
from captures import header, record
from model import generator, lists, plan
from model.reading import NANOSECONDS, header as header_of, records
from running import difference, outcome, same, shown
from traffic import PROGRAMS, RUN, capture, delay_list, drop_list, link, settings


def without_cores(found):
    """A run's outcome without its core lines, which is what `plain` prints where all is delivered."""
    return found._replace(out=b"".join(line for line in found.out.splitlines(True) if not line.startswith(b"core ")))


def like_plain(program):
    """Without drops a run gives the verdicts, the flows and the counts of `plain`, on any cores and with any history."""
    for seed, chosen in enumerate(RUN * 2, 100):
        data, own = capture(seed, 400), settings(seed, chosen)
        wanted = outcome(program, f"plain program={chosen} {own}".split(), data)
        for more in ("cores=1", "cores=2", "cores=3 history=0", "cores=5 history=64 ring=1", "cores=16 threads=no"):
            words = f"run program={chosen} {own} {more}".split()
            yield f"seed {seed}, {more}", difference(without_cores(outcome(program, words, data)), wanted, words)


def whatever_the_schedule(program):
    """Rings and threads change nothing; nor does a history where nothing is dropped, but in the core lines."""
    for seed, chosen in enumerate(PROGRAMS + RUN, 200):
        data, call = capture(seed, 700), f"run program={chosen} {settings(seed, chosen)} cores={2 + seed % 15}"
        for over in ("", " drop=" + drop_list(seed, 700), f" history={seed % 3} drop=2-700/3", " " + " ".join(link(seed, 700))):
            calls = [f"{call}{over}{more}" for more in ("", " threads=no", " threads=yes", " ring=1", " ring=1 threads=no",
                                                        " ring=3", " ring=1024", " ring=4096")]
            yield f"seed {seed},{over}", same(program, calls, data)


def plain_over_the_kept(program):
    """Over a link, the verdicts are those of `plain` over a capture of just the packets that some delivered frame carries."""
    for seed, chosen in enumerate(RUN * 2, 300):
        frames, cores, history = 250, 1 + seed % 16, (0, 1, 3)[seed % 3]
        drop, late, own = drop_list(seed, frames), delay_list(seed, frames) if seed % 2 else "", settings(seed, chosen)
        data = capture(seed, frames)
        through = plan.Link(lists.ranges("Drop", drop.encode())[0], [], lists.delays(late.encode())[0])
        planned = plan.Plan(frames, cores, history, through)
        kept = sorted(planned.kept)
        order, unit = header_of(data)
        fewer = header(unit, order="<" if order == "little" else ">")
        fewer += b"".join(again(found, order, unit) for number, found in enumerate(records(data), 1) if number in planned.kept)
        plainly = outcome(program, f"plain program={chosen} {own}".split(), fewer).out.decode().splitlines()
        verdicts = {kept[int(line.split()[0]) - 1]: line.split()[1] for line in plainly if line[0].isdigit()}
        words = f"run program={chosen} {own} cores={cores} history={history} drop={drop} delay={late}".split()
        lines = outcome(program, words, data).out.decode().splitlines()
        found = [line for line in lines if line[0].isdigit()]
        wanted = [f"{number} {verdicts.get(number)}" for number in planned.delivered]
        flows = [[line for line in some if line.startswith("flows")] for some in (lines, plainly)]
        agree = lines and (found, flows[0]) == (wanted, flows[1])
        yield f"seed {seed}", None if agree else f"words: {shown(words)}\nthe verdicts or flows differ"


def again(found, order, unit):
    """A record of the capture once more, with the same time."""
    seconds = min(found.time // 1_000_000, 2**32 - 1)
    fraction = found.time - seconds * 1_000_000
    return record(found.frame, seconds, fraction * (1_000 if unit == NANOSECONDS else 1), order="<" if order == "little" else ">")


def load_as_run(program):
    """`load` is a run over the capture that it makes, without the verdict lines."""
    for seed, chosen in enumerate(RUN * 2, 400):
        start, frames, hosts = seed * 7_919, 900 + seed, 1 + seed % 40
        more = f"program={chosen} {settings(seed, chosen)} cores={1 + seed % 16} history={seed % 9}"
        more += " " + " ".join(link(seed, frames))
        words = f"load {more} start={start} frames={frames} hosts={hosts}".split()
        ran = outcome(program, f"run {more}".split(), generator.capture(start, frames, hosts))
        wanted = ran._replace(out=b"".join(line for line in ran.out.splitlines(True) if not line[:1].isdigit()))
        yield f"seed {seed}", difference(outcome(program, words), wanted, words)


def again_and_again(program):
    """One call gives one report, each time."""
    call = f"run program=conn cores=16 ring=1 drop={drop_list(1, 2_000)}"
    yield "sixteen cores, ten times", same(program, [call] * 10, capture(500, 2_000, 200))
    call = "run program=bucket rate=3 burst=2 cores=3 history=0 ring=2 drop=5-2000/7"
    yield "three cores, ten times", same(program, [call] * 10, capture(501, 2_000, 200))
