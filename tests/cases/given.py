"""The files of the folder that SCR_CAPTURES names, which may be any files."""
import os
import shutil
import subprocess
import tempfile

from running import compare, difference, outcome, shown

from .agreement import without_cores
from .tables import LOCK_OUT

# Of each program a call may run: what stands behind it.
CALLS = {
    "ddos": ("threshold=3", "cores=2 history=0 drop=2-1000000/2", "cores=16 flows=5 threshold=1",
             "cores=3 history=64 drop=1-100,200-900/7"),
    "heavy": ("bytes=1000", "cores=3 history=0 drop=3-1000000/3", "cores=5 flows=3", "cores=2 history=1 drop=10-30"),
    "bucket": ("rate=10 burst=3", "cores=4 drop=1-1000000/5", "cores=2 rate=1000000 burst=1",
               "cores=16 history=2 drop=4-1000000/2"),
    "knock": ("", "cores=3 drop=1,2,3", "cores=2 history=0 ports=80,443,22 drop=5-1000000/2", "cores=7 flows=2"),
    "conn": ("", "cores=3 drop=1-1000000/4", "cores=8 idle=1000 history=0 drop=2-1000000/3", "cores=2 history=64 flows=4"),
    "chain first=bucket second=conn": ("", "cores=3 rate=5 burst=2", "cores=2 history=0 drop=3-1000000/4", "cores=5 flows=3"),
    f"table table={LOCK_OUT}": ("", "cores=3", "cores=4 history=0 drop=2-1000000/3", "cores=2 flows=2 drop=5-1000000/9"),
}


def given_captures(program):
    """Each file by each program: plain and several runs against the model, and what must agree against each other."""
    folder = os.environ["SCR_CAPTURES"]
    for name in sorted(os.listdir(folder)):
        if not os.path.isfile(f"{folder}/{name}"):
            continue
        with open(f"{folder}/{name}", "rb") as file:
            data = file.read()
        for chosen in CALLS:
            for more in CALLS[chosen]:
                yield f"{name}: {chosen} {more}", compare(program, f"run program={chosen} {more}".split(), data)
            yield f"{name}: plain {chosen}", compare(program, f"plain program={chosen}", data)
            yield f"{name}: {chosen} as plain", as_plain(program, chosen, data)
            call = f"run program={chosen} {CALLS[chosen][3]}"
            yield f"{name}: {chosen} whatever the ring", agreeing(program, [call, f"{call} ring=1", f"{call} threads=no"], data)
        if shutil.which("tcpdump"):
            yield f"{name}: as tcpdump writes it", as_converted(program, f"{folder}/{name}", data)


def as_plain(program, chosen, data):
    words = f"run program={chosen} cores=4".split()
    return difference(without_cores(outcome(program, words, data)), outcome(program, f"plain program={chosen}".split(), data),
                      words)


def as_converted(program, path, data):
    """What is wrong where tcpdump takes the whole file, and writes a capture that has other verdicts. No times are looked at."""
    words = "plain program=ddos threshold=3".split()
    with tempfile.NamedTemporaryFile() as made:
        done = subprocess.run(["tcpdump", "-r", path, "-w", made.name], stdout=subprocess.DEVNULL, stderr=subprocess.DEVNULL)
        found = outcome(program, words, data)
        if done.returncode or found.status:
            return None
        return difference(outcome(program, words, made.read()), found, words)


def agreeing(program, calls, data):
    """What is wrong where the calls differ, or end with a status that no file gives."""
    first = outcome(program, calls[0].split(), data)
    if first.status not in (0, 2, 6, 7):
        return f"words: {shown(calls[0].split())}\ncame:   status {first.status}, {first.err[:200]!r}"
    return next(filter(None, (difference(outcome(program, words.split(), data), first, words.split()) for words in calls[1:])),
                None)
