"""A system that refuses calls, and captures that were damaged."""
from damaged import damaged, dealt_words, words_for
from refusing import each_refused, environment, library, one_refused, whole_outcome
from running import compare, difference, outcome
from traffic import capture as made, link

from .known import FOUR
from .sprayed import REPLAY, STREAM

# Four frames, and four of which the second is lost. Then a long capture over a link that loses, repeats and delays.
SHORT = ("program=ddos threshold=2", "program=ddos threshold=2 cores=2 history=1 drop=2")
LONG = "program=conn cores=3 " + " ".join(link(11, 3_000))
THREADS = ("threads=yes", "threads=no")
DAMAGED = 500


def calls():
    """Calls over a short and a long capture and over a stream, of each command, with the name that tells them."""
    data = made(11, 3_000, 300)
    for words in SHORT:
        for threads in THREADS:
            yield f"run {words} {threads}", FOUR
    yield f"plain {SHORT[0]}", FOUR
    yield f"load {SHORT[1]} frames=9", b""
    yield f"spray {SHORT[1]}", FOUR
    yield f"spray {LONG}", data
    for threads in THREADS:
        yield f"run {LONG} {threads}", data
        yield f"{REPLAY} {threads}", STREAM
    yield "plain program=conn", data
    yield "load program=heavy cores=3 frames=3000", b""


def refused_streams(program):
    """Each read and each write refused in turn, until a run is done; also where streams take single bytes."""
    with library() as loaded:
        for words, data in calls():
            whole = whole_outcome(program, words.split(), data)
            for kind in ("read", "write"):
                yield f"each {kind}: {words}", each_refused(loaded, program, words.split(), data, kind, whole)
        words = f"run {SHORT[1]}".split()
        whole = whole_outcome(program, words, FOUR)
        for kind in ("read", "write"):
            yield f"each {kind} of a byte", each_refused(loaded, program, words, FOUR, kind, whole, single=True)


def single_bytes(program):
    """Streams that take single bytes."""
    with library() as loaded:
        for words, data in calls():
            found = outcome(program, words.split(), data, env=environment(loaded, single=True))
            yield words, difference(found, whole_outcome(program, words.split(), data), words.split())


def refused_threads(program):
    """Each thread refused in turn: the run goes another way, and the report is the same."""
    data = made(12, 700, 100)
    with library() as loaded:
        for cores in (1, 2, 5, 16):
            for more in ("", " ring=1 drop=3-700/4 delay=9:40"):
                words = f"run program=ddos threshold=3 cores={cores}{more}".split()
                whole = whole_outcome(program, words, data)
                for number in range(1, cores + 2):
                    _, wrong = one_refused(loaded, program, words, data, "thread", number, whole)
                    yield f"{cores} cores,{more} thread {number}", wrong


def refused_memory(program):
    """Every seventh want of memory refused in turn, until a run is done. tests/memory tries each."""
    with library() as loaded:
        for threads in THREADS:
            words = f"run {SHORT[1]} {threads}".split()
            whole = whole_outcome(program, words, FOUR)
            yield threads, each_refused(loaded, program, words, FOUR, "memory", whole, step=7)


def damaged_captures(program):
    """Captures with bits turned, pieces cut out, doubled or turned about, and lengths that lie, each compared with the model."""
    for seed in range(20_000, 20_000 + DAMAGED):
        yield f"seed {seed}", compare(program, words_for(seed), damaged(seed))


def threads_side_by_side(program):
    """In threads a run gives the bytes that it gives in turns, on any cores, ring and link, and on one processor alone."""
    for seed in range(21_000, 22_000):
        data, words = made(seed, 40 + seed * 37 % 400), dealt_words(seed)
        wanted = outcome(program, [*words, "threads=no"], data)
        call = ["taskset", "-c", "0", program, *words] if seed % 5 == 0 else [program, *words]
        yield f"seed {seed}", difference(outcome(call[0], call[1:], data), wanted, words)
