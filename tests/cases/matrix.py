"""Random captures over all programs, cores, histories and drop lists, each compared with the model byte for byte."""
import itertools

from running import compare
from traffic import PROGRAMS, RUN, capture, drop_list, settings

CORES, HISTORIES = (1, 2, 3, 16), (0, 1, 2, 64)
DROPS = ("none", "few", "random")
RINGS = ("", "ring=1", "ring=2", "ring=4096")
THREADS = ("", "threads=yes", "threads=no")
FEW = ("1", "2-1000/2", "1-1000/3,2-1000/5", "1-1000", "7-60", "64-129", "5,9,9-12,1000000000")


def matrix(program):
    """Each program with each count of cores, each history and each kind of drop list, over a capture of its own."""
    for seed, (chosen, cores, history, drops) in enumerate(itertools.product(PROGRAMS, CORES, HISTORIES, DROPS)):
        frames = 20 + seed * 37 % 130
        dropped = {"none": "", "few": FEW[seed % len(FEW)], "random": drop_list(seed, frames)}[drops]
        words = ["run", f"program={chosen}", *settings(seed, chosen).split(), f"cores={cores}", f"history={history}",
                 f"drop={dropped}", RINGS[seed % len(RINGS)], THREADS[seed % len(THREADS)]]
        yield f"seed {seed}", compare(program, list(filter(None, words)), capture(seed, frames))


def all_cores(program):
    """Each count of cores with its default history, and histories between."""
    for cores in range(1, 17):
        for seed, more in ((1_000 + cores, []), (2_000 + cores, ["drop=" + drop_list(cores, 300)]),
                           (3_000 + cores, [f"history={cores * 4}", f"drop=3-300/{cores + 1}"])):
            chosen = RUN[seed % 7]
            words = ["run", f"program={chosen}", *settings(seed, chosen).split(), f"cores={cores}", *more]
            yield f"seed {seed}", compare(program, words, capture(seed, 300))


def turns_of_256(program):
    """Counts of frames about a multiple of 256, at which every core hears how far the capture is, and drops about it."""
    seed = 4_000
    for frames in (255, 256, 257, 258, 511, 512, 513, 769):
        for drop in ("", f"1-{frames}", "256", "257", "250-262", f"{frames}", f"{frames - 1}-{frames}", f"2-{frames}/2"):
            chosen, cores, history = RUN[seed % 7], 1 + seed % 4, (0, 0, 1, 5)[seed % 4]
            words = f"run program={chosen} {settings(seed, chosen)} cores={cores} history={history} drop={drop}"
            words += f" ring={1 + seed % 3}"
            yield f"seed {seed}", compare(program, words, capture(seed, frames, 40))
            seed += 1


def plain_runs(program):
    """Short captures, and one of no frames."""
    for seed in range(5_000, 5_060):
        chosen = RUN[seed % 7]
        yield f"seed {seed}", compare(program, ["plain", f"program={chosen}", *settings(seed, chosen).split()],
                                      capture(seed, seed % 200))


def long_runs(program):
    """Captures of some thousands of frames, with drops past every limit of a lane, a history and a ring."""
    for seed, chosen in enumerate(RUN, 6_000):
        data = capture(seed, 5_000, 400)
        for more in ("cores=1", "cores=2 history=0 drop=2-5000/2", "cores=16 drop=1-5000/5",
                     "cores=5 history=64 drop=100-1400,1500-4000/3",
                     "cores=3 history=1 drop=2-2000/3,3-2000/3 ring=1", "cores=4 ring=1 threads=no",
                     "cores=7 history=0 drop=257-4999"):
            words = ["run", f"program={chosen}", *settings(seed, chosen).split(), *more.split()]
            yield f"{chosen}, {more}", compare(program, words, data)
    many = ",".join(f"{first}-{first + 3_000}/{2 + first % 9}" for first in range(1, 257))
    words = f"run program=heavy cores=16 history=64 drop={many}"
    yield "256 pieces that overlap", compare(program, words, capture(6_100, 5_000, 400))


def load_runs(program):
    """Captures that the program makes."""
    for seed, (start, frames, hosts) in enumerate(itertools.product((0, 1, 2**64 - 1, 12_345_678_901_234_567_890),
                                                                    (1, 2, 257, 1_200), (1, 16, 65_536))):
        chosen = RUN[seed % 7]
        words = f"load program={chosen} start={start} frames={frames} hosts={hosts} cores={1 + seed % 16} history={seed * 7 % 65}"
        more = settings(seed, chosen).split() + (["drop=" + drop_list(seed, frames)] if seed % 3 else [])
        yield f"seed {seed}", compare(program, [*words.split(), *more], b"")
    for words in ("load program=ddos", "load program=heavy start=0", "load program=bucket frames=1000",
                  "load program=knock hosts=16", "load program=conn"):
        yield f"the defaults: {words}", compare(program, words, b"")
