"""`run threads=no` on one core and on many: its time, how it grows with the frames, and its memory; and what a link costs."""
import collections
import os

from made import write_capture
from measuring import best_times, free_memory, peak_memory

SIZES = [100_000, 1_000_000]
TRIES = 3
# What a run keeps of each frame, and more of it for each core, in bytes.
ROW, OF_CORE = 56, 64
# A run is left out where less than this times its memory is free, so that it pushes nobody out.
FREE_TIMES = 2
# How many pieces a list of the link has, and what a run over a link may cost, as times the same run without one.
PIECES, MOST_LINK = 256, 1.5
HEAD = ["", "frames", "ns each", "ns each, processor", "growth", "growth, processor", "peak, MB", "MB by the sizes"]

Setting = collections.namedtuple("Setting", "cores history drop repeat delay", defaults=[None] * 4)


def one_in_ten(shift):
    """Pieces that have about one frame in ten, each piece some frames from front to end."""
    return ",".join(f"{10 * piece + (piece + shift) % 10 + 1}-1000000000/{10 * PIECES}" for piece in range(PIECES))


def many_delays():
    """Delays of 1 to 1,000 steps, of frames from front to end of the longest capture."""
    return ",".join(f"{(piece + 1) * SIZES[-1] // (PIECES + 1)}:{(piece * 37) % 1_000 + 1}" for piece in range(PIECES))


def one_in_two(first):
    """Pieces each of which has every second frame from its first to the last one."""
    return ",".join(f"{first + 2 * piece}-1000000000/2" for piece in range(PIECES))


MANY_DROPS = one_in_ten(0)
SETTINGS = [Setting(1), Setting(4), Setting(16), Setting(16, 64, MANY_DROPS)]
LINK_CORES = 16
OVER_A_LINK = {
    "pieces apart": Setting(LINK_CORES, None, MANY_DROPS, one_in_ten(5), many_delays()),
    "pieces that overlap": Setting(LINK_CORES, None, one_in_two(2), one_in_two(1), many_delays()),
}


def words_of(setting):
    more = [f"{name}={it}" for name, it in zip(setting._fields, setting) if it is not None]
    return ["run", "program=ddos", "threads=no", *more]


def title_of(setting):
    history = "" if setting.history is None else f" history={setting.history}"
    return f"cores={setting.cores}{history}" + (" drops" if setting.drop else "")


def memory_of(setting, frames):
    """The bytes that the sizes of what is kept make."""
    return frames * (ROW + OF_CORE * setting.cores)


def over_cores(program, folder):
    """The table of all settings at all sizes. One run at a time."""
    paths = [f"{folder}/cores-{size}" for size in SIZES]
    for path, size in zip(paths, SIZES):
        write_capture(path, size)
    rows = [HEAD, *(row for setting in SETTINGS for row in rows_of(program, setting, paths))]
    for path in paths:
        os.remove(path)
    return rows


def rows_of(program, setting, paths):
    call, before = [program, *words_of(setting)], None
    for path, size in zip(paths, SIZES):
        expected = memory_of(setting, size)
        start = [title_of(setting), f"{size:,}"]
        if free_memory() * 1024 < FREE_TIMES * expected:
            yield [*start, *["no room"] * 5, megabytes(expected)]
            continue
        times = [seconds for seconds, in best_times([call], path, TRIES)]
        growth = [f"{now / then:.1f}" for now, then in zip(times, before)] if before else ["", ""]
        each = [f"{1e9 * seconds / size:,.0f}" for seconds in times]
        yield [*start, *each, *growth, megabytes(1024 * peak_memory(call, path)), megabytes(expected)]
        before = times


def over_a_link(program, folder):
    """The table of runs over links with three long lists, and of the same run without a link, in turns."""
    frames, path = SIZES[-1], f"{folder}/linked"
    if free_memory() * 1024 < FREE_TIMES * memory_of(Setting(LINK_CORES), frames):
        return [["no room"]]
    write_capture(path, frames)
    calls = [[program, *words_of(setting)] for setting in (Setting(LINK_CORES), *OVER_A_LINK.values())]
    rows = [["", "", "ns each without a link", "ns each over the link", "ratio"]]
    for title, (without, *over) in zip(("time", "processor"), best_times(calls, path)):
        rows += [compared(link, title, without, seconds, frames) for link, seconds in zip(OVER_A_LINK, over)]
    os.remove(path)
    return rows


def compared(link, title, without, over, frames):
    each = [f"{1e9 * seconds / frames:,.0f}" for seconds in (without, over)]
    return [link, title, *each, f"{over / without:.2f}" + (" above" if over > MOST_LINK * without else "")]


def megabytes(count):
    return f"{count / 1e6:,.0f}"
