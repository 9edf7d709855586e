"""`plain` of each of the five programs, beside plain Rust."""
import os

from made import connected, knocking, usual, write_capture
from measuring import best_times, report_of

FRAMES = 1_000_000
# The traffic of each program, those of the same traffic together.
TRAFFIC = [(usual, ["ddos", "heavy", "bucket"]), (knocking, ["knock"]), (connected, ["conn"])]
MOST = 1.33
HEAD = ["program", "scr, ns each", "Rust, ns each", "scr / Rust", "scr, ns of the processor", "Rust, ns of the processor",
        "scr / Rust, processor"]


def plain(programs, folder):
    """The table of both programs, and whether their reports were the same bytes."""
    rows, same = [HEAD], True
    path = f"{folder}/plain"
    for talk_of, names in TRAFFIC:
        write_capture(path, FRAMES, talk_of)
        for name in names:
            calls = [[program, "plain", f"program={name}"] for program in programs]
            if len({report_of(call, path) for call in calls}) > 1:
                print(f"plain program={name}: the two reports DIFFER")
                same = False
            rows.append([name, *(cell for pair in best_times(calls, path) for cell in cells_of(*pair))])
        os.remove(path)
    return rows, same


def cells_of(mine, rust):
    """The nanoseconds a frame of both, and the ratio, which is marked where it is above what is wanted."""
    each = [f"{1e9 * seconds / FRAMES:,.0f}" for seconds in (mine, rust)]
    return [*each, f"{mine / rust:.2f}" + (" above" if mine / rust > MOST else "")]
