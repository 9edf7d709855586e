"""`spray` beside plain Rust that writes the same bytes, and `replay` of these bytes beside `run` of the capture."""
import os

from made import connected, write_capture
from measuring import best_times, report_of

FRAMES, TRIES = 1_000_000, 5
CORES = [1, 4, 16]
# What spray may take, as times plain Rust; and replay, as times run.
MOST_SPRAY, MOST_REPLAY = 1.5, 1.3
HEAD = ["cores", "stream, MB", "spray, ns each", "Rust, ns each", "scr / Rust", "replay, ns each", "run, ns each", "replay / run"]


def streams(program, baseline, folder):
    """The table, and whether the streams, and the reports, were the same bytes."""
    rows, same = [HEAD], True
    capture, stream = f"{folder}/capture", f"{folder}/stream"
    write_capture(capture, FRAMES, connected)
    for cores in CORES:
        words = ["program=conn", f"cores={cores}"]
        sprays, replay, run = [[it, "spray", *words] for it in (program, baseline)], [program, "replay", words[0]], [program, "run", *words]
        streamed = [report_of(call, capture) for call in sprays]
        with open(stream, "wb") as file:
            file.write(streamed[0])
        if streamed[0] != streamed[1] or report_of(replay, stream) != report_of(run, capture):
            print(f"{' '.join(words)}: the streams or the reports DIFFER")
            same = False
        sprayed = best_times(sprays, capture, TRIES)[0]
        ran = best_of_turns([(replay, stream), (run, capture)])
        rows.append([str(cores), f"{len(streamed[0]) / 1e6:,.0f}", *cells_of(sprayed, MOST_SPRAY), *cells_of(ran, MOST_REPLAY)])
        os.remove(stream)
    os.remove(capture)
    return rows, same


def best_of_turns(calls):
    """The best seconds of calls that read different files, by turns."""
    runs = [[best_times([call], path, 1)[0][0] for call, path in calls] for _ in range(TRIES)]
    return [min(it) for it in zip(*runs)]


def cells_of(pair, most):
    ratio = pair[0] / pair[1]
    return [*(f"{1e9 * seconds / FRAMES:,.0f}" for seconds in pair), f"{ratio:.2f}" + (" above" if ratio > most else "")]
