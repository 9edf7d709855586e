"""Parts of scr alone, run by scr_bench: the sequencer, and the programs' steps beside those of plain Rust."""
import shutil
import subprocess
import time

from measuring import TRIES, processor_seconds

HISTORIES = [0, 15, 64]
PACKETS = 1_000_000
STEPPED = ["ddos", "heavy", "bucket", "knock", "conn"]
FLOWS = [1, 1_000, 100_000]
# The first packets fill the table and aren't in the time.
FIRST_PACKETS, ALL_PACKETS = 500_000, 2_500_000


def scr_bench(top):
    """The proved program that runs parts of scr alone, built where it must be, or none where it can't be."""
    folder = f"{top}/crates/scr_bench"
    if not shutil.which("rt"):
        return None
    built = subprocess.run(["rt", "run", "--", "sequencer", "0", "0"], cwd=folder, stdin=subprocess.DEVNULL,
                           stdout=subprocess.DEVNULL, stderr=subprocess.DEVNULL)
    return None if built.returncode else f"{folder}/out/scr_bench"


def seconds_sequenced(program, history, packets):
    begin = time.perf_counter()
    subprocess.run([program, "sequencer", str(history), str(packets)], stdout=subprocess.DEVNULL, check=True)
    return time.perf_counter() - begin


def sequenced(program):
    rows = [["history", "packets a second", "ns each"]]
    for history in HISTORIES:
        best = min(seconds_sequenced(program, history, PACKETS) for _ in range(TRIES))
        rows.append([str(history), f"{PACKETS / best:,.0f}", f"{best / PACKETS * 1e9:,.0f}"])
    return rows


def stepped(program, *words):
    """The checksum that a program prints for these words, and the seconds of the processor that it took."""
    used = processor_seconds()
    done = subprocess.run([program, "step", *map(str, words)], stdout=subprocess.PIPE, check=True)
    return done.stdout, processor_seconds() - used


def best_step(runs):
    """The checksum of all packets, and the least seconds of a step: what the packets behind the first ones take longer."""
    first, whole = (min(seconds for _, seconds in of_size) for of_size in zip(*runs))
    return runs[0][1][0], (whole - first) / (ALL_PACKETS - FIRST_PACKETS)


def best_steps(programs, name, flows):
    """The best step of each program. The programs take turns."""
    sizes = FIRST_PACKETS, ALL_PACKETS
    tries = [[[stepped(program, name, flows, size) for size in sizes] for program in programs] for _ in range(TRIES)]
    return [best_step(runs) for runs in zip(*tries)]


def steps(programs):
    """The table of both programs' steps, and whether their verdicts were the same."""
    rows, same = [["program", "flows", "scr, ns each", "Rust, ns each", "scr / Rust"]], True
    for name in STEPPED:
        for flows in FLOWS:
            (mine, my_seconds), (plain, plain_seconds) = best_steps(programs, name, flows)
            if mine != plain:
                print(f"{name}, {flows:,} flows: the verdicts DIFFER")
                same = False
            each = [f"{1e9 * it:,.1f}" for it in (my_seconds, plain_seconds)]
            rows.append([name, f"{flows:,}", *each, f"{my_seconds / plain_seconds:.2f}"])
    return rows, same
