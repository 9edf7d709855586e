"""What threads share, run by scr_bench beside plain Rust: a lane between two threads, and the logs of some cores."""
import subprocess
import time

from measuring import TRIES

# Its name, the words of scr_bench, those of plain Rust, and how many items go through.
SHARED = [("a lane beside a ring", "lane 1000000", "lane ring 1000000", 1_003_907),
          ("a lane beside std's channel", "lane 1000000", "lane channel 1000000", 1_003_907),
          ("logs of 2 cores", "log 2 300000", "log 2 300000", 900_000),
          ("logs of 4 cores", "log 4 300000", "log 4 300000", 2_100_000)]


def once(program, words):
    """The checksum that a program prints for these words, and its seconds from start to end."""
    begin = time.perf_counter()
    done = subprocess.run([program, *words.split()], stdout=subprocess.PIPE, check=True)
    return done.stdout, time.perf_counter() - begin


def shared(mine, plain):
    """The table of what threads share, and whether both programs' checksums were the same. The programs take turns."""
    rows, same = [["between threads", "scr, items a second", "Rust, items a second", "scr / Rust, time"]], True
    for name, my_words, plain_words, items in SHARED:
        tries = [(once(mine, my_words), once(plain, plain_words)) for _ in range(TRIES)]
        if len({checksum for one in tries for checksum, _ in one}) > 1:
            print(f"{name}: the checksums DIFFER")
            same = False
        best = [min(seconds for _, seconds in of_program) for of_program in zip(*tries)]
        rows.append([name, *(f"{items / it:,.0f}" for it in best), f"{best[0] / best[1]:.2f}"])
    return rows, same
