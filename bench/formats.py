"""The same frames in both formats of captures, by `scr plain`."""
from made import write_blocks, write_capture
from measuring import best_times, report_of

FRAMES, MOST = 1_000_000, 1.2


def formats(program, folder):
    """The table of both formats, and whether their reports were the same bytes."""
    call = [program, "plain", "program=ddos"]
    paths = {"libpcap": f"{folder}/libpcap", "pcapng": f"{folder}/pcapng"}
    write_capture(paths["libpcap"], FRAMES)
    write_blocks(paths["pcapng"], FRAMES)
    same = len({report_of(call, path) for path in paths.values()}) == 1
    if not same:
        print("the reports of the two formats DIFFER")
    seconds = {name: best_times([call], path)[1][0] for name, path in paths.items()}
    ratio = seconds["pcapng"] / seconds["libpcap"]
    rows = [["format", "ns of the processor", "pcapng / libpcap"]]
    rows += [[name, f"{1e9 * it / FRAMES:,.0f}", ""] for name, it in seconds.items()]
    rows[-1][-1] = f"{ratio:.2f}" + (" above" if ratio > MOST else "")
    return rows, same
