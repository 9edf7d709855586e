"""`run` whose cores are threads: beside plain Rust that has the same threads, rings and logs, and beside `threads=no`."""
import collections
import os

from made import connected, usual, write_capture
from measuring import best_lines, best_times, peak_memory, report_of

FRAMES, TRIES = 1_000_000, 3
PROGRAMS = [("ddos", usual), ("conn", connected)]
CORES = [1, 2, 4, 16]
# What a run may take, as times plain Rust with as many cores.
MOST = {1: 2, 2: 2, 4: 2, 16: 3}
HEAD = ["program", "cores", "scr, ns each", "Rust, ns each", "scr / Rust", "threads=no, ns each", "yes / no",
        "scr, ns of the processor", "Rust, ns of the processor", "threads=no, ns of the processor", "scr, peak MB",
        "first line, ms", "last, ms", "threads=no, first line, ms"]

Figure = collections.namedtuple("Figure", "program cores threads phases rust")


def threads(program, baseline, folder):
    """The table, whether the reports were the same bytes, and the figures as numbers."""
    rows, figures, same = [HEAD], [], True
    path = f"{folder}/threads"
    for name, talk_of in PROGRAMS:
        write_capture(path, FRAMES, talk_of)
        for cores in CORES:
            words = [f"program={name}", f"cores={cores}"]
            mine, phases = [program, "run", *words], [program, "run", *words, "threads=no"]
            calls = [mine, [baseline, "crew", *words], phases]
            if len({report_of(call, path) for call in calls}) > 1:
                print(f"run {' '.join(words)}: the reports DIFFER")
                same = False
            whole, processor = best_times(calls, path, TRIES)
            lines = [*best_lines(mine, path, TRIES), best_lines(phases, path, TRIES)[0]]
            rows.append([name, str(cores), *cells_of(cores, whole, processor), f"{peak_memory(mine, path) * 1024 / 1e6:,.0f}",
                         *(f"{1e3 * seconds:,.0f}" for seconds in lines)])
            figures.append(Figure(name, cores, *(1e9 * whole[which] / FRAMES for which in (0, 2, 1))))
        os.remove(path)
    return rows, same, figures


def cells_of(cores, whole, processor):
    each = [f"{1e9 * seconds / FRAMES:,.0f}" for seconds in whole]
    ratio = whole[0] / whole[1]
    used = [f"{1e9 * seconds / FRAMES:,.0f}" for seconds in processor]
    return [each[0], each[1], f"{ratio:.2f}" + (" above" if ratio > MOST[cores] else ""), each[2],
            f"{whole[0] / whole[2]:.2f}", *used]


# The picture: nanoseconds a frame by cores.
WIDTH, HEIGHT, LEFT, TOP, BOTTOM = 640, 360, 70, 30, 50
LINES = [("threads", "scr, threads", "#1f6f8b"), ("phases", "scr, threads=no", "#c8553d"), ("rust", "plain Rust, threads", "#7a7a7a")]


def drawn(figures, program):
    """The figures of a program as a picture in SVG."""
    own = [figure for figure in figures if figure.program == program]
    most = max(max(figure[2:]) for figure in own) * 1.1
    across = {figure.cores: LEFT + 40 + place * (WIDTH - LEFT - 80) / (len(own) - 1) for place, figure in enumerate(own)}

    def height(value):
        return HEIGHT - BOTTOM - value / most * (HEIGHT - BOTTOM - TOP)

    parts = [f'<svg xmlns="http://www.w3.org/2000/svg" width="{WIDTH}" height="{HEIGHT}" font-family="sans-serif" font-size="12">',
             f'<rect width="{WIDTH}" height="{HEIGHT}" fill="white"/>',
             f'<text x="{LEFT}" y="18">program={program}: nanoseconds a frame by cores, {FRAMES:,} frames</text>']
    for step in range(5):
        value = most * step / 4
        parts.append(f'<line x1="{LEFT}" y1="{height(value):.1f}" x2="{WIDTH - 20}" y2="{height(value):.1f}" stroke="#dddddd"/>'
                     f'<text x="{LEFT - 8}" y="{height(value) + 4:.1f}" text-anchor="end">{value:,.0f}</text>')
    parts += [f'<text x="{x:.1f}" y="{HEIGHT - BOTTOM + 18}" text-anchor="middle">{cores}</text>' for cores, x in across.items()]
    for place, (field, title, color) in enumerate(LINES):
        points = [(across[figure.cores], height(getattr(figure, field))) for figure in own]
        parts.append(f'<polyline fill="none" stroke="{color}" stroke-width="2" points="'
                     + " ".join(f"{x:.1f},{y:.1f}" for x, y in points) + '"/>')
        parts += [f'<circle cx="{x:.1f}" cy="{y:.1f}" r="3" fill="{color}"/>' for x, y in points]
        parts.append(f'<text x="{LEFT + 20 + 190 * place}" y="{HEIGHT - 12}" fill="{color}">{title}</text>')
    return "\n".join([*parts, "</svg>\n"])
