"""Running programs over captures, and what a run takes. A call is a program and its words."""
import os
import resource
import shutil
import subprocess
import time

TRIES = 7


def report_of(call, capture):
    with open(capture, "rb") as file:
        return subprocess.run(call, stdin=file, stdout=subprocess.PIPE, check=True).stdout


def processor_seconds():
    used = resource.getrusage(resource.RUSAGE_CHILDREN)
    return used.ru_utime + used.ru_stime


def seconds_of(call, capture):
    """The seconds of one run from start to end, and those of the processor; its report is thrown away."""
    with open(capture, "rb") as file:
        begin, used = time.perf_counter(), processor_seconds()
        subprocess.run(call, stdin=file, stdout=subprocess.DEVNULL, check=True)
        return time.perf_counter() - begin, processor_seconds() - used


def best_times(calls, capture, tries=TRIES):
    """The best seconds of each call, and the best of the processor. The calls take turns, so that what else the machine
    does meets them alike."""
    runs = [[seconds_of(call, capture) for call in calls] for _ in range(tries)]
    return [[min(run[which] for run in of_call) for of_call in zip(*runs)] for which in (0, 1)]


def peak_memory(call, capture):
    """KiB at the most, asked while parts of the report come. The report is longer than a pipe holds, so the program can't end
    before the last is asked for. (What wait tells counts this script's own memory, which the program has until it is loaded.)"""
    peak = 0
    with open(capture, "rb") as file, subprocess.Popen(call, stdin=file, stdout=subprocess.PIPE) as process:
        while process.stdout.read1(1 << 15):
            with open(f"/proc/{process.pid}/status") as status:
                peak = max([peak, *(int(line.split()[1]) for line in status if line.startswith("VmHWM"))])
    return peak


def seconds_to_lines(call, capture):
    """The seconds until the first part of the report has come, and until the last has."""
    with open(capture, "rb") as file:
        begin = time.perf_counter()
        with subprocess.Popen(call, stdin=file, stdout=subprocess.PIPE) as process:
            process.stdout.read1(1)
            first = time.perf_counter() - begin
            while process.stdout.read1(1 << 20):
                pass
            return first, time.perf_counter() - begin


def best_lines(call, capture, tries):
    """The least of several runs, each by itself."""
    return [min(of_all) for of_all in zip(*(seconds_to_lines(call, capture) for _ in range(tries)))]


def free_memory():
    """KiB that the machine can give without taking them from others."""
    with open("/proc/meminfo") as file:
        return next(int(line.split()[1]) for line in file if line.startswith("MemAvailable"))


def system_calls(call, capture, folder):
    """How many system calls a run makes, or none where strace isn't there or may not trace."""
    if not shutil.which("strace"):
        return None
    with open(capture, "rb") as file:
        traced = subprocess.run(["strace", "-c", "-f", "-o", f"{folder}/calls", *call], stdin=file,
                                stdout=subprocess.DEVNULL, stderr=subprocess.DEVNULL)
    if traced.returncode:
        return None
    with open(f"{folder}/calls") as calls:
        return next((int(line.split()[3]) for line in calls if line.split()[-1:] == ["total"]), None)


def show(title, rows):
    widths = [max(map(len, column)) for column in zip(*rows)]
    print(f"\n{title}")
    for row in rows:
        print("  " + "  ".join(cell.rjust(width) for cell, width in zip(row, widths)), flush=True)


def machine():
    with open("/proc/cpuinfo") as file:
        models = [line.split(":")[1].strip() for line in file if line.startswith("model name")]
    rustc = subprocess.run(["rustc", "--version"], stdout=subprocess.PIPE, text=True).stdout.strip()
    return f"{os.cpu_count()} processors, {models[0] if models else 'of no name'}; {rustc}; load {os.getloadavg()[0]:.1f}"
