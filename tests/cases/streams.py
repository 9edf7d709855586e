"""Streams that can't be read or written, that end early, and that are slow."""
import contextlib
import os
import signal
import subprocess
import tempfile
import time

from captures import arp, capture, header, udp6
from model import Outcome, answer, fault
from running import compare, difference, ended, file_of, outcome, start

from .known import FOUR, FOUR_REPORT, OTHER_SOURCE, SOURCE

TOP = os.path.dirname(os.path.dirname(os.path.dirname(os.path.realpath(__file__))))
RUN, PLAIN = "run program=ddos threshold=2".split(), "plain program=ddos threshold=2".split()
LOAD = "load program=ddos frames=9".split()
BY_PHASES = [*RUN, "cores=3", "threads=no"]
CALLS = [RUN, PLAIN, [*RUN, "cores=2", "threads=yes"], BY_PHASES]


def broken(program):
    """Streams that fail."""
    read, write = fault(3, "read fault"), fault(4, "write fault")
    long = capture([SOURCE] * 20_000)
    for words in CALLS:
        folder = os.open("/", os.O_RDONLY)
        yield f"a folder as standard input: {' '.join(words)}", difference(outcome(program, words, stdin=folder), read, words)
        os.close(folder)
        yield f"no standard input: {' '.join(words)}", difference(outcome(program, words, closed=0), read, words)
        yield f"no standard output: {' '.join(words)}", difference(outcome(program, words, FOUR, closed=1), write, words)
    for words in [*CALLS, LOAD]:
        with open("/dev/full", "wb") as full:
            for name, data in (("a report", FOUR), ("a long report", long), ("a report of no frames", header())):
                found = outcome(program, words, data, stdout=full)
                yield f"{name} on a full device: {' '.join(words)}", difference(found, write, words)
            if words != LOAD:
                cut = outcome(program, words, FOUR[:-1], stdout=full)
                malformed = fault(2, "record 4: ShortRecord")
                yield f"a cut capture, with a full device: {' '.join(words)}", difference(cut, malformed, words)
        for name, data in (("a pipe that nobody reads", FOUR), ("a pipe that nobody reads, a long report", long)):
            reader, writer = os.pipe()
            os.close(reader)
            yield f"{name}: {' '.join(words)}", difference(outcome(program, words, data, stdout=writer), write, words)
            os.close(writer)
    silent = Outcome(2, b"", b"")
    yield "a cut capture, no standard error", difference(outcome(program, RUN, FOUR[:-1], closed=2), silent, RUN)
    with open("/dev/full", "wb") as full:
        found = outcome(program, RUN, FOUR, stdout=full, stderr=full)
        yield "both outputs on a full device", difference(found, Outcome(4, b"", b""), RUN)


def interruptible():
    """Undoes that a job in the background ignores interrupts, as the tests may be one."""
    signal.signal(signal.SIGINT, signal.SIG_DFL)


def interrupted(program):
    """Ctrl-C ends what writes the capture, where the program ignores it, and brings the report."""
    with file_of(FOUR) as file:
        shell = "(cat; echo written >&2; sleep 60) | (trap '' INT; exec \"$@\")"
        with subprocess.Popen(["sh", "-c", shell, "sh", program, *RUN], stdin=file, stdout=subprocess.PIPE, stderr=subprocess.PIPE,
                              start_new_session=True, preexec_fn=interruptible) as process:
            process.stderr.readline()
            os.killpg(process.pid, signal.SIGINT)
            out, _ = process.communicate(timeout=60)
    yield "an interrupt that the program ignores", None if out == FOUR_REPORT else f"wanted: the report\ncame:   {out!r}"


def unread(program):
    """What `load` and refused words leave alone: standard input may be anything."""
    wanted = answer(LOAD)
    folder = os.open("/", os.O_RDONLY)
    yield "load with a folder as standard input", difference(outcome(program, LOAD, stdin=folder), wanted, LOAD)
    os.close(folder)
    yield "load without a standard input", difference(outcome(program, LOAD, closed=0), wanted, LOAD)
    yield "load with a capture", compare(program, LOAD, FOUR)
    reader, writer = os.pipe()
    yield "load with a pipe that stays open", difference(outcome(program, LOAD, stdin=reader), wanted, LOAD)
    refused = [*RUN, "cores=0"]
    yield "refused words with a pipe that stays open", difference(outcome(program, refused, stdin=reader),
                                                                  fault(1, "word 4: Range"), refused)
    os.close(reader)
    os.close(writer)


def reader_goes_away(program):
    """A reader that takes the first bytes and goes: they are a prefix of the report, and the status is 4."""
    data = capture([SOURCE, OTHER_SOURCE] * 15_000)
    for words in ([*RUN], PLAIN, [*RUN, "cores=2"], BY_PHASES):
        with file_of(data) as file, start(program, words, stdin=file) as process:
            front = os.read(process.stdout.fileno(), 1_000)
            process.stdout.close()
            status, err = process.wait(120), process.stderr.read()
        found = Outcome(status, b"", err)
        wrong = difference(found, fault(4, "write fault"), words)
        if not wrong and not (front and answer(words, data).out.startswith(front)):
            wrong = f"{front[:99]!r} is no front of the report"
        yield " ".join(words), wrong


def streams(program):
    """Streams that are slow."""
    long = capture([SOURCE, OTHER_SOURCE, udp6("2001:db8::1"), arp()] * 5_000)
    words = ["run", "program=ddos", "threshold=9", "cores=2"]
    with file_of(long) as file, start(program, words, stdin=file) as process:
        out = b""
        time.sleep(0.3)
        while piece := os.read(process.stdout.fileno(), 997):
            out += piece
            time.sleep(0.001)
        found = ended(process)
    yield "a report that is read slowly", difference(found._replace(out=out), answer(words, long), words)
    for size in (1, 7, 23, 57):
        process = start(program, RUN, stdin=subprocess.PIPE)
        with contextlib.suppress(BrokenPipeError):
            for at in range(0, len(FOUR), size):
                process.stdin.write(FOUR[at:at + size])
                process.stdin.flush()
                time.sleep(0.0005)
        yield f"a capture that comes in pieces of {size} bytes", difference(ended(process), Outcome(0, FOUR_REPORT, b""), RUN)
    for words in ([*RUN], PLAIN, [*RUN, "cores=3"]):
        found = ended(start(program, words, stdin=subprocess.PIPE), long)
        yield f"a long capture from a pipe: {' '.join(words)}", difference(found, answer(words, long), words)


def little_memory(program):
    """With less and less memory a call gives the whole report, or ends with status 5 and a front of it."""
    words = "load program=heavy frames=100000 hosts=50 cores=16".split()
    wanted = answer(words)
    for megabytes in (4_096, 256, 128, 96, 64, 48, 32, 24):
        found = outcome(program, words, memory=megabytes * 2**20)
        is_front = found.err == b"scr: out of memory\n" and wanted.out.startswith(found.out)
        wrong = None if found.status == 5 and is_front else difference(found, wanted, words)
        yield f"{megabytes} megabytes", wrong


def launcher(_program):
    """./scr, from another folder and through a link: the words, the streams and the status are the program's."""
    with tempfile.TemporaryDirectory() as folder:
        link = f"{folder}/a link"
        os.symlink(f"{TOP}/scr", link)
        for name, words, data in (("four frames", RUN, FOUR), ("words with spaces and none in them", ["run ", ""], FOUR),
                                  ("a cut capture", RUN, FOUR[:-1]), ("load", LOAD, b""),
                                  ("a fault behind other words", [*RUN, "", "x"], FOUR)):
            yield f"./scr: {name}", difference(outcome(link, words, data, cwd=folder), answer(words, data), words)
        yield "./scr: no standard input", difference(outcome(link, RUN, closed=0), fault(3, "read fault"), RUN)
