"""Command words: those that are refused, with the first cause of the first word, and those that are taken."""
import itertools
import random

from captures import capture, header
from model import Outcome, answer, fault
from running import compare, difference, ended, file_of, outcome, start
from traffic import PAIRS

from .known import FOUR, FOUR_REPORT, SOURCE

COMMANDS = ("run", "plain", "load")
STREAMED = ("spray", "replay")
OWN = {"ddos": ["threshold"], "heavy": ["bytes"], "bucket": ["rate", "burst"], "knock": ["ports"], "conn": ["idle"]}
SPRAYING, RUNNING = ["cores", "history", "drop", "repeat", "delay"], ["ring", "threads"]
OF_CORES, OF_LOAD = [*SPRAYING, *RUNNING], ["start", "frames", "hosts"]
TAKEN = {"run": OF_CORES, "plain": [], "load": OF_CORES + OF_LOAD, "spray": SPRAYING, "replay": RUNNING}
SAMPLE = {"flows": "7", "cores": "2", "history": "1", "drop": "3", "repeat": "2", "delay": "1:1", "ring": "9", "threads": "no",
          "start": "1", "frames": "3", "hosts": "2", "threshold": "1", "bytes": "1", "rate": "1", "burst": "1", "ports": "1,2,3", "idle": "1",
          "first": "ddos", "second": "heavy", "table": "0:*>0/P"}
NINES = "9" * 40

# Lines of words (one space between two), and the line that refuses them.
REFUSED = """
walk                                        | word 1: Command
RUN program=ddos                            | word 1: Command
Run program=ddos                            | word 1: Command
runs program=ddos                           | word 1: Command
ru program=ddos                             | word 1: Command
run=1 program=ddos                          | word 1: Command
program=ddos run                            | word 1: Command
sprays program=ddos                         | word 1: Command
Replay program=ddos                         | word 1: Command
spray                                       | word 2: Missing
replay                                      | word 2: Missing
spray rate=1                                | word 3: Missing
spray rate=1 threshold=1 bytes=1 ports=1,2,3 idle=1 burst=1 flows=1 | word 9: Missing
replay ring=1 threads=no threshold=1        | word 5: Missing
spray program=chain                         | word 2: Program
spray program=table                         | word 2: Program
replay program=chain                        | word 2: Program
replay program=table                        | word 2: Program
spray rate=1 program=chain                  | word 3: Program
replay rate=x program=table                 | word 2: Value
spray program=chain first=ddos              | word 2: Program
spray program=ddos program=chain            | word 3: Twice
spray first=ddos                            | word 2: NotHere
replay second=ddos                          | word 2: NotHere
spray table=0:*>0/P                         | word 2: NotHere
replay program=ddos first=ddos              | word 3: NotHere
spray program=ddos rate=1                   | word 3: NotHere
replay rate=1 program=ddos                  | word 2: NotHere
spray program=ddos ring=0                   | word 3: NotHere
replay program=ddos drop=0                  | word 3: NotHere
spray cores=17 threads=x                    | word 2: Range
replay ring=0 cores=17                      | word 2: Range
--help                                      | word 1: Command
-h                                          | word 1: Command
run                                         | word 2: Missing
plain                                       | word 2: Missing
load                                        | word 2: Missing
run threshold=2                             | word 3: Missing
run cores=2 history=0 drop=2                | word 5: Missing
run threshold=1 bytes=1 rate=1 burst=1 ports=1,2,3 idle=1 flows=1 cores=1 history=1 drop= ring=1 threads=no | word 14: Missing
load idle=1 start=0 frames=0 hosts=1 ports=1,2,3 threads=yes | word 8: Missing
run program=dns                             | word 2: Program
run program=                                | word 2: Program
run program=DDOS                            | word 2: Program
run program=ddos2                           | word 2: Program
run program=ddo                             | word 2: Program
run program=ddos=                           | word 2: Program
run program==ddos                           | word 2: Program
run program=ddos,heavy                      | word 2: Program
run program=chains                          | word 2: Program
run program=chain,table                     | word 2: Program
run program=Table                           | word 2: Program
plain program=dns                           | word 2: Program
load program=run                            | word 2: Program
run threshold=1 program=dns                 | word 3: Program
run rate=5 program=dns                      | word 3: Program
run rate=5 program=dns program=ddos         | word 3: Program
run program=dns program=ddos                | word 2: Program
run program=ddos program=dns                | word 3: Twice
run program=ddos program=ddos               | word 3: Twice
run program=ddos -v                         | word 3: NoEquals
run ddos                                    | word 2: NoEquals
run program                                 | word 2: NoEquals
run program=ddos threshold                  | word 3: NoEquals
run program=ddos threshold:2                | word 3: NoEquals
run program=ddos 2                          | word 3: NoEquals
run program=ddos color=red                  | word 3: UnknownName
run program=ddos =                          | word 3: UnknownName
run program=ddos =2                         | word 3: UnknownName
run program=ddos Threshold=2                | word 3: UnknownName
run program=ddos THRESHOLD=2                | word 3: UnknownName
run program=ddos thresh=2                   | word 3: UnknownName
run program=ddos threshold2=2               | word 3: UnknownName
run program=ddos threshold:=2               | word 3: UnknownName
run program=ddos -threshold=2               | word 3: UnknownName
run program=ddos --threshold=2              | word 3: UnknownName
run Program=ddos                            | word 2: UnknownName
run programs=ddos                           | word 2: UnknownName
run prog=ddos                               | word 2: UnknownName
run program=ddos delays=1:1                 | word 3: UnknownName
run program=ddos repeats=1                  | word 3: UnknownName
run program=ddos second_=ddos               | word 3: UnknownName
run program=ddos First=ddos                 | word 3: UnknownName
run program=table tables=0:*>0/P            | word 3: UnknownName
run program=ddos core=2                     | word 3: UnknownName
run program=ddos run=1                      | word 3: UnknownName
run program=chain                           | word 3: Missing
run program=chain first=ddos                | word 4: Missing
plain program=chain second=ddos             | word 4: Missing
load program=chain first=ddos frames=1      | word 5: Missing
run first=ddos second=heavy                 | word 4: Missing
run first=ddos second=heavy table=0:*>0/P   | word 5: Missing
run program=table                           | word 3: Missing
load program=table flows=2                  | word 4: Missing
run table=0:*>0/P                           | word 3: Missing
run second=conn                             | word 3: Missing
run first=                                  | word 2: Program
run first=dns                               | word 2: Program
run first=conn                              | word 2: Program
run first=chain                             | word 2: Program
run first=table                             | word 2: Program
run second=                                 | word 2: Program
run second=chain                            | word 2: Program
run second=table                            | word 2: Program
run second=ddos,heavy                       | word 2: Program
run program=chain first=conn second=ddos    | word 3: Program
run program=chain first=ddos second=Conn    | word 4: Program
run program=chain second=conn first=conn    | word 4: Program
run first=conn second=conn                  | word 2: Program
run second=conn first=conn                  | word 3: Program
run program=chain first=ddos second=ddos    | word 4: Same
run program=chain second=knock first=knock  | word 4: Same
run first=heavy program=chain second=heavy  | word 4: Same
run first=ddos second=ddos                  | word 3: Same
run second=ddos first=ddos                  | word 3: Same
run first=ddos second=ddos program=dns      | word 3: Same
run first=ddos second=ddos program=ddos     | word 2: NotHere
run first=ddos first=ddos second=ddos       | word 3: Twice
run first=ddos second=heavy first=heavy     | word 4: Twice
run first=ddos second=heavy second=ddos     | word 4: Twice
run first=ddos second=ddos second=heavy     | word 3: Same
run table=0:*>0/P table=x                   | word 3: Twice
run table=                                  | word 2: Table Empty at 0
run table=x                                 | word 2: Table Form at 0
run table=0:*>0/P,16:*>0/P                  | word 2: Table Range at 8
run table=0:d7>1/P program=table            | word 2: Table NoAny at 0
run table=0:*>7/P program=dns               | word 2: Table NoAny at 7
run table==0:*>0/P                          | word 2: Table Form at 0
run table=0:*>0/P=                          | word 2: Table Form at 0
run table=x program=ddos                    | word 2: NotHere
run table=x program=chain                   | word 2: NotHere
run program=ddos first=ddos                 | word 3: NotHere
run program=ddos second=dns                 | word 3: NotHere
run program=ddos table=0:*>0/P              | word 3: NotHere
run program=chain table=0:*>0/P             | word 3: NotHere
run program=chain first=ddos second=heavy table=x | word 5: NotHere
run program=chain first=dns table=x         | word 3: Program
run program=table first=ddos                | word 3: NotHere
run program=table second=ddos               | word 3: NotHere
run program=table threshold=1               | word 3: NotHere
run program=table table=0:*>0/P idle=1      | word 4: NotHere
run program=chain first=ddos second=heavy rate=1 | word 5: NotHere
run rate=1 program=chain first=ddos second=heavy | word 2: NotHere
run program=chain idle=x first=ddos second=heavy | word 3: NotHere
run program=chain idle=x first=ddos second=conn  | word 3: Value
run program=chain first=ddos rate=1         | word 5: Missing
run program=chain second=ddos ports=1,2     | word 4: Value
run program=chain rate=1 idle=1 ports=1,2,3 bytes=1 threshold=1 burst=1 | word 9: Missing
run rate=1 program=chain first=conn second=ddos  | word 4: Program
run rate=1 program=chain first=ddos second=dns   | word 5: Program
run rate=1 program=chain first=dns second=dns    | word 4: Program
run rate=1 program=chain first=ddos second=ddos  | word 2: NotHere
run rate=1 program=chain first=ddos second=heavy first=bucket | word 2: NotHere
run rate=1 program=chain first=bucket second=heavy first=ddos | word 6: Twice
run program=chain program=ddos first=ddos   | word 3: Twice
plain program=chain first=ddos second=heavy cores=2 | word 5: NotHere
plain program=table table=0:*>0/P drop=     | word 4: NotHere
run program=chain first=ddos second=heavy frames=1 | word 5: NotHere
run program=chain first=ddos second=heavy threshold=4294967296 | word 5: Range
run program=ddos rate=5                     | word 3: NotHere
run rate=5 program=ddos                     | word 2: NotHere
run rate=5 program=ddos program=bucket      | word 2: NotHere
run rate=x program=ddos                     | word 2: NotHere
run rate=x program=dns                      | word 2: Value
run rate=x                                  | word 2: Value
run rate=1000000001                         | word 2: Range
run rate=1 program=bucket threshold=1       | word 4: NotHere
plain program=ddos drop=1                   | word 3: NotHere
plain program=ddos drop=0                   | word 3: NotHere
plain program=ddos cores=17                 | word 3: NotHere
plain cores=2                               | word 2: NotHere
plain frames=2 program=ddos                 | word 2: NotHere
run program=ddos frames=5                   | word 3: NotHere
run start=5 program=ddos                    | word 2: NotHere
run program=ddos cores=2 cores=2            | word 4: Twice
run program=ddos cores=2 cores=17           | word 4: Twice
run program=ddos cores=2 cores=             | word 4: Twice
run program=ddos threshold=1 threshold=x    | word 4: Twice
run program=ddos drop= drop=0               | word 4: Twice
run program=ddos cores=2 flows=1 cores=2    | word 5: Twice
run program=ddos color=red color=red        | word 3: UnknownName
run program=ddos rate=1 rate=1              | word 3: NotHere
run threshold=1 threshold=1 program=ddos    | word 3: Twice
run cores=17 cores=17 program=ddos          | word 2: Range
run program=ddos threshold=                 | word 3: Value
run program=ddos threshold==                | word 3: Value
run program=ddos threshold==2               | word 3: Value
run program=ddos threshold=2=               | word 3: Value
run program=ddos threshold=2=2              | word 3: Value
run program=ddos threshold=0x10             | word 3: Value
run program=ddos threshold=1e3              | word 3: Value
run program=ddos threshold=2.0              | word 3: Value
run program=ddos threshold=1,000            | word 3: Value
run program=ddos threshold=1_000            | word 3: Value
run program=ddos threads=                   | word 3: Value
run program=ddos threads=YES                | word 3: Value
run program=ddos threads=Yes                | word 3: Value
run program=ddos threads=1                  | word 3: Value
run program=ddos threads=true               | word 3: Value
run program=ddos threads=yes,               | word 3: Value
run program=ddos threads=noyes              | word 3: Value
run program=ddos threads=y                  | word 3: Value
run program=knock ports=1,2                 | word 3: Value
run program=knock ports=                    | word 3: Value
run program=knock ports=1                   | word 3: Value
run program=knock ports=,,                  | word 3: Value
run program=knock ports=1,2,                | word 3: Value
run program=knock ports=,1,2                | word 3: Value
run program=knock ports=1,,2                | word 3: Value
run program=knock ports=1,2,3,4             | word 3: Value
run program=knock ports=1,2,3,              | word 3: Value
run program=knock ports=1;2;3               | word 3: Value
run program=knock ports=1,2,x               | word 3: Value
run program=knock ports=0,x,1               | word 3: Value
run program=knock ports=0,1,x               | word 3: Value
run program=knock ports=70000,1,2,3         | word 3: Value
run program=knock ports=0,1,2               | word 3: Range
run program=knock ports=1,0,2               | word 3: Range
run program=knock ports=1,2,0               | word 3: Range
run program=knock ports=65536,1,2           | word 3: Range
run program=knock ports=1,65536,2           | word 3: Range
run program=knock ports=1,2,65536           | word 3: Range
run program=knock ports=1,2,99999999999999999999999999999999999999999 | word 3: Range
"""


def refused_words(program):
    """Words that are refused before the capture is read."""
    cases = [(line.partition("|")[0].split(), line.partition("|")[2].strip()) for line in REFUSED.strip().splitlines()]
    cases += [([], "word 1: NoCommand"), ([""], "word 1: Command"), (["run "], "word 1: Command"), ([" run"], "word 1: Command"),
              (["run program=ddos"], "word 1: Command"), (["run", ""], "word 2: NoEquals"),
              (["run", "program=ddos", ""], "word 3: NoEquals"), (["run", "", "program=ddos"], "word 2: NoEquals"),
              (["run", " program=ddos"], "word 2: UnknownName"), (["run", "program =ddos"], "word 2: UnknownName"),
              (["run", "program= ddos"], "word 2: Program"), (["run", "program=ddos "], "word 2: Program"),
              (["run", "program=ddos\n"], "word 2: Program"), (["run", "program=ddos", "threshold=2 cores=2"], "word 3: Value"),
              (["run", "program=ddos", "größe=2"], "word 3: UnknownName"),
              (["run", "program=ddos", "größe"], "word 3: NoEquals"),
              (["run", "program=ddos", "x" * 100_000], "word 3: NoEquals"),
              (["run", "program=ddos", "x" * 100_000 + "=1"], "word 3: UnknownName"),
              (["run", "program=" + "ddos" * 10_000], "word 2: Program"), (["run", *["x"] * 5_000], "word 2: NoEquals")]
    cases += [(["run", "program=ddos", f"threshold={text}"], "word 3: Value")
              for text in ("x", "2x", "x2", "-1", "+1", "-0", " 2", "2 ", "\t2", "2\n", "٢", "２", "2²", "1/2", "0b1",
                           NINES + "x")]
    # Where one argument is no text in UTF-8, the program takes it that there are none.
    cases += [(words, "word 1: NoCommand") for words in (["run", "program=ddos", b"threshold=\xff"], [b"\xff\xfe"],
                                                         ["walk", b"\x80"])]
    for words, cause in cases:
        yield f"{' '.join(map(str, words))[:60] or 'none'}", compare(program, words, FOUR, fault(1, cause))


def foreign_operands(program):
    """Each operand with each command and each program that doesn't take it, and with each that does."""
    for command in (*COMMANDS, *STREAMED):
        for name in OF_CORES + OF_LOAD:
            taken = name in TAKEN[command]
            words = f"{command} program=ddos {name}={SAMPLE[name]}"
            known = None if taken else fault(1, "word 3: NotHere")
            yield f"{command} with {name}", compare(program, words, FOUR, known)
    for number, (first, second) in enumerate(PAIRS):
        taken = [*OWN[first], *OWN[second]]
        others = [name for names in OWN.values() for name in names if name not in taken]
        chained = f"{COMMANDS[number % 3]} program=chain first={first} second={second}"
        words = f"{chained} {' '.join(f'{name}={SAMPLE[name]}' for name in taken)}"
        yield f"{first}+{second} with its own", compare(program, words, FOUR)
        foreign = others[number % len(others)]
        yield f"{first}+{second} with {foreign}", compare(program, f"{chained} {foreign}={SAMPLE[foreign]}", FOUR,
                                                         fault(1, "word 5: NotHere"))
    for number, (chosen, own) in enumerate(itertools.product(OWN, [name for names in OWN.values() for name in names])):
        words = f"{COMMANDS[number % 3]} program={chosen} {own}={SAMPLE[own]}"
        taken = own in OWN[chosen]
        yield f"{chosen} with {own}", compare(program, words, FOUR, None if taken else fault(1, "word 3: NotHere"))


# One fault of each kind that a word may have under `run program=ddos`, with its cause.
FAULTS = [("-v", "NoEquals"), ("", "NoEquals"), ("color=red", "UnknownName"), ("=", "UnknownName"), ("rate=5", "NotHere"),
          ("frames=5", "NotHere"), ("idle=x", "NotHere"), ("first=heavy", "NotHere"), ("table=x", "NotHere"),
          ("program=ddos", "Twice"), ("program=dns", "Twice"), ("threshold=", "Value"),
          ("flows=x", "Value"), ("threads=maybe", "Value"), ("cores=17", "Range"), ("ring=0", "Range"), ("history=65", "Range"),
          ("drop=1,,2", "Drop Empty at 2"), ("drop=2x", "Drop Digit at 0"), ("drop=1,0", "Drop Zero at 2"),
          ("drop=1000000001", "Drop TooLarge at 0"), ("drop=7-3", "Drop Range at 0"), ("repeat=1,2-1", "Repeat Range at 2"),
          ("delay=1:1001", "Delay TooLarge at 0"), ("delay=3:1,3:1", "Delay Twice at 4")]


def several_faults(program):
    """Two and three faults, in each order: the first word that is faulty tells."""
    base = ["run", "program=ddos"]
    pairs = list(itertools.permutations(FAULTS, 2))
    for one, other in pairs:
        words = [*base, one[0], other[0]]
        assert answer(words) == fault(1, f"word 3: {one[1]}"), words
    for one, other in pairs[::6]:
        yield f"{one[0]} and {other[0]}", compare(program, [*base, one[0], other[0]], FOUR, fault(1, f"word 3: {one[1]}"))
    good = ["flows=9", "threshold=3", "cores=2", "threads=no"]
    for at, (one, other) in enumerate(pairs[2::14]):
        between = [word for word in good if word.split("=")[0] not in {text.split("=")[0] for text, _ in (one, other)}][at % 3:]
        words = [*base, *between, one[0], "ring=7", other[0]]
        if not {"ring=0"} & {one[0], other[0]}:
            yield f"{words[2:]}", compare(program, words, FOUR, fault(1, f"word {3 + len(between)}: {one[1]}"))
    for three in list(itertools.permutations(FAULTS, 3))[7::195]:
        words = [*base, *(text for text, _ in three)]
        yield f"{words[2:]}", compare(program, words, FOUR, fault(1, f"word 3: {three[0][1]}"))
    for words, cause in ((["walk", "-v"], "word 1: Command"), (["walk", "program=dns", "color=red"], "word 1: Command"),
                         (["run", "-v", "program=dns"], "word 2: NoEquals"), (["run", "program=dns", "-v"], "word 2: Program"),
                         (["run", "color=red", "-v"], "word 2: UnknownName"),
                         (["run", "drop=0", "cores=0"], "word 2: Drop Zero at 0"),
                         (["run", "cores=0", "drop=0"], "word 2: Range")):
        yield f"{words}", compare(program, words, FOUR, fault(1, cause))


# A call that takes each number, its least value and its greatest.
BOUNDS = [
    ("run program=ddos", "flows", 1, 65_536), ("run program=ddos", "cores", 1, 16), ("run program=ddos", "history", 0, 64),
    ("run program=ddos", "ring", 1, 4_096), ("load program=ddos", "start", 0, 18_446_744_073_709_551_615),
    ("load program=ddos", "frames", 0, 1_000_000), ("load program=ddos", "hosts", 1, 65_536),
    ("run program=ddos", "threshold", 0, 4_294_967_295), ("run program=heavy", "bytes", 1, 1_000_000_000_000),
    ("plain program=bucket", "rate", 0, 1_000_000_000), ("run program=bucket", "burst", 1, 1_000_000_000),
    ("plain program=conn", "idle", 1, 10_000_000_000_000),
]


def numbers(program):
    """Each number at its bounds and past them, with zeros in front, and very long."""
    data = capture([SOURCE] * 3)
    for call, name, least, greatest in BOUNDS:
        call = call.split()
        inside = [str(least), "0" * 40 + str(least), "000" + str(least + 1), str(greatest), "0" * 40 + str(greatest)]
        # (the greatest count of frames is tried elsewhere)
        for text in inside[:3] if name == "frames" else inside:
            words = [*call, f"{name}={text}"]
            wrong = None if answer(words, data).status == 0 else "the model errs: it refuses it"
            yield f"{name}={text}", wrong or compare(program, words, data)
        outside = [str(greatest + 1), NINES, "0" * 40 + str(greatest + 1), str(greatest + 2**64), "1" + "0" * 5_000]
        outside += [str(least - 1), "0" * 40 + str(least - 1), "0"] if least else []
        for text in outside:
            yield f"{name}={text[:60]}", compare(program, [*call, f"{name}={text}"], data, fault(1, "word 3: Range"))
        for text in ("", "x", "-1", "+1", "1=", f"{NINES}x"):
            yield f"{name}={text}", compare(program, [*call, f"{name}={text}"], data, fault(1, "word 3: Value"))
    for text in ("1,1,1", "65535,65535,65535", "007,0008," + "0" * 40 + "9"):
        yield f"ports={text}", compare(program, f"run program=knock ports={text}", data)


def bare_words(program):
    """Refused words, and streams that aren't there; and words that hide behind others."""
    refused, silent = fault(1, "word 1: Command"), Outcome(1, b"", b"")
    yield "no standard input", difference(outcome(program, ["walk"], closed=0), refused)
    yield "no standard output", difference(outcome(program, ["walk"], closed=1), refused)
    yield "no standard error", difference(outcome(program, ["walk"], closed=2), silent)
    with open("/dev/full", "wb") as full:
        yield "standard error on a full device", difference(outcome(program, ["walk"], stderr=full), silent)
        yield "standard output on a full device", difference(outcome(program, ["walk"], stdout=full), refused)
    with file_of(header()[:7]) as file:
        both = ended(start(program, ["run", "program=ddos", "cores=0"], stdin=file))
    yield "a refused word and a malformed capture", difference(both, fault(1, "word 3: Range"))
    four = Outcome(0, FOUR_REPORT, b"")
    for order in itertools.islice(itertools.permutations(["program=ddos", "threshold=2", "cores=1", "flows=4096", "drop="]), 0,
                                  120, 13):
        yield f"{order}", compare(program, ["run", *order], FOUR, four)


# Names that no operand has, and values of each kind: good ones, the ends of ranges, one too many, and other texts.
NO_NAMES = ["", "Program", "programs", "core", "delays", "x" * 300]
NUMBERS = ["0", "1", "2", "7", "16", "17", "64", "65", "007", "0" * 30 + "3", "4096", "4097", "65536", "65537", NINES]
TEXTS = ["", "x", "-1", "1x", " 1", "1=1", "yes", "no", "YES", "1,2,3", "0,1,2", "1,2", "0,x,1", "80,443,65536"]
LISTS = ["1", "1,2", "2-4", "1-9/3", "1,,2", "0", "3-1", "1-", "1/2", "00002-4/01", "1000000000", "1000000001", "2,0,x"]
DELAYS = ["1:1", "1:2,3:1", "4:1000", "2:2,2:2", "0:1", "1:0", "1", "1:", "1:1,,2:1", "1:1001", "1000000000:01", "1:1,x"]
NAMES = [*OWN, "dns", "chain", "table", "", "ddos "]
TABLES = ["0:*>0/P", "0:t>3/D,0:*>0/P,3:*>3/D", "0:u>1/P,0:*>0/D,1:*>0/P", "", "x", "0:*>0/P,", "16:*>0/P", "0:t>0/P",
          "0:*>4/P"]
VALUES = {"drop": LISTS, "repeat": LISTS, "delay": DELAYS, "program": NAMES, "first": NAMES, "second": NAMES, "table": TABLES}
RANDOM_LISTS = 600


def any_word(draw, names):
    """A word with one of these names and some value."""
    name = draw.choice(names)
    return f"{name}={draw.choice(TEXTS if draw.random() < 0.2 else VALUES.get(name, NUMBERS))}"


def of_program(draw, chosen):
    """Words that a program mostly has, and the names of the operands that are its own beside them."""
    if chosen == "table":
        return [f"table={draw.choice(TABLES[:3] * 2 + TABLES)}"], []
    if chosen != "chain":
        return [], OWN[chosen]
    first, second = draw.choice(PAIRS * 5 + [(one, one) for one in OWN])
    return [f"first={first}", f"second={second}"], [*OWN[first], *OWN[second]]


def any_words(draw):
    """A command line whose words fit more often than not."""
    command = draw.choice([*COMMANDS, "spray"])
    chosen = draw.choice([*OWN, *(["chain", "chain", "table"] if command != "spray" or draw.random() < 0.2 else [])])
    needed, own = of_program(draw, chosen)
    own = ["flows", *own, *TAKEN[command]]
    names = draw.sample(own, draw.randrange(min(5, len(own))))
    words = [word for word in [f"program={chosen}", *needed] if draw.random() < 0.93]
    words += [f"{name}={SAMPLE[name]}" if draw.random() < 0.7 else any_word(draw, [name]) for name in names]
    if draw.random() < 0.3:
        words.append(draw.choice([any_word(draw, ["program", *SAMPLE]), any_word(draw, NO_NAMES), draw.choice([*SAMPLE, ""])]))
    draw.shuffle(words)
    return [command if draw.random() < 0.97 else draw.choice(["walk", ""]), *words]


def random_words(program):
    """Random lists of words, the same in each run: each is accepted or refused as the model says."""
    draw, accepted = random.Random(11), 0
    for _ in range(RANDOM_LISTS):
        words = any_words(draw)
        accepted += answer(words, FOUR).status == 0
        yield f"{words}"[:200], compare(program, words, FOUR)
    some = RANDOM_LISTS // 4 < accepted < RANDOM_LISTS * 3 // 4
    yield "how many are accepted", None if some else f"{accepted} of {RANDOM_LISTS}"
