"""A link that loses, repeats and delays: which frames are delivered, and the lists that are refused."""
from captures import capture
from model import answer, fault
from running import compare, same
from traffic import RUN, capture as random_capture, delay_list, drop_list, link, settings

from .drops import REFUSED
from .known import FOUR, OTHER_SOURCE, SOURCE, whole

NINES = "9" * 40
MANY = ",".join(f"{frame}:1" for frame in range(1, 257))
LAST = len(MANY) + 1
REFUSED_DELAYS = [
    (",", "Empty at 0"), ("1:1,", "Empty at 4"), (",1:1", "Empty at 0"), ("1:1,,2:1", "Empty at 4"), (",0:1", "Empty at 0"),
    ("1", "Digit at 0"), ("1:", "Digit at 0"), (":1", "Digit at 0"), (":", "Digit at 0"), ("1:2:3", "Digit at 0"),
    ("1::2", "Digit at 0"), ("x", "Digit at 0"), ("x:1", "Digit at 0"), ("1:x", "Digit at 0"), ("1-2:1", "Digit at 0"),
    ("1:1-2", "Digit at 0"), ("1-2", "Digit at 0"), ("1:2/3", "Digit at 0"), (" 1:1", "Digit at 0"), ("1 :1", "Digit at 0"),
    ("1: 1", "Digit at 0"), ("1:1 ", "Digit at 0"), ("+1:1", "Digit at 0"), ("1:-1", "Digit at 0"), ("1;1", "Digit at 0"),
    ("1=1", "Digit at 0"), ("=1:1", "Digit at 0"), ("1:1,é", "Digit at 4"), ("0:x", "Digit at 0"), ("x:0", "Digit at 0"),
    (f"{NINES}:x", "Digit at 0"), ("1:1,22:22,x", "Digit at 10"), ("0:1", "Zero at 0"), ("1:0", "Zero at 0"),
    ("0:0", "Zero at 0"), ("00:1", "Zero at 0"), ("1:" + "0" * 40, "Zero at 0"), ("0:1001", "Zero at 0"),
    ("1000000001:0", "Zero at 0"), (f"{NINES}:0", "Zero at 0"), ("1:1,1:0", "Zero at 4"), ("1:1,0:1", "Zero at 4"),
    ("1000000001:1", "TooLarge at 0"), ("1:1001", "TooLarge at 0"), (f"{NINES}:1", "TooLarge at 0"),
    (f"1:{NINES}", "TooLarge at 0"), (f"{2**32 + 1}:1", "TooLarge at 0"), (f"1:{2**32 + 1}", "TooLarge at 0"),
    (f"1:{2**64 + 1}", "TooLarge at 0"), ("1:01001", "TooLarge at 0"), ("1:1,1:1001", "TooLarge at 4"),
    ("1:2,1:3", "Twice at 4"), ("1:1,1:1", "Twice at 4"), ("7:1,007:2", "Twice at 4"), ("1:1,2:1,1:1", "Twice at 8"),
    ("3:1,2:1,1:1,2:1000", "Twice at 12"), ("1000000000:1,1000000000:2", "Twice at 13"), (f"{MANY},257:1", f"Pieces at {LAST}"),
    (f"{MANY},257:1,x", f"Pieces at {LAST}"), (f"{MANY},", f"Empty at {LAST}"), (f"{MANY},x", f"Digit at {LAST}"),
    (f"{MANY},0:1", f"Zero at {LAST}"), (f"{MANY},257:1001", f"TooLarge at {LAST}"), (f"{MANY},256:1", f"Twice at {LAST}"),
    # Two faulty pieces: the first tells, whatever its cause is.
    ("1:1001,0:1", "TooLarge at 0"), ("0:1,1:1001", "Zero at 0"), ("x,", "Digit at 0"), ("1:1,1:1,x", "Twice at 4"),
    ("1:1,2:0,1:1,", "Zero at 4"),
]
# Links under nine frames, and the frames that are delivered with one core, with two and with three.
NINE = "123456789"
DELIVERED = [
    ("delay=1:1", "23456789", NINE, NINE), ("delay=1:2", "23456789", "23456789", NINE), ("delay=1:3", *["23456789"] * 3),
    ("delay=1:1000", *["23456789"] * 3), ("delay=8:1", "12345679", NINE, NINE), ("delay=8:1000", "12345679", NINE, NINE),
    ("delay=9:1", *[NINE] * 3), ("delay=9:1000", *[NINE] * 3), ("delay=10:1", *[NINE] * 3),
    ("delay=1000000000:1000", *[NINE] * 3), ("delay=" + "0" * 40 + "1:" + "0" * 40 + "2", "23456789", "23456789", NINE),
    # Frames that come at one step come in order of their numbers, behind that step's own frame.
    ("delay=8:2,9:1", *[NINE] * 3), ("delay=9:1,8:2", *[NINE] * 3), ("delay=1:2,2:1", "3456789", "23456789", NINE),
    ("delay=2:1,3:1", "12456789", NINE, NINE),
    # Frames that come behind the last step come in order of their steps.
    ("delay=8:3,9:1", "12345679", NINE, NINE), ("delay=7:4,9:1", "12345689", "12345689", NINE),
    ("delay=7:5,8:3,9:1", "1234569", "12345689", NINE), ("delay=6:3,9:2", "12345789", "12345789", NINE),
    # All come late: by as much, all at one step, and each behind the next.
    ("delay=" + ",".join(f"{frame}:5" for frame in range(1, 10)), *[NINE] * 3),
    ("delay=" + ",".join(f"{frame}:{10 - frame}" for frame in range(1, 10)), *[NINE] * 3),
    ("delay=" + ",".join(f"{frame}:{19 - 2 * frame}" for frame in range(1, 10)), "9", "89", "789"),
    ("repeat=1-9", *[NINE] * 3), ("repeat=1-1000000000/2", *[NINE] * 3), ("repeat=4,4,4,12", *[NINE] * 3),
    ("repeat=1-9 drop=4", *["12356789"] * 3), ("repeat=4 drop=4 delay=4:1", *["12356789"] * 3),
    ("repeat=1 delay=1:1", "23456789", NINE, NINE), ("repeat=1-9 delay=1:2,9:1", "23456789", "23456789", NINE),
    # A frame that is lost overtakes nothing.
    ("drop=2 delay=1:1", *["13456789"] * 3), ("drop=3 delay=1:2", "2456789", "12456789", "12456789"),
    ("drop=1 delay=1:1", *["23456789"] * 3), ("drop=1-9 repeat=1-9 delay=1:1,2:5", "", "", ""),
]
# Frames of a capture, cores, a link and the one frame that it loses, or none: beacons come at steps 257, 513 and so on.
BEACONS = [
    (256, 2, "delay=256:1", None), (257, 2, "delay=256:1", 256), (257, 2, "delay=257:1", None), (600, 4, "delay=255:1", None),
    (600, 4, "delay=255:2", 255), (600, 4, "delay=256:1", 256), (600, 4, "delay=257:1", None), (600, 4, "delay=511:1", None),
    (600, 4, "delay=512:1", 512), (512, 4, "delay=512:1", None), (512, 4, "delay=512:1000", None), (513, 4, "delay=512:1000", 512),
    (600, 16, "delay=250:6", None), (600, 16, "delay=250:7", 250), (600, 16, "delay=241:15", None), (600, 16, "delay=1:15", None),
    (600, 16, "delay=1:16", 1), (600, 16, "delay=258:15", None), (600, 16, "delay=258:16", 258), (300, 2, "repeat=256", None),
    (300, 2, "repeat=256 delay=256:1", 256), (300, 2, "repeat=255-257 delay=255:1", None),
    (300, 2, "repeat=200 drop=200 delay=256:1", 256), (2_000, 16, "delay=1000:1000", 1_000), (1_000, 16, "delay=1000:1000", None),
]


def links(program):
    """Links that were followed by hand."""
    words = "run program=ddos threshold=2 cores=2 history=0"
    late = whole([(2, "PASS"), (3, "PASS"), (4, "DROP")], (4, 3, 3), [(1, 1, 2, 1), (2, 2, 1, 1)], 1)
    both = whole("PASS PASS DROP DROP", (4, 4, 4), [(2, 2, 2, 0)] * 2, 1)
    for more in ("", " threads=no", " ring=1"):
        yield f"a frame that comes too late{more}", compare(program, f"{words} delay=1:3{more}", FOUR, late)
        yield f"a frame that comes late, but in time{more}", compare(program, f"{words} delay=1:1{more}", FOUR, both)
        yield f"each frame comes twice{more}", compare(program, f"{words} repeat=1-4{more}", FOUR, both)
    yield "empty lists", compare(program, f"{words} drop= repeat= delay=", FOUR, both)
    data, words = capture([SOURCE] * 600), "run program=ddos cores=2 history=0"
    missed = whole([(frame, "PASS") for frame in range(1, 601) if frame != 256], (600, 599, 599),
                   [(300, 300, 299, 1), (299, 299, 300, 1)], 1)
    yield "a beacon comes before a late frame", compare(program, f"{words} delay=256:1", data, missed)
    all_of_them = whole("PASS " * 600, (600, 600, 600), [(300, 300, 300, 0)] * 2, 1)
    yield "a late frame comes before the beacon", compare(program, f"{words} delay=255:1", data, all_of_them)
    yield "no delay of 0", compare(program, "run program=ddos delay=1:0", FOUR, fault(1, "word 3: Delay Zero at 0"))
    yield "no two delays of a frame", compare(program, "run program=ddos delay=1:2,1:3", FOUR,
                                              fault(1, "word 3: Delay Twice at 4"))
    carried = whole([(2, "PASS"), (3, "DROP"), (4, "DROP")], (4, 3, 4), [(1, 2, 2, 0), (2, 4, 0, 0)], 1)
    yield "a frame that comes too late is carried by another", compare(
        program, "run program=ddos threshold=2 cores=2 delay=1:3", FOUR, carried)


def delivered(program):
    """The frames that are delivered are those that have a verdict."""
    nine = capture([SOURCE, OTHER_SOURCE, SOURCE] * 3)
    for text, *each in DELIVERED:
        for cores, wanted in enumerate(each, 1):
            words = f"run program=ddos threshold=1 cores={cores} history=0 {text}"
            found = "".join(map(str, numbers_in(answer(words.split(), nine))))
            wrong = f"the model errs: it delivers {found!r} and not {wanted!r}" if found != wanted else None
            yield f"{text[:60]}, {cores} cores", wrong or compare(program, words, nine)
    for frames, cores, text, lost in BEACONS:
        data, words = capture([SOURCE] * frames), f"run program=ddos cores={cores} history=0 {text}"
        found = set(range(1, frames + 1)) - set(numbers_in(answer(words.split(), data)))
        wanted = {lost} - {None} | ({200} if "drop=200" in text else set())
        wrong = f"the model errs: it loses {found} and not {wanted}" if found != wanted else None
        yield f"{text}, {frames} frames, {cores} cores", wrong or compare(program, words, data)


def numbers_in(found):
    return [int(line.split()[0]) for line in found.out.decode().splitlines() if line[0].isdigit()]


def refused_links(program):
    """Lists of repeats and of delays that are refused, and which of several is told."""
    for text, cause in REFUSED[::2]:
        yield f"repeats {text[:60]}, {cause}", compare(program, ["run", "program=ddos", f"repeat={text}"], b"",
                                                       fault(1, f"word 3: Repeat {cause}"))
    for text, cause in REFUSED_DELAYS:
        yield f"delays {text[:60]}, {cause}", compare(program, ["run", "program=ddos", f"delay={text}"], b"",
                                                      fault(1, f"word 3: Delay {cause}"))
    for words, cause in (
            ("load program=ddos repeat=1,0", "word 3: Repeat Zero at 2"), ("load program=ddos delay=1:1,2", "word 3: Delay Digit at 4"),
            ("run delay=0:1 repeat=0 drop=0", "word 2: Delay Zero at 0"), ("run repeat=0 drop=0 delay=0:1", "word 2: Repeat Zero at 0"),
            ("run drop=0 delay=0:1 repeat=0", "word 2: Drop Zero at 0"), ("run delay=1:1 repeat=1 drop=1", "word 5: Missing"),
            ("run delay=1:1 delay=0:1", "word 3: Twice"), ("run repeat= repeat=0", "word 3: Twice"),
            ("run delay=1:1,1:1 cores=0", "word 2: Delay Twice at 4"), ("run cores=0 delay=1:1,1:1", "word 2: Range"),
            ("run drop=1:1", "word 2: Drop Digit at 0"), ("run repeat=1:1", "word 2: Repeat Digit at 0"),
            ("run program=ddos delay=1-2", "word 3: Delay Digit at 0"), ("plain program=ddos repeat=0", "word 3: NotHere"),
            ("plain program=ddos delay=0:1", "word 3: NotHere"), ("plain repeat=", "word 2: NotHere"),
            ("plain delay=", "word 2: NotHere"), ("run program=ddos delay", "word 3: NoEquals")):
        yield words, compare(program, words, FOUR, fault(1, cause))
    yield "as many delays as there may be", compare(program, ["run", "program=ddos", "cores=3", f"delay={MANY}"], FOUR)


def random_links(program):
    """All three lists at once over random captures, on all cores."""
    for seed in range(7_500, 7_660):
        chosen, frames = RUN[seed % 7], (9, 60, 250, 300, 530, 700)[seed % 6] + seed % 11
        words = ["run", f"program={chosen}", *settings(seed, chosen).split(), f"cores={1 + seed % 16}", *link(seed, frames)]
        words += [f"history={(0, 1, 3, 64)[seed % 5]}"] if seed % 5 < 4 else []
        words += [("ring=1", "threads=no")[seed % 2]] if seed % 3 == 0 else []
        yield f"seed {seed}", compare(program, words, random_capture(seed, frames, 40))
    for seed, cores in enumerate((1, 2, 5, 16), 7_700):
        data, many = random_capture(seed, 5_000, 400), ",".join(f"{1 + at * 19}:{1 + at * 37 % 1_000}" for at in range(256))
        pieces = [",".join(f"{1 + at * step}-{at * step + 300}/{7 + at % 9}" for at in range(256)) for step in (17, 18)]
        words = ["run", "program=heavy", f"cores={cores}", f"drop={pieces[0]}", f"repeat={pieces[1]}", f"delay={many}"]
        yield f"256 pieces of each list, {cores} cores", compare(program, words, data)
    for seed in range(7_710, 7_717):
        words = ["load", f"program={RUN[seed % 7]}", *settings(seed, RUN[seed % 7]).split(), f"frames={400 + seed % 200}"]
        yield f"load, seed {seed}", compare(program, [*words, f"cores={1 + seed % 5}", *link(seed, 400)])


def repeats_change_nothing(program):
    """A frame that comes twice is delivered once, so that a run's report doesn't change, by the program's own outputs."""
    for seed, chosen in enumerate(RUN, 7_800):
        data, call = random_capture(seed, 300), f"run program={chosen} {settings(seed, chosen)} cores={1 + seed % 16}"
        call += f" drop={drop_list(seed, 300)} delay={delay_list(seed, 300)}"
        yield f"seed {seed}", same(program, [call, f"{call} repeat=1-300", f"{call} repeat={drop_list(seed + 1, 300)}"], data)
