"""Drop lists: what they spell, and the first piece that is refused."""
from captures import capture
from model import answer, fault
from running import compare

from .known import OTHER_SOURCE, SOURCE

NINES = "9" * 40
MANY = ",".join(["1"] * 256)
REFUSED = [
    (",", "Empty at 0"), ("1,", "Empty at 2"), (",1", "Empty at 0"), ("1,,2", "Empty at 2"), ("1-2,,", "Empty at 4"),
    (",0", "Empty at 0"), ("x", "Digit at 0"), ("1,2x", "Digit at 2"), (" 1", "Digit at 0"), ("1 ", "Digit at 0"),
    ("1, 2", "Digit at 2"), ("1;2", "Digit at 0"), ("-", "Digit at 0"), ("-1", "Digit at 0"), ("1-", "Digit at 0"),
    ("1--2", "Digit at 0"), ("1-2-3", "Digit at 0"), ("/2", "Digit at 0"), ("1/2", "Digit at 0"), ("1-2/", "Digit at 0"),
    ("1-/2", "Digit at 0"), ("-2/1", "Digit at 0"), ("1-2/3/4", "Digit at 0"), ("1/2-3", "Digit at 0"), ("+1", "Digit at 0"),
    ("1-+2", "Digit at 0"), ("1..2", "Digit at 0"), ("1-2/-1", "Digit at 0"), ("0x1", "Digit at 0"),
    ("1,22,333,4444,x", "Digit at 14"), ("1=2", "Digit at 0"), ("=1", "Digit at 0"), ("é", "Digit at 0"),
    ("1,é,0", "Digit at 2"),
    ("1-2/x", "Digit at 0"), ("0-x", "Digit at 0"), (NINES + "x", "Digit at 0"), ("0", "Zero at 0"), ("00", "Zero at 0"),
    ("0" * 40, "Zero at 0"), ("0-1", "Zero at 0"), ("1-0", "Zero at 0"), ("0-0", "Zero at 0"), ("1-2/0", "Zero at 0"),
    ("5-3/0", "Zero at 0"), ("0-1000000001", "Zero at 0"), ("1000000001-0", "Zero at 0"), (f"{NINES}-{NINES}/0", "Zero at 0"),
    ("1,0", "Zero at 2"), ("3-4/1,2-0/5", "Zero at 6"), ("1000000001", "TooLarge at 0"), (NINES, "TooLarge at 0"),
    ("1-1000000001", "TooLarge at 0"), ("1-2/1000000001", "TooLarge at 0"), ("1000000001-1", "TooLarge at 0"),
    ("7-3/1000000001", "TooLarge at 0"), (f"1-2/{NINES}", "TooLarge at 0"), ("0" * 40 + "1000000001", "TooLarge at 0"),
    (f"1,{2**32 + 1}", "TooLarge at 2"), (f"{2**64 + 1}", "TooLarge at 0"), ("7-3", "Range at 0"), ("2-1", "Range at 0"),
    ("1000000000-999999999", "Range at 0"), ("7-3/2", "Range at 0"), ("1,2,9-8", "Range at 4"), ("010-9", "Range at 0"),
    (MANY + ",1", "Pieces at 512"), (MANY + ",1-2/3", "Pieces at 512"), (MANY + ",", "Empty at 512"),
    (MANY + ",x", "Digit at 512"), (MANY + ",0", "Zero at 512"), (MANY + ",1000000001", "TooLarge at 512"),
    (MANY + ",2-1", "Range at 512"), (MANY + ",1,x", "Pieces at 512"), (MANY + ",1,1,1", "Pieces at 512"),
    (MANY[:-1] + "x,1", "Digit at 510"),
    # Two faulty pieces: the first tells, whatever its cause is.
    ("2-1,0", "Range at 0"), ("0,2-1", "Zero at 0"), ("1000000001,x", "TooLarge at 0"), ("x,1000000001", "Digit at 0"),
    ("2-1,", "Range at 0"), (",2-1", "Empty at 0"), ("7,3-2,0,x,", "Range at 2"),
]
# Lists over nine frames, and the frames that they leave.
LEFT = [
    ("", "123456789"), ("1", "23456789"), ("9", "12345678"), ("10", "123456789"), ("1000000000", "123456789"), ("1-9", ""),
    ("1-1000000000", ""), ("2-8", "19"), ("5-5", "12346789"), ("1-9/2", "2468"), ("2-9/2", "13579"), ("3-9/3", "124578"),
    ("1-9/1", ""), ("1-9/8", "2345678"), ("1-9/9", "23456789"), ("1-9/1000000000", "23456789"), ("1-8/8", "23456789"),
    ("2-9/7", "1345678"), ("9-1000000000/1000000000", "12345678"), ("4-4/4", "12356789"), ("1,1,1", "23456789"),
    ("9,1", "2345678"), ("3-5,4-7", "1289"), ("4-7,3-5", "1289"), ("1-9/2,2-9/4", "48"), ("0002", "13456789"),
    ("0" * 40 + "2-" + "0" * 40 + "3/" + "0" * 40 + "1", "1456789"), (",".join(["2"] * 256), "13456789"),
    (",".join(["12"] * 255 + ["5"]), "12346789"), ("1-1/3,8,6-7", "23459"),
]


def refused_drops(program):
    for text, cause in REFUSED:
        known = fault(1, f"word 3: Drop {cause}")
        yield text[:60] if len(text) < 300 else f"{text.count(',') + 1} pieces, {cause}", compare(
            program, ["run", "program=ddos", f"drop={text}"], b"", known)
    yield "by load", compare(program, ["load", "program=ddos", "drop=1,0"], b"", fault(1, "word 3: Drop Zero at 2"))


def drops(program):
    """The frames that a list leaves are those that have a verdict."""
    data = capture([SOURCE, OTHER_SOURCE, SOURCE] * 3)
    for text, left in LEFT:
        words = ["run", "program=ddos", "threshold=1", "history=0", f"drop={text}"]
        lines = answer(words, data).out.decode().split("frames")[0].splitlines()
        modelled = "".join(line.split()[0] for line in lines)
        wrong = f"the model errs: it leaves {modelled!r} and not {left!r}" if modelled != left else None
        yield text[:60], wrong or compare(program, words, data)
        yield f"{text[:60]}, two cores", compare(program, [*words[:3], "cores=2", words[-1]], data)
