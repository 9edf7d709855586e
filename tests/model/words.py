"""The command words: the settings that they choose, or the first word that is refused, with its first cause."""
import re
import sys

from . import lists, tables
from .folds import FIRSTS, NAMES, SECONDS
from .programs import PROGRAMS

COMMANDS = {name.encode(): name for name in ("run", "plain", "load", "spray", "replay")}
# Who reads or writes a stream, who sprays frames over cores, who runs cores, and who makes its capture.
STREAM, SPRAYING, CORES, LOAD = ("spray", "replay"), ("run", "load", "spray"), ("run", "load", "replay"), ("load",)
ALL = tuple(COMMANDS.values())
NUMBER = rb"[0-9]+"
# A number may have any count of digits; some versions of Python read no more than some thousands unless told to.
if hasattr(sys, "set_int_max_str_digits"):
    sys.set_int_max_str_digits(0)
# The operands: the commands or the program that take them, and a number's least, greatest and default. Some are required.
OPERANDS = {
    "program": (ALL, None), "flows": (ALL, (1, 65_536, 4_096)),
    "cores": (SPRAYING, (1, 16, 1)), "history": (SPRAYING, (0, 64, None)),
    "drop": (SPRAYING, None), "repeat": (SPRAYING, None), "delay": (SPRAYING, None),
    "ring": (CORES, (1, 4_096, 1_024)), "threads": (CORES, None),
    "start": (LOAD, (0, 2**64 - 1, 0)), "frames": (LOAD, (0, 1_000_000, 1_000)), "hosts": (LOAD, (1, 65_536, 16)),
    "threshold": ("ddos", (0, 2**32 - 1, 1_000)), "bytes": ("heavy", (1, 10**12, 1_000_000)),
    "rate": ("bucket", (0, 10**9, 1_000)), "burst": ("bucket", (1, 10**9, 100)),
    "ports": ("knock", (1, 65_535, None)), "idle": ("conn", (1, 10**13, 60_000_000)),
    "first": ("chain", None), "second": ("chain", None), "table": ("table", None),
}
CHAINED = {"first": FIRSTS, "second": SECONDS}
REQUIRED = {"chain": ("program", "first", "second"), "table": ("program", "table")}


class Refused(Exception):
    """A word that is refused: its number and the cause that is told."""

    def __init__(self, number, cause):
        super().__init__(number, cause)
        self.number, self.cause = number, cause


def as_bytes(words):
    """The words as the program has them. Where one is no UTF-8 text it has none at all."""
    words = [word.encode() if isinstance(word, str) else word for word in words]
    try:
        b"".join(word + b"\n" for word in words).decode()
    except UnicodeDecodeError:
        return []
    return words


def settings(words):
    """The command and the value of each operand that it takes, by name."""
    words = as_bytes(words)
    if not words:
        raise Refused(1, "NoCommand")
    if words[0] not in COMMANDS:
        raise Refused(1, "Command")
    command = COMMANDS[words[0]]
    programs = taken_programs(command, words)
    given = {}
    for number, word in enumerate(words[1:], 2):
        cause = why_not_named(word, command, programs, given)
        if cause:
            raise Refused(number, cause)
        name, _, text = word.partition(b"=")
        value, cause = value_of(command, name.decode(), text, given)
        if cause:
            raise Refused(number, cause)
        given[name.decode()] = value
    if not given.keys() >= set(REQUIRED.get(given.get("program"), ["program"])):
        raise Refused(len(words) + 1, "Missing")
    return command, {**defaults(command, programs, given.get("cores", 1)), **given}


def first_value(words, name):
    """What stands behind the name in the first word that begins with it and an equals sign."""
    values = (word.partition(b"=")[2].decode() for word in words if word.startswith(name + b"="))
    return next(values, None)


def names_for(command):
    """The names of the programs that a command knows: a stream is of one of the five."""
    return tuple(PROGRAMS) if command in STREAM else NAMES


def taken_programs(command, words):
    """The programs whose operands are taken: the chosen one and, with a chain, its two; or all where none is known."""
    chosen, first, second = (first_value(words, name) for name in (b"program", b"first", b"second"))
    if chosen not in names_for(command):
        return names_for(command)
    if chosen != "chain":
        return (chosen,)
    return (chosen, first, second) if first in FIRSTS and second in SECONDS else (chosen, *PROGRAMS)


def why_not_named(word, command, programs, given):
    """Why a word's name is refused, or None."""
    if b"=" not in word:
        return "NoEquals"
    name = word.partition(b"=")[0].decode()
    if name not in OPERANDS:
        return "UnknownName"
    takers = OPERANDS[name][0]
    if command not in takers if isinstance(takers, tuple) else takers not in programs:
        return "NotHere"
    return "Twice" if name in given else None


def value_of(command, name, text, given):
    """The value that an operand's text spells, and why it is refused behind the values that are given."""
    if name in ("program", *CHAINED):
        return program_of(name, CHAINED.get(name) or names_for(command), text.decode(), given)
    if name == "threads":
        return text, None if text in (b"yes", b"no") else "Value"
    if name in ("drop", "repeat"):
        return lists.ranges(name.capitalize(), text)
    if name == "delay":
        return lists.delays(text)
    if name == "table":
        return tables.read(text)
    least, greatest, _ = OPERANDS[name][1]
    texts = text.split(b",") if name == "ports" else [text]
    if len(texts) != (3 if name == "ports" else 1) or not all(re.fullmatch(NUMBER, text) for text in texts):
        return None, "Value"
    numbers = [int(text) for text in texts]
    cause = None if all(least <= number <= greatest for number in numbers) else "Range"
    return numbers if name == "ports" else numbers[0], cause


def program_of(name, names, text, given):
    """The name of a program, and why it is refused: the two of a chain differ."""
    if text not in names:
        return None, "Program"
    is_same = name != "program" and text in (given.get("first"), given.get("second"))
    return text, "Same" if is_same else None


def defaults(command, programs, cores):
    """The values of the operands that the words leave out."""
    taken = {name: numbers for name, (takers, numbers) in OPERANDS.items() if command in takers or takers in programs}
    values = {name: numbers[2] for name, numbers in taken.items() if numbers}
    if "cores" in taken:
        values.update(history=cores - 1, drop=[], repeat=[], delay=[])
    if "threads" in taken:
        values["threads"] = b"yes"
    if "ports" in taken:
        values["ports"] = [7_000, 8_000, 9_000]
    return values
