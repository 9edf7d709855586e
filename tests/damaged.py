#!/usr/bin/env python3
"""Damaged captures, the same for the same seed: bits turned, pieces cut out, doubled or turned about, and lengths that lie.

    tests/damaged.py [CASES] [SEED] [PROGRAM]

tries so many of them (10,000, from seed 1 on) against the model; the last line is 'N passed, M failed'.
"""
import os
import random
import sys

sys.dont_write_bytecode = True
from captures import put
from running import compare
from traffic import RUN, capture, dealt, settings

TOP = os.path.dirname(os.path.dirname(os.path.realpath(__file__)))
HEADER, RECORD = 24, 16


def record_starts(data, order):
    """Where the records of a whole capture begin."""
    starts, at = [], HEADER
    while at + RECORD <= len(data):
        starts.append(at)
        at += RECORD + int.from_bytes(data[at + 8:at + 12], order)
    return starts


def turned_bit(dice, data, _starts, _order):
    at = dice.randrange(len(data))
    return put(data, at, bytes([data[at] ^ 1 << dice.randrange(8)]))


def other_byte(dice, data, _starts, _order):
    return put(data, dice.randrange(len(data)), bytes([dice.randrange(256)]))


def cut_off(dice, data, _starts, _order):
    return data[:dice.randrange(len(data) + 1)]


def cut_out(dice, data, _starts, _order):
    one, other = sorted(dice.randrange(len(data) + 1) for _ in range(2))
    return data[:one] + data[min(other, one + dice.choice([1, 2, 16, 100])):]


def doubled(dice, data, _starts, _order):
    one = dice.randrange(len(data))
    piece = data[one:one + dice.choice([1, 4, 16, 58])]
    return data[:one] + piece + data[one:]


def more_behind(dice, data, _starts, _order):
    return data + bytes(dice.randrange(256) for _ in range(dice.choice([1, 15, 16, 17, 60])))


def lying_length(dice, data, starts, order):
    at = dice.choice(starts) + dice.choice([8, 8, 12])
    length = dice.choice([0, 1, 13, 14, 41, 43, 262_144, 262_145, 2**31, 2**32 - 1, dice.randrange(2_000)])
    return put(data, at, length.to_bytes(4, order))


def records_turned_about(dice, data, starts, _order):
    pieces = [data[one:other] for one, other in zip(starts, [*starts[1:], len(data)])]
    dice.shuffle(pieces)
    return data[:HEADER] + b"".join(pieces)


def other_header(dice, data, _starts, _order):
    return put(data, dice.randrange(HEADER), bytes([dice.choice([0, 1, 2, 4, 0xA1, 0xB2, 0xD4, 0xFF])]))


DAMAGES = [turned_bit] * 3 + [other_byte] * 3 + [cut_off, cut_out, doubled, more_behind] + [lying_length] * 3 + \
          [records_turned_about, other_header]


def damaged(seed):
    """A capture that was damaged once or a few times."""
    dice = random.Random(seed)
    data = capture(seed, dice.choice([1, 4, 30, 120]))
    order = "little" if data[:1] in (b"\xd4", b"\x4d") else "big"
    starts = record_starts(data, order)
    for _ in range(dice.choice([1, 1, 1, 2, 5])):
        if data:
            data = dice.choice(DAMAGES)(dice, data, [at for at in starts if at + RECORD <= len(data)] or [0], order)
    return data


def dealt_words(seed):
    """Words of a run over some cores and a link."""
    chosen = RUN[seed % len(RUN)]
    return ["run", f"program={chosen}", *settings(seed, chosen).split(), *dealt(seed)[1]]


def words_for(seed):
    """Words of a run, in threads or not, or of `plain`."""
    if seed % 6 == 0:
        chosen = RUN[seed % len(RUN)]
        return ["plain", f"program={chosen}", *settings(seed, chosen).split()]
    return [*dealt_words(seed), *(["threads=no"] if seed % 4 == 0 else [])]


def main(cases=10_000, seed=1, program=f"{TOP}/crates/scr_cli/out/scr_cli"):
    passed = failed = 0
    for number in range(int(seed), int(seed) + int(cases)):
        wrong = compare(os.path.abspath(program), words_for(number), damaged(number))
        passed, failed = passed + (not wrong), failed + bool(wrong)
        if wrong:
            print(f"FAILED seed {number}\n  " + wrong.replace("\n", "\n  "), flush=True)
    print(f"{passed} passed, {failed} failed")
    return 0 if passed and not failed else 1


if __name__ == "__main__":
    sys.exit(main(*sys.argv[1:]))
