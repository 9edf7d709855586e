"""The lists of a link: of frames that are lost or repeated, and of frames that come late. Or why one is refused."""
import re

LARGEST_NUMBER, LONGEST_DELAY, MOST_PIECES = 10**9, 1_000, 256


def ranges(kind, text):
    """The pieces of a list of frames as (first, last, step)."""
    return pieces(kind, text, why_no_range, range_of)


def delays(text):
    """The pieces of a list of delays as (frame, steps)."""
    return pieces("Delay", text, why_no_delay, numbers_of_delay)


def pieces(kind, text, why_not, read):
    """The pieces that a text spells, and why it is refused: by its first refused piece, behind so many bytes."""
    found, place = [], 0
    for piece in text.split(b",") if text else []:
        cause = why_not(piece, found) or ("Pieces" if len(found) == MOST_PIECES else None)
        if cause:
            return None, f"{kind} {cause} at {place}"
        found.append(read(piece))
        place += len(piece) + 1
    return found, None


def numbers_of_range(piece):
    """The three numbers of a piece, None for those that it leaves out; or None where it has none of the forms."""
    found = re.fullmatch(rb"([0-9]+)(?:-([0-9]+)(?:/([0-9]+))?)?", piece)
    return found and [None if text is None else int(text) for text in found.groups()]


def range_of(piece):
    first, last, step = numbers_of_range(piece)
    return first, first if last is None else last, 1 if step is None else step


def why_no_range(piece, _before):
    if not piece:
        return "Empty"
    found = numbers_of_range(piece)
    if not found:
        return "Digit"
    numbers = [number for number in found if number is not None]
    if 0 in numbers:
        return "Zero"
    if max(numbers) > LARGEST_NUMBER:
        return "TooLarge"
    return "Range" if found[1] is not None and found[0] > found[1] else None


def numbers_of_delay(piece):
    """The frame and the steps of a piece, or None where it isn't of the form."""
    found = re.fullmatch(rb"([0-9]+):([0-9]+)", piece)
    return found and (int(found[1]), int(found[2]))


def why_no_delay(piece, before):
    if not piece:
        return "Empty"
    found = numbers_of_delay(piece)
    if not found:
        return "Digit"
    frame, steps = found
    if 0 in found:
        return "Zero"
    if frame > LARGEST_NUMBER or steps > LONGEST_DELAY:
        return "TooLarge"
    return "Twice" if frame in [earlier for earlier, _ in before] else None
