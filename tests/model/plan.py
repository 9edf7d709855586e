"""What comes to the cores, which frames are delivered, what each of them carries, and what each core sees of the packets."""
import collections

BEACON_EVERY = 256
CoreCounts = collections.namedtuple("CoreCounts", "delivered carried recovered skipped")
# What stands in a lane: a beacon or a copy of a frame, and its number.
Item = collections.namedtuple("Item", "is_frame number")
# Frames that are lost and frames that stand twice, as (first, last, step); and frames that come late, as (frame, steps).
Link = collections.namedtuple("Link", "drops repeats delays", defaults=[(), (), ()])


def numbers_of(ranges, frames):
    """The frames of a capture of so many that the ranges have."""
    found = set()
    for first, last, step in ranges:
        found.update(range(first, min(last, frames) + 1, step))
    return found


def lanes(frames, cores, link):
    """The order in which beacons and frames come to each core, made step by step."""
    lost, twice, late = numbers_of(link.drops, frames), numbers_of(link.repeats, frames), dict(link.delays)
    orders, held = [[] for _ in range(cores)], collections.defaultdict(list)

    def send(number):
        orders[(number - 1) % cores].extend([Item(True, number)] * (2 if number in twice else 1))

    for step in range(1, frames + 1):
        if step > 1 and (step - 1) % BEACON_EVERY == 0:
            for order in orders:
                order.append(Item(False, step - 1))
        if step not in lost and step not in late:
            send(step)
        elif step not in lost:
            held[step + late[step]].append(step)
        for number in held.pop(step, []):
            send(number)
    for step in sorted(held):
        for number in held[step]:
            send(number)
    return orders


def delivered(order):
    """The frames that are delivered: all beacons and frames before the first copy have lower numbers."""
    frames, greatest = [], 0
    for item in order:
        if item.is_frame and item.number > greatest:
            frames.append(item.number)
        greatest = max(greatest, item.number)
    return frames


class Plan:
    """A run over so many frames."""

    def __init__(self, frames, cores, history, link):
        self.frames, self.cores, self.history = frames, cores, history
        self.delivered_to = [delivered(order) for order in lanes(frames, cores, link)]
        self.delivered = sorted(number for frames_of_core in self.delivered_to for number in frames_of_core)
        self.kept = self.carried(self.delivered)

    def carried(self, frames):
        """The packets that one of these frames carries: its own, and as many before it as the history is long."""
        packets = set()
        for frame in frames:
            packets.update(range(max(1, frame - self.history), frame + 1))
        return packets

    def counts(self, core):
        mine = self.delivered_to[core]
        carried = self.carried(mine)
        return CoreCounts(len(mine), len(carried), len(self.kept - carried), self.frames - len(self.kept))
