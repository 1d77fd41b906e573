"""Lanes in pieces of any bits, in both directions, beside whole bytes; with pieces that find no room, at the ends, and misused.

    bits.py PYTHON LIBRARY PLAN PREFIX CHANNEL CAPTURE..

PYTHON is the folder of the package, PLAN a plan of two lanes, and PREFIX.lane.0 and PREFIX.lane.1 are what `send` made of it and of the
packets of each CAPTURE on its CHANNEL. It prints a line for each thing that is not so, and at the end how many were looked at.
"""

import os
import random
import sys

sys.path.insert(0, sys.argv[1])
sys.path.insert(0, os.path.join(os.path.dirname(os.path.abspath(__file__)), ".."))
import interlaken
from lib.captures import packets_of

LIBRARY = sys.argv[2]
METAFRAME = 67 * 32 // 8  # bytes of a metaframe of the plan
WRONG = {
    "feed where bits wait": (lambda receiver, near: receiver.feed(0, b"a"), "bits of lane 0 wait"),
    "bits of no lane": (lambda receiver, near: receiver.feed_bits(2, 0, 1), "NO_LANE"),
    "a number of more bits": (lambda receiver, near: receiver.feed_bits(0, 8, 3), "feed_bits: lane 0: 8 is not a number of 3 bits"),
    "bits of no count": (lambda receiver, near: receiver.feed_bits(0, 0, -1), "feed_bits: lane 0: a count of -1; it is 0 or more"),
    "take where bits wait": (lambda receiver, near: near.take(1, 1), "bits of lane 1 wait"),
    "bits to take of no lane": (lambda receiver, near: near.take_bits(2, 1), "NO_LANE"),
    "bits to take of no count": (lambda receiver, near: near.take_bits(0, -1), "no count: -1"),
    "bits after the finish": (lambda receiver, near: receiver.finish(0) or receiver.feed_bits(0, 1, 1), "FINISHED"),
}


class Lane:
    """A lane as one number, without so many bits at its end."""

    def __init__(self, data, cut=0):
        self.number, self.size = int.from_bytes(data, "big") >> cut, 8 * len(data) - cut

    def filled(self):
        """Its bytes, the last of them filled up with zeros."""
        count = (self.size + 7) // 8
        return (self.number << 8 * count - self.size).to_bytes(count, "big")

    def piece(self, at, count):
        return self.number >> self.size - at - count & (1 << count) - 1


class Fed:
    """A receiver whose lanes are fed in drawn pieces; how often a piece found no room."""

    def __init__(self, receiver, lanes):
        self.receiver, self.lanes, self.refused = receiver, lanes, 0
        self.at, self.over = [0] * len(lanes), [False] * len(lanes)

    def step(self, number):
        """The next bits of a lane, or its end: whether there was room."""
        lane = self.lanes[number]
        count = min(random.randrange(63), lane.size - self.at[number])
        if self.at[number] == lane.size:
            try:
                self.receiver.finish(number)
            except ValueError:
                return False
            self.over[number] = True
            return True
        if not self.receiver.feed_bits(number, lane.piece(self.at[number], count), count):
            return False
        self.at[number] += count
        return True

    def events(self):
        while not all(self.over):
            number = random.choice([number for number, over in enumerate(self.over) if not over])
            for _ in range(random.randrange(1, 1500)):
                if self.over[number] or not self.step(number):
                    self.refused += not self.over[number]
                    break
            yield from self.receiver.events()


def taken(plan, captures, lanes):
    """The lanes that a transmitter gives in drawn pieces, as far as these go; and whether it gives a bit more."""
    got, at = [0] * len(lanes), [0] * len(lanes)
    with interlaken.Transmitter(plan, LIBRARY) as near:
        for channel, packets in captures:
            for packet in packets:
                near.packet(channel, packet)
        near.finish()
        for _ in range(200000):
            number = random.randrange(len(lanes))
            count = min(random.randrange(63), lanes[number].size - at[number])
            bits = near.take_bits(number, count)
            if bits is not None:
                got[number], at[number] = got[number] << count | bits, at[number] + count
            if at == [lane.size for lane in lanes]:
                break
        return got, [near.take_bits(number, 1) for number in range(len(lanes))]


def ending_in_zeros(data):
    """The lane up to the last metaframe that ends with three zeros, and without these: what fills it up gives them back."""
    end = next(end for end in range(len(data), 0, -METAFRAME) if data[end - 1] % 8 == 0)
    return Lane(data[:end], 3)


def received(lanes, plan):
    """What a receiver makes of whole lanes: its events, and its reports of the lanes."""
    with interlaken.Receiver(plan, LIBRARY) as receiver:
        events = list(receiver.feed_all([lane.filled() for lane in lanes]))
        return events, [receiver.report(number) for number in range(len(lanes))]


def received_by_bits(lanes, plan):
    """The same of lanes in drawn pieces; and how many found no room."""
    with interlaken.Receiver(plan, LIBRARY) as receiver:
        fed = Fed(receiver, lanes)
        events = list(fed.events())
        return (events, [receiver.report(number) for number in range(len(lanes))]), fed.refused


def raised(call, receiver, near):
    try:
        call(receiver, near)
    except (ValueError, interlaken.Misuse) as error:
        return str(error)
    return "nothing"


def main():
    random.seed(5)
    tried, prefix = [], sys.argv[4]
    plan, *data = [open(name, "rb").read() for name in (sys.argv[3], prefix + ".lane.0", prefix + ".lane.1")]
    captures = [(int(channel), packets_of(name)) for channel, name in zip(sys.argv[5::2], sys.argv[6::2])]
    lanes = [Lane(one) for one in data]
    wanted, _ = received(lanes, plan)
    for cut, shorter in [(cut, [Lane(one, cut) for one in data]) for cut in range(8)] + [(3, [ending_in_zeros(one) for one in data])]:
        found, refused = received_by_bits(shorter, plan)
        tried.append(("events and reports, without %d bits" % cut, found == received(shorter, plan)))
        tried.append(("pieces that find no room", refused > 0))
    for _ in range(4):
        tried.append(("bits that are taken", taken(plan, captures, lanes) == ([lane.number for lane in lanes], [None, None])))
    tried.append(("packets", sum(isinstance(event, interlaken.Packet) for event in wanted) == sum(len(packets) for _, packets in captures)))
    with interlaken.Receiver(plan, LIBRARY) as receiver, interlaken.Transmitter(plan, LIBRARY) as near:
        receiver.feed_bits(0, 5, 3)
        near.take_bits(1, 3)
        tried += [(what, raised(call, receiver, near) == text) for what, (call, text) in WRONG.items()]
    for what, holds in tried:
        if not holds:
            print("not so:", what)
    print("%d tried" % len(tried))


main()
