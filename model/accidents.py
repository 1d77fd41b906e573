"""What no receiver can see: accidents, and packets that are missing. DEFINITIONS, "What lanes show": Accident, Missing
packet."""

from typing import NamedTuple, Sequence

from epochs import Epoch, Place
from fields import CONTROL, Word
from link import Link
from locks import Lock
from reassembly import Packet
from spans import Span, stretches
from stream import ListedPacket


class Sent(NamedTuple):
    """The sent stream, the link that carries it, and the skew of each lane."""
    words: Sequence[Word]
    link: Link
    skews: Sequence[int]

    def number_of_sync(self, lane: int, bit: int) -> int | None:
        """The number of the sender's Sync at a bit of a lane. They stand at the lane's skew and every metaframe
        after."""
        number, rest = divmod(bit - self.skews[lane], self.link.period)
        return number if rest == 0 and 0 <= number < len(self.words) // self.link.group else None

    def place(self, slot: int) -> Place:
        """The place of a slot."""
        group, index = divmod(slot, self.link.group)
        return Place(self.skews[0] + group * self.link.period, index)

    def slot(self, place: Place) -> int | None:
        """The slot of a place, if it is one of the sender's."""
        number = self.number_of_sync(0, place.group)
        return None if number is None else number * self.link.group + place.index


class Accidents(NamedTuple):
    """Declared locks, groups and passing stretches of the receiver that are not the sender's."""
    locks: int
    groups: int
    stretches: int


def accidents(sent: Sent, locks: Sequence[Sequence[Lock]], epochs: Sequence[Epoch]) -> Accidents:
    """All accidents of a run of a link."""
    declared = [(lane, lock.declared) for lane, found in enumerate(locks) for lock in found if lock.declared is not None]
    groups = [group for epoch in epochs for group in epoch.groups]
    passing = [part for part in stretches(epochs) if part.fault is None]
    return Accidents(
        sum(sent.number_of_sync(lane, bit) is None for lane, bit in declared),
        sum(not is_sent_group(sent, group) for group in groups),
        sum(not is_sent_stretch(sent, epochs[part.epoch], part.begin, part.end) for part in passing),
    )


def is_sent_group(sent: Sent, group: Sequence[int]) -> bool:
    """Whether the Syncs of a group are all of one number."""
    numbers = {sent.number_of_sync(lane, bit) for lane, bit in enumerate(group)}
    return len(numbers) == 1 and None not in numbers


def is_sent_stretch(sent: Sent, epoch: Epoch, begin: int, end: int) -> bool:
    """Whether the words of a stretch are, word for word and at their places, those after one sent control word up to
    and including the next."""
    slots = [sent.slot(place) for place in epoch.places[begin:end + 1]]
    first = slots[0]
    if first is None or slots != list(range(first, first + len(slots))) or sent.words[first].kind != CONTROL:
        return False
    return epoch.words[begin + 1:end + 1] == list(sent.words[first + 1:slots[-1] + 1])


class Missing(NamedTuple):
    """A listed packet for which none came, with the number of the first span that it meets, or else the number of
    spans."""
    packet: ListedPacket
    span: int


def missing(sent: Sent, listed: Sequence[ListedPacket], packets: Sequence[Packet], spans: Sequence[Span]) -> list[Missing]:
    """The listed packets that have their end word, if no packet came on their channel from the place of the SOP word
    to that of the end word."""
    came = {(packet.channel, packet.first, packet.last) for packet in packets}
    found = []
    for packet in listed:
        if packet.last is None:
            continue
        first, last = sent.place(packet.first), sent.place(packet.last)
        if (packet.channel, first, last) not in came:
            met = [number for number, span in enumerate(spans) if span.meets(first, last)]
            found.append(Missing(packet, met[0] if met else len(spans)))
    return found
