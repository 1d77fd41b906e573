"""Groups and epochs: which words of the lanes belong together. DEFINITIONS, "What lanes show": Group, Epoch; "What is
received": Epoch."""

from itertools import product
from typing import Iterator, NamedTuple, Sequence

from fields import BAD, Word
from link import CODE_BITS, Link
from locks import Lock


NO_WORD = Word(BAD, 0)


class Place(NamedTuple):
    """A received word has a place: the number that names its group, and its index in the group."""
    group: int
    index: int


class Epoch(NamedTuple):
    """Words at their places, and the break that ends them: `lost` or `end`. An epoch of lanes has its groups too, each
    as one Sync a lane."""
    places: list[Place]
    words: list[Word]
    ends_for: str
    groups: list[tuple[int, ...]] = []


def epoch_of_words(words: Sequence[Word]) -> Epoch:
    """The words of a words file are one epoch, at the places 0, 1 and so on of group 0, which ends for the end."""
    return Epoch([Place(0, index) for index in range(len(words))], list(words), "end")


class GroupRow(NamedTuple):
    """A row of the table of places: the words of the gathered file before it, a group, and, for the break that ends an epoch, the
    index before which it stands and its cause; of a group itself the index is 0, without a cause."""
    words: int
    group: int
    index: int
    why: str | None


class Sync(NamedTuple):
    """A covered Sync: its bit position, and the lock that covers it."""
    bit: int
    lock: Lock


def covered_syncs(locks: Sequence[Lock], link: Link) -> list[Sync]:
    """The places of Syncs that locks of a lane cover, right or wrong ones."""
    return [Sync(lock.declared + CODE_BITS * number, lock) for lock in locks if lock.declared is not None
            for number in range(0, len(lock.words), link.metaframe)]


def groups(lanes: Sequence[Sequence[Sync]], link: Link) -> Iterator[tuple[Sync, ...]]:
    """One covered Sync of each lane, all within 67 x D bits, named by lane 0's bit position; the least first."""
    depth = CODE_BITS * link.deskew
    for first in lanes[0]:
        near = [[sync for sync in lane if abs(sync.bit - first.bit) <= depth] for lane in lanes[1:]]
        for others in product(*near):
            group = (first, *others)
            if max(sync.bit for sync in group) - min(sync.bit for sync in group) <= depth:
                yield group


def epochs_of_lanes(locks: Sequence[Sequence[Lock]], link: Link) -> list[Epoch]:
    """The epochs of the lanes, one after another. The next begins with the least group after its last."""
    found: list[Epoch] = []
    for group in groups([covered_syncs(lane, link) for lane in locks], link):
        if not found or group[0].bit > found[-1].groups[-1][0]:
            found.append(epoch_from(group, locks, link))
    return found


def epoch_from(group: tuple[Sync, ...], lanes: Sequence[Sequence[Lock]], link: Link) -> Epoch:
    """A group, its words in order, then the group a metaframe on where every lane's next Sync is covered by the same
    lock. It ends at the first word or Sync that is not there."""
    epoch = Epoch([], [], "", [])
    syncs = group
    while True:
        epoch.groups.append(tuple(sync.bit for sync in syncs))
        for index in range(link.group):
            sync = syncs[index % link.lanes]
            bit = sync.bit + CODE_BITS * (2 + link.skips + index // link.lanes)
            if not sync.lock.covers(bit):
                return epoch._replace(ends_for=why_absent(sync.lock))
            epoch.places.append(Place(syncs[0].bit, index))
            epoch.words.append(sync.lock.word_at(bit))
        syncs = tuple(Sync(sync.bit + link.period, sync.lock) for sync in syncs)
        for sync in syncs:
            if not sync.lock.covers(sync.bit):
                return epoch._replace(ends_for=why_absent(sync.lock))


def break_place(epoch: Epoch, link: Link) -> Place:
    """The break of an epoch of lanes stands at the place of the first word that is not there: if a group is whole, and a Sync after
    it is not there, that is index 0 of the group a metaframe on."""
    group, index = epoch.groups[-1][0], len(epoch.words) - link.group * (len(epoch.groups) - 1)
    return Place(group, index) if index < link.group else Place(group + link.period, 0)


def gathered(epochs: Sequence[Epoch], link: Link) -> tuple[list[Word], list[GroupRow]]:
    """The received words of the epochs in order, with one Bad word for each break that another epoch follows; a bad word has a
    payload of zeros. And a row for each group, with the number of words before its own, and then one for each break."""
    words: list[Word] = []
    rows: list[GroupRow] = []
    for number, epoch in enumerate(epochs):
        if number > 0:
            words.append(NO_WORD)
        rows += [GroupRow(len(words) + link.group * place, group[0], 0, None) for place, group in enumerate(epoch.groups)]
        words += [NO_WORD if word.kind == BAD else word for word in epoch.words]
        rows.append(GroupRow(len(words), *break_place(epoch, link), epoch.ends_for))
    return words, rows


def why_absent(lock: Lock) -> str:
    """A word that a lock does not cover is not there since the lock was lost, or since the bits were over."""
    return "end" if lock.cause is None else "lost"
