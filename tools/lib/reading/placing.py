"""Where the words of a stream stand in received lanes: by the skews with which they were sent, or by the table that `gather` wrote.

A place is the number of a word in its words file (its slot), the lane that it came on, the metaframe there, and the first bit of its 67
in the lane file. Both kinds of placing have the same calls.
"""

import shlex
from bisect import bisect_right
from collections import Counter, namedtuple

from reading.files import Refused
from reading.lane_bits import first_lock, sync_words
from reading.lane_words import bits_between, bits_of
from reading.outputs import PLACES, WORDS, lane_names, way_to
from reading.plans import CODE
from reading.tables import number_of, table_of
from reading.words import is_sent

HEADING = ["word", "group", "index", "why"]
BREAKS = ("lost", "end")
# The words from `word` on stand in the group that is named by a bit of lane 0, from an index of it on; `is_break`: one bad word for
# what is not there, and `why`. `epoch` counts the breaks before it.
Piece = namedtuple("Piece", "word count group index is_break epoch why")


class Places:
    def words_of(self, lane, first, end):
        """The slots of the words of a lane that have bits from one up to another, each with the first of its bits."""
        bit = first
        while bit < end:
            slot = self.slot_of(lane, bit)
            if slot is None:
                # One code on is in the next word, wherever words begin.
                bit = bit + CODE if bit == end - 1 else min(bit + CODE, end - 1)
                continue
            begin = self.place(slot)[2]
            yield slot, begin
            bit = begin + CODE


class SentPlaces(Places):
    """The places of the words that a plan sends, after the skews of its lanes."""

    is_gathered = False

    def __init__(self, plan, skew):
        self.plan, self.skew = plan, skew

    def place(self, slot):
        """The lane of a slot, the metaframe, and the bit."""
        lane, metaframe, bit = self.plan.place_of(slot)
        return lane, metaframe, bit + self.skew[lane]

    def lane_of(self, slot):
        return slot % self.plan.lanes

    def row_bit(self, slot):
        """The bit of lane 0 at which the row of a slot begins: the words of all lanes that were sent together."""
        return self.skew[0] + self.plan.place_of(slot)[2]

    def ends_piece(self, slot):
        """Whether no slot stands right after a slot in the lanes."""
        return (slot + 1) % self.plan.group == 0

    def slot_of(self, lane, bit):
        """The slot of the word that has this bit of a lane, or None."""
        return self.plan.slot_of(lane, bit - self.skew[lane]) if bit >= self.skew[lane] else None

    def metaframe_of(self, lane, bit):
        """The metaframe of a bit, or None before the first."""
        return (bit - self.skew[lane]) // self.plan.period if bit >= self.skew[lane] else None

    def slot_at(self, group, index):
        """The slot of a place of a span table: in the group before where its own is none that was sent."""
        return max(0, group - self.skew[0]) // self.plan.period * self.plan.group + index if group else index

    def has_group(self, group):
        return is_sent(group, self.plan, self.skew[0])


class GatheredPlaces(Places):
    """The places of the words that `gather` wrote, by its table and the Sync words of the lanes; `first` are the bits at which these have
    their first locks, if they are known."""

    is_gathered = True

    def __init__(self, folder, plan, first=None):
        self.plan, self.pieces, self.count = plan, *read_places(folder, plan)
        self.begins = [piece.word for piece in self.pieces]
        self.groups = {piece.group: piece for piece in self.pieces if not piece.is_break}
        self.syncs = [lane_syncs(folder, plan, lane, self.pieces) for lane in range(plan.lanes)]
        self.first = first or [declared(folder, plan, name) for name in lane_names(plan)]

    def piece_of(self, slot):
        return self.pieces[bisect_right(self.begins, slot) - 1]

    def index_of(self, slot):
        piece = self.piece_of(slot)
        return piece, piece.index + slot - piece.word

    def place(self, slot):
        piece, index = self.index_of(slot)
        row, lane = divmod(index, self.plan.lanes)
        bit = self.sync_of(piece, lane) + self.in_group(row)
        return lane, self.metaframe_of(lane, bit), bit

    def in_group(self, row):
        """The bits from a Sync word up to a row of payload words."""
        return CODE * (2 + self.plan.skips + row)

    def sync_of(self, piece, lane):
        return piece.group + self.syncs[lane][piece.epoch]

    def lane_of(self, slot):
        return self.index_of(slot)[1] % self.plan.lanes

    def row_bit(self, slot):
        piece, index = self.index_of(slot)
        return piece.group + self.in_group(index // self.plan.lanes)

    def ends_piece(self, slot):
        piece = self.piece_of(slot)
        return slot + 1 == piece.word + piece.count

    def slot_of(self, lane, bit):
        after = [piece for piece in self.near(lane, bit) if self.sync_of(piece, lane) <= bit]
        for piece in reversed(after):
            row = (bit - self.sync_of(piece, lane)) // CODE - 2 - self.plan.skips
            index = row * self.plan.lanes + lane
            if 0 <= row < self.plan.metaframe - 3 - self.plan.skips and piece.index <= index < piece.index + piece.count:
                return piece.word + index - piece.index
        return None

    def near(self, lane, bit):
        """The pieces whose groups may have a bit of a lane: lanes lie at most the deskew depth apart."""
        reach = CODE * self.plan.deskew
        first = bisect_right(self.pieces, bit - reach - self.plan.period, key=lambda piece: piece.group)
        return self.pieces[max(0, first - 1):bisect_right(self.pieces, bit + reach, key=lambda piece: piece.group)]

    def metaframe_of(self, lane, bit):
        first = self.first[lane]
        return (bit - first) // self.plan.period if first is not None and bit >= first else None

    def slot_at(self, group, index):
        """The slot of a place of a span table: of lanes, or a word of the words file."""
        if not group:
            return index
        piece = self.groups.get(group)
        return None if piece is None or index >= piece.count else piece.word + index

    def has_group(self, group):
        return group == 0 or group in self.groups


def read_places(folder, plan):
    """The pieces of a table of places, and how many words it has."""
    name, rows = plan.out + PLACES, []
    for where, *fields in table_of(folder, name, HEADING):
        word, group, index = (number_of(where, field) for field in fields[:3])
        if fields[3] not in ("-",) + BREAKS or index >= plan.group or rows and word < rows[-1][0]:
            raise Refused("%s: no group and no break of the plan" % where)
        rows.append((word, group, index, fields[3]))
    pieces, epoch = [], 0
    for number, (word, group, index, why) in enumerate(rows):
        count = rows[number + 1][0] - word if number + 1 < len(rows) else 0
        if count > (1 if why != "-" else plan.group):
            raise Refused("%s:%d: %d words stand between this and the next" % (name, number + 2, count))
        pieces.append(Piece(word, count, group, index, why != "-", epoch, why))
        epoch += why != "-"
    return pieces, rows[-1][0] if rows else 0


def lane_syncs(folder, plan, lane, pieces):
    """By epoch how many bits the Sync words of a lane stand behind those of lane 0."""
    groups = {}
    for piece in pieces:
        groups.setdefault(piece.epoch, []).append(piece.group)
    return {epoch: lane_apart(folder, plan, lane, found[:LOOKED_AT]) if lane else 0 for epoch, found in groups.items()}


# The groups of an epoch of which the Sync words are looked for, and the metaframes before it, if there are none.
LOOKED_AT, LOOKED_BACK = 16, 8


def lane_apart(folder, plan, lane, groups):
    """How many bits the Sync words of a lane stand behind those of lane 0 in groups of one epoch. If none of these is whole, those
    before them tell, since a lock keeps its place."""
    reach, name, found = CODE * plan.deskew, lane_names(plan)[lane], Counter()
    for back in (0, LOOKED_BACK * plan.period):
        for group in groups if not back else groups[:1]:
            first = max(0, group - back - reach)
            bits = bits_between(folder, name, first, group + reach + CODE)
            for at in sync_words(bits):
                behind = (first + at - group + reach) % plan.period - reach
                if behind <= reach:
                    found[behind] += 1
        if found:
            return found.most_common(1)[0][0]
    raise Refused("%s: no Sync word near that of bit %d of lane 0, of which %s tells: they are not of one run" % (name, groups[0], plan.out + PLACES))


def declared(folder, plan, name):
    """The bit of the Sync word that declares the first lock of a lane, or None."""
    size, count = folder.size(name), 1 << 14
    while True:
        bits = bits_of(folder.part(name, 0, count))
        lock = first_lock(bits, sync_words(bits), plan)
        if lock is not None or count >= size:
            return lock
        count *= 4


def gathered_places(folder, plan, has_words):
    """The places by the table that `gather` wrote, if that is of the lanes that are here, and of the words, if they are read; or None."""
    names = [plan.out + end for end in (PLACES, WORDS) if end == PLACES or has_words]
    if not folder.has(names[0]):
        return None
    must_have_all(folder, plan, lane_names(plan))
    if not all(name in folder.made for name in names) and not folder.makes_the_same("gather", plan, names):
        return None
    return GatheredPlaces(folder, plan)


def must_have_all(folder, plan, names, command="link"):
    """An error that names the first of these files that is missing, and how it comes to be."""
    missing = next((name for name in names if not folder.has(name)), None)
    if missing:
        raise Refused("%s is missing%s" % (missing, way_to(folder, plan, command)))


def not_placed(folder, plan):
    """The error if the words of a device's lanes stand neither by the skews nor by the table of places."""
    table, words = plan.out + PLACES, plan.out + WORDS
    why = "%s is not of these lanes and words" % table if folder.has(table) else "%s is missing, by which words are placed" % table
    over = ", over %s: keep that under another name" % words if folder.has(words) else ""
    return Refused("%s: `interlaken gather %s` writes it and the words of these lanes%s" % (why, shlex.quote(plan.name), over))
