"""A lead-in: what is put before the lanes of a dump, so that a receiver has its locks where the dump begins.

In each lane it is a part of zeros, codes of data words, three metaframes of these of which only the Sync words count, and whole
metaframes from there up to the dump: with Sync, State, Skip and Diagnostic words of the profile, whose State words lead to the first one
of the dump, and with data words between. All lanes have the same number of bits in front, so the skews between them stay.

The metaframe in which a dump begins has the end of it from the lane, and a Diagnostic word whose CRC32 covers words that nobody has. A
data word of the lead-in is chosen so that this CRC32 is right, and no other thing of the lane is changed. No control word of the lead-in
comes before the lanes' own, so a receiver knows nothing of what was sent before.
"""

from collections import namedtuple
from functools import lru_cache

from judge.starts import start_of, stepped
from reading.checksums import CRC32
from reading.conventions import POLYNOMIAL
from reading.lane_files import LaneFile
from reading.lane_words import bits_of
from reading.metaframes import CONTROL, DIAGNOSTIC_MARK, HALF, SKIP, STATE_BITS, STATE_MARK, SYNC, WORD, key_after
from reading.placing import GatheredPlaces
from reading.plans import CODE

DATA, WELL = 1, 3
HEADERS = 64  # codes that a receiver wants before it looks for Sync words
SYNCS = 3  # metaframes before the one whose Sync word declares a lock
HALF_WORDS = 0x3333333333333333, 0xCCCCCCCCCCCCCCCC  # data words of a lead-in: as they are on the lane, with as many ones as zeros
COPIED = 1 << 20

# A word of a metaframe: its header, and its payload, descrambled.
Framed = namedtuple("Framed", "header word")


class LeadIn:
    """The lead-ins of lanes (`LaneFile`). `front` is how many bits the files with it have before the bit 0 of the dump; `starts` has for
    each lane its `Start`, or None, by which it gets zeros; `origins` the bit at which metaframe 0 begins, the same for all lanes but for
    their skews; `first` the first metaframe whose words are whole."""

    def __init__(self, lanes, plan):
        self.lanes, self.plan = lanes, plan
        self.starts = [start_of(lane, plan) for lane in lanes]
        self.origins = origins_of(self.starts, plan.period)
        known = [(start.begin - CODE - origin) // plan.period for start, origin in zip(self.starts, self.origins) if start]
        self.first = min(known, default=0)
        needed = [-(origin + (self.first - SYNCS) * plan.period - (HEADERS + 1) * CODE) for start, origin in zip(self.starts, self.origins) if start]
        self.front = -(-max([0] + needed) // 8) * 8

    @property
    def is_known(self):
        return any(self.starts)

    def begin_of(self, lane):
        """The bit of the dump's first code that is judged."""
        return self.starts[lane].begin if self.starts[lane] else 0

    def state_of(self, lane, metaframe):
        """The scrambler state of a lane's State word in a metaframe."""
        start = self.starts[lane]
        return stepped(start.state, (metaframe - (start.sync - self.origins[lane]) // self.plan.period) * (self.plan.metaframe - 2))

    def count(self):
        """How many words of the stream, from the first group on, come before the first place from which on all words are the dump's."""
        plan, found = self.plan, 0
        for lane, start in enumerate(self.starts):
            if start:
                metaframe, place = divmod((start.begin - self.origins[lane]) // CODE - self.first * plan.metaframe, plan.metaframe)
                rows = min(max(0, place - 2 - plan.skips), plan.metaframe - 3 - plan.skips)
                before_lane = metaframe * plan.group + rows * plan.lanes
                found = max(found, before_lane - plan.lanes + lane + 1)
        return found

    # ---- the files

    def write(self, folder_path, is_stream):
        """Writes lane files with their lead-ins. With `is_stream` all words before the first whole row of the stream are data words of the
        lead-in, otherwise only those before the lane's own first code. Returns their names by lane."""
        names = []
        for lane in range(len(self.lanes)):
            name = "%s.%d" % (folder_path, lane)
            with open(name, "wb") as file:
                self.write_lane(file, lane, is_stream)
            names.append(name)
        return names

    def write_lane(self, file, lane, is_stream):
        data, bits = self.lanes[lane].data, ""
        if self.starts[lane]:
            bits = self.lead_bits(lane, self.stream_end(lane) if is_stream else self.begin_of(lane))
        taken = max(0, len(bits) - self.front)
        whole = -(-taken // 8)
        bits = bits.ljust(self.front, "0") + bits_of(bytes(data[:whole]))[taken:]
        file.write(int("1" + bits, 2).to_bytes(len(bits) // 8 + 1, "big")[1:])
        for at in range(whole, len(data), COPIED):
            file.write(data[at:at + COPIED])

    def stream_end(self, lane):
        """The bit of a lane at which its first word behind the lead-in begins, if all words of rows that are not whole are of it."""
        plan = self.plan
        metaframe, index = divmod(self.count(), plan.group)
        bit = self.origins[lane] + (self.first + metaframe) * plan.period + CODE * (2 + plan.skips - (lane - index) // plan.lanes)
        bit = max(bit, self.begin_of(lane))
        return bit - max(0, -(-(bit - self.lanes[lane].count) // CODE)) * CODE

    def lead_bits(self, lane, end):
        """The bits of a file before a bit of the dump: those of the lead-in, and from the lane's own first code on its framing words, and
        data words in place of its words."""
        codes = Codes()
        codes.zeros(self.front + self.origins[lane] + (self.first - SYNCS) * self.plan.period - HEADERS * CODE)
        codes.fill(HEADERS)
        for _ in range(SYNCS):
            codes.put(CONTROL, SYNC)
            codes.fill(self.plan.metaframe - 1)
        metaframe, begin = self.first, self.begin_of(lane)
        while self.origins[lane] + metaframe * self.plan.period < end:
            Metaframe(self, lane, metaframe).put_into(codes, begin, end)
            metaframe += 1
        return codes.text()


class Metaframe:
    """A metaframe of a lane that has words of the lead-in."""

    def __init__(self, lead_in, lane, number):
        self.lane, self.plan = lead_in.lanes[lane], lead_in.plan
        self.bit, self.state = lead_in.origins[lane] + number * self.plan.period, lead_in.state_of(lane, number)
        self.keys, state = [0, 0], self.state
        for _ in range(self.plan.metaframe - 2):
            key, state = key_after(state)
            self.keys.append(key)

    def own(self, place):
        """A word of the lane, descrambled, or None at its end."""
        bit = self.bit + CODE * place
        if bit + CODE > self.lane.count:
            return None
        code = self.lane.code(bit)
        return Framed(code.header, code.payload ^ self.keys[place])

    def framing(self, place):
        """A framing word of the profile, with no CRC32; or None."""
        if place == 0:
            return Framed(CONTROL, SYNC)
        if place == 1:
            return Framed(CONTROL, STATE_MARK << STATE_BITS | self.state)
        if place < 2 + self.plan.skips:
            return Framed(CONTROL, SKIP)
        return Framed(CONTROL, DIAGNOSTIC_MARK << STATE_BITS | WELL << 32) if place == self.plan.metaframe - 1 else None

    def words(self, begin):
        """The words of the lead-in before a bit, and the lane's own from there on."""
        count = self.plan.metaframe
        own = min(count, max(0, -(-(begin - self.bit) // CODE)))
        words = [self.framing(place) or Framed(DATA, HALF_WORDS[place % 2] ^ self.keys[place]) for place in range(own)]
        words += [self.own(place) for place in range(own, count)]
        if words[-1] is not None:
            self.seal(words, own)
        return words

    def seal(self, words, own):
        """Makes the CRC32 right: in the Diagnostic word, if that is of the lead-in, or else by its last data word."""
        last = len(words) - 1
        if own > last:
            words[last] = Framed(CONTROL, words[last].word | crc_of(words))
            return
        chosen = min(own, last) - 1
        if chosen < 2 + self.plan.skips:
            return
        wrong = crc_of(words) ^ words[last].word & HALF
        words[chosen] = Framed(DATA, words[chosen].word ^ before(wrong, 64 * (last - chosen)))

    def put_into(self, codes, begin, end):
        """Puts the codes up to a bit."""
        words = self.words(begin)
        for place in range(min(self.plan.metaframe, max(0, -(-(end - self.bit) // CODE)))):
            bit, framed = self.bit + CODE * place, words[place]
            if bit < begin:
                codes.put(framed.header, framed.word ^ self.keys[place])
            elif self.framing(place) or framed.header in (0, 3):
                codes.copy(self.lane, bit)
            else:
                codes.put(DATA, HALF_WORDS[place % 2])


class Codes:
    """Codes one after another, as a text of bits, with a running disparity near 0."""

    def __init__(self):
        self.parts, self.balance = [], 0

    def zeros(self, count):
        self.parts.append("0" * count)

    def put(self, header, payload):
        upright = 2 * (header.bit_count() + payload.bit_count()) - CODE
        inverted = 2 * (1 + header.bit_count() + 64 - payload.bit_count()) - CODE
        if abs(self.balance + inverted) < abs(self.balance + upright):
            self.balance += inverted
            self.parts.append(format(1 << 66 | header << 64 | payload ^ WORD, "067b"))
        else:
            self.balance += upright
            self.parts.append(format(header << 64 | payload, "067b"))

    def fill(self, count):
        """Data words that the receiver does not look at."""
        for place in range(count):
            self.put(DATA, HALF_WORDS[place % 2])

    def copy(self, lane, bit):
        """A code of a lane as it is."""
        code = lane.field(bit, CODE)
        self.balance += 2 * code.bit_count() - CODE
        self.parts.append(format(code, "067b"))

    def text(self):
        return "".join(self.parts)


class LedLane(LaneFile):
    """A lane file with its lead-in, by the bits of the dump: those of the lead-in are below 0. `data` are the dump's bytes."""

    def __init__(self, path, front, dump):
        super().__init__(path)
        self.whole, self.front, self.data, self.count = self.data, front, dump.data, dump.count

    def field(self, bit, count):
        begin, end = bit + self.front, bit + self.front + count
        return int.from_bytes(self.whole[begin // 8:-(-end // 8)], "big") >> -end % 8 & (1 << count) - 1


class LedPlaces(GatheredPlaces):
    """The places of the words that `gather` wrote of lanes with their lead-ins, by the bits of the dump, without the words of the lead-in;
    `left_out` says how many those are."""

    def __init__(self, folder, plan, first, lead_in):
        super().__init__(folder, plan, first)
        self.front, (metaframe, index) = lead_in.front, divmod(lead_in.count(), plan.group)
        group = lead_in.origins[0] + (lead_in.first + metaframe) * plan.period
        self.left_out = sum(self.before(piece, group, index) for piece in self.pieces)
        self.pieces = [self.moved(piece) for piece in self.pieces if piece.word + max(1, piece.count) > self.left_out]
        self.begins = [piece.word for piece in self.pieces]
        self.groups = {piece.group: piece for piece in self.pieces if not piece.is_break}

    def before(self, piece, group, index):
        """How many words of a piece come before an index of a group."""
        if piece.group - self.front == group:
            return min(piece.count, max(0, index - piece.index))
        return piece.count if piece.group - self.front < group else 0

    def moved(self, piece):
        """A piece without the words of the lead-in."""
        out = max(0, self.left_out - piece.word)
        return piece._replace(word=piece.word + out - self.left_out, count=piece.count - out, index=piece.index + out, group=piece.group - self.front)

    def slot_at(self, group, index):
        piece = self.groups.get(group)
        return piece.word + index - piece.index if piece and piece.index <= index < piece.index + piece.count else None


def origins_of(starts, period):
    """For each lane the bit at which its metaframe 0 begins, so that they lie as near together as they can; 0 for a lane without one."""
    phases = sorted({start.sync % period for start in starts if start})
    if not phases:
        return [0] * len(starts)
    # The lanes begin behind the widest gap between neighbours on the circle of a metaframe.
    begin = max(zip(phases, [phases[-1] - period] + phases[:-1]), key=lambda pair: pair[0] - pair[1])[0]
    return [begin + (start.sync - begin) % period if start else 0 for start in starts]


def crc_of(words):
    """The CRC32 of a metaframe, as a receiver takes it: bad words are zeros."""
    covered = [0 if framed.header in (0, 3) else framed.word for framed in words]
    covered[1], covered[-1] = covered[1] >> STATE_BITS << STATE_BITS, words[-1].word & ~HALF
    return CRC32.of(b"".join(word.to_bytes(8, "big") for word in covered))


@lru_cache(maxsize=None)
def steps_back(bits):
    """What each bit of a register of the CRC32 was so many bits of a message before."""
    if bits == 0:
        return tuple(1 << place for place in range(32))
    half = steps_back(bits // 2)
    images = tuple(combined(half, image) for image in half)
    return tuple((image ^ POLYNOMIAL) >> 1 | 1 << 31 if image & 1 else image >> 1 for image in images) if bits % 2 else images


def combined(images, register):
    found = 0
    for place, image in enumerate(images):
        if register >> place & 1:
            found ^= image
    return found


def before(register, bits):
    """The 32 bits that make a register this one after so many further bits of zeros: those of a word's lower half, as the register
    takes them in after 32 bits of its own."""
    return combined(steps_back(bits + 32), register)
