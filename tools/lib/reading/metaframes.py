"""What a declared lock makes of its words: their roles, the descrambled words, and what ends the lock."""

from collections import namedtuple

from reading.checksums import CRC32
from reading.control_words import is_control

SYNC, SKIP = 0x78F678F678F678F6, 0x1E1E1E1E1E1E1E1E
CONTROL = 2
WORD = (1 << 64) - 1
STATE_BITS = 58
STATE = (1 << STATE_BITS) - 1
STATE_MARK, DIAGNOSTIC_MARK = 0b001010, 0b011001
WRONG_SYNCS, WRONG_STATES = 4, 3
HALF = (1 << 32) - 1

# A word by its role: the place in its metaframe, the descrambled payload or None where its header is bad, whether it is a framing
# word that is wrong, and why the lock is lost at it, or None.
Framed = namedtuple("Framed", "role place word wrong why")


def crc_after(register, word):
    """The register of a CRC32 after the 64 bits of a word."""
    return CRC32.after(register, word.to_bytes(8, "big"))


def key_after(state):
    """The 64 key bits that follow a state, and the state after them."""
    key = 0
    for _ in range(2):
        # Key bit n is the exclusive or of those 39 and 58 steps back, so 32 of them are known at once.
        bits = (state >> STATE_BITS - 32 ^ state >> 39 - 32) & HALF
        key, state = key << 32 | bits, (state << 32 | bits) & STATE
    return key, state


def role_of_payload(header, word):
    """The role of a payload word by what it says."""
    if header != CONTROL:
        return "data"
    if not is_control(word):
        return "control"
    return "burst" if word >> 62 & 1 else "idle"


class Metaframes:
    """Takes the words of a lock one by one, the declaring Sync word first."""

    def __init__(self, plan):
        self.length, self.skips = plan.metaframe, plan.skips
        self.place, self.is_first = 0, True
        self.state, self.crc, self.has_bad = 0, CRC32.ones, False
        self.wrong_syncs = self.wrong_states = 0

    def take(self, header, payload):
        """The word with these header bits and this payload, which is as it was meant and not descrambled."""
        place, is_bad = self.place, header in (0, 3)
        self.place = (place + 1) % self.length
        self.has_bad |= is_bad
        if place == 0:
            return self.sync(header, payload, is_bad)
        if place == 1:
            return self.scrambler_state(header, payload, is_bad)
        key, self.state = key_after(self.state)
        word = None if is_bad else payload ^ key
        if place == self.length - 1:
            return self.diagnostic(header, word)
        self.crc = crc_after(self.crc, word or 0)
        role = "skip" if place < 2 + self.skips else "bad" if is_bad else role_of_payload(header, word)
        return Framed(role, place, word, False, None)

    def sync(self, header, payload, is_bad):
        wrong = header != CONTROL or payload != SYNC
        self.wrong_syncs = self.wrong_syncs + 1 if wrong else 0
        self.crc, self.has_bad = crc_after(CRC32.ones, 0 if is_bad else payload), is_bad
        return Framed("sync", 0, None if is_bad else payload, wrong, "sync" if self.wrong_syncs == WRONG_SYNCS else None)

    def scrambler_state(self, header, payload, is_bad):
        has_mark = header == CONTROL and payload >> STATE_BITS == STATE_MARK
        if self.is_first:
            self.state = payload & STATE
        wrong = not has_mark or payload & STATE != self.state
        self.wrong_states = self.wrong_states + 1 if wrong else 0
        why = "state" if wrong and self.is_first or self.wrong_states == WRONG_STATES else None
        self.is_first = False
        self.crc = crc_after(self.crc, 0 if is_bad else payload >> STATE_BITS << STATE_BITS)
        return Framed("state", 1, None if is_bad else payload, wrong, why)

    def diagnostic(self, header, word):
        right = header == CONTROL and word >> STATE_BITS == DIAGNOSTIC_MARK and not self.has_bad
        right = right and word & HALF == crc_after(self.crc, word & ~HALF) ^ HALF
        return Framed("diagnostic", self.length - 1, word, not right, None)
