"""A lane as the receiver reads it: its searches, its locks, and the words that these cut."""

from collections import namedtuple

from reading.metaframes import WORD, Metaframes
from reading.plans import CODE

# A word lock takes 64 words with legal headers; the 16th illegal one of a block loses it, and so do six metaframes without a lock.
HEADERS, ILLEGAL, SEARCHED = 64, 16, 6

# A word from a bit of the lane on. `lock` is `words` in a word lock and `declared` from the declaring Sync word on, but at the word
# that ends either it says why: `lost_headers`, `lost_sync`, `lost_state`, `unframed`. `disparity` is that of the words of the lock
# before it, and `framed` what a declared lock makes of the word, or None.
Word = namedtuple("Word", "bit lock header inverted disparity framed")


# For each bit of a byte, from the highest on, the characters of all bytes.
BITS = [bytes(48 + (byte >> 7 - place & 1) for byte in range(256)) for place in range(8)]


def bits_of(data):
    """Bytes as a text of 0 and 1."""
    text = bytearray(8 * len(data))
    for place, characters in enumerate(BITS):
        text[place::8] = data.translate(characters)
    return text.decode()


def bits_between(folder, name, first, last):
    """Bits of a lane file, from one up to another."""
    first = max(first, 0)
    return bits_of(folder.part(name, first // 8, -(-last // 8) - first // 8))[first % 8:][:max(last - first, 0)]


def words_of(bits, syncs, plan):
    """The words of all locks of a lane, in order."""
    legal, found = legal_headers(bits), word_locks(bits)
    start = 0
    while True:
        # The phase p has its header's bits in p + 1 and p + 2.
        phase = found.find("1", start + 1) - 1
        if phase < start or phase + CODE * HEADERS > len(bits):
            return
        end = yield from words_of_lock(bits, phase, headers_lost(legal, phase), declaring(syncs, phase, plan.metaframe), plan)
        if end is None:
            return
        start = end


def code_at(bits, bit):
    """What the code at a bit says: whether it is inverted, its header, and its payload as it was meant."""
    code = bits[bit:bit + CODE]
    inverted, header, payload = code[0] == "1", int(code[1:3], 2), int(code[3:], 2)
    return inverted, header, payload ^ WORD if inverted else payload


def has_right_crc(bits, begin, plan):
    """Whether the metaframe from a bit on is there, and has the CRC32 of its words."""
    if begin + plan.period > len(bits):
        return False
    frames = Metaframes(plan)
    framed = [frames.take(*code_at(bits, bit)[1:]) for bit in range(begin, begin + plan.period, CODE)]
    return not framed[-1].wrong


def legal_headers(bits):
    """A text in which bit q is 1 if the bits q and q + 1 of the lane differ."""
    number = int(bits or "0", 2)
    return as_text(number ^ number << 1, len(bits))


def as_text(number, length):
    """The last bits of a number as a text."""
    return bin(1 << length | number & (1 << length) - 1)[3:]


def word_locks(bits):
    """A text in which bit p + 1 is 1 if a word lock begins at p."""
    run, reach = int(legal_headers(bits) or "0", 2), 1
    while reach < HEADERS:
        run, reach = run & run << CODE * reach, 2 * reach
    return as_text(run, len(bits))


def words_of_lock(bits, phase, lost, declared, plan):
    """The words of a word lock from its phase on. Returns the bit from which the next search goes on, or None after the last word."""
    if lost is not None and declared is not None and lost <= declared:
        declared = None
    given_up = phase + CODE * (SEARCHED * plan.metaframe - 1) if declared is None else None
    frames, disparity = Metaframes(plan), 0
    for bit in range(phase, len(bits) - CODE + 1, CODE):
        inverted, header, payload = code_at(bits, bit)
        framed = frames.take(header, payload) if declared is not None and bit >= declared else None
        why = reason(bit, lost, given_up, framed)
        if why:
            yield Word(bit, why, header, inverted, disparity, None)
            return bit + CODE + (why == "unframed")
        yield Word(bit, "declared" if framed else "words", header, inverted, disparity, framed)
        disparity += 2 * bits.count("1", bit, bit + CODE) - CODE
    return None


def reason(bit, lost, given_up, framed):
    """Why a word ends its lock, or None."""
    if bit == lost:
        return "lost_headers"
    if bit == given_up:
        return "unframed"
    return "lost_" + framed.why if framed and framed.why else None


def headers_lost(legal, phase):
    """The bit of the word, of those from a phase on, at which a block of 64 has its 16th illegal header; None if there is none."""
    headers = legal[phase + 1:len(legal) - CODE + 2:CODE]
    for block in range(0, len(headers), HEADERS):
        wrong = [place for place in range(block, min(block + HEADERS, len(headers))) if headers[place] == "0"]
        if len(wrong) >= ILLEGAL:
            return phase + CODE * wrong[ILLEGAL - 1]
    return None


def declaring(syncs, phase, metaframe):
    """The bit of the fourth of four Sync words a metaframe apart, of the words from a phase on, before the search is given up."""
    period, there = CODE * metaframe, set(syncs)
    last = phase + CODE * SEARCHED * metaframe
    return next((at + 3 * period for at in syncs if at >= phase and (at - phase) % CODE == 0 and at + 3 * period < last
                 and all(at + n * period in there for n in (1, 2, 3))), None)
