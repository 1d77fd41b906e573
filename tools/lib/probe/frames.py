"""A lane cut into metaframes."""

from collections import namedtuple

from reading.lane_words import code_at
from reading.metaframes import SKIP, STATE, key_after
from reading.plans import CODE

# A metaframe: the bit of the lane at which its Sync word begins; and of each of its words the header (0 to 3) and the payload, with the
# inversion undone and not descrambled.
Frame = namedtuple("Frame", "bit headers payloads")


def frames_of(bits, first, metaframe, most=None):
    """The whole metaframes of a lane from the Sync word at a bit on, at most so many. `bits` is a text of 0 and 1 as `bits_of` gives."""
    period = CODE * metaframe
    places = range(first, len(bits) - period + 1, period)
    for begin in places[:most]:
        codes = [code_at(bits, bit) for bit in range(begin, begin + period, CODE)]
        yield Frame(begin, [header for _, header, _ in codes], [payload for _, _, payload in codes])


def descrambled(frame, scrambler):
    """The payloads of a metaframe, descrambled as by a Scrambler of `variants`; Sync and State as they are."""
    state = scrambler.start(frame.payloads[1] & STATE)
    found, is_plain = list(frame.payloads[:2]), scrambler.plain
    for payload in frame.payloads[2:]:
        is_plain = is_plain and payload == SKIP
        if is_plain and scrambler.stands:
            found.append(payload)
            continue
        key, state = key_after(state)
        found.append(payload if is_plain else payload ^ key)
    return found
