"""What fits one lane: bit order, polarity, phase, metaframe, Skip words, scrambler and CRC32."""

from collections import Counter, namedtuple

from probe.frames import descrambled, frames_of
from probe.search import ORDERS, PAYLOADS, search
from probe.variants import NOT_SCRAMBLED, RIGHT, Scrambler, crc32_variant, is_next, scrambler_of
from reading.conventions import CRC32_GROUPS, Crc32Rule, rule_of
from reading.bit_orders import COMPLEMENT, reordered
from reading.metaframes import CONTROL, SKIP, STATE_BITS, STATE_MARK
from reading.plans import CODE, PLAN

MOST_SKIPS = 4
LEAST, MOST = PLAN["metaframe"].least, PLAN["metaframe"].most
MOST_BYTES = 1 << 20  # of a lane that are looked at
CRC_WORDS = 8192  # in which variants of the CRC32 are counted
CRC32_TRIED = 5  # metaframes by which a variant is chosen
NO_OPTION, ADAPTED = "no option of tools/lanes mends it", ("--state", "--crc32", "--crc24", "--idle-fields", "--multi-use")
SHORT = "found "  # and how long a metaframe is

# So many of so many.
Share = namedtuple("Share", "fits tried")
# What was found of a lane. `found` is of `search`, or None. Of what stands behind its metaframe, all None if it has none: `frames` its
# metaframes, with all changes of order undone, and `words` their words, descrambled; `states`, the share of right State words;
# `scrambler` (Scrambler or None) and its share; `skips`, the number of Skip words of a metaframe or None, their share, and the share of
# those that are not scrambled; `crc32` the variant or None, and its share.
Finding = namedtuple("Finding", "found frames words states scrambler scrambler_share skips skips_share plain_share crc32 crc32_share", defaults=(None,) * 11)


def probe_lane(data, metaframe=None, order=None, words=1 << 17):
    """What fits a lane by its first bytes, of which it looks at about so many words. A metaframe that is given, and an order (of
    `search`) in which another lane is, are tried first."""
    found = search(data[:MOST_BYTES], metaframe, order, words)
    if found is None or found.metaframe is None:
        return Finding(found)
    most = max(words // found.metaframe, 4)
    frames = list(frames_of(mended(found), found.first, found.metaframe, most))
    if not frames:
        return Finding(found)
    scrambler, fits, tried = scrambler_of(frames)
    plain = [descrambled(frame, scrambler or Scrambler()) for frame in frames]
    skips, share = skips_of(frames, plain)
    sent = [frame.payloads[at] for frame in frames for at in range(2, 2 + (skips or 1))]
    return Finding(found, frames, plain, states_of(frames, scrambler or Scrambler()), scrambler, Share(fits, tried), skips, share,
                   Share(sent.count(SKIP), len(sent)), *crc32_of(frames, plain))


def mended(found):
    """The bits of a lane from its first to the end of its last whole code, with the changes of each code undone. They keep their places."""
    begin = found.first % CODE
    end = len(found.bits) - (len(found.bits) - begin) % CODE
    bits = found.bits[:end].encode()
    if found.is_inverted:
        bits = bits.translate(COMPLEMENT)
    if found.payload != PAYLOADS[0]:
        bits = bits[:begin] + reordered(bits[begin:], (0, 1, 2) + tuple(3 + place for place in found.payload.places))
    return bytes(bits).decode()


def states_of(frames, scrambler):
    """The share of State words that are Control, have their mark, and the state of the register of the metaframe before."""
    fits = 0
    for before, frame in zip([None] + frames, frames):
        has_mark = frame.headers[1] == CONTROL and frame.payloads[1] >> STATE_BITS == STATE_MARK
        fits += has_mark and (before is None or is_next(before, frame, scrambler))
    return Share(fits, len(frames))


def skips_of(frames, words):
    """How many Skip words most metaframes have, from the third word on, and the share of those that are right; None if they have none."""
    counts = Counter(next(count for count in range(len(frame) - 2) if frame[2 + count] != SKIP) for frame in words if len(frame) > 3)
    skips = min(max(counts, key=counts.get), MOST_SKIPS) if counts else 0
    if not skips:
        return None, Share(0, len(frames))
    return skips, Share(sum(frame[2 + place] == SKIP for frame in words for place in range(skips)), skips * len(words))


def crc32_of(frames, words):
    """The variant of CRC32 that fits most metaframes, or None, and its share of those that were tried."""
    few = words[:max(2, min(CRC32_TRIED, CRC_WORDS // len(words[0])))]
    names = Counter(name for name in map(crc32_variant, few) if name is not None)
    if not names or 2 * names.most_common(1)[0][1] < len(few):
        return None, Share(names.most_common(1)[0][1] if names else 0, len(few))
    name = names.most_common(1)[0][0]
    rule = Crc32Rule() if name == RIGHT else rule_of(Crc32Rule, CRC32_GROUPS, name)[0]
    tried = words if name == RIGHT else words[:max(2, CRC_WORDS // len(words[0]))]
    count = sum(crc32_variant(frame, rule) is not None for frame in tried)
    return (name if 2 * count > len(tried) else None), Share(count, len(tried))


# ---- what is said

# What is said of a lane: the text, and, if it is not as the profile has it, what mends it: an option of tools/lanes with `%d` for the
# number of the lane, or NO_OPTION.
Said = namedtuple("Said", "text mend", defaults=(None,))


def share_of(share, what):
    return "%d of %d %s" % (*share, what)


def is_most(share):
    return 2 * share[0] > share[1]


def said_of(finding):
    """What is said of a lane, in order."""
    found = finding.found
    if found is None:
        yield Said("no Sync word in any order of bits", "not found")
        return
    yield Said("%s: %s are legal" % (found.order.said, share_of(found.headers, "headers")), found.order.options or None)
    if found.is_inverted:
        yield Said("inverted, or its header bits are exchanged: %s" % share_of(found.syncs, "Sync words"), "--invert %d, or --form hex67 --headers-swapped")
    if found.payload != PAYLOADS[0]:
        yield Said("%s: %s" % (found.payload.said, share_of(found.syncs, "Sync words")), found.payload.options)
    if finding.frames is None:
        yield Said("first Sync word at bit %d, and no whole metaframe: %s" % (found.first, share_of(found.syncs, "Sync words")), "not found")
        return
    yield Said("metaframe %d, codes begin at bit %d, first Sync word at bit %d: %s" % (found.metaframe, found.first % CODE, found.first, share_of(found.syncs, "Sync words")),
               "found %d; the profile has %d to %d" % (found.metaframe, LEAST, MOST) if found.metaframe < LEAST else None if is_most(found.syncs) else "not found")
    yield from said_of_skips(finding)
    yield from said_of_scrambler(finding)
    yield said_of_crc32(finding)


def said_of_skips(finding):
    if finding.skips is None:
        yield Said("no Skip words after the State word: %s" % share_of(finding.skips_share, "metaframes"), "not found")
        return
    is_plain = is_most(finding.plain_share)
    share = share_of(finding.plain_share if is_plain else finding.skips_share, "Skip words")
    yield Said("skips %d%s: %s" % (finding.skips, ", %s" % NOT_SCRAMBLED if is_plain else "", share), NO_OPTION if is_plain else None)


def said_of_scrambler(finding):
    """The scrambler, and the State words of its register."""
    if finding.scrambler is None:
        yield Said("no scrambler of those known fits: %s" % share_of(finding.scrambler_share, "metaframes"), "not found")
        return
    name = finding.scrambler.name()
    yield Said("scrambler %s: %s, %s" % (name, share_of(finding.scrambler_share, "metaframes"), share_of(finding.states, "State words")),
               None if name == RIGHT else finding.scrambler.adapted() or NO_OPTION)
    if not is_most(finding.states):
        yield Said("State words are not those of the register before: %s are" % share_of(finding.states, "State words"), NO_OPTION)


def said_of_crc32(finding):
    text = "CRC32 %s: %s" % (finding.crc32, share_of(finding.crc32_share, "Diagnostic words"))
    if finding.crc32 is None:
        return Said("no CRC32 of those known fits: %s" % share_of(finding.crc32_share, "Diagnostic words"), "not found")
    return Said(text, None if finding.crc32 == RIGHT else "--crc32 " + finding.crc32)


def lines_of(finding, number):
    """What is said of lane `number`: lines of text without its name, each with its share, and what mends it."""
    return ["%s%s" % (said.text, "" if said.mend is None else ": " + mend_of(said.mend, number)) for said in said_of(finding)]


def mend_of(mend, number):
    """What is said of a mend for a lane."""
    if mend in (NO_OPTION, "not found") or mend.startswith(SHORT):
        return mend
    if mend.startswith(ADAPTED):
        return "tools/lanes adapt %s mends it" % mend
    return "tools/lanes %s mends it" % (mend % number if "%d" in mend else mend)


def is_by_profile(finding):
    return all(said.mend is None for said in said_of(finding))
