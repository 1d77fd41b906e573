"""Where the metaframes of a lane begin, and with which scrambler state: what a lead-in before a dump has to lead to."""

from collections import Counter, namedtuple

from probe.variants import after, jump
from reading.lane_bits import sync_words
from reading.lane_words import bits_of
from reading.metaframes import CONTROL, DIAGNOSTIC_MARK, SKIP, STATE, STATE_BITS, STATE_MARK, SYNC, key_after
from reading.plans import CODE

# The first whole metaframe of a lane: the bit of its Sync word, and the scrambler state of its State word. `begin` is the bit of the
# first code of the dump that is judged: that metaframe's, or one of the metaframe before, of which the dump has the end.
Start = namedtuple("Start", "sync state begin")

MOST_BYTES, BLOCK = 1 << 20, 1 << 16  # of a lane in which a Sync word is looked for, and of a part of it
LOOKED_AT = 8  # metaframes whose State words are compared
ILLEGAL, HEADERS = 16, 64  # so many illegal headers among so many codes are no lane


def start_of(lane, plan):
    """Where the metaframes of a lane (`LaneFile`) begin by a plan, or None if no Sync word has another a metaframe behind it."""
    first = next((at for at in syncs_of(lane) if has_state(lane, at) and is_repeated(lane, at, plan.period)), None)
    if first is None:
        return None
    state = state_at(lane, first, plan)
    while first >= plan.period and is_metaframe(lane, first - plan.period, stepped(state, 2 - plan.metaframe)):
        first, state = first - plan.period, stepped(state, 2 - plan.metaframe)
    begin = begin_of(lane, first, state, plan)
    if not is_sync(lane, begin) and goes_on(lane, begin):
        begin += CODE
    if begin > first:
        first, state = first + plan.period, stepped(state, plan.metaframe - 2)
    return Start(first, state, begin)


def stepped(state, words):
    """A state so many scrambled words on, or back if the number is below 0."""
    return after(jump(words), state)


def syncs_of(lane):
    """The bits of the Sync words in the first part of a lane, in order."""
    seen = -1
    for begin in range(0, min(len(lane.data), MOST_BYTES), BLOCK):
        bits = bits_of(bytes(lane.data[begin:begin + BLOCK + CODE // 8 + 2]))
        for at in sync_words(bits):
            if 8 * begin + at > seen:
                seen = 8 * begin + at
                yield seen


def carried(lane, bit):
    """The state of a State word at a bit, or None if there is none."""
    if bit + CODE > lane.count:
        return None
    code = lane.code(bit)
    return code.payload & STATE if code.header == CONTROL and code.payload >> STATE_BITS == STATE_MARK else None


def has_state(lane, at):
    return carried(lane, at + CODE) is not None


def is_repeated(lane, at, period):
    """Whether a Sync word has another one a few metaframes behind it, as far as the lane goes on."""
    places = [place for place in range(at + period, at + 4 * period + 1, period) if place + CODE <= lane.count]
    return not places or any(is_sync(lane, place) for place in places)


def is_sync(lane, bit):
    code = lane.code(bit)
    return code.header == CONTROL and code.payload == SYNC


def state_at(lane, first, plan):
    """The state of the metaframe at a bit, by most of the State words from there on, as the scrambler leads to them. So one wrong State
    word is a finding of its own."""
    states = Counter()
    for number in range(LOOKED_AT):
        state = carried(lane, first + plan.period * number + CODE)
        if state is not None:
            states[stepped(state, number * (2 - plan.metaframe))] += 1
    return states.most_common(1)[0][0]


def is_metaframe(lane, bit, state):
    """Whether a metaframe with this state begins at a bit: it has a right Sync, State or Skip word."""
    skip = lane.code(bit + 2 * CODE)
    return is_sync(lane, bit) or carried(lane, bit + CODE) == state or skip.header == CONTROL and skip.payload ^ key_after(state)[0] == SKIP


def begin_of(lane, first, state, plan):
    """The bit of the first code before a lane's first metaframe that is of the same stream; that metaframe's if none is. It is if the
    Diagnostic word between them is there, from behind the last codes that are no words on."""
    if first < CODE or not is_diagnostic(lane, first - CODE, stepped(state, -1)):
        return first
    illegal = []
    begin = first - min(first, plan.period) // CODE * CODE
    for bit in range(first - CODE, begin - 1, -CODE):
        if lane.code(bit).header in (0, 3):
            illegal.append(bit)
            if len(illegal) >= ILLEGAL and illegal[-ILLEGAL] - bit < CODE * HEADERS:
                return illegal[-ILLEGAL] + CODE
    while illegal and illegal[-1] == begin:
        begin = illegal.pop() + CODE
    return begin


def goes_on(lane, begin):
    """Whether the bits before a code are all the same, as before a sender begins, and its first bit is, too: so the code may be cut."""
    before = lane.field(max(0, begin - CODE), min(begin, CODE))
    return begin > 0 and before in (0, (1 << min(begin, CODE)) - 1) and lane.field(begin, 1) == before & 1


def is_diagnostic(lane, bit, state):
    """Whether a word is a Diagnostic word that is scrambled with the key behind a state."""
    code = lane.code(bit)
    return code.header == CONTROL and (code.payload ^ key_after(state)[0]) >> STATE_BITS == DIAGNOSTIC_MARK
