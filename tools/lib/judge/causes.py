"""What is common to the findings of a kind: a known way in which a sender makes them, one lane alone, every n-th."""

from collections import Counter

from judge import calendars
from judge.frames import Frames
from probe.frames import descrambled
from probe.lanes import MOST_BYTES, is_most, probe_lane, share_of
from probe.stream import columns_of, order_of, skews_of
from probe.variants import MOST_STEPS, RIGHT, Scrambler, crc32_variant, is_next, scrambler_of, steps_on
from reading.intervals import listed
from reading.metaframes import SKIP
from reading.plans import CODE
from reading.tables import EVENTS, RULES

# By kind, what is said of findings that are right by a variant.
OF_VARIANT = {"skip": "right where they are %s", "diag": "right with another CRC32: %s", "crc": "right with another CRC24: %s"}
OF_STATE = ("state", "lost-state", "skip", "diag")  # what a scrambler that runs otherwise makes wrong
SCRAMBLED, TRIED = 8, 400  # metaframes by which a scrambler is chosen, and findings that are tried by it
FEW = 3  # so many findings make a row
STATE_DIGITS = 15
FEW_WRONG = 8  # checksums for which the order of lanes is tried


def causes_of(run, findings):
    """Lines that say what is common to the findings of each kind, in order of kind."""
    by_kind = {}
    for finding in findings:
        by_kind.setdefault(finding.what, []).append(finding)
    scramblers = dict(scramblers_of(run, findings))
    for what, own in by_kind.items():
        yield from variant_lines(what, own)
        yield from scrambler_lines(run, what, own, scramblers)
        own = [finding for finding in own if not finding.cause]
        yield from order_lines(run, what, own)
        if what in ("skip", "sync"):
            yield from difference_lines(what, own)
        if what == "state":
            yield from state_lines(own)
        if what == "calendar" and not are_resets(own):
            found = calendars.common(run, {finding.word for finding in own if finding.channel is None and not finding.note})
            if found:
                yield "calendar: %d of %d are right %s" % found
        if what in EVENTS:
            yield from lane_lines(run, what, own)
        if what in EVENTS + RULES:
            yield from row_lines(run, what, own)


def variant_lines(what, own):
    """How many findings are right by a known variant, of each lane, and those lanes together of which all are."""
    if what not in OF_VARIANT:
        return
    by_lane = {}
    for finding in own:
        by_lane.setdefault(finding.lane if what != "crc" else None, []).append(finding.variant)
    whole, counts = {}, Counter()
    for lane, variants in sorted(by_lane.items(), key=lambda pair: (pair[0] is not None, pair[0] or 0)):
        for variant, count in Counter(variants).most_common():
            if variant in (None, RIGHT):
                continue
            if count == len(variants) and lane is not None:
                whole.setdefault(variant, []).append(lane)
                counts[variant] += count
            else:
                yield "%s: %d of %d%s are %s" % (what, count, len(variants), "" if lane is None else " of lane %d" % lane, OF_VARIANT[what] % variant)
    for variant, lanes in whole.items():
        yield "%s: %d of %d of lane%s %s are %s" % (what, counts[variant], counts[variant], "s" if len(lanes) > 1 else "", listed(lanes), OF_VARIANT[what] % variant)


# ---- the scrambler

def scramblers_of(run, findings):
    """The scrambler of each lane that has wrong State or Skip words and whose metaframes are those of a known variant."""
    wrong = Counter(finding.lane for finding in findings if finding.what in ("state", "lost-state") or finding.what == "skip" and not finding.variant)
    lanes = sorted(lane for lane, count in wrong.items() if count >= FEW)
    for number in lanes:
        frames = list(Frames(run.lanes[number], run.locks[number], run.plan).from_bit(run.firsts[number], SCRAMBLED))
        if len(frames) > 1:
            scrambler, fits, tried = scrambler_of(frames)
            if scrambler is not None and scrambler != Scrambler() and 2 * fits > tried:
                yield number, scrambler


def scrambler_lines(run, what, own, scramblers):
    """How many findings of a lane are right by its scrambler."""
    if what not in OF_STATE or not scramblers:
        return
    by_lane = {}
    for finding in own:
        if finding.lane in scramblers:
            by_lane.setdefault(finding.lane, []).append(finding)
    together = {}
    for lane, findings in sorted(by_lane.items()):
        frames, some = Frames(run.lanes[lane], run.locks[lane], run.plan), findings[:TRIED]
        fits = sum(is_right_by(frames, finding, scramblers[lane], run.plan) for finding in some)
        if fits:
            together.setdefault((scramblers[lane].name(), fits == len(some)), []).append((lane, fits, len(some)))
    for (name, is_whole), lanes in together.items():
        for some in [lanes] if is_whole else [[lane] for lane in lanes]:
            fits, tried, numbers = sum(one[1] for one in some), sum(one[2] for one in some), [one[0] for one in some]
            yield "%s: %d of %d of lane%s %s are right with a scrambler of this kind: %s" % (what, fits, tried, "s" if len(numbers) > 1 else "", listed(numbers), name)


def is_right_by(frames, finding, scrambler, plan):
    """Whether the word of a finding is right by a scrambler."""
    lock = frames.locks.lock_at(finding.bit)
    begin = finding.bit - (finding.bit - lock.first) % plan.period
    if finding.what in ("state", "lost-state"):
        around = list(frames.from_bit(begin - plan.period, 2)) if begin >= plan.period else []
        return len(around) == 2 and is_next(*around, scrambler)
    here = next(frames.from_bit(begin, 1), None)
    if here is None:
        return False
    words = descrambled(here, scrambler)
    if finding.what == "skip":
        return words[(finding.bit - begin) // CODE] == SKIP
    return crc32_variant(words) == RIGHT


# ---- State words

def state_lines(own):
    """How State words of a lane differ from those of its register: some steps on or back, or another lane's."""
    told = [finding for finding in own if is_state(finding.expected) and is_state(finding.found)]
    by_steps, exchanged = {}, {}
    for finding in told[:TRIED]:
        other = other_lane(finding, told)
        if other is not None:
            exchanged.setdefault(tuple(sorted((finding.lane, other))), finding)
            continue
        steps = steps_between(int(finding.expected, 16), int(finding.found, 16))
        if steps:
            by_steps.setdefault((finding.lane, steps), []).append(finding)
    for (lane, other), finding in exchanged.items():
        yield "state: lanes %d and %d are exchanged from bit %d of lane %d on" % (lane, other, finding.bit - CODE, finding.lane)
    for (lane, steps), findings in by_steps.items():
        words = "State word at bit %d of lane %d is" if len(findings) == 1 else "State words from bit %d of lane %d on are"
        yield "state: the " + words % (findings[0].bit, lane) + " %d step%s %s" % (abs(steps), "s" * (abs(steps) > 1), "on" if steps > 0 else "back")


def is_state(text):
    return isinstance(text, str) and len(text) == STATE_DIGITS and all(digit in "0123456789ABCDEF" for digit in text)


def other_lane(finding, told):
    """The lane whose State word, sent at about the same time, a lane has in place of its own; or None."""
    return next((one.lane for one in told if one.lane != finding.lane and one.expected == finding.found and one.found == finding.expected), None)


def steps_between(state, found):
    """How many steps on, or back, a state is from another, or 0."""
    on = back = state
    for steps in range(1, MOST_STEPS + 1):
        on, back = steps_on(on, 1), steps_on(back, -1)
        if found in (on, back):
            return steps if found == on else -steps
    return 0


def are_resets(own):
    """Whether most findings of the calendar are of a reset bit, which then are the cause and not the flow bits."""
    return 2 * sum(str(finding.expected).startswith("reset=") for finding in own) > len(own)


# ---- the order of lanes

def order_lines(run, what, own):
    """Another order of the lanes in which the CRC24 of most control words is right."""
    if what != "crc" or len(run.lanes) < 2 or sum(finding.variant is None for finding in own) < FEW_WRONG:
        return
    findings = [probe_lane(bytes(lane.data[:MOST_BYTES]), run.plan.metaframe) for lane in run.lanes]
    if not all(finding.frames for finding in findings):
        return
    order, share = order_of(columns_of(findings, skews_of(findings)))
    if order and order.lanes != list(range(len(run.lanes))) and is_most(share):
        numbers = ",".join("%d" % lane for lane in order.lanes)
        yield "crc: %s are right with the lanes in the order %s: tools/lanes --order %s mends it" % (share_of(share, "control words after data"), numbers, numbers)


# ---- what differs, and where

def difference_lines(what, own):
    """The same bits that differ in all findings of a kind."""
    masks = Counter(int(finding.expected, 16) ^ int(finding.found, 16) for finding in own if is_hex(finding.expected) and is_hex(finding.found))
    for mask, count in masks.most_common(1):
        if count >= FEW and 2 * count > len(own):
            bits = [bit for bit in range(63, -1, -1) if mask >> bit & 1]
            if len(bits) <= 4:
                yield "%s: %d of %d differ in bit%s %s alone" % (what, count, len(own), "s" if len(bits) > 1 else "", ", ".join("%d" % bit for bit in bits))


def is_hex(text):
    return isinstance(text, str) and len(text) == 16 and all(digit in "0123456789ABCDEF" for digit in text)


def lane_lines(run, what, own):
    """That a kind is on one lane alone, of several."""
    lanes = Counter(finding.lane for finding in own if finding.lane is not None)
    if len(run.lanes) > 1 and len(own) >= FEW and len(lanes) == 1 and sum(lanes.values()) == len(own):
        yield "%s: %d of %d are on lane %d alone" % (what, len(own), len(own), next(iter(lanes)))


def row_lines(run, what, own):
    """That findings of a kind stand in every n-th metaframe of each lane, or are every n-th word, control word or burst."""
    if len(own) < FEW:
        return
    if any(finding.word is not None for finding in own):
        yield from word_rows(run, what, own)
        return
    frames = {}
    for finding in own:
        frames.setdefault(finding.lane, set()).add(finding.metaframe)
    rows = {tuple(sorted(own)) for own in frames.values() if None not in own}
    if len(rows) == 1:
        row = rows.pop()
        if step_of(row):
            yield "%s: %d of %d are in every %smetaframe from %d to %d" % (what, len(own), len(own), nth(step_of(row)), row[0], row[-1])


def word_rows(run, what, own):
    words = sorted({finding.word for finding in own if finding.word is not None})
    kinds = run.stream.kinds
    for name, letters in (("burst word", "b"), ("control word", "bie"), ("word", "bdiex")):
        if all(kinds[word] in letters for word in words):
            numbers = numbers_among(kinds, letters, words)
            step = step_of(numbers)
            if step and (step > 1 or letters != "b" or len(numbers) > FEW):
                yield "%s: %d of %d are at every %s%s" % (what, len(own), len(own), nth(step), name)
                return


def numbers_among(kinds, letters, words):
    """The numbers that words have among those of some kinds."""
    found, count, at = [], 0, 0
    for word in words:
        count += sum(kinds.count(letter, at, word) for letter in letters)
        found.append(count)
        at = word
    return found


def step_of(numbers):
    """The one distance of numbers that follow one another, of three or more; or None."""
    steps = {after - before for before, after in zip(numbers, numbers[1:])}
    return steps.pop() if len(numbers) >= FEW and len(steps) == 1 else None


def nth(step):
    return "" if step == 1 else "%d%s " % (step, {1: "st", 2: "nd", 3: "rd"}.get(step % 10 if step % 100 // 10 != 1 else 0, "th"))
