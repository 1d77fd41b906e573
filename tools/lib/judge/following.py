"""Which finding follows from which: the wrong checksum from the wrong word, the span from the checksum, the lost packet from the span."""

from bisect import bisect_left, bisect_right

from reading.control_words import is_control
from reading.lane_bits import sync_words
from reading.lane_words import bits_of
from reading.metaframes import CONTROL, SYNC
from reading.plans import CODE

LOSSES = ("lost-headers", "lost-sync", "lost-state")
# The events of a metaframe of which its other words are wrong, the first that goes before the others.
DAMAGE = ("bad", "state", "diag")
# What a receiver does not trust a stretch of words for.
UNTRUSTED = ("bad", "crc", "control", "data", "end")
HEADER_BLOCK = 64
SEARCHED, BLOCK, MOST_SLIPS = 1 << 24, 1 << 20, 32  # bits behind a slip in which others are looked for, of a part of it, and slips of a lane


class Following:
    """Puts the causes into findings: those of lanes by lane, the faults of words, and what was lost."""

    def __init__(self, run, by_lane, faults, lost):
        self.run, self.by_lane, self.lost = run, by_lane, lost
        self.losses = [[finding for finding in findings if finding.what in LOSSES] for findings in by_lane]
        self.slips = []  # the lane, the right Sync words before and after, and what is said
        self.by_frame = {}  # by lane and the bit of a metaframe's Sync word, its findings
        for findings in by_lane:
            for finding in findings:
                self.by_frame.setdefault((finding.lane, self.begin_of(finding)), []).append(finding)
        for number, findings in enumerate(by_lane):
            self.follow_lane(number, findings)
        self.faults = self.without_twice(faults)
        self.follow_faults()
        self.follow_lost()

    def begin_of(self, finding):
        """The bit of the Sync word of the metaframe of a finding, or None if no lock has it."""
        lock = self.run.locks[finding.lane].lock_at(finding.bit)
        return None if lock is None else finding.bit - (finding.bit - lock.first) % self.run.plan.period

    # ---- the events of a lane

    def follow_lane(self, number, findings):
        for finding in findings:
            if finding.what == "diag":
                finding.cause = self.cause_of_diag(finding)
            elif finding.what == "skip":
                finding.cause = self.first_of(finding, "state")
            elif finding.what in LOSSES:
                finding.cause = self.cause_of_loss(number, findings, finding)
            elif finding.what == "balance":
                finding.cause = self.cause_of_balance(findings, finding)
            elif finding.what == "unframed" and not (self.run.locks[number].firsts and self.run.locks[number].firsts[0] < finding.bit):
                finding.cause = next((other for other in findings if other.what == "balance"), None)
        locks = self.run.locks[number].locks
        for lock, after in zip(locks, locks[1:] + [None]):
            self.follow_slip(number, findings, lock, after)

    def first_of(self, finding, *whats):
        """The first of these events in the metaframe of a finding, or None."""
        here = self.by_frame[finding.lane, self.begin_of(finding)]
        return next((other for what in whats for other in here if other.what == what and other is not finding), None)

    def cause_of_diag(self, finding):
        bad_or_state = self.first_of(finding, "bad", "state")
        return bad_or_state or (self.first_of(finding, "skip", "sync") if finding.is_mended else None)

    def cause_of_balance(self, findings, finding):
        """The first damage of several bits in the lock of a finding, up to the end of its metaframe; a sender's own disparity has none."""
        first, end = self.run.locks[finding.lane].lock_at(finding.bit).first, self.begin_of(finding) + self.run.plan.period
        return next((other for other in findings if first <= other.bit < end and (other.what == "bad" or other.what == "diag" and not (other.is_mended or other.variant or other.note))), None)

    def cause_of_loss(self, number, findings, finding):
        """The first of the wrong words in a row for which a lock is lost."""
        what = {"lost-headers": "bad", "lost-sync": "sync", "lost-state": "state"}[finding.what]
        step = HEADER_BLOCK * CODE if what == "bad" else self.run.plan.period
        own, at, cause = [other for other in findings if other.what == what and other.bit < finding.bit], finding.bit, None
        for other in reversed(own):
            if at - other.bit > step:
                break
            cause, at = other, other.bit if what != "bad" else at
        return cause

    def follow_slip(self, number, findings, lock, after):
        """Bits that were lost or added: the Sync words behind them come earlier or later than those of a lock. All events from the last
        right Sync word of the lock on follow from the first of them."""
        lane, period = self.run.lanes[number], self.run.plan.period
        new = self.first_sync_of(lane, after, lock) if after else self.sync_beside(number, findings, lock)
        if new is None:
            return
        old = last_sync(lane, lock, new, period)
        shift = shift_of(old, new, period)
        struck = [finding for finding in findings if old <= finding.bit < (after.first if after else lane.count) and finding.what != "balance"]
        if shift and struck:
            self.slips.append((number, old, new, slip_text(shift)))
            struck[0].add_note("between bits %d and %d %s" % self.slips[-1][1:])
            struck[0].cause = None
            for finding in struck[1:]:
                finding.cause = finding.cause or struck[0]
            self.slips += further_slips(number, lane, new, after.first if after else lane.count, period)

    def first_sync_of(self, lane, after, lock):
        """The first of the Sync words that stand a metaframe apart before the one that declares a lock."""
        new, period = after.first, self.run.plan.period
        while new - period > lock.first and is_sync(lane, new - period):
            new -= period
        return new

    def sync_beside(self, number, findings, lock):
        """A Sync word near the first wrong one of a lock, none of whose places it has, and a metaframe after it another; or None."""
        wrong = next((finding.bit for finding in findings if finding.what in ("sync", "lost-sync", "lost-headers") and finding.bit > lock.first), None)
        if wrong is None:
            return None
        lane, period = self.run.lanes[number], self.run.plan.period
        begin = max(0, wrong - period)
        bits = bits_of(bytes(lane.data[begin // 8:(wrong + 2 * period) // 8 + 1]))
        for at in (begin // 8 * 8 + place for place in sync_words(bits)):
            if (at - lock.first) % period and (at + period + CODE > lane.count or is_sync(lane, at + period)):
                return at
        return None

    # ---- the faults of words

    def without_twice(self, faults):
        """The faults, but for bad words of which the lane's event tells."""
        told = {finding.word for findings in self.by_lane for finding in findings if finding.what == "bad"}
        return [finding for finding in faults if finding.what != "bad" or finding.word not in told]

    def damage_at(self, word):
        """The event of a lane by which a word may be wrong, or None."""
        piece, index = self.run.places.index_of(word)
        lane = index % self.run.plan.lanes
        here = self.by_frame.get((lane, self.run.places.sync_of(piece, lane)), ())
        return next((finding for what in DAMAGE for finding in here if finding.what == what and not (what == "diag" and (finding.is_mended or finding.variant))), None)

    def damage_in(self, first, last):
        """The same of the words from one up to and with another."""
        return next((damage for damage in map(self.damage_at, range(first, last + 1)) if damage), None)

    def follow_faults(self):
        """A fault follows from the damage of a word of its own stretch, or from what stands untrusted before it on its channel."""
        untrusted = {}  # by word the first finding of a stretch that is not trusted for damage
        for finding in self.faults:
            if finding.word in self.run.breaks:
                finding.cause = self.loss_at(finding.word)
                untrusted.setdefault(finding.word, finding)
            elif finding.what in UNTRUSTED:
                first = self.stretch_of(finding.word)
                finding.cause = self.damage_in(first, finding.word)
                if finding.cause:
                    untrusted.setdefault(finding.word, finding)
        for findings in self.by_lane:
            for finding in findings:
                if finding.what == "bad" and finding.word is not None:
                    untrusted.setdefault(finding.word, finding)
        words = sorted(untrusted)
        for finding in self.faults:
            if finding.cause is None:
                at = bisect_right(words, finding.word) - 1
                near = untrusted[words[at]] if at >= 0 and words[at] >= self.reach_of(finding) else None
                finding.cause = near if near is not finding else None

    def stretch_of(self, word):
        """The first word after the control word before a word."""
        kinds, first = self.run.stream.kinds, word
        while first > 0 and kinds[first - 1] in "dx":
            first -= 1
        return first

    def reach_of(self, finding):
        """The first word of which a rule looks at what was before: of a channel its last burst, of the calendar a whole one."""
        stream, word = self.run.stream, finding.word
        if finding.channel is not None:
            own = self.bursts_of(finding.channel)
            return own[max(0, bisect_left(own, word) - 1)] if own else word
        back = 2 if finding.what != "calendar" else 1 + len(self.run.plan.entries) // 16
        first = word
        for _ in range(back):
            first = self.stretch_of(max(0, first - 1))
        return first - 1

    def bursts_of(self, channel):
        if not hasattr(self, "by_channel"):
            self.by_channel = {}
            for slot, _, its in self.run.stream.bursts:
                self.by_channel.setdefault(its, []).append(slot)
        return self.by_channel.get(channel, [])

    def loss_at(self, word):
        """The loss of a lane's lock that ends an epoch at the bad word of a break, or None."""
        lane, _, bit = self.run.places.place(word)
        at = bisect_right(self.losses[lane], bit + self.run.plan.period, key=lambda finding: finding.bit) - 1
        return self.losses[lane][at] if at >= 0 else None

    # ---- what was lost

    def follow_lost(self):
        by_word = {}
        for finding in self.faults:
            by_word.setdefault(finding.word, []).append(finding)
        for findings in self.by_lane:
            for finding in findings:
                if finding.what == "bad" and finding.word is not None:
                    by_word.setdefault(finding.word, []).insert(0, finding)
        self.by_word, self.words = by_word, sorted(by_word)
        for span in self.lost.spans:
            span.cause = self.cause_of_span(span)
        for drop in self.lost.drops:
            drop.cause = self.span_at(drop.first, drop.last) or self.rule_at(drop.last) or self.rule_at(drop.first)
        drops = {(drop.channel, drop.first): drop for drop in self.lost.drops}
        for missing in self.lost.missing:
            first, last = missing.last if isinstance(missing.last, tuple) else (missing.word, missing.last)
            if not missing.found:
                missing.cause = drops.get((missing.channel, missing.word)) or self.drop_in(missing.channel, first, last) or self.span_at(first, last) or self.rule_at(last)

    def cause_of_span(self, span):
        if span.found == "lost":
            ended = [word for word, piece in self.run.breaks.items() if span.word <= word <= span.last and piece.why == "lost"]
            if ended:
                return self.loss_at(ended[0])
        if span.word is None:
            return None
        at = bisect_left(self.words, span.word)
        while at < len(self.words) and self.words[at] <= span.last:
            found = next((finding for finding in self.by_word[self.words[at]] if finding.what in UNTRUSTED), None)
            if found:
                return found
            at += 1
        return None

    def span_at(self, first, last):
        """The first span that has a word between these, or None."""
        if first is None or last is None:
            return None
        return next((span for span in self.lost.spans if span.word is not None and span.word <= last and first < span.last), None)

    def drop_in(self, channel, first, last):
        """The first drop of a channel between these words, or None."""
        return next((drop for drop in self.lost.drops if drop.channel == channel and drop.first is not None and first < drop.first < last), None)

    def rule_at(self, word):
        return next(iter(self.by_word.get(word, ())), None)


def is_sync(lane, bit):
    code = lane.code(bit)
    return code.header == CONTROL and code.payload == SYNC


def last_sync(lane, lock, new, period):
    """The last right Sync word of a lock before a bit."""
    old = lock.first + (min(lock.end, new) - lock.first) // period * period
    while old > lock.first and not (old + CODE <= new and is_sync(lane, old)):
        old -= period
    return old


def shift_of(old, new, period):
    """By how many bits a Sync word is later than whole metaframes after another."""
    shift = (new - old) % period
    return shift - period if 2 * shift > period else shift


def further_slips(number, lane, old, end, period):
    """The slips of a lane between a Sync word and a bit, by the Sync words there that are not whole metaframes apart."""
    found = []
    for begin in range(old, min(end, old + SEARCHED), BLOCK):
        bits = bits_of(bytes(lane.data[begin // 8:(begin + BLOCK + CODE) // 8 + 1]))
        for new in (begin // 8 * 8 + place for place in sync_words(bits)):
            if old < new < end:
                shift = shift_of(old, new, period)
                if shift:
                    found.append((number, old, new, slip_text(shift)))
                old = new
    return found[:MOST_SLIPS]


def slip_text(shift):
    """What a shift of the Sync words says of the bits between."""
    count, what = abs(shift), "bit"
    if count % CODE == 0:
        count, what = count // CODE, "word"
    return "%d %s%s %s" % (count, what, "s are" if count > 1 else " is", "missing" if shift < 0 else "too many")
