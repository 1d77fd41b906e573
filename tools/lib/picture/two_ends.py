"""The run of two ends, computed by the rules of `duplex`, a slot at a time: the queues, the bursts that fill them, and when channels are off.

The program only tells packets, bytes and peaks. What is computed here is compared with them, and with the captures that it wrote.
"""

from collections import deque, namedtuple

from reading.files import Refused, must_agree
from reading.plans import Plan, Settings

TURN_ENTRIES = 16

# A data word only has its channel. A control word has the channel of the burst that it begins, or None; the channel whose packet
# it ends, or None; and the calendar entries from the one numbered `first` on, as on or off.
Data = namedtuple("Data", "channel")
Control = namedtuple("Control", "begins ends first states")
Burst = namedtuple("Burst", "slot channel words")


class Link:
    """What the settings and their plan say of the run."""

    def __init__(self, folder, name):
        self.name = name
        settings = Settings(folder, name)
        plan = Plan(folder, settings.plan)
        self.delay, self.mark, self.slots, self.drain, self.out = (getattr(settings, key) for key in ("delay", "mark", "slots", "drain", "out"))
        self.channels, self.entries = plan.channels, plan.entries
        self.turns = -(-len(self.entries) // TURN_ENTRIES)
        self.burst_max, self.burst_min, self.apart = plan.burst_max, plan.burst_min, plan.burst_short // 8
        self.first_burst = plan.warmup * plan.group
        settings.must_fit(plan)
        self.packets = {"a": {c: folder.packets(name) for c, name in plan.captures.items() if name}, "b": {c: folder.packets(name) for c, name in settings.back.items()}}
        longest = self.burst_max // 8
        self.bound = self.mark + self.turns * (longest + 1) + longest + 2 * self.delay + 2

    def size(self, left):
        """The bytes of the next burst of a packet that has this many left."""
        if self.burst_max < left < self.burst_max + self.burst_min:
            return self.burst_max - self.burst_min
        return min(left, self.burst_max)


class End:
    """One end: what it sends, what it was told, and the queues of what came. A course is a list of (slot, words from it on)."""

    def __init__(self, link, name, begin):
        self.link, self.name, self.begin = link, name, begin
        self.left = {c: deque(len(packet) for packet in link.packets[name].get(c, [])) for c in link.channels}
        self.may_send = dict.fromkeys(link.channels, True)
        self.ready = [c for c in link.channels if self.left[c]]
        self.way, self.starts, self.changes, self.controls = deque(maxlen=link.delay), [], [], begin
        self.burst, self.burst_words, self.ending = None, 0, None
        self.queue, self.peak, self.peak_at, self.got = ({c: 0 for c in link.channels} for _ in range(4))
        self.course = {c: [(0, 0)] for c in link.channels}
        # Slots before `begin` only have idles, by which all entries are told as on.
        self.told, self.follows = begin > 0, begin > 0
        self.filled, self.data = set(), {c: Data(c) for c in link.channels}

    def arriving(self):
        """The word that arrives at the other end in this slot, if there is one."""
        return self.way[0] if len(self.way) == self.link.delay else None

    def take_and_drain(self, slot, word):
        if word is not None:
            self.take(slot, word)
        changed = {word.channel} if isinstance(word, Data) else set()
        if slot % self.link.drain == 0:
            changed |= self.filled
            for c in self.filled:
                self.queue[c] -= 1
            self.filled = {c for c in self.filled if self.queue[c]}
        for c in changed:
            if self.course[c][-1][1] != self.queue[c]:
                self.course[c].append((slot, self.queue[c]))

    def send(self, slot):
        self.way.append(self.data_word() if self.burst_words else self.control_word(slot))

    def take(self, slot, word):
        if isinstance(word, Data):
            self.queue[word.channel] += 1
            self.filled.add(word.channel)
            if self.queue[word.channel] > self.peak[word.channel]:
                self.peak[word.channel], self.peak_at[word.channel] = self.queue[word.channel], slot
            return
        if word.ends is not None:
            self.got[word.ends] += 1
        # The calendar of the first control word is left out; then one counts from the first on that begins with entry 0.
        self.follows = self.told and (self.follows or word.first == 0)
        self.told = True
        if self.follows:
            for c, on in zip(self.link.entries[word.first:], word.states):
                self.allow(slot, c, on)

    def allow(self, slot, channel, on):
        if on == self.may_send[channel]:
            return
        self.may_send[channel] = on
        self.changes.append((slot, channel, on))
        if on and self.left[channel]:
            self.ready.append(channel)
        elif not on and channel in self.ready:
            self.ready.remove(channel)

    def data_word(self):
        self.burst_words -= 1
        return self.data[self.burst]

    def control_word(self, slot):
        ends, self.ending = self.ending, None
        is_apart = not self.starts or slot - self.starts[-1].slot - 1 >= self.link.apart
        begins = self.start_burst(slot) if slot >= self.link.first_burst and self.ready and is_apart else None
        first = self.controls % self.link.turns * TURN_ENTRIES
        self.controls += 1
        states = [self.queue[c] < self.link.mark for c in self.link.entries[first:first + TURN_ENTRIES]]
        return Control(begins, ends, first, states)

    def start_burst(self, slot):
        channel = self.ready.pop(0)
        left = self.left[channel]
        size = self.link.size(left[0])
        left[0] -= size
        if left[0] == 0:
            left.popleft()
            self.ending = channel
        if left:
            self.ready.append(channel)
        self.burst, self.burst_words = channel, -(-size // 8)
        self.starts.append(Burst(slot, channel, self.burst_words))
        return channel

    def is_done(self):
        """Whether nothing is left to send or to drain, and no word on the way changes anything."""
        return not (self.ready or self.filled or self.burst_words or self.ending) and all(self.may_send.values()) and all(
            isinstance(word, Control) and word.begins is None and word.ends is None and all(word.states) for word in self.way)

    def off_times(self, channel):
        """The slots in which this end may not send on a channel, (first, last + 1)."""
        turned = [(slot, on) for slot, c, on in self.changes if c == channel] + [(self.link.slots, True)]
        return [(slot, until) for (slot, on), (until, _) in zip(turned, turned[1:]) if not on]


def run_of(link):
    """Both ends after the run. Idles before the first burst, and after all is done, are not computed one by one."""
    begin = max(0, min(link.first_burst, link.slots) - link.delay - 2 * link.turns - 2)
    a, b = End(link, "a", begin), End(link, "b", begin)
    for slot in range(begin, link.slots):
        words = b.arriving(), a.arriving()
        for end, word in zip((a, b), words):
            end.take_and_drain(slot, word)
            end.send(slot)
        if slot % 1024 == 0 and slot > link.first_burst and a.is_done() and b.is_done():
            break
    return a, b


def check(link, ends, folder, printed):
    """That the program wrote, and printed where its text is given, what was computed."""
    lines = []
    for end, other in (ends, ends[::-1]):
        for c in link.channels:
            packets = link.packets[other.name].get(c, [])[:end.got[c]]
            lines.append("end %s channel=%d packets=%d bytes=%d peak=%d" % (end.name, c, len(packets), sum(map(len, packets)), end.peak[c]))
            name = "%s.%s.%d.pcap" % (link.out, end.name, c)
            must_agree(name, packets, folder.packets(name))
            if end.peak[c] > link.bound and c in link.entries:
                raise Refused("%s: a peak of %d on channel %d, above the bound" % (link.name, end.peak[c], c))
    if printed is not None:
        must_agree(link.name, lines + ["slots %d" % link.slots], printed.splitlines())
