"""How many packets of a channel faults hide at the ends of a dump: before the first packet that came, and after the last, a packet may
also be cut. If a dump begins and ends in a pause, none is, and as many are lost as the words there have room for.
"""

from bisect import bisect_left, bisect_right


class Hidden:
    """`spans` are the findings of fault spans, and `delivered` the packets of one channel that came, in order."""

    def __init__(self, run, spans, channel, delivered):
        self.run, self.stream, self.channel, self.delivered = run, run.stream, channel, delivered
        self.spans = [span for span in spans if span.word is not None]

    def begins_quiet(self):
        """Whether the words begin with idles for a whole group, so that no packet is open there."""
        return set(self.stream.kinds[:self.run.plan.group]) == {"i"}

    def ends_quiet(self):
        return set(self.stream.kinds[-self.run.plan.group:]) == {"i"}

    def count(self, first, last, packets):
        """How many packets, in this order, the words between two have room for, if a fault span is among them."""
        spans = [span for span in self.spans if first <= span.last and span.word < last]
        room, found = (self.own_words(first, last) + sum(map(self.room_of, spans)) if spans else 0), 0
        for packet in packets:
            room -= -(-len(packet.data) // 8)
            if room < 0:
                break
            found += 1
        return found

    def own_words(self, first, last):
        """The data words of bursts of the channel that are in no packet that came."""
        return sum(words for slot, words, its in self.stream.bursts if first <= slot < last and its == self.channel and not self.is_delivered(slot))

    def is_delivered(self, slot):
        at = bisect_left(self.delivered, slot + 1, key=lambda one: one.first) - 1
        return at >= 0 and slot < self.delivered[at].last

    def room_of(self, span):
        """The data and bad words of a span that are of no burst of a listed channel, and those that did not come where it has breaks."""
        kinds = self.stream.kinds
        here = sum(kinds[word] in "dx" and not self.is_in_burst(word) for word in range(span.word, min(span.last, self.stream.count)))
        return here + sum(self.not_there(word) for word in self.run.breaks if span.word <= word <= span.last)

    def not_there(self, word):
        """How many words did not come at a break: up to the next group, or the end of lane 0."""
        pieces, plan = self.run.places.pieces, self.run.plan
        at = bisect_right(self.run.places.begins, word)
        end = pieces[at].group if at < len(pieces) else self.run.lanes[0].count
        lost = pieces[at - 1]
        return max(0, (end - lost.group) // plan.period * plan.group - lost.index)

    def is_in_burst(self, word):
        burst = self.stream.burst_at(word)
        return burst is not None and word <= burst[0] + burst[1] and burst[2] in self.run.plan.captures
