"""Value change dumps: their signals, and the values of vectors at the changes of a clock."""

import re
from collections import namedtuple

from reading.files import Refused, shown_name

SELECT = re.compile(r"(.*?)\s*\[(\d+)(?::(\d+))?\]")
BITS, UNKNOWN = b"01xXzZ", b"xXzZ"

# A signal of a dump: the name with its scopes and without a range, the range as it is declared or "", its width, and its short name.
Signal = namedtuple("Signal", "name range width short")
# Bits of a signal by a name that was asked for: the signal, and the first and the last + 1 of its bits, from the highest on.
Part = namedtuple("Part", "signal first last")


class Dump:
    """A value change dump: its signals are read as it is opened."""

    def __init__(self, file, name, progress):
        self.file, self.name, self.progress = file, name, progress
        self.line, self.signals = 0, []
        self.read_signals()

    def refuse(self, what):
        raise Refused("%s:%d: %s" % (shown_name(self.name), self.line, what))

    def lines(self):
        for line in self.file:
            self.line += 1
            self.progress.add(len(line))
            yield line

    # ---- signals

    def read_signals(self):
        """The signals up to the end of the definitions."""
        scopes, words = [], []
        for line in self.lines():
            words += line.decode("latin-1").split()
            while "$end" in words:
                end = words.index("$end")
                section, words = words[:end], words[end + 1:]
                if section[:1] == ["$enddefinitions"]:
                    return
                self.take_section(section, scopes)
        self.refuse("no $enddefinitions: this is no value change dump")

    def take_section(self, section, scopes):
        if section[:1] == ["$scope"]:
            scopes.append(section[2] if len(section) > 2 else "")
        elif section[:1] == ["$upscope"]:
            if not scopes:
                self.refuse("$upscope, and no scope is open")
            scopes.pop()
        elif section[:1] == ["$var"]:
            if len(section) < 5 or not section[2].isdigit():
                self.refuse("a $var without a width and a name")
            reference, bits = "".join(section[4:]), ""
            found = SELECT.fullmatch(reference)
            if found:
                reference, bits = found[1], reference[len(found[1]):]
            self.signals.append(Signal(".".join(scopes + [reference]), bits, int(section[2]), section[3].encode("latin-1")))

    def part(self, name):
        """The bits that a name asks for."""
        found = self.fitting(name)
        selected = None if found else SELECT.fullmatch(name)
        if selected:
            found = self.fitting(selected[1])
        if not found:
            raise Refused("%s: no signal fits %s" % (shown_name(self.name), name))
        if len({signal.short for signal in found}) > 1:
            others = [signal for signal in found if signal.short != found[0].short]
            raise Refused("%s: %s fits two signals, %s and %s" % (shown_name(self.name), name, *(signal.name + signal.range for signal in (found[0], others[0]))))
        return self.selected(name, found[0], *selected.groups()[1:]) if selected else Part(found[0], 0, found[0].width)

    def fitting(self, name):
        """The signals of a name with or without scopes and range; those that it names in full, if there are some."""
        full = [signal for signal in self.signals if name in (signal.name, signal.name + signal.range)]
        return full or [signal for signal in self.signals if (signal.name + signal.range).endswith("." + name) or signal.name.endswith("." + name)]

    def selected(self, name, signal, high, low):
        """Some bits of a signal, by their numbers in its range."""
        declared = SELECT.fullmatch(signal.range)
        left = int(declared[2]) if declared else signal.width - 1
        right = int(declared[3] or declared[2]) if declared else 0
        places = [left - int(number) if left >= right else int(number) - left for number in (high, low or high)]
        if not 0 <= places[0] <= places[1] < signal.width:
            raise Refused("%s: %s: the signal is %s%s, of %d bits" % (shown_name(self.name), name, signal.name, signal.range, signal.width))
        return Part(signal, places[0], places[1] + 1)

    # ---- values

    def samples(self, parts, clock, valid):
        """The values of parts at each change of the clock from 0 to 1, as they were before the changes of that time; for each a list of
        bits by part. With a valid part, only while it is 1."""
        now = {part.signal.short: b"x" for part in [*parts, clock, *([valid] if valid else [])]}
        widths = {part.signal.short: part.signal.width for part in [*parts, clock, *([valid] if valid else [])]}
        before, time = {}, 0
        for token, value in self.changes():
            if token is None:
                time, before = value, {}
                continue
            if token not in now:
                continue
            old = now[token]
            before.setdefault(token, old)
            now[token] = value
            if token != clock.signal.short or self.bit(clock, value, widths) != b"1" or self.bit(clock, old, widths) != b"0":
                continue
            then = {**now, **before}
            if valid and self.bit(valid, then[valid.signal.short], widths) != b"1":
                continue
            yield [self.known(part, self.bit(part, then[part.signal.short], widths), time) for part in parts]

    @staticmethod
    def bit(part, value, widths):
        """The bits of a part in a value, whose bits in front may be left out."""
        width = widths[part.signal.short]
        if len(value) < width:
            value = value.rjust(width, value[:1] if value[:1] in UNKNOWN else b"0")
        return value[len(value) - width:][part.first:part.last]

    def known(self, part, bits, time):
        if bits.translate(None, b"01"):
            self.refuse("%s%s has an unknown bit, %s, where it is sampled at time %d" % (part.signal.name, part.signal.range, bits.translate(None, b"01")[:1].decode(), time))
        return bits

    def changes(self):
        """The changes of values as (short name, bits), and the times as (None, time)."""
        vector, is_comment = None, False
        for line in self.lines():
            for token in line.split():
                first = token[:1]
                if vector is not None:
                    yield token, vector
                    vector = None
                elif is_comment:
                    is_comment = token != b"$end"
                elif first in b"01xXzZ":
                    yield token[1:], first
                elif first == b"#":
                    yield None, self.time_of(token)
                elif first in b"bB":
                    vector = self.vector_of(token)
                elif first in b"rRsS":
                    vector = b"x"  # a real number or a text has no bits
                elif first == b"$":
                    is_comment = token == b"$comment"
                else:
                    self.refuse("%r is no change of a value" % token[:20].decode("latin-1"))
        if vector is not None:
            self.refuse("a value without its signal")

    def time_of(self, token):
        if not token[1:].isdigit():
            self.refuse("%r is no time" % token[:20].decode("latin-1"))
        return int(token[1:])

    def vector_of(self, token):
        if not token[1:] or token[1:].translate(None, BITS):
            self.refuse("%r is no value of a vector" % token[:20].decode("latin-1"))
        return token[1:]
