"""Plans, settings of two ends, and the files of rows that a plan names: each as the program takes it, or refused for the same row and
cause."""

from bisect import bisect_right
from collections import Counter, namedtuple

from reading.control_words import is_control, is_reset, is_valid_alone, sealed_alone
from reading.files import rows_of
from reading.intervals import merged
from reading.rows import Fault, KeyedRows, Kind, Many, Number, NumberAndText, Text, must_be_within, must_have_fields, number_in, shown, take_rows

CODE = 67
NAME, PREFIX = 255, 200
PLAN_LIMIT, ROWS_LIMIT = 1 << 20, 1 << 24
MOST_CHANNEL, MOST_SLOT, MOST_SKEW, MOST_BIT, MOST_EVENTS = 65535, 16777215, 65535, 999999999999, 4194304
PLAN = {"lanes": Number(1, 64), "metaframe": Number(32, 8192), "skips": Number(1, 4, default=1), "burst_max": Number(64, 4096, 64, 256),
        "burst_short": Number(32, 4096, 8, 64), "deskew": Number(1, 4095, default=7), "warmup": Number(4, 64, default=8),
        "max_packet": Number(1, 262144, default=262144), "link_type": Number(0, 65535, default=1),
        "channel": NumberAndText(0, MOST_CHANNEL, NAME, "channel,c` or `channel,c,FILE", False), "entry": Number(0, MOST_CHANNEL),
        "flow": Text(NAME), "local": Text(NAME), "schedule": Text(NAME), "out": Text(PREFIX), "wide": Number(0, 1, default=0),
        "burst_min": Number(0, 2048, 32, 0), "oob": Text(NAME), "window": Number(1, 255, default=64), "events": Text(NAME)}
SETTINGS = {"plan": Text(NAME), "delay": Number(1, 4096), "mark": Number(1, 65536), "slots": Number(1, MOST_SLOT), "drain": Number(1, 1024, default=1),
            "back": NumberAndText(0, MOST_CHANNEL, NAME, "back,c,FILE", True), "out": Text(PREFIX)}
SCHEDULE = {"skew": "skew,lane,bits", "flip": "flip,lane,bit", "dark": "dark,lane,first,count"}
EVENTS = ("send", "rewind", "take", "lose", "repeat", "takeback", "loseback", "repeatback")
PLAN_KIND, SETTINGS_KIND = Kind("a plan", PLAN), Kind("a settings file of two ends", SETTINGS)
SCHEDULE_KIND, EVENTS_KIND = Kind("a schedule", SCHEDULE), Kind("an events file", EVENTS)


class Plan(KeyedRows):
    """A plan: `channels` are its channels' numbers in order, `entries` its calendar, `captures` the names by channel in the order of
    the rows, None if a row has no name."""

    def __init__(self, folder, name):
        super().__init__(folder, name, PLAN_LIMIT, PLAN_KIND, PLAN, {"channel": Many(1024, True), "entry": Many(1024, False)})
        self.need(("lanes", "metaframe", "channel", "out"))
        self.captures = {channel: capture for _, channel, capture in self.many["channel"]}
        for row, place, why in sorted(self.clashes(), key=lambda clash: clash[0].number):
            self.clash(row, place, why)
        self.channels = sorted(self.captures)
        self.entries = [channel for _, channel, _ in self.many["entry"]] or self.channels
        self.period = CODE * self.metaframe
        self.group = self.lanes * (self.metaframe - 3 - self.skips)

    def clashes(self):
        """The rows that contradict others, with the place of the field and the reason."""
        values = self.values
        pairs = (("deskew", "metaframe", values["metaframe"] <= 2 * values["deskew"], "metaframe must be more than 2 * deskew"),
                 ("burst_short", "burst_max", values["burst_max"] < values["burst_short"], "burst_short must be at most burst_max"),
                 ("burst_min", "burst_max", values["burst_max"] < 2 * values["burst_min"], "burst_min must be at most half of burst_max"))
        for key, other, does_clash, rule in pairs:
            if key in self.places and does_clash:
                yield self.places[key], 1, "%s: %d clashes with %s: %s" % (key, values[key], self.where(other), rule)
        for row, channel, _ in self.many["entry"]:
            if channel not in self.captures:
                yield row, 1, "entry: channel %d is not listed: no row `channel,%d`" % (channel, channel)
        for row, channel, _ in self.many["channel"]:
            if channel > 255 and not values["wide"]:
                yield row, 1, "channel: %d clashes with %s: channel %d needs wide,1" % (channel, self.where("wide"), channel)

    def where(self, key):
        """Where a number comes from."""
        row = self.places.get(key)
        return "%s,%d of line %d" % (key, self.values[key], row.line) if row else "the default %s,%d" % (key, self.values[key])

    def channel_of(self, word):
        """The channel of a burst word."""
        return word >> 32 & 255 | (word >> 24 & 255) << 8 if self.wide else word >> 32 & 255

    def slot_of(self, lane, bit):
        """The slot of the word that has this sent bit of a lane; None if it is none of the stream's."""
        row = bit // CODE % self.metaframe - 2 - self.skips
        if not 0 <= row < self.metaframe - 3 - self.skips:
            return None
        return bit // self.period * self.group + row * self.lanes + lane

    def place_of(self, slot):
        """The lane of a slot's word, its metaframe and the sent bit at which it begins; the other way of `slot_of`."""
        metaframe, index = divmod(slot, self.group)
        return index % self.lanes, metaframe, metaframe * self.period + CODE * (2 + self.skips + index // self.lanes)

    def sent_bits(self, slots):
        """The bits of each lane that carry this many slots, without a skew."""
        return slots // self.group * self.period


class Schedule:
    """The skew of each lane, and by lane the inverted sent bits and the dark ones, (first, last + 1). `rows` are all rows, as (row,
    key, numbers)."""

    def __init__(self, folder, plan):
        self.name, self.lanes, self.rows = plan.schedule, plan.lanes, []
        self.skew, self.skew_rows = [0] * plan.lanes, {}
        self.flips, self.darks = ([[] for _ in range(plan.lanes)] for _ in range(2))
        if plan.schedule:
            take_rows(folder, plan.schedule, ROWS_LIMIT, self.take)
        self.joined = [merged(darks) for darks in self.darks]
        self.dark_begins = [[begin for begin, _ in darks] for darks in self.joined]
        for lane in range(plan.lanes):
            # An even number of flips of one bit leaves it as it was.
            self.flips[lane] = sorted(bit for bit, count in Counter(self.flips[lane]).items() if count % 2)

    def take(self, row):
        key = row.fields[0]
        if key not in SCHEDULE:
            raise Fault("key", 0, "unknown key %s%s" % (shown(key), SCHEDULE_KIND.hint(row)))
        form = SCHEDULE[key].split(",")
        must_have_fields(row, (len(form),), SCHEDULE[key])
        numbers = [number_in(row, place, "%s: %s" % (key, form[place])) for place in range(1, len(form))]
        ranges = {"lane": (0, self.lanes - 1), "bits": (0, MOST_SKEW), "count": (1, MOST_BIT)}
        for place, number in enumerate(numbers, 1):
            # Whoever exchanged fields has a lane out of range.
            hint = " (the row is `%s`)" % SCHEDULE[key] if form[place] == "lane" else ""
            must_be_within(number, *ranges.get(form[place], (0, MOST_BIT)), place, "%s: %s" % (key, form[place]), hint=hint)
        self.keep(row, key, numbers)

    def keep(self, row, key, numbers):
        lane, first = numbers[:2]
        if key == "skew":
            if lane in self.skew_rows:
                raise Fault("repeat", 1, "skew: a second row of lane %d, the first is in line %d" % (lane, self.skew_rows[lane].line))
            self.skew[lane], self.skew_rows[lane] = first, row
        elif key == "flip":
            self.flips[lane].append(first)
        else:
            self.darks[lane].append((first, first + numbers[2]))
        self.rows.append((row, key, numbers))

    def is_dark(self, lane, bit):
        """Whether a sent bit is 0 whatever was sent."""
        place = bisect_right(self.dark_begins[lane], bit) - 1
        return place >= 0 and bit < self.joined[lane][place][1]


FlowRow = namedtuple("FlowRow", "row slot word")
LocalRow = namedtuple("LocalRow", "row slot channel is_on")


class Flow:
    """The rows of a flow file, or none."""

    def __init__(self, folder, plan):
        self.name, self.rows = plan.flow, []
        if plan.flow:
            take_rows(folder, plan.flow, ROWS_LIMIT, self.take)

    def take(self, row):
        must_have_fields(row, (2,), "slot,word")
        slot, digits = number_in(row, 0, "slot"), row.fields[1]
        if len(digits) != 16 or not all(digit in "0123456789abcdefABCDEF" for digit in digits):
            raise Fault("number", 1, "word: %s is no word of 16 hexadecimal digits" % shown(digits))
        must_be_within(slot, 0, MOST_SLOT, 0, "slot")
        must_not_go_back(slot, self.rows)
        self.rows.append(FlowRow(row, slot, int(digits, 16)))

    def effects(self):
        """Each row with whether its calendar counts, and where it does not why: None, or a reason."""
        follows = False
        for row in self.rows:
            if not is_valid_alone(row.word):
                follows = False
                right = "its CRC24 is wrong: %016X has the right one" % sealed_alone(row.word)
                yield row, right if is_control(row.word) else "no control word: bit 63 is 0, or the end format one of 0010 to 0111"
            else:
                follows = follows or is_reset(row.word)
                yield row, None if follows else "no valid word with the reset bit stands before it"


    def off_rows(self, entries):
        """By channel the row that turned it off, for each channel that is off after all rows, by the calendar's entries."""
        off, place = {}, 0
        for row, why in self.effects():
            if why:
                continue
            place = 0 if is_reset(row.word) else place
            for bit, channel in enumerate(entries[place:place + 16]):
                if row.word >> 55 - bit & 1:
                    off.pop(channel, None)
                else:
                    off.setdefault(channel, row.row)
            place += 16
        return off


class Local:
    """The rows of a local file, or none."""

    def __init__(self, folder, plan):
        self.name, self.rows, self.channels = plan.local, [], set(plan.channels)
        if plan.local:
            take_rows(folder, plan.local, ROWS_LIMIT, self.take)

    def take(self, row):
        must_have_fields(row, (3,), "slot,channel,on` or `slot,channel,off")
        slot, channel, state = number_in(row, 0, "slot"), number_in(row, 1, "channel"), row.fields[2]
        if state not in ("on", "off"):
            raise Fault("number", 2, "state: %s is neither `on` nor `off`" % shown(state))
        must_be_within(slot, 0, MOST_SLOT, 0, "slot")
        must_be_within(channel, 0, MOST_CHANNEL, 1, "channel")
        if channel not in self.channels:
            raise Fault("clash", 1, "channel: the plan does not list channel %d" % channel)
        must_not_go_back(slot, self.rows)
        self.rows.append(LocalRow(row, slot, channel, state == "on"))


def must_not_go_back(slot, before):
    if before and slot < before[-1].slot:
        raise Fault("clash", 0, "slot: %d is below slot %d of line %d" % (slot, before[-1].slot, before[-1].row.line))


class Events:
    """The rows of an events file as (row, name, count)."""

    def __init__(self, folder, plan):
        self.name, self.rows, self.count = plan.events, [], 0
        if plan.events:
            take_rows(folder, plan.events, ROWS_LIMIT, self.take)

    def take(self, row):
        name = row.fields[0]
        if name not in EVENTS:
            raise Fault("key", 0, "unknown event %s%s" % (shown(name), EVENTS_KIND.hint(row)))
        must_have_fields(row, (2,), "%s,count" % name)
        count = number_in(row, 1, name)
        must_be_within(count, 1, MOST_EVENTS, 1, name)
        if self.count + count > MOST_EVENTS:
            raise Fault("range", 1, "%s: %d events, and with those before %d, which is above %d" % (name, count, self.count + count, MOST_EVENTS))
        self.count += count
        self.rows.append((row, name, count))


class Settings(KeyedRows):
    """The settings of a run of two ends: `back` are the names of end b's captures by channel."""

    def __init__(self, folder, name):
        super().__init__(folder, name, PLAN_LIMIT, SETTINGS_KIND, SETTINGS, {"back": Many(MOST_CHANNEL + 1, True)})
        self.need(("plan", "delay", "mark", "slots", "out"))
        self.back = {channel: capture for _, channel, capture in self.many["back"]}

    def must_fit(self, plan):
        """A clash if a `back` row has a channel that the plan does not list."""
        for row, channel, _ in self.many["back"]:
            if channel not in plan.captures:
                self.clash(row, 1, "back: %s does not list channel %d" % (plan.name, channel))


def are_settings(folder, name):
    """Whether a file has the settings of two ends, and is not a plan."""
    return any(row.fields[0] in SETTINGS and row.fields[0] not in PLAN for row in rows_of(folder.content(name)))
