"""Random plans and links for live.py: lanes that `link`, `stripe` and `damage` make, some of them of something else, and cases of
`generate`.
"""

import os

import lib.live_model as model
from lib.live_bench import content, text_of, write
import fields
import long_links
import random_inputs as drawn
import words_file
from plan import plan_of

NARROW, WIDE = range(256), sorted({*range(0, 65_536, 257), 1, 255, 256, 65_280, 65_535})


def chosen_plan(r, lanes):
    """The rows of a plan, without those of channels; and its channels."""
    metaframe = r.choice([32, 33, 40, 64, 96, 130] if lanes < 12 else [32, 32, 35])
    burst_max, wide = r.choice([64, 128, 256, 256, 512]), r.randrange(3) == 0
    rows = [("lanes", lanes), ("metaframe", metaframe), ("skips", r.randint(1, 4)), ("deskew", r.randint(1, (metaframe - 1) // 2)),
            ("warmup", r.choice([4, 4, 4, 5, 7])), ("burst_max", burst_max), ("burst_short", r.randrange(32, min(burst_max, 256) + 1, 8)),
            ("burst_min", r.choice([0, r.randrange(0, burst_max // 2 + 1, 32)])), ("wide", int(wide)), ("out", "o")]
    channels = r.sample(WIDE if wide else NARROW, r.choice([1, 1, 2, 3, 5, 12, 20]))
    entries = r.choice([0, 0, 1, len(channels), 17, 17, 33, 40])
    return rows + [("entry", r.choice(channels)) for _ in range(entries)], channels


class Link:
    """A plan in a folder with its lanes."""

    def __init__(self, folder, plan_name, out):
        self.folder, self.plan_name, self.out = folder, plan_name, out
        self.text = content(folder, plan_name)
        self.plan = plan_of(self.text)
        self.data = [content(folder, self.lane_name(lane)) for lane in range(self.plan.link.lanes)]
        self.least, self.most = min(map(len, self.data)), max(map(len, self.data))
        self.lanes = [model.Lane(data, self.plan.link) for data in self.data]
        self.watched = self.plan.channels[:60]

    def lane_name(self, lane):
        return "%s.lane.%d" % (self.out, lane)

    def lines(self, rounds=None):
        """The events of the first bytes of each lane, or of all."""
        bits = [8 * (len(data) if rounds is None else rounds) for data in self.data]
        shown = [lane.shown(count) for lane, count in zip(self.lanes, bits)]
        return model.event_lines(model.events_of(shown, self.plan, rounds is None), self.plan, self.watched)

    def loads(self, first=0):
        """The lines of a script that load the plan in a buffer and the lanes in those after it."""
        names = [self.plan_name, *map(self.lane_name, range(len(self.data)))]
        return ["load %d %s" % (first + at, name) for at, name in enumerate(names)]


def rows_of_schedule(r, plan, bits):
    """Damage of lanes that are apart by less than the depth, most often, so that something comes through."""
    if r.randrange(9) == 0:
        return drawn.schedule_rows(r, plan, bits)
    depth = 67 * plan.link.deskew
    rows = [["skew", lane, r.randint(0, depth)] for lane in range(plan.link.lanes) if r.randrange(4)]
    for _ in range(r.choice([0, 0, 1, 2, 5])):
        rows += r.choice(drawn.DAMAGES)(r, r.randrange(plan.link.lanes), plan.link, bits)
    return rows + [["flip", r.randrange(plan.link.lanes), r.randrange(bits // 2, bits)] for _ in range(r.choice([0, 1, 5]))]


def other_lane(r, data, lane):
    """A lane that slips late, or one of something else."""
    if r.randrange(3) == 0:
        return long_links.odd_lane(r, data, lane)
    whole = data[lane]
    cut = r.randint(len(whole) // 2, len(whole))
    return whole[:cut] + r.choice([b"", r.randbytes(r.randint(1, 60))]) + whole[cut + r.randint(0, 60):]


def made_link(bench, r, lanes, folder, link=Link):
    """A random link whose lanes `link` makes; sometimes one or two of them are then of something else. It is shown as what `link` makes of it."""
    rows, channels = chosen_plan(r, lanes)
    rows += [("channel", channel, "%d.pcap" % channel) for channel in channels] + [("max_packet", r.choice([300, 600, 262_144]))]
    for channel in channels:
        size, packets = r.choice([500, 3_000, 9_000]) // len(channels), []
        while sum(map(len, packets)) < size:
            packets.append(drawn.packet(r, r.choice([1, 9, 60, 64, 65, 150, 300])))
        write(folder, "%d.pcap" % channel, drawn.capture(r, packets))
    plan = plan_of(text_of(rows))
    if r.randrange(2):
        local = drawn.local_rows(r, plan.channels, 3 * plan.link.group)
        write(folder, "l.csv", text_of([(row.slot, row.channel, "on" if row.on else "off") for row in local]))
        rows.append(("local", "l.csv"))
    bits = 67 * plan.link.metaframe * (plan.shape.warmup + 2)
    write(folder, "s.csv", text_of(rows_of_schedule(r, plan, bits)))
    write(folder, "p.plan", text_of(rows + [("schedule", "s.csv")]))
    status, told = bench.program(["link", "p.plan"], folder)
    if status not in (0, 3) or not os.path.exists(os.path.join(folder, "o.lane.0")):
        return bench.count("link of a random plan", "status %d, %s" % (status, told[:200]))
    if r.randrange(2) == 0:
        carry_other_words(bench, r, lanes, folder)
    if r.randrange(4) == 0:
        data = [content(folder, "o.lane.%d" % lane) for lane in range(lanes)]
        for lane in r.sample(range(lanes), min(lanes, r.choice([1, 1, 2]))):
            write(folder, "o.lane.%d" % lane, other_lane(r, data, lane))
    if r.randrange(2) == 0:
        cut_lanes(r, plan, folder)
    write(folder, "p.plan", text_of(receiver_rows(r, rows, channels)))
    return link(folder, "p.plan", "o")


def cut_lanes(r, plan, folder):
    """All lanes end early, and together, after the warm-up, so that bursts are cut."""
    data = [content(folder, "o.lane.%d" % lane) for lane in range(plan.link.lanes)]
    most, warmup = max(map(len, data)), plan.link.period * plan.shape.warmup // 8
    end = r.randint(min(warmup, most), most)
    for lane, bytes_of_lane in enumerate(data):
        write(folder, "o.lane.%d" % lane, bytes_of_lane[:end])


def receiver_rows(r, rows, channels):
    """The plan of the receiver, which may lack a channel that is sent, or only know shorter packets."""
    absent, longest = r.choice(channels) if len(channels) > 1 and r.randrange(3) == 0 else None, r.choice([64, 100, None, None, None])
    rows = [row for row in rows if row[0] != "local" and not (row[0] in ("channel", "entry") and row[1] == absent)]
    return [("max_packet", longest) if row[0] == "max_packet" and longest else row for row in rows]


def other_words(r, words):
    """Words as another sender may have them: some control words have other fields, most often with right checksums."""
    words, data = list(words), []
    controls = [at for at, word in enumerate(words) if word.kind == fields.CONTROL]
    spoken = [at for at in controls if fields.begins_burst(words[at].number) or fields.end_format(words[at].number)] or controls
    changed = set(r.sample(spoken, min(len(spoken), r.choice([2, 6, 20]))))
    for at, (kind, number) in enumerate(words):
        if kind != fields.CONTROL:
            data.append(number)
            continue
        if at in changed:
            no_end = number & ~(15 << 57)
            error = no_end | 1 << 57
            number = r.choice([number ^ 1 << 61, number ^ 1 << 62, no_end, error, error, number ^ 1 << r.randrange(32, 64)])
        if at not in changed or r.randrange(6):
            number = fields.sealed(data, number)
        words[at], data = fields.Word(kind, number), []
    return words


def carry_other_words(bench, r, lanes, folder):
    """Other words on the lanes of a plan, which are then damaged by its schedule."""
    bench.program(["burst", "p.plan"], folder)
    words = other_words(r, words_file.words_of_file(content(folder, "o.words")))
    write(folder, "o.words", words_file.file_of_words(words))
    told = [bench.program([command, "p.plan"], folder) for command in ("stripe", "damage")]
    if [status for status, _ in told] != [0, 0]:
        return bench.count("lanes of other words", repr(told)[:300])
    for lane in range(lanes):
        write(folder, "o.lane.%d" % lane, content(folder, "o.damaged.lane.%d" % lane))


def generated_link(bench, number, folder):
    """The link of a case of `generate`."""
    status, told = bench.program(["generate", str(number), "g"], folder)
    if status not in (0, 3) or not os.path.exists(os.path.join(folder, "g.out.lane.0")):
        return bench.count("generate %d" % number, "status %d, %s" % (status, told[:200]))
    return Link(folder, "g.plan", "g.out")
