"""The command `probe`: its options, what it prints, and its status."""

import os
import re

from probe.lanes import CRC_WORDS, MOST_BYTES, NO_OPTION, Share, is_most, lines_of, mend_of, probe_lane, said_of, share_of
from probe.mends import adapt_of, import_of, lane_name, mends_of
from probe.plan_rows import differences, rows_of, settings_of
from probe.late import late_of
from probe.stream import DATA, columns_of, order_of, skews_of, stream_of
from probe.variants import RIGHT
from reading.ending import Options
from reading.files import Folder, Refused, shown_name
from reading.intervals import listed
from reading.kinds import read_plan
from reading.lane_names import in_order as by_number
from reading.plans import CODE, PLAN
from reading.writing import Outputs, must_be_free

MOST_LANES = PLAN["lanes"].most
WORDS = 600000  # of all lanes that are looked at, about
NAMED = re.compile(r"(.+)\.lane\.(0|[1-9]\d*)")
OTHER_NAME = "probed"  # the prefix of lanes that have other names


def options_of(words):
    parser = Options(prog="probe", description="Says which settings fit lanes, and writes the plan of them.")
    parser.add_argument("lanes", nargs="+", metavar="LANE", help="a lane file; files PREFIX.lane.I are taken by their numbers")
    parser.add_argument("--plan", metavar="FILE", help="a plan whose settings are tried first, and compared with what fits")
    parser.add_argument("--out", metavar="FILE", help="the file of the plan, which is printed if it is not named")
    parser.add_argument("--overwrite", action="store_true", help="an existing file of the plan is replaced")
    return parser.parse_args(words)


def in_order(names):
    """The names of lane files by their numbers, and their prefix; with None, if they are not those of lanes from 0 on."""
    found = [NAMED.fullmatch(name) for name in names]
    if all(found) and len({match[1] for match in found}) == 1 and sorted(int(match[2]) for match in found) == list(range(len(names))):
        return sorted(names, key=lambda name: int(NAMED.fullmatch(name)[2])), found[0][1]
    return by_number(names), None


class Probe:
    """What is found of lanes. `texts` are the lines that are printed, and `problems` what has to be changed or was not found."""

    def __init__(self, folder, names, prefix, plan):
        self.names, self.plan, self.texts, self.problems = names, plan, [], []
        self.skews = self.stream = self.settings = None
        self.late = False
        self.order, self.drops = list(range(len(names))), None
        self.findings = self.probe_lanes(folder)
        known = [finding for finding in self.findings if finding.frames]
        if len(known) == len(names) and len({finding.found.metaframe for finding in known}) == 1:
            self.probe_stream()
        self.say_lanes()
        self.say_stream()
        self.is_named = prefix is not None
        out = prefix or OTHER_NAME
        self.mends = mends_of(self.findings, names, self.order, self.drops, out + ".mended")
        out += ".mended" if self.problems and self.mends else ""
        adapted = adapt_of(self.findings, self.stream, [lane_name(out, lane) for lane in range(len(names))] if self.mends else names, out + ".adapted")
        if adapted:
            self.mends, out = self.mends + [adapted], out + ".adapted"
        if known:
            self.settings = settings_of(self.findings, None if self.drops else self.skews, self.stream, self.is_whole(folder), out)
        self.compare()

    def probe_lanes(self, folder):
        order, findings = None, []
        metaframe = self.plan and self.plan.metaframe
        for name in self.names:
            finding = probe_lane(folder.beginning(name, MOST_BYTES), metaframe, order, max(CRC_WORDS, WORDS // len(self.names)))
            order = finding.found.order if finding.found else order
            metaframe = finding.found.metaframe if finding.found and finding.found.metaframe else metaframe
            findings.append(finding)
        return findings

    def probe_stream(self):
        self.skews = skews_of(self.findings)
        self.columns = columns_of(self.findings, self.skews)
        if not self.columns[0]:
            return
        found, self.share = order_of(self.columns)
        if not (found and is_most(self.share)) and not self.are_quiet():
            late = late_of(self.findings, self.skews)
            if late:
                self.skews, self.columns, found, self.share = late
                self.late = True
        self.found_order = found if found and is_most(self.share) else None
        if self.found_order:
            self.order = self.found_order.lanes
        if self.found_order or not self.share.tried:
            self.stream = stream_of(self.columns, self.order)

    def is_whole(self, folder):
        """Whether all whole metaframes of the lanes were looked at."""
        return all(finding.frames and finding.found.first + (len(finding.frames) + 1) * CODE * finding.found.metaframe > 8 * folder.size(name)
                   for finding, name in zip(self.findings, self.names))

    # ---- what is said

    def say(self, text, problem=None):
        self.texts.append(text + (": " + problem if problem else ""))
        if problem:
            self.problems.append("%s: %s" % (text.split(": ")[0], problem))

    def say_lanes(self):
        places, told = {lane: place for place, lane in enumerate(self.order)}, []
        for number, (name, finding) in enumerate(zip(self.names, self.findings)):
            self.texts.append("lane %d, %s" % (number, shown_name(name)))
            self.texts += ["  " + line for line in lines_of(finding, places[number])]
            told += [(number, "%s: %s" % (without_bits(said.text.split(": ")[0]), mend_of(said.mend, places[number]))) for said in said_of(finding) if said.mend]
        self.problems += by_lanes(told)
        metaframes = sorted({finding.found.metaframe for finding in self.findings if finding.frames})
        if len(metaframes) > 1:
            self.say("lanes with metaframes of %s words" % " and ".join(map(str, metaframes)), NO_OPTION)

    def say_stream(self):
        if self.skews is None:
            return
        self.say_order()
        self.say_skews()
        if self.stream is None:
            return
        self.say_crc24()
        self.say_words()

    def say_order(self):
        share = share_of(self.share, "control words after data")
        if not self.columns[0]:
            self.say("lanes have no metaframe in common", "not found")
        elif self.found_order is None and self.are_quiet():
            self.texts.append("order of the lanes: no data words, by which it would show")
        elif self.found_order is None:
            self.say("no order of the lanes that was tried has CRC24 that fit: %s" % share, "not found")
        else:
            self.say_found_order(share)

    def say_found_order(self, share):
        numbers, is_same = ",".join(map(str, self.order)), self.order == sorted(self.order)
        said = ", as it is" if is_same else ", " + self.found_order.said if self.found_order.said else ""
        self.say("order of the lanes %s%s: %s" % (numbers, said, share), None if is_same else "tools/lanes --order %s mends it" % numbers)

    def are_quiet(self):
        """Whether no lane has a data word."""
        return not any(header == DATA for column in self.columns for header, _ in column)

    def say_skews(self):
        behind = [self.skews.behind[lane] for lane in self.order]
        metaframe = self.findings[0].found.metaframe
        text = "skews %s bits, %s: deskew %d" % (",".join(map(str, behind)), "by the CRC24" if self.late else "within a metaframe", max(1, self.skews.deskew))
        if 2 * self.skews.deskew >= metaframe or self.skews.deskew > 4095:
            self.drops = self.skews.behind
            self.say(text, "no plan has it, and tools/lanes --drop %s mends it" % ",".join(map(str, behind)))
        else:
            self.texts.append(text)

    def say_crc24(self):
        tried = sum(self.stream.crc24.values())
        if tried == 0:
            self.say("no control words", "not found")
            return
        share = Share(self.stream.crc24[self.stream.variant], tried)
        if not is_most(share):
            self.say("no CRC24 of those known fits: %s" % share_of(share, "control words"), "not found")
        else:
            self.say("CRC24 %s: %s" % (self.stream.variant, share_of(share, "control words")), None if self.stream.variant == RIGHT else "tools/lanes adapt --crc24 %s mends it" % self.stream.variant)

    def say_words(self):
        words, stream = self.stream.calendar_words, self.stream
        if words:
            self.texts.append("calendar: Reset Calendar every %s, so up to %d entries: %s" % (
                "control word" if words == 1 else "%d control words" % words, 16 * words, share_of(Share(stream.resets[words], sum(stream.resets.values())), "distances")))
        else:
            self.texts.append("calendar: no two Reset Calendar")
        if stream.has_idle_fields:
            self.say("idle words with a channel or SOP bit: %d of %d idle words" % (stream.idles_filled, stream.idles), "tools/lanes adapt --idle-fields clear mends it")
        if stream.has_other_use:
            self.say("multiple-use bits are used for something else than channels: %d of %d idle words" % (stream.idles_used, stream.idles), "tools/lanes adapt --multi-use clear mends it")
        channels = ["%d (%d bursts)" % pair for pair in sorted(stream.channels.items())]
        self.texts.append("channels%s: %s" % (", wide" if stream.is_wide else "", ", ".join(channels) or "no burst"))
        if stream.greatest:
            self.texts.append("bursts: at most %d bytes%s" % (8 * stream.greatest, "" if stream.least is None else ", burst words at least %d bytes apart" % (8 * stream.least)))

    def compare(self):
        if self.plan is None or self.settings is None:
            return
        found = list(differences(self.plan, self.settings, self.skews, self.stream))
        self.texts += ["plan: " + text for text in found] or ["plan: %s fits" % shown_name(self.plan.name)]
        self.problems += ["plan: " + text for text in found]

    def lines(self):
        yield from self.texts
        yield from ("change: " + problem for problem in self.problems)
        yield from ("mend: " + mend for mend in self.mends)
        if not self.problems:
            yield "nothing has to be changed"
        if self.settings and not self.is_named and not self.mends:
            yield "the lanes of the plan: " + import_of("--form raw", self.settings.out, self.names)


def without_bits(text):
    """What is said of a lane without the bits at which it begins, which differ from lane to lane."""
    return text.split(", codes begin")[0]


def by_lanes(told):
    """What is said of lanes, (lane, text), those of one text together."""
    lanes = {}
    for lane, text in told:
        lanes.setdefault(text, []).append(lane)
    return ["lane%s %s: %s" % ("s" * (len(own) > 1), listed(own), text) for text, own in lanes.items()]


def give_plan(rows, name):
    """Writes the plan, or prints it if no file is named."""
    if name is None:
        print("# plan\n%s# end" % rows)
        return
    with Outputs() as outputs:
        outputs.open(name).write(rows.encode("utf-8", "surrogateescape"))


def main(words):
    options, folder = options_of(words), Folder(None, os.getcwd())
    if len(options.lanes) > MOST_LANES:
        raise Refused("%d lanes, and an interface has 1 to %d" % (len(options.lanes), MOST_LANES))
    must_be_free([options.out] if options.out else [], options.overwrite)
    names, prefix = in_order(options.lanes)
    for name in names:
        folder.must_have(name, float("inf"))
    probe = Probe(folder, names, prefix, read_plan(folder, options.plan) if options.plan else None)
    for line in probe.lines():
        print(line)
    if probe.settings is None:
        print("no plan: no lane has a metaframe")
        return 1
    give_plan("".join(row + "\n" for row in rows_of(probe.settings)), options.out)
    return 1 if probe.problems else 0
