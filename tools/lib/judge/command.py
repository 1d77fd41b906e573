"""The command `judge`: its options, what it writes and prints, and its status."""

import os
from collections import Counter

from judge.calendars import is_local, last_calendar, local_change, states_text
from judge.causes import causes_of
from judge.events import event_findings
from judge.faults import fault_findings, place_finding
from judge.filled import is_by_fill
from judge.findings import Finding, in_order, judged_table
from judge.following import Following
from judge.judged import judged_line
from judge.lost import Lost, follow_no_lock, no_lock_findings
from judge.page import is_own_page, page_text
from judge.runs import Run
from reading.apart import Apart
from reading.ending import Options
from reading.files import Refused, rows_of, shown_name
from reading.intervals import listed
from reading.kinds import read_plan
from reading.outputs import inputs_of, inputs_struck
from reading.tables import EVENTS, RULES
from reading.writing import Outputs

CLEAN, FOUND = 0, 1
# The kinds in the order in which they are counted.
KINDS = ("no-lock", "no-group") + EVENTS + tuple(rule for rule in RULES if rule not in EVENTS) + ("span", "dropped", "missing")


def whole(text):
    if not (text.isascii() and text.isdigit() and int(text) > 0):
        raise ValueError
    return int(text)


def options_of(words):
    told = "Judges the lanes of a plan: one table of what they have that they should not, what is common to its rows, and one status."
    parser = Options(prog="judge", description=told)
    parser.add_argument("plan", metavar="PLAN", help="the plan of the lanes; OUT.judged.csv gets the table")
    parser.add_argument("--html", metavar="FILE", help="writes one page with the summary, pictures around the findings, and the table with a filter")
    parser.add_argument("--most", metavar="N", type=whole, help="at most so many rows in the table and on the page; counts and status are of all")
    parser.add_argument("--without", metavar="KIND,..", help="findings of these kinds are left out, and those that follow from them alone; so are those of the rows without,KIND of OUT.judge")
    parser.add_argument("--no-lead-in", action="store_true", help="the lanes are judged from the fourth Sync word on, where a receiver has its locks")
    parser.add_argument("--overwrite", action="store_true", help="replaces a FILE that judge did not make")
    parser.add_argument("--program", metavar="PROGRAM", help="the program; that of INTERLAKEN_PROGRAM or the repository's own if it is not named")
    return parser.parse_args(words)


class Judgement:
    """All that is found in the lanes of a plan."""

    def __init__(self, folder, plan, has_lead_in=True, without_kinds=()):
        self.run = run = Run(folder, plan, has_lead_in)
        by_lane, lost = event_findings(run), Lost(run)
        following = Following(run, by_lane, fault_findings(run), lost)
        found = [finding for own in by_lane for finding in own] + following.faults + lost.all()
        without = list(no_lock_findings(run))
        follow_no_lock(by_lane, without)
        self.skews = skews_of(run)
        self.findings = in_order(found + without + list(self.calendar_findings()), self.skews)
        for finding in self.findings:
            finding.number = run.number_of(finding.word)
        self.leave_out(lambda finding: is_by_fill(run, finding))
        self.left_out = self.leave_out(lambda finding: finding.what in without_kinds)
        self.lines = list(self.all_lines(lost, following.slips))

    def leave_out(self, is_out):
        """Leaves out some findings and those that follow from them; how many of each kind."""
        out = {id(finding) for finding in self.findings if is_out(finding)}
        count = 0
        while count < len(out):
            count = len(out)
            out |= {id(finding) for finding in self.findings if id(finding.cause) in out}
        left_out = Counter(finding.what for finding in self.findings if id(finding) in out)
        self.findings = in_order([finding for finding in self.findings if id(finding) not in out], self.skews)
        return left_out

    def calendar_findings(self):
        """A finding where the last calendar is not the local file's."""
        run = self.run
        self.last = last = last_calendar(run)
        self.is_local = not (last and run.plan.local) or is_local(run.plan.entries, last.states, run.local)
        if not self.is_local:
            finding = Finding("calendar", found=states_text(run.plan.entries, last.states), expected="a state of %s" % run.plan.local)
            change = local_change(run)
            finding.note = "the calendar is not that of %s%s" % (run.plan.local, ", but is %s" % change if change else "")
            place_finding(run, finding, last.word)
            yield finding

    def all_lines(self, lost, slips):
        """What is printed: how much is judged, counts by kind, what is common, and the channels."""
        yield judged_line(self.run)
        counts = Counter(finding.what for finding in self.findings)
        following = Counter(finding.what for finding in self.findings if finding.cause)
        for what in KINDS:
            if counts[what]:
                yield "%s=%d%s" % (what, counts[what], " following=%d" % following[what] if following[what] else "")
        if self.left_out:
            yield "left out: " + ", ".join("%s=%d" % (what, self.left_out[what]) for what in KINDS if self.left_out[what])
        yield from causes_of(self.run, self.findings)
        yield from by_lanes("no-lock", [(finding.lane, finding.note) for finding in self.findings if finding.what == "no-lock"])
        yield from ("no-group: " + finding.note for finding in self.findings if finding.what == "no-group")
        yield from by_lanes("slip", [(lane, "%s, by the Sync words at bits %d and %d" % (text, old, new)) for lane, old, new, text in slips])
        yield from lost.lines
        yield from self.channel_lines()

    def channel_lines(self):
        if self.last is None:
            yield "channels: no whole calendar"
            return
        local = self.run.plan.local
        told = "" if not local else ", as %s says" % local if self.is_local else ", not as %s says" % local
        yield "channels: %s%s" % (states_text(self.run.plan.entries, self.last.states), told)


def by_lanes(what, told):
    """What is said of lanes, those of one text together."""
    lanes = {}
    for lane, text in told:
        lanes.setdefault(text, []).append(lane)
    for text, own in lanes.items():
        yield "%s: lane%s %s: %s" % (what, "s" if len(own) > 1 else "", listed(own), text)


def skews_of(run):
    """How many bits each lane lies behind, by the first group; 0 where there is none."""
    syncs = [run.places.sync_of(run.places.pieces[0], lane) for lane in range(run.plan.lanes)] if run.places.pieces else [0] * run.plan.lanes
    return [sync - min(syncs) for sync in syncs]


def kinds_left_out(folder, plan, words):
    """The kinds of findings that are left out: those of the call, and of the rows of OUT.judge."""
    kinds, name = set(), plan.out + ".judge"
    for kind in words.split(",") if words is not None else ():
        if kind not in KINDS:
            raise Refused("--without: %r is no kind of findings; they are %s" % (kind[:40], ", ".join(KINDS)))
        kinds.add(kind)
    for row in rows_of(folder.content(name)) if folder.has(name) else ():
        where = "%s:%d" % (shown_name(name), row.line)
        if row.fields[0] != "without" or len(row.fields) != 2:
            raise Refused("%s: a row is without,KIND" % where)
        if row.fields[1] not in KINDS:
            raise Refused("%s: %r is no kind of findings" % (where, row.fields[1][:40]))
        kinds.add(row.fields[1])
    return kinds


def main(words):
    options = options_of(words)
    folder = Apart(options.program and os.path.abspath(options.program), os.getcwd())
    plan = read_plan(folder, options.plan)
    table = plan.out + ".judged.csv"
    struck = next(inputs_struck(folder, [table] + [options.html] * bool(options.html), inputs_of("judge", options.plan, plan)), None)
    if struck:
        raise Refused("%s: it is the file %s, which judge reads" % tuple(map(shown_name, struck)))
    if options.html and os.path.lexists(folder.path(options.html)) and not options.overwrite and not is_own_page(folder, options.html):
        raise Refused("%s: it is there, and judge did not make it; --overwrite replaces it" % shown_name(options.html))
    judged = Judgement(folder, plan, not options.no_lead_in, kinds_left_out(folder, plan, options.without))
    shown = judged.findings[:options.most]
    last = "%s rows=%d%s" % (table, len(shown), " of %d" % len(judged.findings) if len(shown) < len(judged.findings) else "")
    texts = {table: judged_table(shown), **({options.html: page_text(judged, options.plan, shown, options.most)} if options.html else {})}
    with Outputs() as outputs:
        for name, text in texts.items():
            outputs.open(name).write(text.encode("utf-8", "surrogateescape"))
    print("\n".join(judged.lines + [last]))
    return FOUND if judged.findings else CLEAN
