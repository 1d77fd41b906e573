"""The command `campaign`: its options, its steps, and its errors."""

import argparse
import os
import re
import shutil
import sys
import tempfile
from decimal import Decimal

from campaign import reports
from campaign.one_number import copy_plan, printed, slots_of, words_counts
from campaign.parallel import RUN, run_all, run_job
from campaign.records import Records, digest, has_begun
from reading.apart import found_program
from reading.ending import INTERRUPTED, Options
from reading.files import Folder, Refused, own_program
from reading.plans import Plan

RATES = ("flips_per_million", "dark", "skew")
MOST_NUMBER, MOST_SKEW, MOST_DARK = 2 ** 64 - 1, 65535, 1000


def whole(least, most):
    """A reader of numbers in a range."""
    def read(text):
        if not (text.isascii() and text.isdigit() and least <= int(text) <= most):
            raise argparse.ArgumentTypeError("%r is no number of %d to %d" % (text, least, most))
        return int(text)
    return read


def rate(text):
    """A rate, as the text of a number with up to six digits after the point."""
    if not re.fullmatch(r"[0-9]{1,6}(\.[0-9]{1,6})?", text):
        raise argparse.ArgumentTypeError("%r is no number from 0 to below 1000000, with up to six digits after its point" % text)
    return text


def jobs(text):
    """A number of jobs as parallel takes it."""
    if not re.fullmatch(r"[+-]?\d+%?", text):
        raise argparse.ArgumentTypeError("%r is no number of jobs" % text)
    return text


def options_of(words):
    told = "Runs the program for each number of a range with GNU parallel, and keeps what comes of each."
    parser = Options(prog="campaign", description=told)
    parser.add_argument("first", metavar="FIRST", type=whole(0, MOST_NUMBER))
    parser.add_argument("last", metavar="LAST", type=whole(0, MOST_NUMBER))
    parser.add_argument("folder", metavar="FOLDER", help="the folder of the tables; the same call continues a campaign that was interrupted, and repeats runs that are not done")
    parser.add_argument("--plan", metavar="PLAN", help="runs `link` of this plan with schedules drawn by the number, instead of `generate`")
    parser.add_argument("--each", metavar="COMMAND", help="runs COMMAND by the shell between `damage` and `receive` of each number, with --plan: it takes the lanes of "
                        "INTERLAKEN_LANES_IN and may leave others at INTERLAKEN_LANES_OUT; `judge` counts what these have that they should not")
    parser.add_argument("--flips-per-million", metavar="N", type=rate, default="0", help="inverted bits per million, with --plan")
    parser.add_argument("--dark", metavar="N", type=whole(0, MOST_DARK), default=0, help="dark stretches per lane, with --plan")
    parser.add_argument("--skew", metavar="BITS", type=whole(0, MOST_SKEW), default=0, help="the greatest skew of a lane, with --plan")
    parser.add_argument("--coverage", action="store_true", help="also counts words of the stream: bursts, ends of packets, channels that go off")
    parser.add_argument("--junit", metavar="FILE", help="writes a JUnit report with a test case for each number")
    parser.add_argument("--overwrite", action="store_true", help="replaces files that no campaign made")
    parser.add_argument("--keep", action="store_true", help="keeps the files of each run in FOLDER/NUMBER")
    parser.add_argument("--timeout", metavar="SECONDS", type=whole(1, 1000000), help="how long a run may take")
    parser.add_argument("--program", help="the program; by default INTERLAKEN_PROGRAM, or this repository's own")
    parser.add_argument("--jobs", metavar="N", type=jobs, help="an option of parallel: how many jobs run at once")
    parser.add_argument("--sshlogin", metavar="LOGINS", help="an option of parallel: the machines, as 8/server,4/other")
    options = parser.parse_args(words)
    has_rates = options.dark or options.skew or Decimal(options.flips_per_million)
    if options.last < options.first:
        parser.error("LAST, %d, is below FIRST, %d" % (options.last, options.first))
    if options.each is not None and not options.plan:
        parser.error("--each needs --plan")
    if bool(options.plan) != bool(has_rates) and options.each is None:
        parser.error("--plan needs a rate above 0 of --flips-per-million, --dark or --skew, and these need --plan")
    return options


def must_have(tool, package):
    if not shutil.which(tool):
        raise Refused("%s is not there (Debian package %s)" % (tool, package))


def settings_of(options, program):
    """What each job has to know."""
    settings = {"program": program, "plan": options.plan, "folder": os.getcwd(), "coverage": options.coverage, "timeout": options.timeout, "each": options.each,
                "keep": os.path.abspath(options.folder) if options.keep else None, "rates": {rate: getattr(options, rate) for rate in RATES}}
    if options.plan:
        settings.update(first_look(program, options))
    return settings


def first_look(program, options):
    """The bits of a plan's lanes, by a run of `send`, and what the words of its stream count."""
    plan = Plan(Folder(None, os.getcwd()), options.plan)
    with tempfile.TemporaryDirectory(prefix="campaign.") as folder:
        copy_plan(os.getcwd(), options.plan, folder)
        files = Folder(program, folder)
        slots = slots_of(printed(files, "send"))
        return {"bits": plan.sent_bits(slots), "words": words_counts(files) if options.coverage and not options.each else {}}


def campaign_of(options):
    """What is the same in all calls of a campaign: the results of two are not mixed."""
    if not options.plan:
        return {"campaign": "generate", "coverage": options.coverage}
    folder = Folder(None, os.getcwd())
    plan = Plan(folder, options.plan)
    names = [options.plan] + [name for name in list(plan.captures.values()) + [plan.flow, plan.local] if name]
    each = {} if options.each is None else {"each": options.each}
    return {"campaign": "plan", **each, "coverage": options.coverage, "files": digest(folder.content(name) for name in names), "rates": {rate: getattr(options, rate) for rate in RATES}}


def must_be_new(options):
    """An error if a file or a folder is there that the campaign would write, and that is not of a call of it that was cut off."""
    names, base = [], os.path.join(options.folder, "%d-%d" % (options.first, options.last))
    if not has_begun(options.folder, options.first, options.last):
        names += [base + ".csv", base + ".coverage.csv"]
        kept = os.listdir(options.folder) if options.keep and os.path.isdir(options.folder) else []
        names += [os.path.join(options.folder, name) for name in sorted(kept) if name.isdigit() and options.first <= int(name) <= options.last]
    if options.junit and os.path.exists(options.junit) and not reports.is_junit(options.junit):
        names.append(options.junit)
    there = next(filter(os.path.lexists, names), None)
    if there:
        raise Refused("%s exists, and no campaign made it; --overwrite writes over it" % there)


def run_campaign(tool, options):
    """Runs what is not done, and reports all numbers; returns whether all are done and had no accident."""
    must_have("parallel", "parallel")
    if options.sshlogin:
        must_have("ssh", "openssh-client")
    if not options.overwrite:
        must_be_new(options)
    records = Records(options.folder, options.first, options.last, campaign_of(options))
    numbers = records.left()
    if numbers:
        settings = settings_of(options, found_program(options.program or own_program(tool), not options.sshlogin))
        passed_on = ["--jobs", options.jobs] * bool(options.jobs) + ["--sshlogin", options.sshlogin] * bool(options.sshlogin)
        run_all(os.path.realpath(tool), numbers, settings, passed_on, lambda line: records.add(line) or print(line, file=sys.stderr))
    return report(options, records)


def report(options, records):
    base, rows = os.path.join(options.folder, "%d-%d" % (options.first, options.last)), records.all()
    counts = reports.counted(rows, options.coverage, options.each is not None)
    try:
        reports.write_table(base + ".csv", rows, options.each is not None)
        reports.write_coverage(base + ".coverage.csv", counts)
        if options.junit:
            reports.write_junit(options.junit, "campaign.%s" % (options.plan or "generate"), rows)
    except OSError as error:
        raise Refused("%s: %s" % (error.filename, error.strerror))
    lines, is_right = reports.summary(rows, counts, options.each is not None)
    print("\n".join(lines))
    return is_right


def main(words):
    if words[:1] == [RUN]:
        run_job(words[1:])
        return 0
    options = options_of(words)
    try:
        return 0 if run_campaign(sys.argv[0], options) else 1
    except KeyboardInterrupt:
        print("campaign: interrupted: the same call goes on with what is not done", file=sys.stderr)
        return INTERRUPTED
