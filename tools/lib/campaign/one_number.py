"""The run of one number: its files, what the program makes of them, and what is kept of it."""

import os
import re
import shutil
import subprocess
import tempfile
import time
from collections import Counter

from campaign.coverage import ACCIDENTS, skew_counts, span_counts, stream_counts, text_counts
from campaign.each import each_record
from campaign.schedules import drawn_rows, struck_bits
from reading.apart import Links, write_rows
from reading.files import Folder, Refused
from reading.plans import Flow, Plan, Schedule
from reading.words import Stream

# The prefix of the files of a run. Its plan is CASE.plan, and the plan's outputs begin with CASE.out.
CASE = "case"
# Statuses of runs whose files are written to their ends; and the status that is kept of a run that is late.
DONE, LATE = (0, 3), 124


def record_of(number, settings):
    """What is kept of a number: a dictionary that a line of text can have."""
    folder = os.path.join(settings["keep"], "%d" % number) if settings["keep"] else tempfile.mkdtemp(prefix="campaign.")
    try:
        if settings["keep"]:
            shutil.rmtree(folder, ignore_errors=True)
            os.makedirs(folder)
        words = ["generate", "%d" % number, CASE]
        if settings["plan"]:
            copy_plan(settings["folder"], settings["plan"], folder)
            draw_schedule(folder, number, settings)
            words = ["link", CASE + ".plan"]
        if settings.get("each"):
            return {"number": number, **each_record(os.path.abspath(folder), number, settings, CASE)}
        return {"number": number, **run_record(folder, words, settings)}
    finally:
        if not settings["keep"]:
            shutil.rmtree(folder, ignore_errors=True)


def copy_plan(source, name, target):
    """Writes a plan into another folder, with links to the files that it names, with outputs of its own, and without a schedule."""
    links = Links(source, target, CASE + ".input")
    write_rows(os.path.join(target, CASE + ".plan"), links.rows(Folder(None, source).rows(name), CASE + ".out", without=("schedule",)))


def draw_schedule(folder, number, settings):
    """Adds the schedule that is drawn by a number to the plan of a folder."""
    name = CASE + ".schedule"
    rows = drawn_rows(number, Plan(Folder(None, folder), CASE + ".plan"), settings["bits"], settings["rates"])
    write_rows(os.path.join(folder, name), rows)
    with open(os.path.join(folder, CASE + ".plan"), "a", encoding="utf-8") as file:
        file.write("schedule,%s\n" % name)


def run_record(folder, words, settings):
    """The status, the seconds and the last line of a run; and where it is done, what it counts."""
    begin = time.monotonic()
    try:
        done = subprocess.run([settings["program"]] + words, cwd=folder, stdin=subprocess.DEVNULL, capture_output=True, timeout=settings["timeout"])
    except subprocess.TimeoutExpired:
        return {"status": LATE, "seconds": settings["timeout"], "last": "no end after %s seconds" % settings["timeout"]}
    seconds = time.monotonic() - begin
    text = done.stdout.decode("utf-8", "replace")
    lines = [line for line in (text + done.stderr.decode("utf-8", "replace")).split("\n") if line.strip()]
    record = {"status": done.returncode, "seconds": round(seconds, 3), "last": lines[-1] if lines else "it printed nothing"}
    is_done = done.returncode in DONE and re.search(r"^accidents ", text, re.MULTILINE)
    return {**record, **counts_of(folder, text, settings)} if is_done else record


def counts_of(folder, text, settings):
    """What a run that is done counts."""
    files = Folder(settings["program"], folder)
    plan = Plan(files, CASE + ".plan")
    schedule = Schedule(files, plan)
    counts = text_counts(text) + span_counts(files.rows(plan.out + ".spans.csv")) + skew_counts(schedule.skew, plan.deskew)
    if settings["coverage"]:
        counts += Counter(settings["words"]) if settings["plan"] else words_counts(files)
    bits = plan.sent_bits(slots_of(text))
    return {"spans": int(re.search(r"^spans (\d+)", text, re.MULTILINE)[1]), "missing": len(re.findall(r"^missing ", text, re.MULTILINE)),
            "accidents": sum(counts["accident " + kind] for kind in ACCIDENTS), "struck": struck_bits(schedule, plan.lanes, bits), "counts": dict(counts)}


def slots_of(text):
    return int(re.search(r"^slots (\d+)", text, re.MULTILINE)[1])


def printed(files, command):
    """What the program prints of the plan in a folder."""
    done = subprocess.run([files.program, command, CASE + ".plan"], cwd=files.folder, stdin=subprocess.DEVNULL, capture_output=True, encoding="utf-8", errors="replace")
    if done.returncode not in DONE:
        raise Refused("%s of the plan ended with status %d: %s" % (command, done.returncode, done.stdout.strip()))
    return done.stdout


def words_counts(files):
    """What the words of the plan in a folder count."""
    printed(files, "burst")
    plan = Plan(files, CASE + ".plan")
    return stream_counts(Stream(files, plan.out + ".words", plan), plan, Flow(files, plan))
