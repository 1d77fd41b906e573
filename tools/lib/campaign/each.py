"""The run of a number whose lanes a command of the user's takes and makes: `send` and `damage`, the command, and `judge` of what it left."""

import os
import signal
import subprocess
import time
from collections import Counter

from campaign.coverage import skew_counts, span_counts, stream_counts, text_counts
from campaign.schedules import struck_bits
from judge.command import Judgement
from judge.findings import judged_table
from reading.apart import Apart, write_rows
from reading.files import Folder
from reading.outputs import lane_names
from reading.plans import Plan, Schedule
from reading.words import slots_of

# The plan of what is received, and the prefix of lanes that the command leaves.
RECEIVED, LEFT = "received", "left"
DONE, LATE = (0, 3), 124


def each_record(folder, number, settings, case):
    """The status, the seconds and the last line of a run; and if it is done, what it counts."""
    begin, plan, text = time.monotonic(), Plan(Folder(None, folder), case + ".plan"), ""
    for command in ("send", "damage"):
        done = subprocess.run([settings["program"], command, case + ".plan"], cwd=folder, stdin=subprocess.DEVNULL, capture_output=True)
        text += done.stdout.decode("utf-8", "replace")
        if done.returncode not in DONE:
            return record(done.returncode, begin, "%s: %s" % (command, last_line(done.stdout + done.stderr)))
    prefixes = {"in": plan.out + ".damaged", "left": "%s.%s" % (case, LEFT)}
    status, said = run_command(settings["each"], folder, surroundings(folder, number, case, prefixes), settings["timeout"])
    if status:
        return record(status, begin, said)
    left = [name for name in lane_names(plan, prefixes["left"]) if os.path.exists(os.path.join(folder, name))]
    if 0 < len(left) < plan.lanes:
        return record(None, begin, "it left %s, and not all %d lanes" % (left[-1], plan.lanes))
    return {**record(0, begin, said), **counts_of(folder, text, settings, case, prefixes["left" if left else "in"])}


def record(status, begin, last):
    return {"status": status, "seconds": round(time.monotonic() - begin, 3), "last": last}


def last_line(text):
    lines = [line for line in text.decode("utf-8", "replace").splitlines() if line.strip()]
    return lines[-1] if lines else "it printed nothing"


def surroundings(folder, number, case, prefixes):
    """What the command finds in its environment."""
    return {**os.environ, "INTERLAKEN_NUMBER": "%d" % number, "INTERLAKEN_PLAN": os.path.join(folder, case + ".plan"),
            "INTERLAKEN_LANES_IN": os.path.join(folder, prefixes["in"]), "INTERLAKEN_LANES_OUT": os.path.join(folder, prefixes["left"])}


def run_command(command, folder, environment, seconds):
    """Runs a command by the shell; its status and the last line that it printed. One that is late is ended with all that it started."""
    how = {"cwd": folder, "env": environment, "stdin": subprocess.DEVNULL, "stdout": subprocess.PIPE, "stderr": subprocess.STDOUT, "start_new_session": True}
    with subprocess.Popen(command, shell=True, **how) as shell:
        try:
            text = shell.communicate(timeout=seconds)[0]
        except subprocess.TimeoutExpired:
            os.killpg(shell.pid, signal.SIGKILL)
            shell.communicate()
            return LATE, "no end after %s seconds" % seconds
    return shell.returncode if shell.returncode >= 0 else 128 - shell.returncode, last_line(text)


def counts_of(folder, text, settings, case, prefix):
    """What the lanes at a prefix count, by what `judge` finds in them; `text` is what `send` printed."""
    rows = [row for row in Folder(None, folder).rows(case + ".plan") if row[0] not in ("out", "schedule")]
    name = "%s.%s.plan" % (case, RECEIVED)
    write_rows(os.path.join(folder, name), rows + [["out", prefix]])
    files = Apart(settings["program"], folder)
    plan, sent = Plan(files, name), Plan(files, case + ".plan")
    schedule, judged = Schedule(files, sent), Judgement(files, plan)
    with open(os.path.join(folder, prefix + ".judged.csv"), "w", encoding="utf-8", newline="") as file:
        file.write(judged_table(judged.findings))
    counts = text_counts(judged.run.text) + span_counts([[]] + judged.run.spans) + skew_counts(schedule.skew, plan.deskew)
    if settings["coverage"]:
        counts += stream_counts(judged.run.stream, plan, None)
    found = Counter(finding.what for finding in judged.findings)
    return {"spans": len(judged.run.spans), "missing": found["missing"], "accidents": 0, "findings": len(judged.findings),
            "struck": struck_bits(schedule, plan.lanes, plan.sent_bits(slots_of(text))), "counts": dict(counts)}
