"""What a campaign came to: the table of its numbers, the counts of what was hit, a JUnit report, and a summary."""

import csv
import re
import xml.etree.ElementTree as xml
from collections import Counter

from campaign.coverage import ACCIDENTS, NOT_OF_LANES, OF_TEXT, OF_WORDS
from campaign.records import is_done

COLUMNS = ("number", "status", "spans", "missing", "accidents", "struck", "seconds")
OF_EACH = ("number", "status", "spans", "missing", "findings", "struck", "seconds")
# So many numbers that failed are named, one a line; the table has all.
NAMED = 20


def why_failed(number, record):
    """What is wrong with a number: its kind and a text; or None if nothing is."""
    if record is None:
        return "no result", "no result: its job did not end"
    if record["status"] is None:
        return "no run", "no run: %s" % record["last"]
    if not is_done(record):
        return "status", "status %d: %s" % (record["status"], record["last"])
    if record["accidents"]:
        return "accidents", "accidents " + " ".join("%s=%d" % (kind, record["counts"].get("accident " + kind, 0)) for kind in ACCIDENTS)
    return None


def write_table(path, records, is_each=False):
    columns = OF_EACH if is_each else COLUMNS
    with open(path, "w", encoding="utf-8", newline="") as file:
        rows = csv.writer(file, lineterminator="\n")
        rows.writerow(columns)
        rows.writerows([number] + [record.get(column) for column in columns[1:]] for number, record in records if record is not None)


def counted(records, has_words, is_each=False):
    """How often each item was hit, in order."""
    total = Counter()
    for _, record in records:
        if is_done(record):
            total.update(record["counts"])
    return [(item, total[item]) for item in OF_TEXT + (OF_WORDS if has_words else []) if not (is_each and item in NOT_OF_LANES)]


def write_coverage(path, counts):
    with open(path, "w", encoding="utf-8", newline="") as file:
        csv.writer(file, lineterminator="\n").writerows([("item", "count")] + counts)


def write_junit(path, name, records):
    """A test suite with a case for each number."""
    failures = [(number, record, why_failed(number, record)) for number, record in records]
    seconds = sum(record["seconds"] for _, record, _ in failures if record)
    suite = xml.Element("testsuite", name="campaign", tests="%d" % len(records), failures="%d" % sum(why is not None for _, _, why in failures),
                        errors="0", skipped="0", time="%.3f" % seconds)
    for number, record, why in failures:
        case = xml.SubElement(suite, "testcase", classname=allowed(name), name="number %d" % number, time="%.3f" % (record["seconds"] if record else 0))
        if why:
            failure = xml.SubElement(case, "failure", type=why[0], message=allowed(why[1]))
            failure.text = allowed(record["last"] if record else "")
    xml.indent(suite)
    xml.ElementTree(suite).write(path, encoding="utf-8", xml_declaration=True)


def is_junit(path):
    """Whether a file is the report of a campaign."""
    with open(path, "rb") as file:
        return b'<testsuite name="campaign"' in file.read(200)


def allowed(text):
    """A text without characters that XML cannot have."""
    return re.sub("[^\t\n\r\x20-\ud7ff\ue000-\ufffd\U00010000-\U0010ffff]", "?", text)


def summary(records, counts, is_each=False):
    """The lines of the summary, and whether all numbers are done and had no accident."""
    failures = [(number, why) for number, why in ((number, why_failed(number, record)) for number, record in records) if why]
    lines = ["number %d: %s" % (number, why[1]) for number, why in failures[:NAMED]]
    if len(failures) > NAMED:
        lines.append("and %d more, which the table has" % (len(failures) - NAMED))
    done = [record for _, record in records if is_done(record)]
    lost = [record["missing"] for record in done if record["missing"]]
    totals = {"numbers": len(records), "not_done": len(records) - len(done), "with_accidents": sum(record["accidents"] > 0 for record in done),
              "with_missing": len(lost), "missing": sum(lost), "struck": sum(record["struck"] for record in done)}
    if is_each:
        del totals["with_accidents"]
        totals.update(with_findings=sum(record["findings"] > 0 for record in done), findings=sum(record["findings"] for record in done))
    lines.append(" ".join("%s=%d" % total for total in totals.items()))
    lines.append("never hit: %s" % (", ".join(item for item, count in counts if not count) or "nothing"))
    return lines, not failures
