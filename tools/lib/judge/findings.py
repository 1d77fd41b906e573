"""A finding, and the table of all of them."""

import csv
import io

COLUMNS = ("bit", "lane", "metaframe", "word", "what", "channel", "packet", "expected", "found", "note")
OWN = ("number", "noted_bit", "cause", "place", "first", "last", "variant", "is_mended")


class Finding:
    """A row of the table. `word` counts as in `Run`, and `number` as in the words that `gather` writes. `noted_bit` is the bit
    that its note names, or None. `cause` is the finding that it follows from, or None; `place` its own in the table once that is in order;
    `first` the first word of a packet, and `last` the last of a span or a packet; `variant` the known way in which a sender makes it so, or None; `is_mended` is true of a
    wrong CRC32 that is right of the Sync and Skip words as they should be."""

    __slots__ = COLUMNS + OWN

    def __init__(self, what, **known):
        self.what = what
        for column in set(COLUMNS + OWN) - {"what"}:
            setattr(self, column, known.get(column))

    def add_note(self, text):
        self.note = "%s; %s" % (self.note, text) if self.note else text

    def named(self):
        """How another row names this one: by its line in the table, with what stands there."""
        where = "" if self.bit is None else " at bit %d of lane %d" % (self.bit, self.lane) if self.lane is not None else ""
        return "line %d, %s%s" % (self.place + FIRST_LINE, self.what, where)

    def full_note(self):
        cause = "follows from %s" % self.cause.named() if self.cause else ""
        return "; ".join(text for text in (self.note, cause) if text)

    def fields(self):
        """The fields of its row."""
        return [value_of(getattr(self, "number" if column == "word" else column)) for column in COLUMNS[:-1]] + [self.full_note()]


FIRST_LINE = 2  # after the heading


def value_of(value):
    return "" if value is None else value


def in_order(findings, skews):
    """Findings in order of bit, less the lane's skew, and then of lane; those without a bit come last. Each is given its place."""
    def key(finding):
        has_bit = finding.bit is not None
        return not has_bit, finding.bit - skews[finding.lane] if has_bit else 0, finding.lane if finding.lane is not None else -1
    findings = sorted(findings, key=key)
    for place, finding in enumerate(findings):
        finding.place = place
    return findings


def judged_table(findings):
    """The table of findings."""
    text = io.StringIO()
    rows = csv.writer(text, lineterminator="\n")
    rows.writerow(COLUMNS)
    rows.writerows(finding.fields() for finding in findings)
    return text.getvalue()
