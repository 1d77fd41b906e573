"""What kind of file one is by its first bytes, so that a file in place of another is named as what it is."""

from reading.files import MAGICS, NG_MAGIC, Refused, rows_of, shown_name
from reading.plans import PLAN_KIND, Plan
from reading.rows import Kind

CAPTURE, WORDS, LISTING = "a capture", "a words file", "a listing"
SEEN = 1 << 16  # bytes of a file by which its kind is told


def kind_of(data, size):
    """What a file is by its first bytes and its size, or None."""
    if data[:4] in MAGICS or data[:4] == NG_MAGIC:
        return CAPTURE
    if data[:6] == b"words\n" or data[:5] == b"lane\n":
        return LISTING
    if data and size % 9 == 0 and not data[::9].translate(None, b"\1\2\3"):
        return WORDS
    for row in rows_of(data):
        of_key = [kind.name for kind in Kind.known if row.fields[0] in kind.keys]
        if len(of_key) == 1:
            return of_key[0]
        if not of_key:
            return None
    return None


def other_kind(name, found, wanted):
    """What is said of a file of another kind than the one that is wanted."""
    return "%s is %s, and %s is wanted here" % (shown_name(name), found, wanted)


def read_plan(folder, name):
    """A tool's own plan; if the file is of another kind, that is the error."""
    try:
        return Plan(folder, name)
    except Refused:
        found = kind_of(folder.beginning(name, SEEN), folder.size(name)) if folder.has(name) else None
        if found in (None, PLAN_KIND.name):
            raise
        raise Refused(other_kind(name, found, PLAN_KIND.name)) from None
