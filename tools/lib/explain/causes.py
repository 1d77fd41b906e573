"""A refusal in full: the file, the line and the field, the reason, and where it is known what to do."""

import difflib
import os
import re
import shlex

from explain.listings import LINES, line_hint
from reading import kinds
from reading.files import Refused, shown_name
from reading.kinds import CAPTURE, WORDS
from reading.outputs import is_of_device, way_to
from reading.plans import EVENTS_KIND, PLAN_KIND, SCHEDULE_KIND, SETTINGS_KIND
from reading.rows import KeyMissing, RowRefused

PACKED = {b"\x1f\x8b": "gunzip", b"\x28\xb5": "unzstd", b"\xfd7": "unxz", b"BZ": "bunzip2"}
# What the program's words for a cause mean, if the inputs do not show it any more.
MEANINGS = {"text": "a field is not UTF-8", "key": "an unknown key", "fields": "another number of fields",
            "number": "a number, a word or a state that is not spelled as one", "range": "a number, a name or a number of rows out of range",
            "repeat": "a second row of what stands once", "clash": "the row contradicts another"}
# What writes the words files and lanes that a command reads; of the others it is `link`.
WRITERS = {"join": "burst", "stripe": "burst", "check": "burst", "damage": "send"}


def wanted_kind(inputs, refused):
    """What the file of a refusal should be."""
    if refused.is_plan:
        return (SETTINGS_KIND if inputs.command == "duplex" else PLAN_KIND).name
    if refused.named_by is None:
        return {"burst": CAPTURE, "join": WORDS, "list": WORDS}.get(inputs.command)
    key = refused.named_by[1].fields[0]
    kinds = {"channel": CAPTURE, "back": CAPTURE, "plan": PLAN_KIND.name, "schedule": SCHEDULE_KIND.name, "events": EVENTS_KIND.name}
    return kinds.get(key, "a %s file" % key)


def lines_of(folder, inputs):
    """What a refusal means, one line or two."""
    refused = inputs.refused
    if refused.told == "no file":
        return [absent(folder, inputs, refused)]
    data = folder.beginning(refused.name, kinds.SEEN)
    found, wanted = kinds.kind_of(data, folder.size(refused.name)), wanted_kind(inputs, refused)
    lines = []
    if found and wanted and found != wanted:
        lines.append(other_kind(inputs, refused, found, wanted))
    if isinstance(refused, (RowRefused, KeyMissing)) and not (lines and found in (CAPTURE, WORDS)):
        return lines + [str(refused)]
    return lines or [in_full(refused, data) + named_in(refused)]


def named_in(refused):
    if refused.named_by is None:
        return ""
    file, row = refused.named_by
    return " (named in %s:%d)" % (shown_name(file.name), row.line)


def where_named(refused):
    """The row that names a file, as the front of a message."""
    if refused.named_by is None:
        return ""
    file, row = refused.named_by
    of_channel = " " + row.fields[1] if row.fields[0] in ("channel", "back") else ""
    return "%s:%d: %s%s: " % (shown_name(file.name), row.line, row.fields[0], of_channel)


def other_kind(inputs, refused, found, wanted):
    told = where_named(refused) + kinds.other_kind(refused.name, found, wanted)
    if refused.named_by is None and not refused.is_plan and found == PLAN_KIND.name:
        return told + ": `%s` takes FILE as a plan only where its name ends in .plan" % inputs.command
    if refused.is_plan and found == SETTINGS_KIND.name:
        return told + ": `interlaken duplex %s` takes it" % shlex.quote(refused.name)
    if refused.is_plan and found == CAPTURE and inputs.command in ("send", "link"):
        return told + ", whose rows `channel,c,FILE` name captures"
    return told


def in_full(refused, data):
    """A refusal with what to do."""
    if refused.told == "pcapng":
        made = (refused.name[:-7] if refused.name.endswith(".pcapng") else refused.name + ".classic") + ".pcap"
        convert = "editcap -F pcap %s %s" % (shlex.quote(refused.name), shlex.quote(made))
        return "%s: a pcapng capture, which is not read; `%s` makes a classic one of it" % (shown_name(refused.name), convert)
    unpack = next((tool for magic, tool in PACKED.items() if data.startswith(magic)), None)
    if refused.told and refused.told.startswith("magic") and unpack:
        return "%s: a compressed file, which is not read; `%s %s` unpacks it" % (shown_name(refused.name), unpack, shlex.quote(refused.name))
    if refused.told and refused.told.startswith("magic"):
        letters = data[:4].decode("latin-1")
        return str(refused) + (": it begins with the letters %r" % letters if letters.isprintable() else "")
    return str(refused)


def absent(folder, inputs, refused):
    """An absent file: which row names it, and where it may be."""
    told = "%s%s: no such file" % (where_named(refused), shown_name(refused.name))
    if not refused.is_plan and refused.named_by is None and inputs.plan:
        return told + way_to(folder, inputs.plan, writer_of(folder, inputs))
    return told + "".join("; " + hint for hint in name_hints(folder, inputs, refused.name))


def writer_of(folder, inputs):
    """The command that makes the words or the lanes that a command reads: of lanes that no captures made, the words are gathered."""
    if inputs.command in ("join", "check") and is_of_device(folder, inputs.plan):
        return "gather"
    return WRITERS.get(inputs.command, "link")


def name_hints(folder, inputs, name):
    """What may be wrong with the name of a file that is not there."""
    bare = "".join(character for character in name if character.isprintable()).strip()
    if bare != name:
        places = [place for place, part in (("begins", name[0]), ("ends", name[-1])) if part.isspace() or not part.isprintable()]
        yield "the name %s with a blank or an invisible character" % " and ".join(places) if places else "the name has an invisible character"
    base, start = os.path.basename(bare), os.path.dirname(inputs.name)
    if bare != name and folder.has(bare):
        yield "%s is there" % bare
    elif start and folder.has(os.path.join(start, bare)):
        yield "%s is there, but names are taken from the folder that the program is called in" % os.path.join(start, bare)
    else:
        try:
            there = os.listdir(folder.path(os.path.dirname(bare) or "."))
        except (OSError, ValueError):
            yield "its folder %s is not there" % shown_name(os.path.dirname(bare))
            return
        near = [other for other in there if other.lower() == base.lower()] or difflib.get_close_matches(base, there, 1, 0.7)
        if near:
            yield "%s is there" % shown_name(os.path.join(os.path.dirname(bare), near[0]))


# ---- what only the program's text says

def lines_by_text(folder, command, file, text):
    """What a refusal means, only by the program's text, if the inputs that are there now do not have it."""
    found = re.match(r"(plan|input) refused: (?:(.*): )?(.*)$", text, re.DOTALL)
    if not found:
        return []
    kind, name, why = found.groups()
    if command == "assemble" and folder.has(file):
        return [listing_fault(folder, file, why)]
    row = re.match(r"(?:.*: )?row (\d+): (\w+)$", text.partition("refused: ")[2], re.DOTALL)
    if row:
        name = file if kind == "plan" else text.partition("refused: ")[2].rpartition(": row ")[0]
        meaning = MEANINGS.get(row.group(2), row.group(2))
        return ["%s: row %s (empty lines are not counted): %s; the file is not there as it was" % (shown_name(name), row.group(1), meaning)]
    return ["%s: %s; the file is not there as it was" % (shown_name(name or file), why)]


def listing_fault(folder, name, why):
    """What is wrong with a listing, by the number of its line."""
    try:
        lines = folder.content(name).decode("latin-1").split("\n")
    except Refused as refused:
        return str(refused)
    head = lines[0] if lines[0] in LINES else None
    if why == "head" or head is None:
        return "%s:1: %r: a listing begins with the line `words` or `lane`" % (shown_name(name), lines[0][:40])
    if why == "length":
        return "%s: the bits of these lines fill no bytes: the line `rest BITS` of a lane has the bits that are left" % shown_name(name)
    number = int(why.split()[-1])
    line = lines[number - 1] if number <= len(lines) else ""
    if number == len(lines):
        return "%s:%d: the last line does not end in a line feed" % (shown_name(name), number)
    return "%s:%d: %r is no line of a listing%s; the lines after `%s` are %s" % (shown_name(name), number, line[:60], line_hint(line), head, LINES[head])
