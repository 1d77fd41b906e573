"""The files that a command writes, and what a text may advise: no command is named as the way to a file if it writes over another."""

import os
import shlex

# The commands that make lanes and words, of captures or of words, and not of what a device sent.
MAKERS = ("link", "send", "burst", "stripe", "damage")
WORDS, SPANS, PLACES, EVENTS, FAULTS = ".words", ".spans.csv", ".places.csv", ".events.csv", ".faults.csv"


def lane_names(plan, prefix=None):
    return ["%s.lane.%d" % (prefix or plan.out, lane) for lane in range(plan.lanes)]


def capture_names(plan):
    return ["%s.%d.pcap" % (plan.out, channel) for channel in plan.channels]


def received(plan):
    return capture_names(plan) + [plan.out + SPANS]


# By command the files that it writes of a plan.
OF_PLAN = {
    "burst": lambda plan: [plan.out + WORDS], "resend": lambda plan: [plan.out + WORDS], "join": received, "receive": received,
    "send": lane_names, "stripe": lane_names, "link": lambda plan: lane_names(plan) + received(plan),
    "gather": lambda plan: [plan.out + WORDS, plan.out + PLACES], "damage": lambda plan: lane_names(plan, plan.out + ".damaged"),
    "inspect": lambda plan: [plan.out + EVENTS], "check": lambda plan: [plan.out + FAULTS],
    "oobwrite": lambda plan: [plan.out + ".oob"], "oobread": lambda plan: [plan.out + ".oob.flow"]}
# And of a file that is not a plan.
OF_FILE = {"burst": (WORDS,), "join": (".0.pcap", SPANS), "list": (".txt",), "assemble": (".bin",)}

# By command the outputs of other commands that it reads of a plan, and the rows of the plan that name files which it reads.
MADE = {"receive": lane_names, "gather": lane_names, "inspect": lane_names, "damage": lane_names}
MADE.update(dict.fromkeys(("join", "check", "stripe"), lambda plan: [plan.out + WORDS]))
SENT = ("flow", "local")
NAMED = {"burst": SENT, "send": SENT, "link": (*SENT, "schedule"), "resend": (*SENT, "events"), "damage": ("schedule",), "check": ("flow",),
         "oobwrite": ("local",), "oobread": ("oob",), "judge": SENT}


def outputs_of(command, name, plan, settings=None):
    """The files that a command writes of a file of this name, which may be a plan or settings of two ends."""
    if settings is not None:
        return ["%s.%s.%d.pcap" % (settings.out, end, channel) for end in "ab" for channel in (plan.channels if plan else ())]
    if plan is not None:
        return OF_PLAN[command](plan) if command in OF_PLAN else []
    return [name + end for end in OF_FILE.get(command, ())]


def inputs_of(command, name, plan, settings=None):
    """The files that a command, or judge, reads of a file of this name."""
    if plan is None:
        return [name]
    captures = list(plan.captures.values()) if settings or command in ("burst", "send", "link", "resend", "judge") else []
    captures += list(settings.back.values()) if settings else []
    named = [getattr(plan, key) for key in NAMED.get(command, ())]
    made = MADE.get("receive" if command == "judge" else command, lambda plan: [])(plan)
    return [file for file in [name, settings and settings.plan, *captures, *named, *made] if file]


def names_captures(plan):
    """Whether a plan names captures: that of a device's lanes names none."""
    return any(plan.captures.values())


def is_of_device(folder, plan):
    """Whether lanes are there that the plan did not send, since it names no captures."""
    return not names_captures(plan) and any(folder.has(name) for name in lane_names(plan))


def inputs_struck(folder, outputs, inputs):
    """The outputs that are inputs by another name or by the same, each with that input."""
    for output in outputs:
        for name in inputs:
            if is_same_file(folder.path(output), folder.path(name)):
                yield output, name


def is_same_file(path, other):
    """Whether two names are those of one file, by its device and inode; or of one that is not there yet."""
    try:
        if os.path.exists(path) and os.path.exists(other):
            return os.path.samefile(path, other)
        return os.path.realpath(path) == os.path.realpath(other)
    except (OSError, ValueError):
        return path == other


def writes_over(folder, plan, command):
    """The first file that a command of a plan would write over and that may be the user's own, or None. What the program made of lanes
    or words (captures, tables) it may make again."""
    written = outputs_of(command, plan.name, plan)
    if command in MAKERS:
        return next((name for name in written if os.path.lexists(folder.path(name))), None)
    return next((output for output, _ in inputs_struck(folder, written, filter(None, plan.captures.values()))), None)


def way_to(folder, plan, *commands):
    """How files come to be, as the end of a message: by these commands of the plan, or of one with another `out` if they would write
    over a file; nothing if they make what they write of captures, and the plan names none."""
    if not names_captures(plan) and any(command in ("link", "send", "burst") for command in commands):
        return ""
    is_plain = not any(writes_over(folder, plan, command) for command in commands)
    called = " and then ".join("`interlaken %s%s`" % (command, " " + shlex.quote(plan.name) if is_plain else "") for command in commands)
    makes = "makes" if len(commands) == 1 else "make"
    return ": %s %s" % (called, makes + (" it" if len(commands) == 1 else " them") if is_plain else "of this plan with another `out` %s new files" % makes)
