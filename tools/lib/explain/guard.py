"""What is said before a run that would write over a file of the user's, which then is not run."""

import os

from reading.files import shown_name
from reading.outputs import inputs_of, inputs_struck, names_captures, outputs_of

INSTEAD = "run it of a plan with another `out`, or with --overwrite"


def captures_of(plan, settings):
    """The captures that a plan and the settings of two ends name."""
    named = list(plan.captures.values()) if plan else []
    return [name for name in named + (list(settings.back.values()) if settings else []) if name]


def line_against(inputs):
    """Why a command is not run, or None: an output is the same file as an input, by this name or another; or it makes lanes or words of
    no captures, or lanes of a words file, and one of its outputs is there."""
    plan, command = inputs.plan, inputs.command
    written = outputs_of(command, inputs.name, plan, inputs.settings)
    struck = next(inputs_struck(inputs.folder, written, captures_of(plan, inputs.settings)), None)
    if struck:
        return "%s: `%s` would write over %s, a capture that the plan names: %s" % (shown_name(inputs.name), command, shown_name(struck[1]), INSTEAD)
    struck = next(inputs_struck(inputs.folder, written, inputs_of(command, inputs.name, plan, inputs.settings)), None)
    if struck:
        return "%s: it is the file %s, which `%s` reads: %s" % (*map(shown_name, struck), command, INSTEAD)
    if plan is None:
        return None
    if command != "stripe" and (command not in ("link", "send", "burst") or names_captures(plan)):
        return None
    there = next((name for name in written if os.path.lexists(inputs.folder.path(name))), None)
    if there is None:
        return None
    of = "" if command == "stripe" else " of a plan that names no captures"
    return "%s: it exists, and `%s`%s would write over it: %s" % (shown_name(there), command, of, INSTEAD)
