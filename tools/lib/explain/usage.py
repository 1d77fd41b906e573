"""What is wrong with the words of a command line, and the commands with the words that they take."""

import difflib

from explain.inputs import COMMANDS
from reading.files import shown_name

FILE_NAME, PREFIX, NUMBER_DIGITS = 255, 180, 20


HELP = ["usage: explain [--program PROGRAM] [--overwrite] COMMAND FILE", "       explain [--program PROGRAM] generate NUMBER PREFIX", "",
        "Runs the program with these words, passes on its text and its status, and explains refusals and warnings on the error output. With",
        "--overwrite it also runs a command that writes over lanes or words that the program did not make, or over a capture. The commands:", ""]


def help_lines():
    """What `explain --help` prints."""
    return HELP + table()


def lines_of(words):
    """The first fault of the words, and the table of commands."""
    return ["explain: " + (fault_of(words) or "these words are not accepted")] + table()


def table():
    """A line for each command."""
    width = max(len(name) + len(command.words) for name, command in COMMANDS.items()) + 1
    return ["  %-*s  %s" % (width, "%s %s" % (name, command.words), command.takes) for name, command in COMMANDS.items()]


def fault_of(words):
    """The first fault, or None."""
    if not words:
        return "no command given"
    if words[0] not in COMMANDS:
        return unknown_command(words)
    takes = COMMANDS[words[0]].words.split()
    if len(words) - 1 != len(takes):
        return count_fault(words[0], takes, len(words) - 1)
    if len(takes) == 2:
        return number_fault(words[1]) or name_fault("PREFIX", words[2], PREFIX)
    return name_fault("FILE", words[1], FILE_NAME)


def count_fault(command, takes, count):
    """What is wrong with the number of words after a command."""
    if takes == ["FILE"]:
        return "`%s` needs a file name" % command if count == 0 else "`%s` takes one file name, not %d words" % (command, count)
    return "`%s` needs a number and a prefix, not %d word%s" % (command, count, "s" * (count != 1))


def unknown_command(words):
    name = words[0]
    found = next((word for word in words[1:] if word in COMMANDS), None)
    if found:
        rest = [word for word in words if word != found]
        return "the command comes first: `interlaken %s`" % " ".join([found] + rest)
    if name.lstrip("-") in ("help", "h", "version", "V"):
        return "these are the commands; `./interlaken --help` says what each does, and `./interlaken --version` what is run"
    near = difflib.get_close_matches(name.lower(), COMMANDS, 1)
    return "unknown command %s%s" % (shown_name(name), ": `%s`?" % near[0] if near else "")


def number_fault(word):
    if not (word.isascii() and word.isdigit()):
        return "NUMBER: %s is no number: 1 to %d decimal digits" % (shown_name(word), NUMBER_DIGITS)
    if len(word) > NUMBER_DIGITS:
        return "NUMBER: %d digits, and it has 1 to %d" % (len(word), NUMBER_DIGITS)
    return "NUMBER: %s is not below 2^64" % word if int(word) >= 1 << 64 else None


def name_fault(what, word, most):
    if not word:
        return "%s: an empty word" % what
    if word.startswith("-"):
        return "%s: %s begins with a dash; write ./%s" % (what, shown_name(word), word)
    size = len(word.encode("utf-8", "surrogateescape"))
    return "%s: %d bytes, and it has 1 to %d" % (what, size, most) if size > most else None
