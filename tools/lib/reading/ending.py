"""How a tool of Python reads its words and how it ends, the same for all of them.

    from reading.ending import Options, call

    def main(words):
        parser = Options(prog="slots", description="..")    an argparse parser whose errors are one line
        ..
        return 0                                            or 1; an error is raised, as `Refused`

    call("slots", main)                                     the last line of the tool

An error is one line `TOOL: FILE:LINE: what` on the error output, and the status is 2: a `Refused`, an operating system's error of a
file, wrong words. A reader of standard output that goes away (`| head`) ends the tool with the status 141 and without a text, as the
signal would end it.
"""

import argparse
import errno
import os
import sys

from reading.files import Refused, shown_name

DONE, FOUND, FAILED, INTERRUPTED, CLOSED = 0, 1, 2, 130, 141
HELP = os.path.join(os.path.dirname(os.path.realpath(__file__)), "..", "..", "help")


class Options(argparse.ArgumentParser):
    """A parser of options that tells an error in one line, and takes no shortened option."""

    def __init__(self, **settings):
        super().__init__(allow_abbrev=False, **settings)

    def format_help(self):
        """The options, and then what tools/help has of the tool: its columns, signals or items."""
        more = os.path.join(HELP, self.prog + ".txt")
        if not os.path.exists(more):
            return super().format_help()
        with open(more, encoding="utf-8") as file:
            return super().format_help() + "\n" + file.read()

    def error(self, message):
        self.exit(FAILED, "%s: %s; `%s --help` shows the words\n" % (self.prog, one_line(message), self.prog))


def call(tool, main):
    """Calls `main` with the words of the command line, and ends the process with the status that it returns."""
    if sys.stdout is None:  # it was closed before the call
        sys.stdout = open(os.devnull, "w", encoding="utf-8")
    for stream in (sys.stdout, sys.stderr):
        # A name of a file is passed on as it is, whatever its bytes are.
        if stream is not None:
            stream.reconfigure(errors="surrogateescape")
    status = status_of(tool, main)
    try:
        sys.stdout.flush()
    except OSError as error:
        status = closed() if error.errno == errno.EPIPE else tell(tool, "standard output: %s" % error.strerror)
        discard()
    sys.exit(status)


def status_of(tool, main):
    try:
        return main(sys.argv[1:])
    except SystemExit as end:  # of the options
        return end.code or DONE
    except Refused as refused:
        return tell(tool, refused)
    except BrokenPipeError:
        return closed()
    except OSError as error:
        return tell(tool, "%s%s" % ("" if error.filename is None else "%s: " % shown_name(os.fsdecode(error.filename)), error.strerror or error))
    except MemoryError:
        return tell(tool, "memory ran out")
    except KeyboardInterrupt:
        return INTERRUPTED


def tell(tool, what):
    """Tells an error; the status of it."""
    try:
        print("%s: %s" % (tool, one_line(what)), file=sys.stderr, flush=True)
    except OSError:
        pass  # nobody reads it
    return FAILED


def must_be_new(path, name, overwrite):
    """An error if a file is there that would be written over; `--overwrite` allows it."""
    if os.path.lexists(path) and not overwrite:
        raise Refused("%s exists; --overwrite writes over it" % shown_name(name))


def note(text):
    """Tells a person at a terminal what a tool leaves out; a script reads none."""
    if sys.stderr is not None and sys.stderr.isatty():
        print("%s: note: %s" % (os.path.basename(sys.argv[0]), one_line(text)), file=sys.stderr)


def one_line(text):
    return " ".join(str(text).splitlines())


def closed():
    """The status if the reader of standard output went away."""
    discard()
    return CLOSED


def discard():
    """What was not written yet goes nowhere, so that the end of the interpreter does not try again."""
    nowhere = os.open(os.devnull, os.O_WRONLY)
    os.dup2(nowhere, sys.stdout.fileno())
    os.close(nowhere)
