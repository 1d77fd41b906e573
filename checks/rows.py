"""Runs the program on each row of rows/, and compares what it leaves and says with what the row holds.

    python3 rows.py PROGRAM [--texts] [ROW..]

--texts runs the model of model/ in place of the program. If its status and files are those of a row, it writes what it prints into the
row's text: after a change of a line of text, no row has to be written by hand. A row with another status or other files stays, and counts
as failed.

A row is a folder:

    words         the words of the command line, one a line
    before/       the files that lie where it runs
    captures      captures that are made there besides: a line 'NAME SIZES..' each, as captures.py makes them
    first         the words of a command that the program runs there first; what it leaves are then the files before
    status        the exit status
    text          what it prints, byte for byte
    after/        the files that it creates or changes, whole
    after.large   the large ones of them: a line 'NAME LENGTH FIRST-BYTES SHA-256' each

Every other file has to be as it was, and nothing may come on standard error.
"""

import hashlib
import os
import sys

from lib.captures import capture
from lib.runs import SECONDS, Run, content, files_in, left_by
from lib.tally import Tally

ROWS = os.path.join(os.path.dirname(os.path.abspath(__file__)), "rows")


def lines_of(name):
    return content(name).decode().splitlines() if os.path.exists(name) else []


class Row:
    def __init__(self, name):
        self.name, self.folder = name, os.path.join(ROWS, name)
        self.words, self.first = content(self.at("words")).decode().splitlines(), lines_of(self.at("first"))
        self.status, self.text = int(content(self.at("status"))), content(self.at("text"))
        self.before = files_in(self.at("before"))
        for line in lines_of(self.at("captures")):
            file, *sizes = line.split()
            self.before[file] = capture(sizes)

    def at(self, part):
        return os.path.join(self.folder, part)

    def prepared(self, program, environment=None):
        """The run of its first command, whose files are those before; without one nothing changes."""
        return left_by(program, self.first, self.before, environment=environment) if self.first else Run(0, b"", b"", self.before)

    def differences(self, program, environment=None):
        first = self.prepared(program, environment)
        if first.status != 0:
            return ["status %s of its first command" % first.status]
        status, text, error, files = left_by(program, self.words, first.files, environment=environment)
        told = [] if status == self.status else ["status %s and not %d" % (status, self.status)]
        if text != self.text:
            told.append("text %r and not %r" % (text[:400], self.text[:400]))
        if error:
            told.append("standard error %r" % error[:80])
        return told + self.differing(first.files, files)

    def differing(self, before, files):
        whole = {**before, **files_in(self.at("after"))}
        large = {line.split()[0]: line for line in lines_of(self.at("after.large"))}
        told = []
        for name in sorted({*whole, *large, *files}):
            if name not in files:
                told.append("no file %s" % name)
            elif name in large:
                found = large_line(name, files[name], large[name])
                told += [] if found == large[name] else ["file %s and not %s" % (found, large[name])]
            elif name not in whole:
                told.append("a file %s" % name)
            elif files[name] != whole[name]:
                told.append("file %s differs" % name)
        return told


    def take_text(self):
        """Takes what the model prints as the text of the row, or says why not."""
        from lib.modeled import left_by_model  # the model and the tools have modules of one name

        first = left_by_model(self.first, self.before) if self.first else Run(0, b"", b"", self.before)
        status, text, _, files = left_by_model(self.words, first.files)
        if first.status != 0 or status != self.status or self.differing(first.files, files):
            return "the model ends with status %d, and with other files or another status than the row" % status
        if text != self.text:
            with open(self.at("text"), "wb") as file:
                file.write(text)
            print("%s: its text is new" % self.name)
        return ""


def large_line(name, data, like):
    """The line of a large file, with as many of its first bytes as another line has."""
    first = data[:len(like.split()[2]) // 2]
    return "%s %d %s %s" % (name, len(data), first.hex().upper(), hashlib.sha256(data).hexdigest())


def main():
    program, names = os.path.abspath(sys.argv[1]), sys.argv[2:]
    texts = "--texts" in names
    names = [name for name in names if name != "--texts"]
    tally = Tally("rows")
    for name in names or sorted(os.listdir(ROWS)):
        if os.path.isfile(os.path.join(ROWS, name, "words")):
            row = Row(name)
            tally.count(name, row.take_text() if texts else "; ".join(row.differences(program)))
        else:
            tally.count(name, "there is no such row")
    return tally.end()


if __name__ == "__main__":
    sys.exit(main())
