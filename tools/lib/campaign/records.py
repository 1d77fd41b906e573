"""What came of each number, kept in a file of lines: the first says which campaign it is, each other has a record of a number."""

import hashlib
import json
import os

from reading.files import Refused


class Records:
    """The records of a range in a folder, by number: the last of each counts. A file of another campaign is refused."""

    def __init__(self, folder, first, last, campaign):
        self.first, self.last = first, last
        self.path = results_path(folder, first, last)
        self.by_number = {}
        try:
            os.makedirs(folder, exist_ok=True)
            self.file = open(self.path, "a+", encoding="utf-8")
            self.file.seek(0)
            text = self.file.read()
        except FileExistsError:
            raise Refused("%s is a file, and a folder is wanted" % folder)
        except OSError as error:
            raise Refused("%s: %s" % (error.filename or folder, error.strerror))
        lines = text.splitlines()
        if not lines:
            self.write(campaign)
        elif parsed(lines[0]) != campaign:
            raise Refused("%s is of another campaign: of another plan, another rate or other options; take another folder" % self.path)
        elif not text.endswith("\n"):
            self.file.write("\n")  # the last line was cut off
        for line in lines[1:]:
            self.keep(parsed(line))

    def write(self, value):
        self.file.write(json.dumps(value) + "\n")
        self.file.flush()

    def keep(self, record):
        if record is not None:
            self.by_number[record["number"]] = record

    def add(self, line):
        """Keeps a record that a job printed, and returns whether the line is one."""
        record = parsed(line)
        if record is None:
            return False
        self.write(record)
        self.keep(record)
        return True

    def left(self):
        """The numbers that are not done."""
        return [number for number in range(self.first, self.last + 1) if not is_done(self.by_number.get(number))]

    def all(self):
        """Each number with its record, or None."""
        return [(number, self.by_number.get(number)) for number in range(self.first, self.last + 1)]


def results_path(folder, first, last):
    return os.path.join(folder, "%d-%d.results" % (first, last))


def has_begun(folder, first, last):
    """Whether a campaign of these numbers has left records in a folder."""
    path = results_path(folder, first, last)
    return os.path.isfile(path) and os.path.getsize(path) > 0


def is_done(record):
    return record is not None and "spans" in record


def parsed(line):
    """The value of a line, or None if it is not whole."""
    try:
        value = json.loads(line)
    except ValueError:
        return None
    return value if isinstance(value, dict) else None


def digest(contents):
    """A short name of these contents in this order."""
    sums = hashlib.sha256()
    for content in contents:
        sums.update(b"%d " % len(content) + content)
    return sums.hexdigest()[:16]
