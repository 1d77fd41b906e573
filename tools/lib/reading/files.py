"""The files that the tools read: their bytes, their rows, words files and captures; and what the program prints.

A file that is not as it has to be is refused with the program's own words for the cause, and with the reason in full.
"""

import csv
import io
import os
import subprocess
from collections import namedtuple

MAGICS = {b"\xd4\xc3\xb2\xa1": "little", b"\x4d\x3c\xb2\xa1": "little", b"\xa1\xb2\xc3\xd4": "big", b"\xa1\xb2\x3c\x4d": "big"}
NANO_MAGICS, NANO = (b"\x4d\x3c\xb2\xa1", b"\xa1\xb2\x3c\x4d"), 10 ** 9
NG_MAGIC, BYTE_ORDER_MARK = b"\x0a\x0d\x0d\x0a", b"\xef\xbb\xbf"
MOST_PACKET, WORDS_LIMIT = 262144, 1 << 30
# A row by its number in the program's count, which leaves empty lines out, its first line in the file, and its fields as texts. A
# field that is not UTF-8 has a surrogate for each byte that is none.
Row = namedtuple("Row", "number line fields")
# A packet of a capture with its stamp in nanoseconds.
Record = namedtuple("Record", "stamp data")


class Refused(Exception):
    """A file that is missing, or is not as it has to be; the text is one line. `name` is the file, and `told` what the program says of
    it, if it has words for it. `is_plan` is true of a command's own plan or settings, and `named_by` has the plan and the row that
    name the file."""

    is_plan, named_by = False, None

    def __init__(self, text, name=None, told=None):
        super().__init__(text)
        self.name, self.told = name, told


def shown_name(name):
    """A name as it is written in a message: in quotes if a reader could take it for another."""
    is_plain = name.isprintable() and name and " " not in name and name == name.strip()
    return name if is_plain else repr(name)


def own_program(tool):
    """The program of the repository that a tool of this path stands in, if none is named."""
    places = [os.path.join(os.path.dirname(os.path.dirname(path)), "interlaken") for path in (os.path.abspath(tool), os.path.realpath(tool))]
    return os.environ.get("INTERLAKEN_PROGRAM") or next((place for place in places if os.path.exists(place)), places[0])


class Folder:
    """A folder in which the program runs, and its files. Names are as the program takes them, from this folder on."""

    def __init__(self, program, path):
        self.program, self.folder = program, path

    def run(self, command, name):
        """What the program prints; a run that is refused is an error."""
        try:
            done = subprocess.run([self.program, command, name], cwd=self.folder, capture_output=True)
        except (OSError, ValueError) as error:
            raise Refused("%s: %s" % (self.program, getattr(error, "strerror", None) or error))
        if done.returncode != 0:
            last = (done.stdout + done.stderr).decode("utf-8", "replace").strip().splitlines()[-1:]
            raise Refused("%s %s ended with status %d%s" % (command, name, done.returncode, "".join(": " + line for line in last)))
        return done.stdout.decode("utf-8", "replace")

    def path(self, name):
        return os.path.join(self.folder, name)

    def has(self, name):
        return os.path.isfile(self.path(name))

    def beginning(self, name, most):
        """The first bytes of a file."""
        return self.part(name, 0, most)

    def part(self, name, first, count):
        """Bytes of a file from one on, as many as there are."""
        with open(self.path(name), "rb") as file:
            file.seek(first)
            return file.read(max(count, 0))

    def size(self, name):
        return os.path.getsize(self.path(name))

    def must_have(self, name, most):
        """A file is refused that is missing or has more bytes than `most`."""
        if not os.path.exists(self.path(name)):
            raise Refused("%s: No such file or directory" % shown_name(name), name, "no file")
        if self.size(name) > most:
            raise Refused("%s: more than %d bytes" % (shown_name(name), most), name, "too large")

    def content(self, name, most=None):
        """The bytes of a file, which is refused if it has more than `most`."""
        try:
            with open(self.path(name), "rb") as file:
                data = file.read() if most is None else file.read(most + 1)
        except FileNotFoundError as error:
            raise Refused("%s: %s" % (shown_name(name), error.strerror), name, "no file")
        except (OSError, ValueError) as error:
            raise Refused("%s: %s" % (shown_name(name), getattr(error, "strerror", None) or error), name)
        if most is not None and len(data) > most:
            raise Refused("%s: more than %d bytes" % (shown_name(name), most), name, "too large")
        return data

    def rows(self, name):
        """The rows of a file of text, each as its fields."""
        rows = [row.fields for row in rows_of(self.content(name))]
        if not all(is_text(field) for fields in rows for field in fields):
            raise Refused("%s: not comma-separated rows of text" % shown_name(name), name)
        return rows

    def words(self, name):
        """The words of a words file: the tag and the payload of each."""
        data = self.words_bytes(name)
        return [(data[i], int.from_bytes(data[i + 1:i + 9], "big")) for i in range(0, len(data), 9)]

    def words_bytes(self, name, has_bad=True):
        """The bytes of a words file, nine for each word, which may be bad or not."""
        data = self.content(name, WORDS_LIMIT)
        wrong, whole = data[::9].translate(None, b"\1\2\3" if has_bad else b"\1\2"), len(data) - len(data) % 9
        if wrong:
            at = 9 * data[::9].index(wrong[:1])
            kinds = "1 (data), 2 (control) or 3 (bad)" if has_bad else "1 (data) or 2 (control), a bad one cannot be sent"
            refuse(name, "tag at %d" % at, "a word begins with %s, and here is %d" % (kinds, data[at]))
        if whole < len(data):
            refuse(name, "short at %d" % whole, "a word has 9 bytes, and the last has %d" % (len(data) - whole))
        return data

    def packets(self, name, most=MOST_PACKET, room=None):
        """The packets of a capture, of at most `most` bytes each, from a file of at most `room` bytes."""
        return [record.data for record in self.records(name, most, room)]

    def records(self, name, most=MOST_PACKET, room=None):
        """The packets of a capture with their stamps."""
        data = self.content(name, room)
        order, at, found = order_of(name, data), 24, []
        unit = 1 if data[:4] in NANO_MAGICS else 1000
        while at < len(data):
            seconds, part, size = (int.from_bytes(data[at + place:at + place + 4], order) for place in (0, 4, 8))
            is_whole = at + 16 <= len(data)
            if is_whole and size == 0:
                refuse(name, "empty record %d" % len(found), "a packet of no bytes, at byte %d" % at)
            if is_whole and size > most:
                refuse(name, "long record %d length %d" % (len(found), size), "above max_packet, %d bytes; at byte %d" % (most, at))
            if at + 16 + size > len(data) or not is_whole:
                refuse(name, "short at %d" % at, "record %d is not whole: the file ends at byte %d" % (len(found), len(data)))
            found.append(Record(NANO * seconds + unit * part, data[at + 16:at + 16 + size]))
            at += 16 + size
        return found


def refuse(name, told, why):
    raise Refused("%s: %s: %s" % (shown_name(name), told, why), name, told)


def order_of(name, data):
    """The byte order of a capture, by its header."""
    if len(data) < 4:
        refuse(name, "short at 0", "no capture: the file has %d bytes" % len(data))
    if data[:4] == NG_MAGIC:
        refuse(name, "pcapng", "a capture of the newer format")
    order = MAGICS.get(data[:4])
    if order is None:
        refuse(name, "magic %s" % data[:4].hex().upper(), "no classic capture")
    if len(data) < 24:
        refuse(name, "short at 0", "the header of a capture has 24 bytes, and the file %d" % len(data))
    version = tuple(int.from_bytes(data[at:at + 2], order) for at in (4, 6))
    if version != (2, 4):
        refuse(name, "version %d.%d" % version, "classic captures have version 2.4")
    return order


def rows_of(data):
    """The rows of a file's bytes, one after the other."""
    text = data.removeprefix(BYTE_ORDER_MARK).decode("latin-1")
    csv.field_size_limit(max(len(text), 1 << 17))
    reader, number, line = csv.reader(io.StringIO(text, newline="")), 0, 1
    for fields in reader:
        if fields:
            number += 1
            yield Row(number, line, [field.encode("latin-1").decode("utf-8", "surrogateescape") for field in fields])
        line = reader.line_num + 1


def is_text(field):
    """Whether a field is UTF-8."""
    return not any("\udc80" <= character <= "\udcff" for character in field)


def must_agree(what, computed, found):
    """An error if a picture would show something else than the program said."""
    if computed != found:
        raise Refused("%s: computed %s, but the program gave %s" % (what, shortened(computed), shortened(found)))


def shortened(value):
    text = repr(value)
    return text if len(text) <= 160 else text[:157] + ".."
