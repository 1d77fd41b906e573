"""Rows of comma-separated fields as the program takes them: what each says, and the first fault by the program's rules.

A fault has the program's own word for its cause (`key`, `fields`, `number` ..), and besides the line as an editor counts it, the field
and the reason in full.
"""

import difflib
from collections import namedtuple

from reading.files import Refused, is_text, rows_of, shown_name

DIGITS = 15


class Fault(Exception):
    """What is wrong with a row: the program's word for it, the place of the field (0 is the first; None: the row), and why in full."""

    def __init__(self, cause, place, why):
        super().__init__(why)
        self.cause, self.place, self.why = cause, place, why


class RowRefused(Refused):
    """A file of rows that is refused for one of its rows: the row, and the program's word for the cause."""

    def __init__(self, name, row, fault):
        self.row, self.cause = row, fault.cause
        counted = "" if row.line == row.number else " (row %d: empty lines are not counted)" % row.number
        super().__init__("%s:%d: %s%s" % (shown_name(name), row.line, fault.why, counted), name, "row %d: %s" % (row.number, fault.cause))


class KeyMissing(Refused):
    """A file that has no row of a key that it needs."""

    def __init__(self, name, key, why):
        self.key = key
        super().__init__("%s: %s" % (shown_name(name), why), name, "missing %s" % key)


def size_of(field):
    """The bytes of a field."""
    return len(field.encode("utf-8", "surrogateescape"))


def take_rows(folder, name, most, take):
    """Gives the rows of a file of at most this many bytes to a call that raises a fault if it does not take a row."""
    for row in rows_of(folder.content(name, most)):
        try:
            for place, field in enumerate(row.fields):
                if not is_text(field):
                    raise Fault("text", place, "field %d is not UTF-8: %r" % (place + 1, field.encode("utf-8", "surrogateescape")[:40]))
            take(row)
        except Fault as fault:
            raise RowRefused(name, row, fault) from None


def must_have_fields(row, counts, form):
    """A fault if a row has another number of fields; `form` says what it should be like."""
    if len(row.fields) not in counts:
        raise Fault("fields", None, "%s: %d field%s, and the row is `%s`" % (shown(row.fields[0]), len(row.fields), "s" * (len(row.fields) != 1), form))


def shown(field):
    """A field as a message has it."""
    return repr(field) if len(field) <= 40 else repr(field[:40]) + ".."


def number_in(row, place, what):
    """The number that a field spells."""
    field = row.fields[place]
    if 1 <= len(field) <= DIGITS and field.isascii() and field.isdigit():
        return int(field)
    raise Fault("number", place, "%s: %s is no number (1 to %d decimal digits%s)" % (what, shown(field), DIGITS, number_hint(field)))


def number_hint(field):
    """What is said of a field that looks like a number."""
    if field != field.strip():
        return "; it has a blank before or after it"
    if field[:1] in ("+", "-") and field[1:].isdigit():
        return ", without a sign"
    if field[:2].lower() == "0x" or field and all(digit in "0123456789abcdefABCDEF" for digit in field) and not field.isdigit():
        return "; it is not hexadecimal"
    if field.replace("_", "").replace("'", "").replace(".", "").isdigit() and not field.isdigit():
        return ", without separators"
    return ""


def must_be_within(number, least, most, place, what, step=1, hint=""):
    """A fault if a number is out of range."""
    if not least <= number <= most:
        raise Fault("range", place, "%s: %d is not in %d to %d%s" % (what, number, least, most, hint))
    if number % step:
        raise Fault("range", place, "%s: %d is not a multiple of %d" % (what, number, step))


def must_have_size(field, most, place, what):
    """A fault if a text is empty or too long."""
    if not 1 <= size_of(field) <= most:
        told = "an empty name" if not field else "a name of %d bytes" % size_of(field)
        raise Fault("range", place, "%s: %s, and it has 1 to %d bytes" % (what, told, most))


# What may stand after a key: a number, a text, or a number and perhaps a text.
Number = namedtuple("Number", "least most step default", defaults=(1, None))
Text = namedtuple("Text", "most")
NumberAndText = namedtuple("NumberAndText", "least most longest form needs_text")
# How often a key may stand beyond once: in how many rows at most, and whether no two of them have one number.
Many = namedtuple("Many", "most is_distinct")


class KeyedRows:
    """The rows of a file in which each begins with a key of a table: `values` the numbers and texts of keys that stand once, `many`
    the rows of the others as (row, number, text or None), `places` the first row of each key."""

    def __init__(self, folder, name, limit, kind, table, many):
        self.name, self.kind, self.table, self.times = name, kind, table, many
        self.values = {key: form.default for key, form in table.items() if isinstance(form, Number)}
        self.many = {key: [] for key in many}
        self.numbers = {key: set() for key in many}
        self.places = {}
        take_rows(folder, name, limit, self.take)

    def __getattr__(self, key):
        """A number or a text by its key; None if an optional text has no row."""
        return self.__dict__["values"].get(key)

    def take(self, row):
        key = row.fields[0]
        form = self.table.get(key)
        if form is None:
            raise Fault("key", 0, "unknown key %s%s" % (shown(key), self.kind.hint(row)))
        self.keep(row, key, *self.said(row, key, form))

    def said(self, row, key, form):
        """The number and the text of a row, either of which may be None."""
        if isinstance(form, Text):
            must_have_fields(row, (2,), "%s,%s" % (key, "PREFIX" if key == "out" else "FILE"))
            must_have_size(row.fields[1], form.most, 1, key)
            return None, row.fields[1]
        if isinstance(form, Number):
            must_have_fields(row, (2,), "%s,n" % key)
            number = number_in(row, 1, key)
            must_be_within(number, form.least, form.most, 1, key, form.step)
            return number, None
        must_have_fields(row, (3,) if form.needs_text else (2, 3), form.form)
        number = number_in(row, 1, key)
        must_be_within(number, form.least, form.most, 1, key)
        if len(row.fields) == 3:
            must_have_size(row.fields[2], form.longest, 2, "%s %d" % (key, number))
        return number, row.fields[2] if len(row.fields) == 3 else None

    def keep(self, row, key, number, text):
        first = self.places.setdefault(key, row)
        if key not in self.many:
            if first is not row:
                raise Fault("repeat", 0, "%s stands again: it is in line %d" % (key, first.line))
            self.values[key] = text if number is None else number
            return
        times, before = self.times[key], self.many[key]
        if len(before) >= times.most:
            raise Fault("range", 0, "%s: more than %d rows" % (key, times.most))
        if times.is_distinct and number in self.numbers[key]:
            line = next(row.line for row, other, _ in before if other == number)
            raise Fault("repeat", 1, "%s %d stands again: it is in line %d" % (key, number, line))
        self.numbers[key].add(number)
        before.append((row, number, text))

    def need(self, keys):
        """The first of these keys of which there is no row is missing."""
        for key in keys:
            if key not in self.places:
                raise KeyMissing(self.name, key, "no row `%s`, which %s needs" % (key, self.kind.name))

    def clash(self, row, place, why):
        raise RowRefused(self.name, row, Fault("clash", place, why))


class Kind:
    """A kind of file of rows: its name in messages, and the keys of its rows."""

    known = []

    def __init__(self, name, keys):
        self.name, self.keys = name, tuple(keys)
        Kind.known.append(self)

    def hint(self, row):
        """What is said of an unknown key: a key that is like it, or what the row may be meant as."""
        key = row.fields[0]
        bare = key.strip().lower()
        if bare in self.keys:
            return ": write `%s`, in small letters and without blanks" % bare
        if key.lstrip().startswith(("#", "//", ";", "%")):
            return ": there are no comments"
        if len(row.fields) == 1 and (";" in key or "\t" in key):
            return ": fields are separated by commas"
        other = next((kind.name for kind in Kind.known if bare in kind.keys), None)
        if other:
            return ": it is a key of %s, and this is read as %s" % (other, self.name)
        near = difflib.get_close_matches(bare, self.keys, 1)
        return ": `%s`?" % near[0] if near else "; the keys of %s are %s" % (self.name, ", ".join(self.keys))
