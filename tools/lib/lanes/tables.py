"""Tables of benches and logic analysers: a heading of names, perhaps a line of radices, and rows of numbers."""

import csv
import io
import re

from lanes.recipes import place_of, width_of, with_widths
from reading.files import Refused, shown_name

BLOCK = 1 << 12  # rows that are taken at once
RADICES = {"hex": 16, "bin": 2, "dec": 10, "signed": 10}
# What the line of radices says of a column, by its word in capitals.
TOLD = {"HEX": "hex", "HEXADECIMAL": "hex", "BINARY": "bin", "BIN": "bin", "UNSIGNED": "dec", "DECIMAL": "dec", "DEC": "dec", "SIGNED": "signed"}
DIGITS = {"hex": re.compile(r"[+]?(?:0[xX])?[0-9a-fA-F_]+"), "bin": re.compile(r"(?:0[bB])?[01_]+"), "dec": re.compile(r"\d+"), "signed": re.compile(r"[+-]?\d+")}
COMMENT = re.compile(r"\s*(?:#|//|@)")


class Table:
    """A table by its name: `names` are those of its columns, `radices` the form of each."""

    def __init__(self, name, radix, progress):
        self.name, self.progress, self.asked = name, progress, radix
        self.names, self.radices, self.ahead = None, None, []
        self.source = self.rows_of_text()
        self.read_heading()

    def refuse(self, line, what, column=None):
        raise Refused("%s:%d%s: %s" % (shown_name(self.name), line, "" if column is None else ":%d" % column, what))

    def rows_of_text(self):
        """The lines that have fields, as (number, fields)."""
        with open(self.name, encoding="latin-1", newline="") as file:
            for number, line in enumerate(file, 1):
                self.progress.add(len(line))
                text = line.strip("\r\n \t\ufeff").removeprefix("\xef\xbb\xbf")
                if text and not COMMENT.match(text):
                    yield number, fields_of(text)

    def read_heading(self):
        """The names of the columns; a first line of numbers only is none of them, and columns are then c0, c1, .."""
        first = next(self.source, None)
        if first is None:
            raise Refused("%s: there are no rows" % shown_name(self.name))
        line, fields = first
        form = DIGITS[self.asked or "hex"]
        if all(form.fullmatch(field) for field in fields):
            self.names, self.ahead = ["c%d" % place for place in range(len(fields))], [first]
        else:
            self.names = fields
        self.radices = [self.asked or "hex"] * len(self.names)
        row = next(self.source, None) if not self.ahead else None
        if row is not None and row[1][0].upper().startswith("RADIX"):
            self.read_radices(*row)
        elif row is not None:
            self.ahead = [row]

    def read_radices(self, line, fields):
        """A line of radices: `Radix - UNSIGNED,HEX,..`."""
        fields[0] = fields[0].split("-")[-1].strip()
        for place, field in enumerate(fields[:len(self.names)]):
            if self.asked is None:
                self.radices[place] = TOLD.get(field.upper(), "hex")

    def rows(self):
        """The rows behind the heading, as (line, fields), with as many fields as there are columns."""
        for line, fields in self.chained():
            fields = fields if len(fields) <= len(self.names) or any(fields[len(self.names):]) else fields[:len(self.names)]
            if len(fields) != len(self.names):
                self.refuse(line, "%d columns, and the heading has %d" % (len(fields), len(self.names)))
            yield line, fields

    def chained(self):
        yield from self.ahead
        yield from self.source

    def value(self, line, fields, place):
        """The number of a field, below 0 if it is so with its sign."""
        text, radix = fields[place], self.radices[place]
        if not DIGITS[radix].fullmatch(text) or text.strip("_+-") == "":
            what = "an unknown bit" if re.search("[xXzZ?]", text.replace("0x", "", 1)) else "no number of the form %s" % radix
            self.refuse(line, "%s: %r is %s" % (self.names[place], text[:40], what), place + 1)
        try:
            return int(text.replace("_", ""), RADICES[radix])
        except ValueError:
            self.refuse(line, "%s: %r is no number of the form %s" % (self.names[place], text[:40], radix), place + 1)


def fields_of(text):
    """The fields of a line: separated by commas, semicolons or tabs, with quotes taken off, and without empty ones at the end; or by
    blanks."""
    separator = next((mark for mark in ",;\t" if mark in text), None)
    if separator is None:
        return [field.strip('"') for field in text.split()]
    fields = [field.strip().strip('"').strip() for field in next(csv.reader(io.StringIO(text), delimiter=separator, skipinitialspace=True))]
    while len(fields) > 1 and not fields[-1]:
        fields.pop()
    return fields


def lane_words(table, recipes, texts, width, valid):
    """The words of lanes of a table, as blocks of texts of bits by lane; `width` is the bits of a word, or None for those of the recipe."""
    where = shown_name(table.name)
    places = {part.name: place_of(part.name, table.names, "column", where) for parts in recipes for part in parts}
    widths = {name: width_of(table.names[place]) for name, place in places.items()}
    lanes = [with_widths(parts, widths, width, texts[min(lane, len(texts) - 1)]) for lane, parts in enumerate(recipes)]
    valid_place = None if valid is None else place_of(valid, table.names, "column", where)
    block, count = [[] for _ in lanes], 0
    for line, fields in table.rows():
        if valid_place is not None and not table.value(line, fields, valid_place):
            continue
        values = {}
        for column, parts in zip(block, lanes):
            column.extend(part_bits(table, line, fields, places, part, values) for part in parts)
        count += 1
        if count % BLOCK == 0:
            yield ["".join(column).encode() for column in block]
            block = [[] for _ in lanes]
    yield ["".join(column).encode() for column in block]


def part_bits(table, line, fields, places, part, values):
    """The bits of a part of a recipe in a row."""
    place = places[part.name]
    if place not in values:
        values[place] = checked(table, line, place, table.value(line, fields, place))
    bits = part.high - part.low + 1
    if part.is_whole and values[place] >> bits not in (0, -1):
        table.refuse(line, "%s: %r has more than %d bits" % (table.names[place], fields[place][:40], bits), place + 1)
    return format(values[place] >> part.low & (1 << bits) - 1, "0%db" % bits)


def checked(table, line, place, value):
    """A number of a column, which has no more bits than its heading says; below 0 it is the complement of two."""
    width = width_of(table.names[place])
    if width is not None and (value >> width if value >= 0 else -value > 1 << width - 1):
        table.refuse(line, "%s: a number of more than %d bits" % (table.names[place], width), place + 1)
    return value
