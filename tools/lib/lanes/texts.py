"""Dumps of text: their words, or the line of the first that is none."""

import re

from reading.files import Refused, shown_name

BLOCK = 1 << 18
LONGEST = 1 << 24  # a line is refused that has more bytes, if lines count
HEX, BINARY = b"0123456789abcdefABCDEF", b"01"
COMMENT, AT, PREFIX = re.compile(rb"(?:#|//)[^\n]*"), re.compile(rb"^@[^\n]*", re.MULTILINE), re.compile(rb"(?<![0-9A-Za-z])0[xX](?=[0-9a-zA-Z])")
LONE = re.compile(rb"(?<![0-9A-Za-z_])_|_(?![0-9A-Za-z_])")
LONE_SEPARATOR = re.compile(rb"^[ \t]*[,;]|[,;][ \t]*(?:[,;]|$)", re.MULTILINE)
EMPTY_END = re.compile(rb"(?<=[^,;\s])[ \t]*[,;][,; \t]*$", re.MULTILINE)
NO_NAME = HEX + b"xXzZ?_-+."
SEPARATORS = bytes.maketrans(b",;", b"  ")
SHOWN = 40


class Text:
    """A dump of text by its name. `refuse` tells an error of a line."""

    def __init__(self, name, progress):
        self.name, self.progress = name, progress

    def refuse(self, line, what):
        raise Refused("%s:%d: %s" % (shown_name(self.name), line, what))

    def pieces(self, may_cut):
        """Pieces of whole lines, each with the number of its first line. A line without comments may be cut if lines do not count."""
        line, rest, is_cut = 1, b"", False
        with open(self.name, "rb") as file:
            while True:
                block = file.read(BLOCK)
                self.progress.add(len(block))
                piece = rest + block
                end = piece.rfind(b"\n") + 1 if block else len(piece)
                if may_cut and block and not any(mark in piece[end:] for mark in (b"#", b"/", b"@", b"_")):
                    end = len(piece)
                piece, rest = piece[:end], piece[end:]
                if len(rest) > LONGEST:
                    self.refuse(line, "a line of more than %d bytes" % LONGEST)
                if piece:
                    # What follows a cut is no beginning of a line.
                    yield line, b" " + piece if is_cut else piece
                    line, is_cut = line + piece.count(b"\n"), not piece.endswith(b"\n")
                if not block:
                    return

    def cleaned(self, line, piece):
        """A piece without comments, lines that begin with `@`, and what may stand in words besides their digits."""
        if b"#" in piece or b"//" in piece:
            piece = COMMENT.sub(b"", piece)
        if b"@" in piece:
            piece = AT.sub(b"", piece)
        piece = piece.replace(b"\r", b"")
        if b"_" in piece:
            lone = LONE.search(piece)
            if lone:
                self.refuse(line + piece.count(b"\n", 0, lone.start()), "a `_` that stands in no word")
            piece = piece.replace(b"_", b"")
        if b"x" in piece or b"X" in piece:
            piece = PREFIX.sub(b"", piece)
        return piece

    def rows(self):
        """The lines as lists of their words, in blocks, each with the number of its first line. All lines that are not blank have as
        many words as the first."""
        wanted = None
        for line, piece in self.pieces(may_cut=False):
            piece = self.cleaned(line, piece)
            if b'"' in piece:
                piece = piece.replace(b'"', b"")
            if b"," in piece or b";" in piece:
                piece = self.separated(line, EMPTY_END.sub(b"", piece))
            rows = rows_in(piece)
            if line == 1:
                leave_out_heading(rows)
            wanted = wanted or next((len(row) for row in rows if row), None)
            if not set(map(len, rows)) <= {0, wanted}:
                self.refuse_count(line, rows, wanted, "the lines before have %d" % (wanted or 0))
            yield line, rows

    def separated(self, line, piece):
        """A piece whose commas and semicolons are blanks."""
        lone = LONE_SEPARATOR.search(piece)
        if lone:
            self.refuse(line + piece.count(b"\n", 0, lone.start()), "a column without a word")
        return piece.translate(SEPARATORS)

    def refuse_count(self, line, rows, wanted, hint):
        place = next(place for place, row in enumerate(rows) if len(row) not in (0, wanted))
        self.refuse(line + place, "%d words, and %s" % (len(rows[place]), hint))

    def bits(self):
        """All bits of a text of bits, in blocks."""
        for line, piece in self.pieces(may_cut=True):
            piece = self.cleaned(line, piece)
            digits = piece.translate(None, b" \t\n\v\f")
            if digits.translate(None, BINARY):
                self.refuse_digits(line, rows_in(piece), BINARY)
            yield digits

    def column_bits(self):
        """The bits of a text with a column for each lane: for each block a list by column."""
        for line, rows in self.rows():
            columns = [b"".join(column) for column in zip(*filter(None, rows))]
            if any(column.translate(None, BINARY) for column in columns):
                self.refuse_digits(line, rows, BINARY)
            yield columns

    def words(self, words):
        """The bits on the lane of a text with a word of hexadecimal digits a line, in blocks. `words` are of `bits`."""
        for line, piece in self.pieces(may_cut=False):
            piece = self.cleaned(line, piece)
            digits = self.digits_of_lines(piece, words.digits)
            bits = None if digits is None else words.bits_of_digits(digits)
            if bits is None:
                bits = self.bits_of_lines(line, piece, words)
            yield bits

    @staticmethod
    def digits_of_lines(piece, size):
        """The digits of lines that all have so many and nothing else; otherwise None."""
        digits = piece.replace(b"\n", b"")
        count, rest = divmod(len(piece), size + 1)
        is_regular = rest == 0 and len(digits) == count * size and piece[size::size + 1].count(b"\n") == count
        return digits if is_regular and not digits.translate(None, HEX) else None

    def bits_of_lines(self, line, piece, words):
        """The bits of lines with a word each, of any number of digits."""
        column = piece.split()
        lines = piece.count(b"\n") + 1 - piece.endswith(b"\n")
        # If there are as many words as lines that are not blank, each of these has one.
        if len(column) != lines and len(column) != len(piece.translate(None, b" \t\v\f").split()):
            self.refuse_count(line, rows_in(piece), 1, "one is expected; --columns takes a column for each lane")
        return self.bits_of(line, lambda: rows_in(piece), column, words)

    def column_words(self, words):
        """The bits on the lanes of a text with a column of words in hexadecimal for each lane: for each block a list by column."""
        for line, rows in self.rows():
            yield [self.bits_of(line, lambda: rows, column, words) for column in zip(*filter(None, rows))]

    def bits_of(self, line, rows_of, column, words):
        """The bits of words. `rows_of` gives the lines, for an error."""
        if set(map(len, column)) != {words.digits}:
            column = [filled(word, words.digits) for word in column]
        digits = b"".join(column)
        if digits.translate(None, HEX):
            self.refuse_digits(line, rows_of(), HEX)
        bits = words.bits_of_digits(digits) if len(digits) == len(column) * words.digits else None
        if bits is None:
            self.refuse_wide(line, rows_of(), words.width)
        return bits

    def refuse_digits(self, line, rows, digits):
        """The error of the first word that has another character than these digits."""
        for place, row in enumerate(rows):
            for word in row:
                other = word.translate(None, digits)[:1].decode("latin-1")
                if other:
                    what = "an unknown bit, %s" % other if other in "xXzZ" else "%r is no %s digit" % (other, "hexadecimal" if digits == HEX else "binary")
                    self.refuse(line + place, "%s: %s" % (shown_word(word), what))

    def refuse_wide(self, line, rows, width):
        """The error of the first word that has more bits."""
        for place, row in enumerate(rows):
            for word in row:
                if int(word, 16) >> width:
                    self.refuse(line + place, "%s: a word of %d bits, and %d is the most" % (shown_word(word), int(word, 16).bit_length(), width))


def leave_out_heading(rows):
    """Makes a first line of names blank, and one that begins with `Radix` after it. A word with an unknown bit is no name."""
    place = next((place for place, row in enumerate(rows) if row), None)
    if place is not None and any(word.translate(None, NO_NAME) for word in rows[place]):
        rows[place] = []
        place = next((place for place, row in enumerate(rows) if row), None)
        if place is not None and rows[place][0].lower().startswith(b"radix"):
            rows[place] = []


def rows_in(piece):
    return list(map(bytes.split, piece.split(b"\n")))


def filled(word, digits):
    """A word with as many digits, if it has no more."""
    return word.rjust(digits, b"0") if len(word) <= digits else word.lstrip(b"0").rjust(digits, b"0")


def shown_word(word):
    text = word.decode("latin-1")
    return repr(text if len(text) <= SHOWN else text[:SHOWN] + "..")
