"""What is compared: the packets of a capture with their stamps, or the words of a words file."""

from collections import namedtuple

from reading.files import MAGICS, NG_MAGIC, Record

PACKETS, WORDS = "packets", "words"
WORD_SIZE = 9

# A file's records and what they are.
Records = namedtuple("Records", "name kind items")


def read_records(folder, name):
    """The records of a file: of a capture if it begins with a capture's mark, else of a words file where its name or its first byte
    says so. What is neither is refused as a capture."""
    head = folder.content(name)[:4]
    is_capture = head in MAGICS or head == NG_MAGIC
    if not is_capture and (name.endswith(".words") or head[:1] in (b"\1", b"\2", b"\3")):
        data = folder.words_bytes(name)
        return Records(name, WORDS, [Record(0, word_of(data[at:at + WORD_SIZE])) for at in range(0, len(data), WORD_SIZE)])
    return Records(name, PACKETS, folder.records(name))


def word_of(data):
    """A word's bytes; all bad words are one, since nobody reads what they carry."""
    return data if data[0] != 3 else b"\3" + bytes(WORD_SIZE - 1)
