"""The file of a list of words. DEFINITIONS, "Files": Words file."""

from typing import Sequence

from fields import BAD, CONTROL, DATA, Word
from files import Refusal

SIZE = 9


def file_of_words(words: Sequence[Word]) -> bytes:
    """Nine bytes a word: 1 for data, 2 for control, 3 for a bad word, then the payload with the high byte first."""
    return b"".join(bytes([word.kind]) + word.number.to_bytes(8, "big") for word in words)


def words_of_file(data: bytes, kinds: Sequence[int] = (DATA, CONTROL, BAD)) -> list[Word]:
    """Refused for the least offset at which something is wrong: a byte that should be one of these kinds and is not, or the
    last word that is not whole; at one offset the tag goes first."""
    words = []
    for at in range(0, len(data), SIZE):
        if data[at] not in kinds:
            raise Refusal("tag at %d" % at)
        if len(data) - at < SIZE:
            raise Refusal("short at %d" % at)
        words.append(Word(data[at], int.from_bytes(data[at + 1:at + SIZE], "big")))
    return words


def sent_words_of_file(data: bytes) -> list[Word]:
    """The same where each word was sent, so that none is bad."""
    return words_of_file(data, (DATA, CONTROL))
