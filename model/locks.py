"""The locks of one lane, and its received words. DEFINITIONS, "What lanes show": Lock, Received word of a lane, Report
of a lane."""

from enum import Enum
from typing import Iterator, NamedTuple

import lanes
from fields import BAD, CONTROL, Word
from lanes import SYNC
from link import CODE_BITS, Link

# Words with legal headers that make a word lock, which is also the length of the blocks in which headers are watched.
BLOCK = 64
WRONG_HEADERS, WRONG_STATES, WRONG_SYNCS = 16, 3, 4
SYNCS, METAFRAMES = 4, 6


class Cause(Enum):
    """Why a lock is lost, or a search given up."""
    HEADERS = "Headers"
    STATE = "State"
    SYNC = "Sync"
    UNFRAMED = "Unframed"


class Lock(NamedTuple):
    """A lock of a lane: the bit of its declaring Sync, if one declared it; the words that it covers, from there on and
    up to the last before the losing word; the states of the key at its Scrambler State words; and, if it was lost, why
    and at which bit the losing word stands."""
    declared: int | None
    words: list[Word]
    states: list[int]
    cause: Cause | None
    losing: int | None

    def covers(self, bit: int) -> bool:
        """Whether a word of the lock stands at this bit."""
        if self.declared is None or bit < self.declared:
            return False
        number, rest = divmod(bit - self.declared, CODE_BITS)
        return rest == 0 and number < len(self.words)

    def word_at(self, bit: int) -> Word:
        """The received word at a bit that the lock covers."""
        return self.words[(bit - self.declared) // CODE_BITS]


def is_word_lock(bits: str, at: int) -> bool:
    """Whether 64 words from this position on, a code apart, have legal headers."""
    return all(bits[code + 1] != bits[code + 2] for code in range(at, at + BLOCK * CODE_BITS, CODE_BITS))


def word_lock(bits: str, begin: int) -> int | None:
    """The least word lock from a bit on."""
    return next((at for at in range(begin, len(bits) - BLOCK * CODE_BITS + 1) if is_word_lock(bits, at)), None)


def searches(bits: str, link: Link) -> list[Lock]:
    """What each search of a lane that found a word lock came to, in order. The first begins at bit 0. The next begins
    after the losing word, and where framing was given up one bit after the six metaframes."""
    found, begin = [], 0
    while (first := word_lock(bits, begin)) is not None:
        lock, after = follow(bits, first, link)
        found.append(lock)
        begin = after + (lock.cause is Cause.UNFRAMED)
    return found


def follow(bits: str, first: int, link: Link) -> tuple[Lock, int]:
    """The lock that a word lock leads to, and the bit after the last word that it looked at."""
    watch = Watch(link)
    number = 0
    while watch.cause is None and first + CODE_BITS * (number + 1) <= len(bits):
        at = first + CODE_BITS * number
        watch.take(number, lanes.meant(bits[at:at + CODE_BITS]))
        number += 1
    declared = None if watch.declared is None else first + CODE_BITS * watch.declared
    covered = watch.words if watch.cause is None else watch.words[:-1]
    after = first + CODE_BITS * number
    return Lock(declared, covered, watch.states, watch.cause, None if watch.cause is None else after - CODE_BITS), after


class Watch:
    """What is known of a lock after its words so far, which are counted from the first of its word lock."""

    def __init__(self, link: Link):
        self.length = link.metaframe
        self.cause: Cause | None = None
        self.syncs: set[int] = set()
        self.wrong_headers, self.wrong_states, self.wrong_syncs = 0, 0, 0
        # The number of the declaring Sync, the received words from there on, the state of the key, and what it was at each
        # Scrambler State word.
        self.declared: int | None = None
        self.words: list[Word] = []
        self.state = 0
        self.states: list[int] = []

    def take(self, number: int, word: Word) -> None:
        """The next word, as its code means it. A loss for Headers comes before any other cause at the same word."""
        if number % BLOCK == 0:
            self.wrong_headers = 0
        self.wrong_headers += word.kind == BAD
        if self.declared is not None:
            cause = self.take_locked(number - self.declared, word)
        else:
            cause = self.take_unlocked(number, word)
        self.cause = Cause.HEADERS if self.wrong_headers == WRONG_HEADERS else cause

    def take_unlocked(self, number: int, word: Word) -> Cause | None:
        """The lock is declared at the fourth of four Syncs that stand a metaframe apart. If none is within six
        metaframes, the search is given up."""
        if word == (CONTROL, SYNC):
            self.syncs.add(number)
        if all(number - turn * self.length in self.syncs for turn in range(SYNCS)):
            self.declared = number
            self.words.append(word)
            return None
        return Cause.UNFRAMED if number == METAFRAMES * self.length - 1 else None

    def take_locked(self, number: int, word: Word) -> Cause | None:
        """A word after the declaring Sync, by its number after it."""
        position = number % self.length
        if position == 0:
            self.words.append(word)
            self.wrong_syncs = 0 if word == (CONTROL, SYNC) else self.wrong_syncs + 1
            return Cause.SYNC if self.wrong_syncs == WRONG_SYNCS else None
        if position == 1:
            self.words.append(word)
            return self.take_state(number == 1, word)
        key, self.state = lanes.next_key(self.state)
        self.words.append(Word(word.kind, word.number ^ key))
        return None

    def take_state(self, is_first: bool, word: Word) -> Cause | None:
        """The key is that of the state word after the declaring Sync, and runs by itself. A lock is lost if that is
        no Scrambler State word, or at the third wrong one in a row; one is wrong if it does not carry the state of
        the key."""
        if is_first:
            self.state = word.number & lanes.ONES_58
        self.states.append(self.state)
        self.wrong_states = 0 if carries_state(word, self.state) else self.wrong_states + 1
        return Cause.STATE if self.wrong_states == (1 if is_first else WRONG_STATES) else None


def carries_state(word: Word, state: int) -> bool:
    """Whether a word is the Scrambler State word of this state."""
    return word == (CONTROL, lanes.state_number(state))


class Report(NamedTuple):
    """Declared locks, the first declaring Sync, losses of declared locks, losses and given-up searches before one; and
    among the covered words the Bad ones, wrong Syncs, wrong Scrambler State words, and Diagnostic words that are not
    right."""
    locks: int
    first: int | None
    lost: int
    unframed: int
    bad: int
    sync: int
    state: int
    diag: int


def report(found: list[Lock], link: Link) -> Report:
    """The report of a lane, of what its searches came to."""
    declared = [lock for lock in found if lock.declared is not None]
    covered = [word for lock in declared for word in lock.words]
    return Report(
        locks=len(declared),
        first=declared[0].declared if declared else None,
        lost=sum(lock.cause is not None for lock in declared),
        unframed=sum(lock.declared is None and lock.cause is not None for lock in found),
        bad=sum(word.kind == BAD for word in covered),
        sync=sum(word != (CONTROL, SYNC) for lock in declared for word in lock.words[::link.metaframe]),
        state=sum(not carries_state(word, state) for lock in declared
                  for word, state in zip(lock.words[1::link.metaframe], lock.states)),
        diag=sum(not lanes.is_right_diagnostic(part) for lock in declared for part in metaframes(lock, link)),
    )


def metaframes(lock: Lock, link: Link) -> Iterator[list[Word]]:
    """The whole metaframes that a lock covers."""
    for at in range(0, len(lock.words) - link.metaframe + 1, link.metaframe):
        yield lock.words[at:at + link.metaframe]
