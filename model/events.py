"""What each lane does, and at which bit. DEFINITIONS, "What lanes show": Events of a lane; REFERENCE, "inspect"."""

from typing import Iterator, NamedTuple, Sequence

import fields
import lanes
from fields import BAD, CONTROL, Word
from lanes import SKIP, SYNC
from link import CODE_BITS, Link
from locks import Cause, Lock, carries_state

# The disparity of a lane stays from -65 to 64, so that it differs by 129 at most between two words.
MOST_EXCESS = 129
LOSSES = {Cause.HEADERS: "lost-headers", Cause.SYNC: "lost-sync", Cause.STATE: "lost-state"}
BOTH_WELL = 0b11


class Event(NamedTuple):
    """The bit position of a word, and what is so of it."""
    bit: int
    name: str


def lane_events(bits: str, found: Sequence[Lock], link: Link) -> list[Event]:
    """For each word lock in order the events of each covered word, in order, and then the losing word, if there is one."""
    return [event for lock in found for event in lock_events(bits, lock, link)]


def lock_events(bits: str, lock: Lock, link: Link) -> Iterator[Event]:
    """The events of one word lock; the losing word has its cause if a lock was declared, and else `unframed`."""
    unbalanced = None if lock.declared is None else unbalanced_word(bits, lock)
    for number in range(len(lock.words)):
        tests = {**events_of_word(lock, number, link), "balance": number == unbalanced, "lock": number == 0}
        yield from (Event(lock.declared + CODE_BITS * number, name) for name, is_so in tests.items() if is_so)
    if lock.cause is not None:
        yield Event(lock.losing, "unframed" if lock.declared is None else LOSSES[lock.cause])


def events_of_word(lock: Lock, number: int, link: Link) -> dict[str, bool]:
    """Of a covered word, by its number from the declaring Sync on, in the order of the events."""
    word, (metaframe, position) = lock.words[number], divmod(number, link.metaframe)
    is_state, is_skip, is_diagnostic = position == 1, 2 <= position < 2 + link.skips, position == link.metaframe - 1
    is_right = is_diagnostic and lanes.is_right_diagnostic(lock.words[number + 1 - link.metaframe:number + 1])
    return {
        "bad": word.kind == BAD,
        "sync": position == 0 and word != (CONTROL, SYNC),
        "state": is_state and metaframe > 0 and not carries_state(word, lock.states[metaframe]),
        "skip": is_skip and word.kind != BAD and word != (CONTROL, SKIP),
        "diag": is_diagnostic and not is_right,
        "health": is_right and not is_well(word),
    }


def is_well(word: Word) -> bool:
    """Bits 33 and 32 of a Diagnostic word, the health of the lane and of the interface, are both 1."""
    return fields.bits(word.number, 33, 32) == BOTH_WELL


def unbalanced_word(bits: str, lock: Lock) -> int | None:
    """The first covered word up to and with which the codes from the declaring Sync on, all 67 bits of each counted, have over 129 more
    ones than zeros or zeros than ones."""
    excess = 0
    for number in range(len(lock.words)):
        at = lock.declared + CODE_BITS * number
        excess += 2 * bits.count("1", at, at + CODE_BITS) - CODE_BITS
        if abs(excess) > MOST_EXCESS:
            return number
    return None
