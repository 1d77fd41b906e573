"""Stretches and fault spans. DEFINITIONS, "What is received"."""

from typing import NamedTuple, Sequence

import fields
from epochs import Epoch, Place
from fields import BAD, CONTROL, NO_END, Word


class Stretch(NamedTuple):
    """The words of one epoch after a control word a, up to and including the next control word b: the indexes of both
    in the epoch's words, and the fault, if there is one. A control word here is any Control word, also one that no
    reader accepts."""
    epoch: int
    begin: int
    end: int
    fault: str | None


class Span(NamedTuple):
    """The places of the last verified word before it and of the first after it, if there are such, and why it is
    there."""
    after: Place | None
    before: Place | None
    why: str

    def meets(self, first: Place, last: Place) -> bool:
        """It meets what goes from `first` to `last` where its first end is absent or before `last`, and its last end
        absent or after `first`."""
        return (self.after is None or self.after < last) and (self.before is None or self.before > first)


def fault_of(words: Sequence[Word], begin: int, end: int) -> str | None:
    """The first of: a Bad word in it; b's bits 23:0 are not the CRC24 of its data words and b; the protocol is
    broken."""
    between, last = words[begin + 1:end], words[end].number
    if any(word.kind == BAD for word in between):
        return "bad"
    if not fields.is_right([word.number for word in between], last):
        return "crc"
    return "protocol" if breaks_protocol(words[begin].number, bool(between), last) else None


def breaks_protocol(begin: int, has_data: bool, end: int) -> bool:
    """b is not a control word by its number, or data are in it and a is not an accepted burst word, or b has an end format
    and no data are in it."""
    if not fields.is_control_word(end):
        return True
    if has_data:
        return not (fields.is_control_word(begin) and fields.begins_burst(begin))
    return fields.end_format(end) != NO_END


def stretches(epochs: Sequence[Epoch]) -> list[Stretch]:
    """All stretches of all epochs, in order."""
    found = []
    for number, epoch in enumerate(epochs):
        controls = [index for index, word in enumerate(epoch.words) if word.kind == CONTROL]
        found += [Stretch(number, a, b, fault_of(epoch.words, a, b)) for a, b in zip(controls, controls[1:])]
    return found


class Run(NamedTuple):
    """A clean run: a longest list of verified control words with no span between, by their indexes in the words of an
    epoch; and the fault or break that ends it."""
    epoch: int
    controls: list[int]
    ends_for: str


def clean_runs(epochs: Sequence[Epoch], parts: Sequence[Stretch]) -> list[Run]:
    """A control word is verified if it ends a passing stretch. Between two that follow one another there is a span
    exactly if the stretch of the second does not begin right after the first."""
    runs: list[Run] = []
    for number, epoch in enumerate(epochs):
        # The run that goes on, if one does.
        controls: list[int] = []
        for stretch in (part for part in parts if part.epoch == number):
            if stretch.fault is not None:
                runs += [Run(number, controls, stretch.fault)] if controls else []
                controls = []
            else:
                controls.append(stretch.end)
        runs += [Run(number, controls, epoch.ends_for)] if controls else []
    return runs


def fault_spans(epochs: Sequence[Epoch], runs: Sequence[Run]) -> list[Span]:
    """One span stands before the first verified word and one after the last, and one between each two runs; if no
    word is verified there is one with no ends. A span with a first end is for the first fault after that end; one
    without is for the start."""
    ends = [(place_of(epochs, run, 0), place_of(epochs, run, -1), run.ends_for) for run in runs]
    afters = [(None, "start")] + [(last, why) for _, last, why in ends]
    befores = [first for first, _, _ in ends] + [None]
    return [Span(after, before, why) for (after, why), before in zip(afters, befores)]


def place_of(epochs: Sequence[Epoch], run: Run, turn: int) -> Place:
    """The place of a control word of a run."""
    return epochs[run.epoch].places[run.controls[turn]]
