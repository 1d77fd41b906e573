"""The files of the current folder, and what stops a run. REFERENCE, "Exit status" and "Refusals"."""

from typing import Callable

DONE, STORE_FAULT, USAGE, HELD, PLAN_REFUSED, INPUT_REFUSED = range(6)
NO_WORDS = 8

PLAN_LIMIT = 1_048_576
CAPTURES_LIMIT = 268_435_456
ROWS_LIMIT = 16_777_216
WORDS_LIMIT = 1_073_741_824
LANE_LIMIT = 4_294_967_296
DAMAGED_LIMIT = 268_435_456
SAMPLES_LIMIT = 4_194_304
LISTED_LIMIT = 16_777_216
LISTING_LIMIT = 268_435_456


class Stop(Exception):
    """What stops a run: a status, and a text of one line."""

    def __init__(self, status: int, line: str):
        super().__init__(line)
        self.status, self.line = status, line


class Refusal(Exception):
    """Why a file is refused, as `row 3: clash`."""


def plan_refused(why: str) -> Stop:
    """The plan, or the settings of a duplex run, are refused."""
    return Stop(PLAN_REFUSED, "plan refused: %s" % why)


def input_refused(name: str, why: str) -> Stop:
    """An input is refused."""
    return Stop(INPUT_REFUSED, "input refused: %s: %s" % (name, why))


def store_fault(name: str) -> Stop:
    """A call of the files failed."""
    return Stop(STORE_FAULT, "store fault: %s" % name)


def content(name: str, limit: int) -> bytes:
    """A file read whole; it is refused if it is absent, or above its limit."""
    try:
        with open(name, "rb") as file:
            data = file.read(limit + 1)
    except FileNotFoundError:
        raise Refusal("no file") from None
    except (OSError, ValueError):
        raise store_fault(name) from None
    if len(data) > limit:
        raise Refusal("too large")
    return data


def read_plan(name: str, read: Callable):
    """What a reader makes of a file that is refused as a plan."""
    try:
        return read(content(name, PLAN_LIMIT))
    except Refusal as refusal:
        raise plan_refused(str(refusal)) from None


def read_input(name: str, limit: int, read: Callable):
    """What a reader makes of a file that is refused as an input."""
    try:
        return read(content(name, limit))
    except Refusal as refusal:
        raise input_refused(name, str(refusal)) from None


def create(name: str, data: bytes) -> None:
    """Creates a file, or changes the one of this name."""
    try:
        with open(name, "wb") as file:
            file.write(data)
    except (OSError, ValueError):
        raise store_fault(name) from None
