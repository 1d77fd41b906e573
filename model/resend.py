"""What is sent again. DEFINITIONS, "What is sent again"."""

from collections import deque
from typing import NamedTuple, Sequence

from fields import CONTROL, Word

ROOM = 1_024


def cut(words: Sequence[Word]) -> list[list[Word]]:
    """Piece k of a stream is its words after control word k - 1, up to and with control word k. Data words after the
    last control word are in no piece."""
    pieces, begin = [], 0
    for slot, word in enumerate(words):
        if word.kind == CONTROL:
            pieces.append(list(words[begin:slot + 1]))
            begin = slot + 1
    return pieces


class Counts(NamedTuple):
    """What a run says: the pieces of the stream, those accepted and acknowledged, and how many times one was sent."""
    pieces: int
    accepted: int
    acknowledged: int
    sent: int


class Resending:
    """The state after events, with the true numbers of pieces: the first piece that is not acknowledged, the next to
    send, how many times one was sent, how many the receiver accepted, the numbers of the pieces on their way and of the
    acknowledgements on their way back. Each way holds 1,024 at most."""

    def __init__(self, pieces: int, window: int):
        self.pieces, self.window = pieces, window
        self.acknowledged, self.next, self.sent, self.accepted = 0, 0, 0, 0
        self.way: deque[int] = deque()
        self.back: deque[int] = deque()

    def send(self) -> None:
        """It does nothing if no piece is left, the window is used up or the way is full."""
        if self.next < self.pieces and self.next < self.acknowledged + self.window and len(self.way) < ROOM:
            self.way.append(self.next)
            self.next += 1
            self.sent += 1

    def rewind(self) -> None:
        """The first piece that is not acknowledged is the next to send."""
        self.next = self.acknowledged

    def take(self) -> None:
        """The receiver takes the piece that arrives, if it is the one that it waits for, and acknowledges with the
        number of the one that it waits for then; an acknowledgement for which the way back has no room is not sent."""
        if not self.way:
            return
        if self.way.popleft() == self.accepted:
            self.accepted += 1
        if len(self.back) < ROOM:
            self.back.append(self.accepted)

    def takeback(self) -> None:
        """The sender takes an acknowledgement: all pieces before its number are acknowledged, and none of them is sent
        next."""
        if self.back:
            self.acknowledged = self.back.popleft()
            self.next = max(self.next, self.acknowledged)

    def lose(self) -> None:
        """What would arrive next is lost."""
        if self.way:
            self.way.popleft()

    def loseback(self) -> None:
        """The acknowledgement that would arrive next is lost."""
        if self.back:
            self.back.popleft()

    def repeat(self) -> None:
        """What would arrive next arrives once more, right after; nothing if the way is empty or full."""
        if self.way and len(self.way) < ROOM:
            self.way.appendleft(self.way[0])

    def repeatback(self) -> None:
        """The acknowledgement that would arrive next arrives once more."""
        if self.back and len(self.back) < ROOM:
            self.back.appendleft(self.back[0])

    @property
    def counts(self) -> Counts:
        """What the run says."""
        return Counts(self.pieces, self.accepted, self.acknowledged, self.sent)


def resent(words: Sequence[Word], window: int, events: Sequence[tuple[str, int]]) -> tuple[list[Word], Counts]:
    """The words of the accepted pieces, in order, after the events are done one after another; and the counts."""
    pieces = cut(words)
    state = Resending(len(pieces), window)
    for name, count in events:
        for _ in range(count):
            getattr(state, name)()
    return [word for piece in pieces[:state.accepted] for word in piece], state.counts
