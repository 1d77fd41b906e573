"""What a link is like. DEFINITIONS, "Words": Link."""

from typing import NamedTuple

CODE_BITS = 67


class Link(NamedTuple):
    """Lanes; a metaframe of L words with Skip words; the deskew depth in words."""
    lanes: int
    metaframe: int
    skips: int
    deskew: int

    @property
    def rows(self) -> int:
        """The payload words of one metaframe of one lane."""
        return self.metaframe - self.skips - 3

    @property
    def group(self) -> int:
        """The words of a group: the payload words of one metaframe of all lanes."""
        return self.lanes * self.rows

    @property
    def period(self) -> int:
        """The bits of a metaframe of one lane."""
        return CODE_BITS * self.metaframe


class Shape(NamedTuple):
    """What a stream is cut by: the words of a group, the groups of the warm-up, and the sizes of bursts in bytes."""
    group: int
    warmup: int
    burst_max: int
    burst_short: int
    burst_min: int
