"""The answers of the services."""
import dataclasses
import enum
from typing import Optional, Tuple


class Which(enum.IntEnum):
    """Which of two sheets. A service on one sheet calls it OLD."""

    OLD = 0
    NEW = 1
    BOTH = 2


class Type(enum.IntEnum):
    """The types of terms."""

    COMMAND = 0
    TRUTH = 1
    NUMBER = 2
    TRUTH_VARIABLE = 3
    NUMBER_VARIABLE = 4


@dataclasses.dataclass(frozen=True)
class Uses:
    """Which declared names a sheet uses."""

    mark: int
    """A bit for each name record, the first record lowest, set where some use in the sheet means that name."""
    used: int
    """How many bits of the mark are set."""
    unused: Optional[int]
    """The number of the first declared record whose bit is not set, from 0."""


@dataclasses.dataclass(frozen=True)
class Refused:
    """A sheet or a call that is refused, with nothing changed."""

    number: int
    """The cause, 1 to 18."""
    sheet: Which
    place: int
    """The byte at which it is refused, from 0, or as the cause says."""


@dataclasses.dataclass(frozen=True)
class Accepted:
    """A sheet that is in order."""

    type: Type
    size: int
    uses: Uses


@dataclasses.dataclass(frozen=True)
class Followed:
    """A play held against a sheet."""

    count: int
    """How many moves at the start of the play begin some complete play of the sheet."""
    complete: bool
    """Whether the whole play is a complete play of the sheet."""


@dataclasses.dataclass(frozen=True)
class Same:
    """Two sheets with the same complete plays."""

    old: Uses
    new: Uses
    looked: Optional[int] = None
    """Of a look: how many moves were looked through."""


@dataclasses.dataclass(frozen=True)
class Apart:
    """Two sheets of which only one has a play: the first such play, and which of them has it."""

    sheet: Which
    play: bytes
    """The records of its moves."""
    moves: int
    """How many moves it has."""
    old: Uses
    new: Uses


@dataclasses.dataclass(frozen=True)
class SoFar:
    """Two sheets that no play of at most `looked` moves tells apart; a longer one may."""

    looked: int
    old: Uses
    new: Uses


@dataclasses.dataclass(frozen=True)
class Card:
    """The card of a sheet: equal, byte for byte, for sheets that compare calls the same, and for no others."""

    contents: bytes


@dataclasses.dataclass(frozen=True)
class Change:
    """One id that renumber changed."""

    place: int
    old: int
    new: int


@dataclasses.dataclass(frozen=True)
class Renumbered:
    """A sheet in which no private variable, procedure or parameter hides another, with the plays of the one given."""

    sheet: bytes
    changes: Tuple[Change, ...]
