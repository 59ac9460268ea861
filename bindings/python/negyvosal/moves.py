"""The moves of a play and their records."""
import dataclasses
import enum
from typing import Iterable, Optional, Tuple

ROUTINE = 255
"""The id of the moves of the whole routine."""


class MoveKind(enum.IntEnum):
    """The kinds of moves."""

    RUN = 0
    DONE = 1
    ASK = 2
    READ = 3
    OK = 4
    VALUE = 5
    WRITE = 6


QUESTIONS = frozenset({MoveKind.RUN, MoveKind.ASK, MoveKind.READ, MoveKind.WRITE})
VALUED = frozenset({MoveKind.VALUE, MoveKind.WRITE})


@dataclasses.dataclass(frozen=True)
class Move:
    """A question or an answer, at the whole routine, at a name, or at an argument of a name."""

    kind: MoveKind
    id: int
    """That of the name, or ROUTINE."""
    argument: int
    """0, or which argument of the name, from 1."""
    value: Optional[int] = None
    """Of VALUE and WRITE: the value, with its sign."""

    @property
    def question(self) -> bool:
        """Whether it is a question, and no answer."""
        return self.kind in QUESTIONS


def moves_of(play: bytes) -> Tuple[Move, ...]:
    """The moves whose records these bytes are. ValueError where they are no records."""
    moves, at = [], 0
    while at < len(play):
        if play[at] > MoveKind.WRITE:
            raise ValueError(f"byte {at}: {play[at]} is no kind of a move")
        kind = MoveKind(play[at])
        width = 4 if kind in VALUED else 3
        if at + width > len(play):
            raise ValueError(f"byte {at}: the record is cut short")
        value = (play[at + 3] ^ 128) - 128 if kind in VALUED else None
        moves.append(Move(kind, play[at + 1], play[at + 2], value))
        at += width
    return tuple(moves)


def bytes_of(moves: Iterable[Move]) -> bytes:
    """The records of the moves."""
    play = bytearray()
    for move in moves:
        play += bytes((move.kind, move.id, move.argument))
        if move.value is not None:
            play.append(move.value & 255)
    return bytes(play)
