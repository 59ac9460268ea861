"""The table of positions that a card holds. docs/SHEETS.md, 8.9."""
import dataclasses
from typing import List, Tuple

import negyvosal
from negyvosal import Move, moves_of
from desk.files import File
from desk.sheets import Sheet

_POSITION, _MOVE, _VALUED_MOVE = 40, 41, 42


@dataclasses.dataclass
class Position:
    """A position: whether plays end there, and its moves with the positions that they lead to."""

    end: bool
    moves: List[Tuple[Move, int]]

    def after(self, move: Move) -> int:
        """The position that a move of this one leads to."""
        return dict(self.moves)[move]


def card(file: File) -> bytes:
    """The card of an accepted sheet."""
    answer = negyvosal.card(file.sheet)
    assert isinstance(answer, negyvosal.Card)
    return answer.contents


def read(contents: bytes, sheet: Sheet) -> List[Position]:
    """The positions of the card of a sheet: they stand after the sheet's heading and its type."""
    positions: List[Position] = []
    at = sheet.term.place + 1
    while at < len(contents):
        if contents[at] == _POSITION:
            positions.append(Position(contents[at + 1] == 1, []))
            at += 2
        else:
            target = at + (5 if contents[at] == _VALUED_MOVE else 4)
            [move] = moves_of(contents[at + 1:target])
            positions[-1].moves.append((move, contents[target] | contents[target + 1] << 8))
            at = target + 2
    return positions
