"""Plays in words: one move a line, indented by question and answer, and back."""
import re
from typing import Dict, List, Optional, Tuple

from negyvosal import ROUTINE, Move, MoveKind, Type, bytes_of, moves_of
from desk.sheets import NameKind, Rule, Sheet
from desk.words import WordError, Words

INDENT = 2
_HEAD = "apart:"
_TRUTHS = {0: "false", 1: "true"}
_BEYOND = {-127: "minus-infinity", 126: "infinity", 127: "not-a-number"}
_TRUTH_TYPES = (Type.TRUTH, Type.TRUTH_VARIABLE)
_LINK = {MoveKind.VALUE: " from ", MoveKind.WRITE: " to "}
_MOVE = re.compile(r"(?P<kind>[a-z]+)(?: (?P<value>-?[0-9]{1,3}|true|false|minus-infinity|infinity|not-a-number))?"
                   r"(?: (?:(?:from|to) )?(?P<word>[^\W\d]\w*)(?:\.(?P<argument>[1-4]))?)?")


class PlayError(ValueError):
    """A text that is no play."""


class Plays:
    """Plays of sheets with one heading and type, in the words of their ids."""

    def __init__(self, sheet: Sheet, type: Type, words: Words) -> None:
        self.words, self.rule = words, sheet.rule
        self.types: Dict[Tuple[int, int], Type] = {(ROUTINE, 0): type}
        for name in sheet.names:
            if name.kind is not NameKind.RETIRE:
                self.types[name.id, 0] = name.result
                self.types.update({(name.id, j): taken for j, taken in enumerate(name.arguments, 1)})

    def value(self, move: Move, value: int) -> str:
        """The value of a move."""
        if self.types.get((move.id, move.argument)) in _TRUTH_TYPES:
            return _TRUTHS.get(value, str(value))
        return _BEYOND.get(value, str(value)) if self.rule is Rule.INFINITY else str(value)

    def place(self, move: Move) -> str:
        """Where a move is made: nothing for the whole routine, a name, or an argument of a name."""
        if move.id == ROUTINE:
            return ""
        return self.words.word(move.id) + (f".{move.argument}" if move.argument else "")

    def move(self, move: Move) -> str:
        """A move in words."""
        said, place = move.kind.name.lower(), self.place(move)
        if move.value is not None:
            said += f" {self.value(move, move.value)}"
        return said + (_LINK.get(move.kind, " ") + place if place else "")

    def lines(self, play: bytes) -> List[str]:
        """A play, one move a line: what comes between a question and its answer is indented."""
        lines, depth = [], 0
        for move in moves_of(play):
            depth -= not move.question
            lines.append(" " * (INDENT * max(depth, 0)) + self.move(move))
            depth += move.question
        return lines

    def read(self, text: str) -> bytes:
        """The records of a play in words, of which the first line may be that of compare's answer. PlayError, with the
        line, where it is none."""
        lines = [(number, line.strip()) for number, line in enumerate(text.splitlines(), 1)]
        return bytes_of(self._read(line, number) for number, line in lines
                        if line and not line.startswith(_HEAD))

    def _read(self, line: str, number: int) -> Move:
        match = _MOVE.fullmatch(line)
        if match is None or match["kind"].upper() not in MoveKind.__members__:
            raise PlayError(f"line {number}: {line!r} is no move")
        kind = MoveKind[match["kind"].upper()]
        value = _number(match["value"])
        if value is not None and not -128 <= value <= 127:
            raise PlayError(f"line {number}: {value} is no value")
        if (kind in _LINK) != (value is not None):
            raise PlayError(f"line {number}: {match['kind']} {'needs a' if kind in _LINK else 'has no'} value")
        if match["word"] is None:
            return Move(kind, ROUTINE, 0, value)
        try:
            return Move(kind, self.words.id(match["word"]), int(match["argument"] or 0), value)
        except WordError as error:
            raise PlayError(f"line {number}: {error}") from None


def _number(text: Optional[str]) -> Optional[int]:
    """A value in words as its number."""
    for named in (_TRUTHS, _BEYOND):
        for value, word in named.items():
            if text == word:
                return value
    return None if text is None else int(text)
