"""Refusals in words. docs/SHEETS.md, 9.1."""
from typing import List

from negyvosal import Refused, Which

CAUSES = {
    1: "the sheet has more than 4,096 bytes",
    2: "the sheet ends where a byte is needed",
    3: "a byte is outside its range, or a kind is unknown",
    4: "the id is declared or retired already, or that of an earlier parameter",
    5: "nothing has this id: it is neither declared nor that of something around it",
    6: "the id is retired",
    7: "this part has the wrong type",
    8: "this part is more than 32 deep",
    9: "there are more than 32 name records",
    10: "bytes follow after the term",
    11: "the reckoned size is above 4,096",
    12: "the headings or the types of the two sheets differ",
    13: "too few working words",
    14: "too little space to write to",
    15: "the play has a record of an unknown kind, or ends inside one",
    16: "the id is held by a private variable, procedure or parameter around it",
    17: "no id is left for one that hides another",
    18: "a sequence, a procedure or a use with a command or a variable inside an expression",
}
"""The cause of each number."""
SHEETS = {Which.OLD: "old", Which.NEW: "new", Which.BOTH: "both"}
_BEFORE, _AFTER = 6, 4
# The causes whose place is one byte of the sheet, or of the play.
_AT_A_BYTE = frozenset({2, 3, 4, 5, 6, 7, 8, 9, 10, 15, 16, 17, 18})


def cause(number: int) -> str:
    """The cause of a refusal in words."""
    return CAUSES[number]


def told(refused: Refused) -> str:
    """A refusal in words: number, place and cause."""
    place = f" at byte {refused.place:,}" if refused.number in _AT_A_BYTE else ""
    return f"refused {refused.number}{place}: {cause(refused.number)}"


def around(refused: Refused, sheet: bytes) -> List[str]:
    """The bytes around the place of a refusal, and a mark under the byte itself; no line where it has none."""
    if refused.number not in _AT_A_BYTE:
        return []
    first = max(refused.place - _BEFORE, 0)
    shown = [str(byte) for byte in sheet[first:refused.place + _AFTER]]
    before = f"bytes {first}..: " + "".join(byte + " " for byte in shown[:refused.place - first])
    rest = " ".join(shown[refused.place - first:]) or "(the end)"
    return [before + rest, " " * len(before) + "^"]
