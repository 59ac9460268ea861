"""Sheets as trees: from the bytes of an accepted sheet to its heading and its term. docs/SHEETS.md, section 2."""
import dataclasses
import enum
from typing import Dict, Iterator, List, Tuple

from negyvosal import Type

UNUSED = 255
MOST_ARGUMENTS = 4


class Rule(enum.IntEnum):
    """What becomes of a result outside the range."""

    STOP = 0
    WRAP = 1
    INFINITY = 2


class NameKind(enum.IntEnum):
    """The kinds of name records."""

    DECLARE = 1
    RETIRE = 2
    DECLARE_ONCE = 3


class Kind(enum.IntEnum):
    """The kinds of terms."""

    SKIP = 16
    DIVERGE = 17
    TRUTH = 18
    NUMBER = 19
    USE = 20
    FETCH = 21
    OPERATE = 22
    ASSIGN = 23
    SEQUENCE = 24
    IF = 25
    WHILE = 26
    NEW = 27
    PROCEDURE = 28


class Operator(enum.IntEnum):
    """The operators."""

    PLUS = 0
    MINUS = 1
    TIMES = 2
    REMAINDER = 3
    EQUAL = 4
    LESS = 5
    AND = 6
    OR = 7
    EQUAL_TRUTHS = 8


# How many bytes the body of a term has, and how many parts; a use has as many as its id takes.
_BODIES = {Kind.DIVERGE: 1, Kind.TRUTH: 1, Kind.NUMBER: 1, Kind.USE: 1, Kind.OPERATE: 1, Kind.NEW: 2,
           Kind.PROCEDURE: 11}
_PARTS = {Kind.FETCH: 1, Kind.OPERATE: 2, Kind.ASSIGN: 2, Kind.SEQUENCE: 2, Kind.IF: 3, Kind.WHILE: 2, Kind.NEW: 1,
          Kind.PROCEDURE: 2}
_NAME_BYTES = {NameKind.DECLARE: 8, NameKind.RETIRE: 2, NameKind.DECLARE_ONCE: 8}


@dataclasses.dataclass(frozen=True)
class Name:
    """A name record. A retirement has no types."""

    kind: NameKind
    id: int
    result: Type = Type.COMMAND
    arguments: Tuple[Type, ...] = ()


@dataclasses.dataclass(frozen=True)
class Term:
    """A record of the term with its parts, and where its bytes stand."""

    kind: Kind
    body: bytes
    parts: Tuple["Term", ...]
    place: int
    end: int

    @property
    def parameters(self) -> List[Tuple[int, Type]]:
        """Of a procedure: its parameters, id and type."""
        pairs = self.body[3:3 + 2 * self.body[2]]
        return [(pairs[at], Type(pairs[at + 1])) for at in range(0, len(pairs), 2)]

    def ids(self) -> List[int]:
        """The ids that stand in the record itself."""
        if self.kind is Kind.PROCEDURE:
            return [self.body[0]] + [id for id, _ in self.parameters]
        return [self.body[0]] if self.kind in (Kind.USE, Kind.NEW) else []

    def everything(self) -> Iterator["Term"]:
        """The term and all terms in it, in the order of their bytes."""
        yield self
        for part in self.parts:
            yield from part.everything()


@dataclasses.dataclass(frozen=True)
class Sheet:
    """A sheet: its range, overflow rule, name records and term."""

    z: int
    rule: Rule
    names: Tuple[Name, ...]
    term: Term


def read(sheet: bytes) -> Sheet:
    """The sheet that the bytes hold. They must be accepted by check (or by renumber): nothing is judged here."""
    names, at = [], 2
    while sheet[at] in _NAME_BYTES.keys():
        kind = NameKind(sheet[at])
        names.append(_name(kind, sheet[at:at + _NAME_BYTES[kind]]))
        at += _NAME_BYTES[kind]
    taken = {name.id: len(name.arguments) for name in names}
    return Sheet(sheet[0], Rule(sheet[1]), tuple(names), _term(sheet, at, taken))


def _name(kind: NameKind, record: bytes) -> Name:
    if kind is NameKind.RETIRE:
        return Name(kind, record[1])
    return Name(kind, record[1], Type(record[2]), tuple(map(Type, record[4:4 + record[3]])))


def _term(sheet: bytes, place: int, taken: Dict[int, int]) -> Term:
    """The term at a place, where the ids take as many arguments as `taken` says."""
    kind = Kind(sheet[place])
    at = place + 1 + _BODIES.get(kind, 0)
    body = sheet[place + 1:at]
    count = taken[body[0]] if kind is Kind.USE else _PARTS.get(kind, 0)
    parts: List[Term] = []
    for part in range(count):
        parts.append(_term(sheet, at, _inside(kind, body, part, taken)))
        at = parts[-1].end
    return Term(kind, body, tuple(parts), place, at)


def _inside(kind: Kind, body: bytes, part: int, taken: Dict[int, int]) -> Dict[int, int]:
    """What the ids take inside a part."""
    if kind is Kind.NEW:
        return {**taken, body[0]: 0}
    if kind is Kind.PROCEDURE and part == 0:
        return {**taken, **{id: 0 for id in body[3:3 + 2 * body[2]:2]}}
    if kind is Kind.PROCEDURE:
        return {**taken, body[0]: body[2]}
    return taken
