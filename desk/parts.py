"""Two sheets that differ in one part only: the part of each as a sheet of its own. docs/SHEETS.md, 8.6."""
import dataclasses
from typing import Any, Dict, List, Optional, Union

from negyvosal import Apart, Refused, Same, Type
from desk.files import File
from desk.sheets import MOST_ARGUMENTS, UNUSED, Kind, NameKind, Term, read
from desk.show import SEQUENCE, WIDTH, Shown

THEOREM = "parts-compared"
"""The theorem by which the whole sheets are the same where the parts are (docs/ARCHITECTURE.md)."""
_VARIABLES = {Type.TRUTH: Type.TRUTH_VARIABLE, Type.NUMBER: Type.NUMBER_VARIABLE}


@dataclasses.dataclass(frozen=True)
class Parts:
    """The one part in which two sheets differ: in each its place and end, and a sheet of it alone."""

    old: Term
    new: Term
    old_sheet: bytes
    new_sheet: bytes


def differing(old: bytes, new: bytes) -> Optional[Parts]:
    """The innermost part outside procedures in which two accepted sheets differ; none where they differ in the heading
    or are equal."""
    first, second = read(old), read(new)
    if old == new or old[:first.term.place] != new[:second.term.place]:
        return None
    a, b, blocks = first.term, second.term, []
    while a.kind is not Kind.PROCEDURE:
        inner = _inner(a, b, old, new)
        if inner is None:
            break
        if a.kind is Kind.NEW:
            blocks.append(a)
        a, b = a.parts[inner], b.parts[inner]
    heading = old[:first.term.place] + b"".join(map(_record, blocks))
    return Parts(a, b, heading + old[a.place:a.end], heading + new[b.place:b.end])


def _inner(a: Term, b: Term, old: bytes, new: bytes) -> Optional[int]:
    """The only part in which two terms differ that are otherwise the same."""
    if (a.kind, a.body, len(a.parts)) != (b.kind, b.body, len(b.parts)):
        return None
    apart: List[int] = [i for i, (x, y) in enumerate(zip(a.parts, b.parts))
                        if old[x.place:x.end] != new[y.place:y.end]]
    return apart[0] if len(apart) == 1 else None


def _record(block: Term) -> bytes:
    """The name record that declares the private variable of a block."""
    id, data = block.body
    return bytes([NameKind.DECLARE, id, _VARIABLES[Type(data)], 0] + [UNUSED] * MOST_ARGUMENTS)


Judged = Union[Same, Apart, Refused, None]


def lines(parts: Optional[Parts], alone: Judged, old: File, new: File) -> List[str]:
    """The parts as text, and what follows of what compare says of them as sheets of their own."""
    if parts is None:
        return ["the sheets do not differ in one part outside procedures: the whole sheets are compared"]
    said = ["the sheets differ in one part"]
    for name, file, part in (("old", old, parts.old), ("new", new, parts.new)):
        said.append(f"  {name}, bytes {part.place:,} to {part.end - 1:,}:")
        said += ["    " + line for line in Shown(file.words).lines(part, SEQUENCE, WIDTH)]
    if isinstance(alone, Same):
        return said + [f"same, and therefore the whole: the two parts have the same complete plays (theorem {THEOREM})"]
    return said + ["the two parts as sheets of their own are not called the same, which does not settle it: the whole "
                   "sheets are compared"]


def as_json(parts: Optional[Parts], alone: Judged) -> Optional[Dict[str, Any]]:
    """The same as JSON holds it."""
    if parts is None:
        return None
    places = {name: [part.place, part.end] for name, part in (("old", parts.old), ("new", parts.new))}
    return {**places, "same": isinstance(alone, Same)}
