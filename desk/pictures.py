"""Pictures as DOT text, for Graphviz: the smallest table of a routine, and the first difference of two."""
import dataclasses
from typing import Dict, List

from desk.plays import Plays
from desk.tables import Position
from negyvosal import Move

_HEAD = ['  rankdir=LR;', '  fontname="sans-serif";', '  node [shape=circle, fontname="sans-serif", fontsize=10];',
         '  edge [fontname="sans-serif", fontsize=10];']


def _quoted(text: str) -> str:
    """A string of DOT, in which \\n begins a line."""
    return '"' + text.replace("\\", "\\\\").replace('"', '\\"').replace("\n", "\\n") + '"'


def _graph(title: str, lines: List[str]) -> str:
    return "\n".join([f"digraph {_quoted(title)} {{"] + _HEAD + [f"  label={_quoted(title)};", "  labelloc=t;"]
                     + lines + ["}"]) + "\n"


def _edge(start: str, end: str, moves: List[str], style: str = "") -> str:
    return f"  {start} -> {end} [label={_quoted(chr(10).join(moves))}{style}];"


def table(title: str, positions: List[Position], plays: Plays) -> str:
    """All positions of a routine. The end is a double circle; moves between the same two positions share an arrow."""
    lines = []
    for number, position in enumerate(positions):
        lines.append(f"  {number} [shape={'doublecircle' if position.end else 'circle'}];")
        grouped: Dict[int, List[str]] = {}
        for move, target in position.moves:
            grouped.setdefault(target, []).append(plays.move(move))
        lines += [_edge(str(number), str(target), moves) for target, moves in grouped.items()]
    if not positions:
        lines.append('  none [shape=plaintext, label="no complete play"];')
    return _graph(title, lines)


@dataclasses.dataclass(frozen=True)
class Parting:
    """Where two sheets part: the first play that only one of them has; how many moves of it the other can make; the
    moves that only that one has there; and which sheet has the play, and which has it not."""

    play: List[Move]
    common: int
    others: List[Move]
    has: str
    has_not: str


def difference(title: str, parting: Parting, plays: Plays) -> str:
    """The moves that both sheets can make, then where they part."""
    lines = ["  0 [shape=point];"]
    for number, move in enumerate(parting.play, 1):
        shape = "doublecircle" if number == len(parting.play) else "circle"
        lines.append(f'  {number} [label="", shape={shape}, width=0.2];')
        said = ([f"only {parting.has}:"] if number == parting.common + 1 else []) + [plays.move(move)]
        lines.append(_edge(str(number - 1), str(number), said, ", style=bold" if number > parting.common else ""))
    return _graph(title, lines + _other(parting, plays))


def _other(parting: Parting, plays: Plays) -> List[str]:
    """What the sheet that has not the play does where they part."""
    if parting.others:
        said = [f"only {parting.has_not}:"] + [plays.move(move) for move in parting.others]
        return ['  other [label="", shape=circle, width=0.2, style=dashed];',
                _edge(str(parting.common), "other", said, ", style=dashed")]
    return [f"  none [shape=plaintext, label={_quoted(f'{parting.has_not} has no other move')}];",
            _edge(str(parting.common), "none", [], ", style=dotted, arrowhead=none")]
