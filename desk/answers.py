"""The answers of the services in words, and as what JSON holds."""
from typing import Any, Dict, List, Union

from negyvosal import Apart, Move, Refused, Same, SoFar, Type, Uses, Which, moves_of
from desk import refusals
from desk.files import File
from desk.plays import Plays
from desk.sheets import NameKind, Sheet

TYPES = {Type.COMMAND: "command", Type.TRUTH: "truth expression", Type.NUMBER: "number expression",
         Type.TRUTH_VARIABLE: "truth variable", Type.NUMBER_VARIABLE: "number variable"}
Found = Union[Same, Apart, SoFar, Refused]


def names(sheet: Sheet, uses: Uses, used: bool) -> List[int]:
    """The ids of the declared names that are used, or of those that are not."""
    return [name.id for bit, name in enumerate(sheet.names)
            if name.kind is not NameKind.RETIRE and bool(uses.mark >> bit & 1) == used]


def accepted(file: File) -> str:
    """A sheet that is in order, in a line."""
    answer, tree = file.accepted, file.tree
    words = {used: ", ".join(map(file.words.word, names(tree, answer.uses, used))) for used in (True, False)}
    said = f"uses {words[True] or 'no names'}" + (f"; not used: {words[False]}" if words[False] else "")
    return f"{TYPES[answer.type]}, size {answer.size:,} of 4,096; {said}"


def accepted_json(file: File) -> Dict[str, Any]:
    """The same as JSON holds it."""
    answer, tree = file.accepted, file.tree
    listed = [{"id": id, "word": file.words.word(id), "used": used} for used in (True, False)
              for id in names(tree, answer.uses, used)]
    return {"answer": "accepted", "type": TYPES[answer.type], "size": answer.size,
            "names": sorted(listed, key=lambda name: name["id"])}


def refused_json(refused: Refused) -> Dict[str, Any]:
    """A refusal as JSON holds it."""
    return {"answer": "refused", "number": refused.number, "sheet": refusals.SHEETS[refused.sheet],
            "place": refused.place, "cause": refusals.cause(refused.number)}


def found(answer: Found, old: File, new: File) -> List[str]:
    """What compare or look found, in lines."""
    if isinstance(answer, Refused):
        return refusal(answer, old, new)
    if isinstance(answer, Apart):
        has = "new" if answer.sheet is Which.NEW else "old"
        return [f"apart: only the {has} routine has this play of {answer.moves:,} moves"] \
            + ["  " + line for line in _plays(old, new).lines(answer.play)]
    if isinstance(answer, SoFar):
        return [f"same so far: no play of at most {answer.looked:,} moves tells the two routines apart; "
                f"to be sure look through {old.accepted.size + new.accepted.size - 1:,}"]
    return ["same: the two routines have the same complete plays"]


def found_json(answer: Found, old: File, new: File) -> Dict[str, Any]:
    """The same as JSON holds it."""
    if isinstance(answer, Refused):
        return refused_json(answer)
    if isinstance(answer, Apart):
        plays = _plays(old, new)
        return {"answer": "apart", "sheet": refusals.SHEETS[answer.sheet], "moves": answer.moves,
                "play": [move_json(move, plays) for move in moves_of(answer.play)]}
    if isinstance(answer, SoFar):
        return {"answer": "same so far", "looked": answer.looked}
    return {"answer": "same", **({} if answer.looked is None else {"looked": answer.looked})}


def move_json(move: Move, plays: Plays) -> Dict[str, Any]:
    """A move in words and in numbers."""
    said = {"text": plays.move(move), "kind": int(move.kind), "id": move.id, "argument": move.argument}
    return said if move.value is None else {**said, "value": move.value}


def refusal(answer: Refused, old: File, new: File) -> List[str]:
    """A refusal of two sheets, with the file that it is about."""
    if answer.sheet is Which.BOTH:
        return [refusals.told(answer)]
    file = new if answer.sheet is Which.NEW else old
    return [f"{file.name}: {refusals.told(answer)}"] + ["  " + line for line in refusals.around(answer, file.sheet)]


def _plays(old: File, new: File) -> Plays:
    """The plays of two sheets in words: those of the new sheet's ids, where it has words."""
    return (new if new.words.by_id else old).plays


def program(answer: Found, old: File, new: File) -> str:
    """What document 01's program prints of a comparison. docs/SHEETS.md, section 10."""
    if isinstance(answer, Refused):
        return f"refused {answer.number} {refusals.SHEETS[answer.sheet]} {answer.place}\n"
    declared = [sum(name.kind is not NameKind.RETIRE for name in file.tree.names) for file in (old, new)]
    lines = [f"old {old.accepted.size} new {new.accepted.size}",
             f"uses {answer.old.used} of {declared[0]} and {answer.new.used} of {declared[1]}"]
    if isinstance(answer, Apart):
        lines.append(f"apart in {refusals.SHEETS[answer.sheet]} {answer.moves}")
        lines += [" ".join(map(str, (int(move.kind), move.id, move.argument)))
                  + ("" if move.value is None else f" {move.value}") for move in moves_of(answer.play)]
    else:
        lines.append("same")
    return "".join(line + "\n" for line in lines)
