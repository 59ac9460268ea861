"""compare, look, part and follow."""
import argparse
import sys
from typing import List

import negyvosal
from negyvosal import Apart, Followed, Move, Refused, Same, moves_of
from desk import answers, refusals, telling
from desk.files import File
from desk.names import shown
from desk.telling import APART, SAME

PROGRAM_LENT = 16384, 2040
"""What document 01's program lends: working words and bytes of play space."""


def _status(answer: answers.Found) -> int:
    return APART if isinstance(answer, (Apart, Refused)) else SAME


def _found(answer: answers.Found, old: File, new: File, options: argparse.Namespace) -> int:
    if options.json:
        telling.as_json({"old": old.name, "new": new.name, **answers.found_json(answer, old, new)})
    else:
        telling.lines(answers.found(answer, old, new))
    return _status(answer)


def compare(options: argparse.Namespace) -> int:
    """The answer in words, or what document 01's program prints."""
    old, new = telling.read(options.old), telling.read(options.new)
    if not options.numbers:
        return _found(negyvosal.compare(old.sheet, new.sheet), old, new, options)
    answer = negyvosal.compare(old.sheet, new.sheet, lent=PROGRAM_LENT)
    sys.stdout.write(answers.program(answer, old, new))
    return _status(answer)


def look(options: argparse.Namespace) -> int:
    """The answer by plays of at most so many moves."""
    old, new = telling.read(options.old), telling.read(options.new)
    return _found(negyvosal.look(old.sheet, new.sheet, options.moves), old, new, options)


def part(options: argparse.Namespace) -> int:
    """By the one part in which the sheets differ, where that tells; else by the whole sheets."""
    from desk import parts  # what only this subcommand needs
    old, new = telling.accepted(options.old), telling.accepted(options.new)
    differing = parts.differing(old.sheet, new.sheet)
    alone = None if differing is None else negyvosal.compare(differing.old_sheet, differing.new_sheet)
    whole = None if isinstance(alone, Same) else negyvosal.compare(old.sheet, new.sheet)
    if options.json:
        found = {"answer": "same", "by": parts.THEOREM} if whole is None else answers.found_json(whole, old, new)
        telling.as_json({"old": old.name, "new": new.name, "part": parts.as_json(differing, alone), **found})
    else:
        telling.lines(parts.lines(differing, alone, old, new)
                      + ([] if whole is None else answers.found(whole, old, new)))
    return SAME if whole is None else _status(whole)


def follow(options: argparse.Namespace) -> int:
    """How far a play goes in a sheet. The play is its records, or in words, as compare prints it."""
    file = telling.accepted(options.sheet)
    play = _play(options.play, file)
    answer = negyvosal.follow(file.sheet, play)
    if isinstance(answer, Refused):
        told = answers.refused_json(answer)
        lines = [f"{shown(options.play)}: {refusals.told(answer)}"]
    else:
        told = {"answer": "complete" if answer.complete else "not complete", "count": answer.count}
        lines = [_followed(answer, list(moves_of(play)), file)]
    if options.json:
        telling.as_json({"file": file.name, "play": shown(options.play), **told})
    else:
        telling.lines(lines)
    return SAME if isinstance(answer, Followed) and answer.complete else APART


def _play(path: str, file: File) -> bytes:
    """The records of a play. A text begins with no byte that a record begins with."""
    from desk.plays import PlayError  # what only this subcommand needs
    play = telling.content(path)
    if play[:1] < b"\t":
        return play
    try:
        return file.plays.read(telling.text(path))
    except PlayError as error:
        raise telling.Trouble(f"{shown(path)}: {error}") from None


def _followed(answer: Followed, play: List[Move], file: File) -> str:
    """How far a play went, in a line."""
    moves = telling.count(len(play), "move")
    if answer.complete:
        return f"complete: the routine has this play of {moves}"
    if answer.count == len(play):
        return f"not complete: the routine begins with this play of {moves}, and does not end there"
    stuck = file.plays.move(play[answer.count])
    return f"not complete: the routine makes {answer.count:,} of {moves}, and then cannot go on with '{stuck}'"
