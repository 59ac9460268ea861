"""renumber, card, show and write: what makes one file of another."""
import argparse
import hashlib
import pathlib

import negyvosal
from negyvosal import Refused
from desk import telling
from desk.names import shown
from desk.telling import APART, SAME
from desk.tokens import TextError
from desk.words import beside


def renumber(options: argparse.Namespace) -> int:
    """The sheet with ids of their own for what hid another; its changes, a line each."""
    file = telling.read(options.sheet)
    answer = negyvosal.renumber(file.sheet)
    if isinstance(answer, Refused):
        raise telling.NotAccepted(file, answer)
    if options.output:
        telling.write(options.output, answer.sheet)
    if options.json:
        changes = [{"place": x.place, "old": x.old, "new": x.new} for x in answer.changes]
        telling.as_json({"file": file.name, "changes": changes, "sheet": answer.sheet.hex()})
    else:
        telling.lines([f"{file.name}: {telling.count(len(answer.changes), 'change')}"]
                      + [f"  byte {x.place:,}: {file.words.word(x.old)} becomes {file.words.word(x.new)}"
                         for x in answer.changes])
    return SAME


def card(options: argparse.Namespace) -> int:
    """The card, in a line: a digest by which equal cards are told, and how large its table is."""
    from desk import tables  # what only this subcommand needs
    file = telling.accepted(options.sheet)
    contents = tables.card(file)
    if options.output:
        telling.write(options.output, contents)
    positions = tables.read(contents, file.tree)
    moves = sum(len(position.moves) for position in positions)
    digest = hashlib.sha256(contents).hexdigest()
    if options.json:
        telling.as_json({"file": file.name, "digest": digest, "bytes": len(contents), "positions": len(positions),
                         "moves": moves, "card": contents.hex()})
    else:
        sizes = [telling.count(len(contents), "byte"), telling.count(len(positions), "position"),
                 telling.count(moves, "move")]
        telling.lines([f"{file.name}: card {digest[:16]}, {', '.join(sizes)}"])
    return SAME


def show(options: argparse.Namespace) -> int:
    """The sheet as text."""
    from desk import show as shows  # what only this subcommand needs
    file = telling.accepted(options.sheet)
    text = shows.show(file.tree, file.words)
    if options.output or not options.json:
        telling.out(options.output, text.encode())
    if options.json:
        telling.as_json({"file": file.name, "text": text})
    return SAME


def write(options: argparse.Namespace) -> int:
    """The sheet of a text; with -o also the file of its words, where it has some."""
    from desk import write as writes  # what only this subcommand needs
    text = telling.text(options.text)
    try:
        sheet, words = writes.write(text)
    except TextError as error:
        _wrong(text, error, options)
        return APART
    if options.output or not options.json:
        telling.out(options.output, sheet)
    if words.by_id and options.output and pathlib.Path(options.output).is_file():
        telling.write(str(beside(pathlib.Path(options.output))), words.text().encode())
    if options.json:
        telling.as_json({"file": shown(options.text), "sheet": sheet.hex(), "words": words.by_id})
    return SAME


def _wrong(text: str, error: TextError, options: argparse.Namespace) -> None:
    """What is wrong with a text, with the line and a mark under the column."""
    if options.json:
        telling.as_json({"file": shown(options.text), "line": error.place.line, "column": error.place.column,
                         "error": error.what})
        return
    line = text.split("\n")[error.place.line - 1]
    telling.lines([f"{shown(options.text)}:{error}", "  " + "".join(x if x.isprintable() else " " for x in line),
                   "  " + " " * (error.place.column - 1) + "^"])
