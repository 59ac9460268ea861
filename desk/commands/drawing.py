"""draw: by Graphviz where it is installed, else as DOT text."""
import argparse
import pathlib
import shutil
import subprocess
import sys
from typing import List, Optional

import negyvosal
from negyvosal import Followed, Move, Refused, Same, Which, moves_of
from desk import pictures, tables, telling
from desk.files import File
from desk.telling import APART, SAME


def draw(options: argparse.Namespace) -> int:
    """The table of one routine, or the first difference of two."""
    old = telling.accepted(options.sheet)
    text = _table(old) if options.other is None else _difference(old, telling.accepted(options.other))
    if options.json:
        telling.as_json({"answer": "same"} if text is None else {"dot": text})
    elif text is None:
        telling.lines(["same: there is no difference to draw"])
    if text is not None and (options.output or not options.json):
        _picture(text, options.output)
    return SAME if options.other is None or text is None else APART


def _table(file: File) -> str:
    """The table of a routine as DOT text."""
    return pictures.table(file.name, tables.read(tables.card(file), file.tree), file.plays)


def _difference(old: File, new: File) -> Optional[str]:
    """The first difference of two sheets as DOT text; none where they are the same."""
    answer = negyvosal.compare(old.sheet, new.sheet)
    if isinstance(answer, Refused):
        raise telling.NotAccepted(new if answer.sheet is Which.NEW else old, answer)
    if isinstance(answer, Same):
        return None
    has, has_not = (new, old) if answer.sheet is Which.NEW else (old, new)
    play = list(moves_of(answer.play))
    followed = negyvosal.follow(has_not.sheet, answer.play)
    assert isinstance(followed, Followed)
    common = followed.count
    first, second = (_moves_after(file, play[:common]) for file in (has, has_not))
    parting = pictures.Parting(play, common, [move for move in second if move not in first],
                               *("new" if file is new else "old" for file in (has, has_not)))
    return pictures.difference(f"{old.name} and {new.name}: the first difference", parting, has.plays)


def _moves_after(file: File, play: List[Move]) -> List[Move]:
    """The moves with which a sheet goes on after the beginning of a play."""
    positions, at = tables.read(tables.card(file), file.tree), 0
    for move in play:
        at = positions[at].after(move)
    return [move for move, _ in positions[at].moves] if positions else []


def _picture(text: str, output: Optional[str]) -> None:
    """Writes a picture by Graphviz; where there is none its DOT text, in a file beside, or to the device or pipe."""
    if output is None or output.endswith(".dot"):
        telling.out(output, text.encode())
        return
    dot = shutil.which("dot")
    if dot is not None:
        made = subprocess.run([dot, "-Tsvg"], input=text.encode(), stdout=subprocess.PIPE, check=False)
        if made.returncode != 0:
            raise telling.Trouble("Graphviz does not draw it")
        telling.write(output, made.stdout)
        return
    path = pathlib.Path(output)
    if path.exists() and not path.is_file():
        telling.write(output, text.encode())
        print("negyvosal: no Graphviz here: that is the picture as DOT text", file=sys.stderr)
        return
    kept = str(path.with_suffix(".dot"))
    telling.write(kept, text.encode())
    print(f"negyvosal: no Graphviz here: {kept} is the picture as DOT text; once graphviz is installed, "
          f"'dot -Tsvg {kept} -o {output}' draws it", file=sys.stderr)
