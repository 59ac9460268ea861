"""A year's routines: each sheet of a folder compared with the one of the same name in last year's folder."""
import collections
import dataclasses
import functools
import hashlib
import multiprocessing
import pathlib
import signal
import sys
from typing import Any, Dict, Iterator, List, Optional, Tuple

import negyvosal
from negyvosal import Apart, Refused, Which
from desk import answers, files, refusals, show, tables
from desk.names import shown
from desk.sheets import NameKind
from desk.words import WordError

SAME, SO_FAR, APART, REFUSED, ONLY_OLD, ONLY_NEW, UNREAD = \
    "same", "same so far", "apart", "refused", "only in old", "only in new", "not read"
"""What may be said of a routine."""
ANSWERS = (SAME, SO_FAR, APART, REFUSED, ONLY_OLD, ONLY_NEW, UNREAD)
QUIET = (SAME, SO_FAR)
"""The answers of routines that nobody has to look at."""
SUFFIX = ".sheet"
COLUMNS = 60
"""How wide the text of a routine is in a report, two beside each other."""
BAR = 40
"""How wide the bar is that tells how far a comparison is."""


@dataclasses.dataclass
class Side:
    """One of the two sheets of a routine, which is accepted: its size, a digest of its card, the ids that it declares
    and retires with their words, and its text where the two are apart."""

    size: int
    card: str
    declared: List[Tuple[int, str]] = dataclasses.field(default_factory=list)
    retired: List[Tuple[int, str]] = dataclasses.field(default_factory=list)
    text: str = ""


@dataclasses.dataclass
class Routine:
    """What is found of a routine: one of ANSWERS, in words, and as JSON holds it."""

    name: str
    answer: str
    lines: List[str]
    detail: Dict[str, Any]
    old: Optional[Side] = None
    new: Optional[Side] = None


@dataclasses.dataclass
class Year:
    """What is found of all routines, by name; the doubles of each folder; which ids are retired and declared where."""

    old: str
    new: str
    routines: List[Routine]
    doubles: Dict[str, List[List[str]]]
    retired: List[Dict[str, Any]]

    def count(self, answer: str) -> int:
        """How many routines have that answer."""
        return sum(routine.answer == answer for routine in self.routines)

    def to_look_at(self) -> List[Routine]:
        """The routines of which there is something to tell."""
        return [routine for routine in self.routines if routine.answer not in QUIET]

    def retirements(self) -> List[str]:
        """Each retired id in a line."""
        lines = []
        for one in self.retired:
            still = f"; still declared in {', '.join(one['declared'])}" if one["declared"] else ""
            lines.append(f"{one['word']} (id {one['id']}) in {', '.join(one['retired'])}{still}")
        return lines

    def summary(self) -> Dict[str, int]:
        """How many routines have each answer, without those that none has."""
        return {answer: self.count(answer) for answer in ANSWERS if self.count(answer)}


def sheets(folder: pathlib.Path) -> Dict[str, pathlib.Path]:
    """The sheets of a folder by name. OSError where it cannot be read."""
    return {path.stem: path for path in sorted(folder.iterdir()) if path.suffix == SUFFIX}


def routine(moves: Optional[int], work: Tuple[str, Optional[pathlib.Path], Optional[pathlib.Path]]) -> Routine:
    """What is found of one routine, of which one of the sheets may be missing."""
    name, *paths = work
    try:
        old, new = (None if path is None else files.read(path) for path in paths)
    except OSError as error:
        return _unread(name, f"{shown(error.filename)}: {error.strerror}")
    except WordError as error:
        return _unread(name, str(error))
    if old is not None and new is not None:
        return _pair(name, old, new, moves)
    return _alone(name, old, new)


def _unread(name: str, error: str) -> Routine:
    return Routine(name, UNREAD, [f"{UNREAD}: {error}"], {"error": error})


def _pair(name: str, old: files.File, new: files.File, moves: Optional[int]) -> Routine:
    """A routine of both folders."""
    found = negyvosal.compare(old.sheet, new.sheet) if moves is None else negyvosal.look(old.sheet, new.sheet, moves)
    detail = answers.found_json(found, old, new)
    lines = [_refusal(found, refusals.SHEETS[found.sheet])] if isinstance(found, Refused) else \
        answers.found(found, old, new)
    texts = isinstance(found, Apart)
    return Routine(name, detail.pop("answer"), lines, detail, _side(old, texts), _side(new, texts))


def _alone(name: str, old: Optional[files.File], new: Optional[files.File]) -> Routine:
    """A routine of which only one folder has a sheet. One that is refused is refused first of all."""
    for file, which in ((old, Which.OLD), (new, Which.NEW)):
        if file is not None and isinstance(file.answer, Refused):
            sheet = refusals.SHEETS[which]
            detail = {**answers.refused_json(file.answer), "sheet": sheet}
            return Routine(name, detail.pop("answer"), [_refusal(file.answer, sheet)], detail)
    answer = ONLY_OLD if new is None else ONLY_NEW
    return Routine(name, answer, [answer], {}, _side(old), _side(new))


def _side(file: Optional[files.File], text: bool = False) -> Optional[Side]:
    """What is told of a sheet by itself, and its text; nothing of one that is missing or refused."""
    if file is None or isinstance(file.answer, Refused):
        return None
    side = Side(file.answer.size, hashlib.sha256(tables.card(file)).hexdigest())
    for name in file.tree.names:
        listed = side.retired if name.kind is NameKind.RETIRE else side.declared
        listed.append((name.id, file.words.word(name.id)))
    if text:
        side.text = show.show(file.tree, file.words, COLUMNS)
    return side


def _refusal(refused: Refused, sheet: str) -> str:
    return f"{sheet} sheet{'s' if sheet == refusals.SHEETS[Which.BOTH] else ''} {refusals.told(refused)}"


def compare(old: pathlib.Path, new: pathlib.Path, jobs: int, moves: Optional[int]) -> Year:
    """Compares all routines of two folders, `jobs` at once."""
    folders = sheets(old), sheets(new)
    names = sorted({*folders[0], *folders[1]})
    work = [(shown(name), *(folder.get(name) for folder in folders)) for name in names]
    found = list(_progress(_run(work, jobs, moves), len(work)))
    doubles = {"old": _doubles((one.name, one.old) for one in found),
               "new": _doubles((one.name, one.new) for one in found)}
    return Year(shown(old), shown(new), found, doubles, _retired(found))


def _run(work: List[Any], jobs: int, moves: Optional[int]) -> Iterator[Routine]:
    judge = functools.partial(routine, moves)
    if jobs == 1 or len(work) < 2:
        yield from map(judge, work)
        return
    with multiprocessing.Pool(jobs, signal.signal, (signal.SIGINT, signal.SIG_IGN)) as pool:
        yield from pool.imap(judge, work, chunksize=max(1, min(32, len(work) // (4 * jobs))))


def _progress(found: Iterator[Routine], count: int) -> Iterator[Routine]:
    """Tells on a terminal how far it is."""
    terminal = sys.stderr.isatty()
    for number, one in enumerate(found, 1):
        if terminal:
            done = BAR * number // count
            print(f"\r[{'#' * done}{'.' * (BAR - done)}] {number:,} of {count:,}", end="", file=sys.stderr, flush=True)
        yield one
    if terminal and count:
        print(file=sys.stderr)


def _doubles(sides: Iterator[Tuple[str, Optional[Side]]]) -> List[List[str]]:
    """The names of routines with equal cards, of one folder."""
    by_card: Dict[str, List[str]] = collections.defaultdict(list)
    for name, side in sides:
        if side is not None:
            by_card[side.card].append(name)
    return sorted(names for names in by_card.values() if len(names) > 1)


def _retired(found: List[Routine]) -> List[Dict[str, Any]]:
    """Each id that a sheet of the new folder retires: the routines that do, and those that still declare it."""
    retired, declared = collections.defaultdict(list), collections.defaultdict(list)
    words: Dict[int, str] = {}
    for one in found:
        for id, word in one.new.retired if one.new else []:
            retired[id].append(one.name)
            words.setdefault(id, word)
        for id, _ in one.new.declared if one.new else []:
            declared[id].append(one.name)
    return [{"id": id, "word": words[id], "retired": retired[id], "declared": declared[id]} for id in sorted(retired)]
