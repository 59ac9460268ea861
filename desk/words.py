"""Words for ids: of a sheet NAME.sheet they stand in NAME.words, an id and its word a line. docs/NOTATION.md."""
import pathlib
import re
from typing import Dict

from desk.names import shown

KEYWORDS = frozenset(
    "range overflow stop wrap infinity word declare once retire routine command truth number variable skip diverge "
    "true false remainder and or if then else while do new in procedure".split())
MOST_ID = 254
WORD = r"[^\W\d]\w*"
"""What a word is: a letter or _, then letters, figures and _."""
_WORD = re.compile(WORD)
_ID = re.compile(r"[0-9]{1,3}")
_PLAIN = re.compile(r"n[0-9]+")


class WordError(ValueError):
    """A word that cannot be given to an id."""


def plain(id: int) -> str:
    """The word of an id that has none of its own."""
    return f"n{id}"


_PLAIN_IDS = {plain(id): id for id in range(MOST_ID + 1)}


class Words:
    """Which word each id has."""

    def __init__(self) -> None:
        self.by_id: Dict[int, str] = {}
        self.by_word: Dict[str, int] = {}

    def give(self, id: int, word: str) -> None:
        """Gives the id its word: no keyword, and no word of another id."""
        if id > MOST_ID:
            raise WordError(f"ids are from 0 to {MOST_ID}")
        if not _WORD.fullmatch(word) or word in KEYWORDS:
            raise WordError(f"{word!r} is no word for an id")
        if _PLAIN.fullmatch(word) and word != plain(id):
            raise WordError(f"{word} is the word of another id")
        if self.by_id.get(id, word) != word:
            raise WordError(f"id {id} has the word {self.by_id[id]} already")
        if self.by_word.get(word, id) != id:
            raise WordError(f"{word} is the word of id {self.by_word[word]} already")
        self.by_id[id], self.by_word[word] = word, id

    def word(self, id: int) -> str:
        """The word of an id."""
        return self.by_id.get(id, plain(id))

    def id(self, word: str) -> int:
        """The id of a word. WordError where it has none."""
        if word in self.by_word:
            return self.by_word[word]
        if word in _PLAIN_IDS:
            return _PLAIN_IDS[word]
        raise WordError(f"{word} is no word of an id")

    def text(self) -> str:
        """The lines of a file of words."""
        return "".join(f"{id} {word}\n" for id, word in sorted(self.by_id.items()))


def beside(sheet: pathlib.Path) -> pathlib.Path:
    """The file of words of a sheet."""
    return sheet.with_suffix(".words")


def read(sheet: pathlib.Path) -> Words:
    """The words beside a sheet; none where there is no such file. WordError, with the line, where one is wrong."""
    words, file = Words(), beside(sheet)
    if not file.exists():
        return words
    try:
        lines = file.read_text(encoding="utf-8").splitlines()
    except UnicodeDecodeError:
        raise WordError(f"{shown(file)}: it is not text in UTF-8") from None
    for number, line in enumerate(lines, 1):
        try:
            _line(line, words)
        except WordError as error:
            raise WordError(f"{shown(file)}:{number}: {error}") from None
    return words


def _line(line: str, words: Words) -> None:
    """Gives the word of a line; what follows # is a comment."""
    fields = line.split("#")[0].split()
    if not fields:
        return
    if len(fields) != 2 or not _ID.fullmatch(fields[0]):
        raise WordError("a line has an id and its word")
    words.give(int(fields[0]), fields[1])
