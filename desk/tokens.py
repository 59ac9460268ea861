"""The words, numbers and signs of a text, one after the other. docs/NOTATION.md has the grammar."""
import re
from typing import Dict, List, NamedTuple, Tuple, TypeVar

from desk.words import KEYWORDS, WORD

_TOKEN = re.compile(r"(?P<space>[^\S\n]+|#[^\n]*)|(?P<line>\n)|(?P<number>[0-9]+)|(?P<word>" + WORD
                    + r")|(?P<sign>:=|[()!,;=<+*-])")
_Choice = TypeVar("_Choice")


class Place(NamedTuple):
    """A place in a text, from 1."""

    line: int
    column: int


class TextError(Exception):
    """A text that is no sheet: what is wrong, and where."""

    def __init__(self, place: Place, what: str) -> None:
        super().__init__(f"{place.line}:{place.column}: {what}")
        self.place, self.what = place, what


class Token(NamedTuple):
    """A keyword ("key"), word, number, sign or the end, and where it stands."""

    kind: str
    text: str
    place: Place


def tokens(text: str) -> List[Token]:
    """The words, numbers and signs of a text, and its end."""
    found, at, line, start = [], 0, 1, 0
    while at < len(text):
        match = _TOKEN.match(text, at)
        place = Place(line, at - start + 1)
        if match is None:
            raise TextError(place, f"{text[at]!r} is no part of a text")
        if match.lastgroup == "line":
            line, start = line + 1, match.end()
        elif match.lastgroup != "space":
            kind = "key" if match.group() in KEYWORDS else str(match.lastgroup)
            found.append(Token(kind, match.group(), place))
        at = match.end()
    return found + [Token("end", "the end", Place(line, at - start + 1))]


class Tokens:
    """The tokens of a text, of which the next one is looked at or taken."""

    def __init__(self, text: str) -> None:
        self.found, self.at = tokens(text), 0

    @property
    def next(self) -> Token:
        """The next token."""
        return self.found[self.at]

    def take(self) -> Token:
        """Takes the next token; the end is never taken."""
        token = self.next
        self.at += token.kind != "end"
        return token

    def stands(self, *texts: str) -> bool:
        """Whether the next token is one of these keywords or signs."""
        return self.next.kind in ("key", "sign") and self.next.text in texts

    def skip(self, text: str) -> bool:
        """Takes that keyword or sign if it is the next token."""
        stands = self.stands(text)
        self.at += stands
        return stands

    def expect(self, text: str) -> Token:
        """Takes that keyword or sign, which must be the next token."""
        if not self.stands(text):
            raise TextError(self.next.place, f"{text!r} is expected, and not {self.next.text!r}")
        return self.take()

    def one_of(self, what: str, choices: Dict[str, _Choice]) -> _Choice:
        """Takes one of these keywords: what it stands for."""
        if not self.stands(*choices):
            raise TextError(self.next.place, f"{what} is expected, and not {self.next.text!r}")
        return choices[self.take().text]

    def number(self, what: str, most: int) -> Tuple[int, Place]:
        """Takes a number, up to the greatest, and its place."""
        token = self.take()
        if token.kind != "number":
            raise TextError(token.place, f"{what} is expected, and not {token.text!r}")
        if len(token.text) > 4 or int(token.text) > most:
            raise TextError(token.place, f"{what} is at most {most}")
        return int(token.text), token.place
