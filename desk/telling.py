"""What the subcommands share: exit statuses, files read and written or told to be trouble, and what they print."""
import json
import pathlib
import sys
from typing import Any, List, Optional

from negyvosal import Refused
from desk import files
from desk.names import shown
from desk.words import WordError

SAME, APART, TROUBLE = 0, 1, 2
"""The exit statuses, as those of diff: nothing to report; something apart or refused; trouble."""


class Trouble(Exception):
    """What keeps a subcommand from answering, in a line."""


class NotAccepted(Exception):
    """A sheet that is refused where one in order is needed."""

    def __init__(self, file: files.File, refused: Refused) -> None:
        super().__init__()
        self.file, self.refused = file, refused


def trouble(path: str, error: OSError) -> Trouble:
    """The trouble with a file."""
    return Trouble(f"{shown(path)}: {error.strerror or error}")


def read(path: str) -> files.File:
    """A sheet and its words."""
    try:
        return files.read(path)
    except OSError as error:
        raise trouble(error.filename, error) from None
    except WordError as error:
        raise Trouble(str(error)) from None


def accepted(path: str) -> files.File:
    """A sheet that is in order; one that is refused is told, and ends the command."""
    file = read(path)
    if isinstance(file.answer, Refused):
        raise NotAccepted(file, file.answer)
    return file


def content(path: str) -> bytes:
    """The bytes of a file."""
    try:
        return pathlib.Path(path).read_bytes()
    except OSError as error:
        raise trouble(path, error) from None


def text(path: str) -> str:
    """The text of a file."""
    try:
        return content(path).decode("utf-8")
    except UnicodeDecodeError:
        raise Trouble(f"{shown(path)}: it is not text in UTF-8") from None


def write(path: str, result: bytes) -> None:
    """Writes a file whole."""
    try:
        files.write(path, result)
    except OSError as error:
        raise trouble(path, error) from None


def out(path: Optional[str], result: bytes) -> None:
    """A result, into its file or to standard output."""
    if path:
        write(path, result)
    else:
        sys.stdout.buffer.write(result)


def lines(said: List[str]) -> None:
    """Prints lines."""
    sys.stdout.write("".join(line + "\n" for line in said))


def as_json(value: Any) -> None:
    """Prints a value as JSON."""
    lines([json.dumps(value, ensure_ascii=False, indent=2)])


def count(number: int, of: str) -> str:
    """So many of something: '1 move', '1,024 moves'."""
    return f"{number:,} {of}{'' if number == 1 else 's'}"
