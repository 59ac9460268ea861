"""The files of the desk: sheets read, and results written whole or not at all."""
import dataclasses
import functools
import os
import pathlib
import tempfile
from typing import Union

import negyvosal
from negyvosal import Accepted, Refused
from desk import sheets, words
from desk.names import shown
from desk.plays import Plays

MOST_BYTES = 4097
"""As many bytes of a sheet are read as tell that it is too long."""


@dataclasses.dataclass(frozen=True)
class File:
    """A sheet in a file: its bytes, what check answers, and the words of its ids."""

    path: pathlib.Path
    sheet: bytes
    answer: Union[Accepted, Refused]
    words: words.Words

    @property
    def name(self) -> str:
        """Its path as it is printed."""
        return shown(self.path)

    @property
    def accepted(self) -> Accepted:
        """What check answers of a sheet that it accepts."""
        assert isinstance(self.answer, Accepted)
        return self.answer

    @functools.cached_property
    def tree(self) -> sheets.Sheet:
        """The sheet as a tree. It must be accepted."""
        return sheets.read(self.sheet)

    @functools.cached_property
    def plays(self) -> Plays:
        """Its plays in words. It must be accepted."""
        return Plays(self.tree, self.accepted.type, self.words)


def read(path: Union[str, pathlib.Path]) -> File:
    """Reads a sheet and its words. OSError, with the name of the file, or WordError where that fails."""
    place = pathlib.Path(path)
    try:
        with open(place, "rb") as file:
            sheet = file.read(MOST_BYTES)
        return File(place, sheet, negyvosal.check(sheet), words.read(place))
    except OSError as error:
        error.filename = error.filename or str(place)
        raise


def write(path: Union[str, pathlib.Path], content: bytes) -> None:
    """Writes a file whole: beside its place first, and then into it. What is there and is no plain file, as a device,
    is written to as it is."""
    place = pathlib.Path(path).resolve()
    if place.exists() and not place.is_file():
        with open(place, "wb") as file:
            file.write(content)
        return
    handle, beside = tempfile.mkstemp(prefix=f".{place.name}.", dir=place.parent)
    try:
        with open(handle, "wb") as file:
            file.write(content)
        mask = os.umask(0)
        os.umask(mask)
        os.chmod(beside, 0o666 & ~mask)
        os.replace(beside, place)
    except BaseException:
        os.unlink(beside)
        raise
