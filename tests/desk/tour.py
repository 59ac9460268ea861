"""The commands that documents show after '$ ', in blocks without a tag, print what stands under them."""
import pathlib
import subprocess
from typing import Iterator, Tuple

from trial import ROOT, expect

DOCUMENTS = ["README.md", "examples/years/README.md"]


def shown(text: str) -> Iterator[Tuple[str, str]]:
    """Each command of a document and what it prints."""
    for block in text.split("\n```")[1::2]:
        if not block.startswith("\n$ "):
            continue
        for piece in ("\n" + block.strip("\n")).split("\n$ ")[1:]:
            command, _, printed = piece.partition("\n")
            yield command, printed + "\n"


def tests(place: pathlib.Path) -> None:
    for document in DOCUMENTS:
        for command, printed in shown((ROOT / document).read_text(encoding="utf-8")):
            ended = subprocess.run(command, shell=True, cwd=ROOT, capture_output=True, text=True, check=False)
            expect(f"{document}: {command}: {ended.stderr}", ended.stdout, printed)
