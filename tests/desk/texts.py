"""show and write: every sheet comes back byte for byte; what is no text of a sheet is an error with a place."""
import json
import pathlib
import random
from typing import List

import negyvosal
import random_sheets
from desk import sheets, show, write
from desk.tokens import TextError
from desk.words import Words
from trial import ROOT, expect, run, said

HEAD = "range 1\noverflow stop\nroutine\n"


def stored() -> List[bytes]:
    """The sheets of tests/vectors that check accepts, once each."""
    seen = set()
    for file in sorted((ROOT / "tests" / "vectors").glob("*.jsonl")):
        for line in file.read_text(encoding="utf-8").splitlines():
            case = json.loads(line)
            seen |= {case[key] for key in ("sheet", "old", "new") if isinstance(case.get(key), str)}
    found = [bytes.fromhex(text) for text in sorted(seen)]
    return [sheet for sheet in found if isinstance(negyvosal.check(sheet), negyvosal.Accepted)]


def made(count: int) -> List[bytes]:
    """So many random sheets that check accepts."""
    found, seed = [], 0
    while len(found) < count:
        seed += 1
        sheet = random_sheets.Maker(seed).sheet()
        if isinstance(negyvosal.check(sheet), negyvosal.Accepted):
            found.append(sheet)
    return found


def worded(sheet: bytes, any: random.Random) -> Words:
    """Words for some of the ids of a sheet."""
    words = Words()
    tree = sheets.read(sheet)
    ids = {id for term in tree.term.everything() for id in term.ids()} | {name.id for name in tree.names}
    for id in sorted(ids):
        if any.random() < 0.5:
            words.give(id, any.choice(["page", "día", "x_", "N", "nn"]) + "abc"[:any.randrange(3)] + f"_{id}")
    return words


def round_trips(every: List[bytes]) -> None:
    """Shown and written again each sheet is the same, byte for byte, and its words are."""
    any = random.Random(1)
    for sheet in every:
        words = worded(sheet, any)
        written, read = write.write(show.show(sheets.read(sheet), words, any.choice([20, 60, 100, 100])))
        expect(f"write of show of {sheet.hex()}", written, sheet)
        expect(f"the words of {sheet.hex()}", read.by_id, words.by_id)


def manual() -> None:
    """The text that docs/NOTATION.md begins with is that of its sheet."""
    text = (ROOT / "docs" / "NOTATION.md").read_text(encoding="utf-8").split("```")[1].lstrip("\n")
    sheet, words = write.write(text)
    expect("the text of docs/NOTATION.md", show.show(sheets.read(sheet), words), text)


def judged(text: str) -> None:
    """A text is a sheet, or an error with a place inside it, and nothing else."""
    try:
        written = write.write(text)[0]
        expect("an accepted sheet", isinstance(negyvosal.check(written), negyvosal.Accepted), True)
    except TextError as error:
        lines, (line, column) = text.split("\n"), error.place
        inside = 1 <= line <= len(lines) and 1 <= column <= len(lines[line - 1]) + 1
        expect(f"the place of {error} in {text!r}", inside, True)


def damages(every: List[bytes], count: int) -> None:
    """Texts of sheets, damaged; and texts that go deep, far or nowhere."""
    any = random.Random(2)
    for _ in range(count):
        judged(random_sheets.damaged(show.show(sheets.read(any.choice(every)), Words()), any))
    for piece in ("(", "!", "-", "if ", "while ", "new number n1 in ", "n1(", "skip; ", "1 + ", "1 = ", "true and ",
                  "procedure command n1() = ", "if true then skip else ", "9"):
        for times in (1, 30, 70, 3000):
            judged(HEAD + piece * times)
            judged(HEAD + piece * times + "skip" + ")" * times)
    for text in ("", "\n", "range", "range 99", "range 1 overflow", HEAD, HEAD + "é", HEAD + "\r\nskip\0",
                 HEAD + "x" * 9999, "range 1\noverflow stop\n" + "retire n1\n" * 40 + "routine skip"):
        judged(text)


def commands(place: pathlib.Path) -> None:
    """Texts and words in files, and errors with their place."""
    sheet, text, words = (place / f"bells.{kind}" for kind in ("sheet", "txt", "words"))
    sheet.write_bytes((ROOT / "examples" / "cards" / "bells.sheet").read_bytes())
    words.write_text("10 evening # a note\n\n13 ring\n", encoding="utf-8")
    expect("show into a file", run("show", sheet, "-o", text), "")
    expect("show", run("show", sheet), text.read_text(encoding="utf-8"))
    expect("words in a text", "while evening do ring" in said("show", sheet)["text"], True)
    run("write", text, "-o", place / "again.sheet")
    expect("written", (place / "again.sheet").read_bytes(), sheet.read_bytes())
    expect("words written", (place / "again.words").read_text(encoding="utf-8"), "10 evening\n13 ring\n")
    expect("written in JSON", bytes.fromhex(said("write", text)["sheet"]), sheet.read_bytes())
    text.write_text(HEAD + "\tskip; n7\n", encoding="utf-8")
    expect("an error", run("write", text, status=1), f"{text}:4:8: n7 is not declared, and nothing around it is called "
           "so\n   skip; n7\n         ^\n")
    expect("an error in JSON", said("write", text, status=1)["column"], 8)
    for wrong, what in (("10 if", ":1: 'if' is no word for an id"), ("1 a\n2 a", ":2: a is the word of id 1 already"),
                        ("300 a", ":1: ids are from 0 to 254"), ("1 n2", ":1: n2 is the word of another id"),
                        ("1 a b", ":1: a line has an id and its word"), ("9" * 9999 + " a", ":1: a line has")):
        words.write_text(wrong, encoding="utf-8")
        run("show", sheet, status=2)
    words.write_bytes(b"\xff")
    run("check", sheet, status=2)


def tests(place: pathlib.Path) -> None:
    every, random_ones = stored(), made(5000)
    round_trips(every)
    round_trips(random_ones)
    manual()
    damages(every + random_ones, 5000)
    commands(place)
