"""The pairs of tests/vectors: `compare --numbers` prints what they should and what the proved program prints; the play
of those that are apart comes back from its words; where `part` calls two parts the same, the whole sheets are."""
import json
import pathlib
import subprocess
from typing import Any, Dict, List

import negyvosal
from negyvosal import Apart, Refused, Same
from desk import files, parts
from trial import ROOT, called, expect

PROGRAM = ROOT / "crates" / "negyvosal" / "out" / "negyvosal"
LENT = {"words": 16384, "space": 2040}
EACH = 8
"""One pair of so many is given to the program, too."""


def stored(service: str) -> List[Dict[str, Any]]:
    """The cases of a service."""
    found = sorted((ROOT / "tests" / "vectors").glob("*.jsonl"))
    cases = [json.loads(line) for file in found for line in file.read_text(encoding="utf-8").splitlines()]
    return [case for case in cases if case["service"] == service]


def numbers(case: Dict[str, Any], old: pathlib.Path, new: pathlib.Path, also_program: bool) -> None:
    status, printed = called("compare", old, new, "--numbers")
    if all(case[lent] == enough for lent, enough in LENT.items()):
        expect(f"compare --numbers of {case}", printed.decode(), case["expect"])
    expect(f"its status of {case}", status, int(not printed.endswith(b"same\n")))
    if also_program:
        own = subprocess.run([PROGRAM], cwd=old.parent, stdout=subprocess.PIPE, check=True).stdout
        expect(f"what the program prints of {case}", own, printed)


def words(old: pathlib.Path, new: pathlib.Path) -> None:
    first, second = files.read(old), files.read(new)
    answer = negyvosal.compare(first.sheet, second.sheet)
    if isinstance(answer, Apart):
        text = "\n".join(first.plays.lines(answer.play))
        expect(f"the play of {first.sheet.hex()} and {second.sheet.hex()}", first.plays.read(text), answer.play)


def by_part(old: bytes, new: bytes) -> bool:
    """Whether the part tells that two accepted sheets are the same; then they are."""
    differing = parts.differing(old, new)
    if differing is None or not isinstance(negyvosal.compare(differing.old_sheet, differing.new_sheet), Same):
        return False
    expect(f"the wholes of {old.hex()} and {new.hex()}", type(negyvosal.compare(old, new)), Same)
    return True


def tests(place: pathlib.Path) -> None:
    subprocess.run([ROOT / "tools" / "program", "negyvosal"], check=True)
    old, new = place / "old.sheet", place / "new.sheet"
    for number, case in enumerate(stored("compare")):
        old.write_bytes(bytes.fromhex(case["old"]))
        new.write_bytes(bytes.fromhex(case["new"]))
        numbers(case, old, new, number % EACH == 0)
        words(old, new)
    pairs = [[bytes.fromhex(case[name]) for name in ("old", "new")] for case in stored("compare") + stored("parts")]
    judged = [pair for pair in pairs if not any(isinstance(negyvosal.check(sheet), Refused) for sheet in pair)]
    expect("parts that tell", sum(by_part(*pair) for pair in judged) > 20, True)
