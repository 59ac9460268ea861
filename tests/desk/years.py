"""`year` on sheets that are the same, apart, refused, double, retired and missing: twice in a row the same report."""
import json
import os
import pathlib

from trial import expect, run, said

SKIP, HANG, TWICE, RETIRE = bytes([1, 0, 16]), bytes([1, 0, 17, 0]), bytes([1, 0, 24, 16, 16]), bytes([1, 0, 2, 9, 16])
ROUTINES = {"same": (SKIP, SKIP), "apart": (SKIP, HANG), "refused": (SKIP, SKIP + SKIP), "gone": (HANG, None),
            "come": (None, TWICE), "retires": (RETIRE, RETIRE), "torn": (SKIP[:2], None)}


def folders(place: pathlib.Path, routines):
    """Two folders with the sheets of the routines."""
    made = place / "last", place / "this"
    for at, folder in enumerate(made):
        folder.mkdir()
        for name, sheets in routines.items():
            if sheets[at] is not None:
                (folder / f"{name}.sheet").write_bytes(sheets[at])
    return made


def held(report: pathlib.Path):
    """The files of a report."""
    return {path.name: path.read_bytes() for path in report.iterdir()}


def reported(old: pathlib.Path, new: pathlib.Path, place: pathlib.Path) -> None:
    report = place / "deep" / "report"
    told = said("year", old, new, "--report", report, "--jobs", 2, status=1)
    expect("summary", told["summary"], {"same": 2, "apart": 1, "refused": 2, "only in old": 1, "only in new": 1})
    expect("doubles", told["doubles"], {"old": [["apart", "refused", "same"]], "new": [["come", "same"]]})
    expect("retired", told["retired"], [{"id": 9, "word": "n9", "retired": ["retires"], "declared": []}])
    first = held(report)
    expect("files", sorted(first), ["index.html", "report.csv", "report.json"])
    expect("the report in JSON", json.loads(first["report.json"]), told)
    expect("the report in CSV", first["report.csv"].decode().splitlines()[:2],
           ["routine,answer,sheet,moves,number,place,cause,old size,new size", "apart,apart,old,2,,,,4,4"])
    expect("the page", [first["index.html"].count(text.encode()) for text in ("<section", "http", "src=")], [1, 0, 0])
    run("year", old, new, "--report", report, "--jobs", 1, status=1)
    expect("the same report again", held(report), first)
    expect("nothing left beside it", os.listdir(report.parent), ["report"])
    (report / "other").write_bytes(b"")
    run("year", old, new, "--report", report, status=2)
    run("year", old, new, "--report", old / "same.sheet", status=2)


def told(old: pathlib.Path, new: pathlib.Path) -> None:
    expect("in lines", run("year", old, new, status=1), """7 routines: 2 same, 1 apart, 2 refused, 1 only in old, \
1 only in new
apart: apart: only the old routine has this play of 2 moves
come: only in new
gone: only in old
refused: new sheet refused 10 at byte 3: bytes follow after the term
torn: old sheet refused 2 at byte 2: the sheet ends where a byte is needed
doubles in the old folder: apart, refused, same
doubles in the new folder: come, same
retired: n9 (id 9) in retires
""")
    expect("a look", said("year", old, new, "--moves", 1, status=1)["summary"]["same so far"], 3)
    run("year", old, old.parent / "nowhere", status=2)
    run("year", old, new / "same.sheet", status=2)
    run("year", old, new, "--jobs", 0, status=2)
    (old / "torn.sheet").unlink()
    expect("the same folder", run("year", old, old).splitlines()[0], "5 routines: 5 same")
    (new / "folder.sheet").mkdir()
    (new / "same.words").write_text("1 if\n", encoding="utf-8")
    unread = said("year", old, new, status=2)
    expect("not read", [one["name"] for one in unread["routines"] if one["answer"] == "not read"], ["folder", "same"])


def tests(place: pathlib.Path) -> None:
    old, new = folders(place, ROUTINES)
    reported(old, new, place)
    told(old, new)
