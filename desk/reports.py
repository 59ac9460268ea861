"""The report of a year: as JSON, as CSV and in lines; and its folder, written whole."""
import csv
import io
import json
import os
import pathlib
import shutil
import tempfile
from typing import Any, Dict, List

from desk.pages import page
from desk.year import Routine, Year

PAGE, DATA, TABLE = "index.html", "report.json", "report.csv"
_COLUMNS = ["routine", "answer", "sheet", "moves", "number", "place", "cause", "old size", "new size"]


def data(year: Year) -> Dict[str, Any]:
    """The report as JSON holds it."""
    return {"old": year.old, "new": year.new, "summary": year.summary(),
            "routines": [{"name": one.name, "answer": one.answer, "size": _sizes(one), **one.detail}
                         for one in year.routines],
            "doubles": year.doubles, "retired": year.retired}


def _sizes(one: Routine) -> Dict[str, Any]:
    return {name: side and side.size for name, side in (("old", one.old), ("new", one.new))}


def table(year: Year) -> str:
    """The report as CSV, a routine a line."""
    text = io.StringIO()
    rows = csv.writer(text, lineterminator="\n")
    rows.writerow(_COLUMNS)
    for one in year.routines:
        told = [one.detail.get(column, "") for column in _COLUMNS[2:7]]
        rows.writerow([one.name, one.answer] + told + ["" if x is None else x for x in _sizes(one).values()])
    return text.getvalue()


def summary(year: Year) -> List[str]:
    """The report in lines: how many have each answer; then what somebody must look at."""
    counts = ", ".join(f"{count:,} {answer}" for answer, count in year.summary().items())
    lines = [f"{len(year.routines):,} routines: {counts}" if year.routines else "no routines"]
    lines += [f"{one.name}: {one.lines[0]}" for one in year.to_look_at()]
    for folder, doubles in year.doubles.items():
        lines += [f"doubles in the {folder} folder: {', '.join(names)}" for names in doubles]
    return lines + [f"retired: {line}" for line in year.retirements()]


def write(year: Year, folder: pathlib.Path) -> None:
    """Writes the report into a folder, whole: beside it first, then in the place of an older report. OSError where that
    fails, and where the folder has other files."""
    folder = folder.resolve()
    if folder.exists() and {path.name for path in folder.iterdir()} - {PAGE, DATA, TABLE}:
        raise FileExistsError(None, "the folder has other files than those of a report", str(folder))
    folder.parent.mkdir(parents=True, exist_ok=True)
    beside = pathlib.Path(tempfile.mkdtemp(prefix=f".{folder.name}.", dir=folder.parent))
    try:
        report = beside / "new"
        report.mkdir()
        (report / PAGE).write_text(page(year), encoding="utf-8")
        (report / DATA).write_text(json.dumps(data(year), ensure_ascii=False, indent=2) + "\n", encoding="utf-8")
        (report / TABLE).write_text(table(year), encoding="utf-8")
        _put(report, folder, beside / "old")
    finally:
        shutil.rmtree(beside)


def _put(report: pathlib.Path, folder: pathlib.Path, older: pathlib.Path) -> None:
    """Puts a report in its place. Where that fails, the older one is there again."""
    if folder.exists():
        os.rename(folder, older)
    try:
        os.rename(report, folder)
    except BaseException:
        if older.exists() and not folder.exists():
            os.rename(older, folder)
        raise
