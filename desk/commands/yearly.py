"""year."""
import argparse
import pathlib
import sys

from desk import reports, telling, year as years
from desk.telling import APART, SAME, TROUBLE


def year(options: argparse.Namespace) -> int:
    """Every routine with last year's of its name."""
    folders = pathlib.Path(options.old_folder), pathlib.Path(options.new_folder)
    try:
        found = years.compare(*folders, options.jobs, options.moves)
        if options.report:
            reports.write(found, pathlib.Path(options.report))
    except OSError as error:
        raise telling.trouble(error.filename or options.report, error) from None
    if options.json:
        telling.as_json(reports.data(found))
    else:
        telling.lines(reports.summary(found))
    unread = [routine.detail["error"] for routine in found.routines if routine.answer == years.UNREAD]
    for what in unread:
        print(f"negyvosal: {what}", file=sys.stderr)
    if unread:
        return TROUBLE
    return SAME if set(found.summary()) <= set(years.QUIET) else APART
