"""Where files or output fail, where the command is interrupted, and where names of files are odd."""
import contextlib
import csv
import html.parser
import io
import json
import os
import pathlib
import pty
import signal
import subprocess
import unittest.mock
from typing import Any, List, Tuple

from trial import COMMAND, ROOT, expect, run, said, spawned
from years import HANG, SKIP, folders, held

FIRST = ROOT / "examples" / "first" / "old.sheet"


def unread(place: pathlib.Path) -> None:
    """Files that are not there, folders in their place, and one that opens and cannot be read."""
    for path in (place / "none", place, "/proc/self/mem"):
        for words in (["check", path], ["profile", path], ["compare", FIRST, path], ["look", path, FIRST, "--moves", 1],
                      ["follow", path, FIRST], ["follow", FIRST, path], ["part", FIRST, path], ["renumber", path],
                      ["card", path], ["show", path], ["write", path], ["draw", path], ["draw", FIRST, path],
                      ["renumber", FIRST, "-o", path] if path == place else ["year", path, place]):
            run(*words, status=2)
    text = place / "text"
    text.write_bytes(b"\xff\xfe")
    run("write", text, status=2)


def unwritten(place: pathlib.Path) -> None:
    """An output that is full, closed, or read no further; a file that cannot be written."""
    for name in ("show", "card", "renumber", "draw"):
        run(name, FIRST, "-o", place / "none" / "file", status=2)
        run(name, FIRST, "-o", "/dev/full", status=2)
        run(name, FIRST, "-o", place, status=2)
    with unittest.mock.patch("shutil.which", lambda name: None):
        for path in (place / "none" / "file", "/dev/full", place):
            run("draw", FIRST, "-o", path, status=2)
    expect("the device stays", pathlib.Path("/dev/full").is_char_device(), True)
    run("year", place, place, "--report", "/dev/full/report", status=2)
    with open("/dev/full", "wb") as full:
        ended = spawned("check", FIRST, stdout=full)
    expect("output full", (ended.returncode, ended.stderr),
           (2, b"negyvosal: standard output: No space left on device\n"))
    ended = subprocess.run(f"'{COMMAND}' check '{FIRST}' >&-", shell=True, stderr=subprocess.PIPE, check=False)
    expect("output closed", (ended.returncode, ended.stderr), (2, b"negyvosal: standard output: it is closed\n"))
    ended = subprocess.run(f"'{COMMAND}' check '{place}/none' 2>&-", shell=True, stdout=subprocess.PIPE, check=False)
    expect("errors closed", (ended.returncode, ended.stdout), (2, b""))
    ended = subprocess.run(f"'{COMMAND}' check $(yes '{FIRST}' | head -n 4000) | head -n 1", shell=True,
                           capture_output=True, check=False)
    expect("output read no further", (ended.stdout.count(b"\n"), ended.stderr), (1, b""))


def stopped(command: List[Any], after: int) -> Tuple[int, bytes]:
    """Runs a command on a terminal and interrupts it once it has shown so many bytes there: its exit status and what it
    showed."""
    own, its = pty.openpty()
    started = subprocess.Popen(command, stdout=subprocess.DEVNULL, stderr=its, start_new_session=True)
    os.close(its)
    shown, sent = b"", False
    with contextlib.suppress(OSError), open(own, "rb", buffering=0) as terminal:  # the end of a terminal is an error
        while piece := terminal.read(65536):
            shown += piece
            if not sent and len(shown) >= after:
                os.killpg(started.pid, signal.SIGINT)
                sent = True
    return started.wait(timeout=60), shown


def interrupted(place: pathlib.Path) -> None:
    """Interrupted while it runs: a line, no traceback, nothing half written; run again, the report stands there."""
    old, new = folders(place, {f"{number:04}": (SKIP, HANG) for number in range(3000)})
    report = place / "report"
    words = ["year", old, new, "--report", report, "--jobs", "2"]
    for after in (1, 30000, 60000):
        status, shown = stopped([COMMAND, *words], after)
        expect("a bar, and it is told", (b"of 3,000" in shown, shown.endswith(b"negyvosal: interrupted\r\n"), status),
               (True, True, 2))
        expect(f"interrupted: {shown[-2000:].decode()}", b"Traceback" in shown, False)
        expect("no report", sorted(os.listdir(place)), ["last", "this"])
    expect("run again", spawned(*words).returncode, 1)
    expect("and reported", len(json.loads(held(report)["report.json"])["routines"]), 3000)
    expect("interrupted with a report", stopped([COMMAND, *words], 1)[0], 2)
    expect("it stays", len(held(report)), 3)


class Page(html.parser.HTMLParser):
    """The texts of a page, and its tags that are open."""

    def __init__(self) -> None:
        super().__init__()
        self.open, self.texts = [], []

    def handle_starttag(self, tag, attrs):
        if tag not in ("meta", "col"):
            self.open.append(tag)

    def handle_endtag(self, tag):
        expect("tags are closed in turn", self.open.pop(), tag)

    def handle_data(self, data):
        self.texts.append(data)


def no_library(place: pathlib.Path) -> None:
    """A library that is not there."""
    ended = spawned("check", FIRST, env={**os.environ, "NEGYVOSAL_LIBRARY": str(place / "none.so")})
    expect("no library", (ended.returncode, ended.stdout, ended.stderr.count(b"none.so"), ended.stderr.count(b"\n")),
           (2, b"", 1, 1))


def odd_names(place: pathlib.Path) -> None:
    """Names that HTML, CSV, JSON and lines have signs for, and one that is no UTF-8."""
    names = ["a b", "<b>&amp;", "quo\"te'", "comma,", "line\nend", "día", "\x1b[31m", os.fsdecode(b"caf\xe9")]
    shown = ["a b", "<b>&amp;", "quo\"te'", "comma,", "line\\x0aend", "día", "\\x1b[31m", "caf\\xe9"]
    old, new = folders(place, {name: (SKIP, HANG) for name in names})
    report = place / "<report>"
    told = said("year", old, new, "--report", report, status=1)
    expect("names in JSON", sorted(one["name"] for one in told["routines"]), sorted(shown))
    files = {name: content.decode() for name, content in held(report).items()}
    expect("names in the file", json.loads(files["report.json"]), told)
    rows = list(csv.reader(io.StringIO(files["report.csv"])))
    expect("names in CSV", sorted(row[0] for row in rows[1:]), sorted(shown))
    page = Page()
    page.feed(files["index.html"])
    expect("the page is closed", page.open, [])
    expect("names in the page", [name for name in shown if name not in page.texts], [])
    for name in names:
        sheet = old / f"{name}.sheet"
        expect("one line", spawned("check", sheet).stdout.count(b"\n"), 1)
    run("year", old, new, status=1)


def tests(place: pathlib.Path) -> None:
    for test in (unread, unwritten, no_library, interrupted, odd_names):
        inside = place / test.__name__
        inside.mkdir()
        test(inside)
