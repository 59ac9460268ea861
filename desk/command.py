"""The command line: the subcommands with their options, and what any of them may end with."""
import argparse
import importlib
import io
import os
import signal
import sys
from typing import Callable, List

from desk import telling
from desk.telling import APART, TROUBLE

ABOUT = "Routines of the block language compared by their complete plays, over the proved library. The exit status " \
    "is 0 where there is nothing to report, 1 where something is apart or refused, 2 where there is trouble."


def _at_least(least: int) -> Callable[[str], int]:
    """The type of an option that is a number from there on."""
    def number(text: str) -> int:
        if int(text) < least:
            raise ValueError
        return int(text)
    return number


class Line:
    """The command line as it is put together. A subcommand's module is imported where it runs, and no other."""

    def __init__(self) -> None:
        self.top = argparse.ArgumentParser(prog="negyvosal", description=ABOUT)
        self.commands = self.top.add_subparsers(dest="command", metavar="COMMAND", required=True)

    def command(self, run: str, text: str, *arguments: str, name: str = "") -> argparse.ArgumentParser:
        """A subcommand with its arguments; `run` is its module and function, by whose name it is called."""
        module, function = run.split(".")
        one = self.commands.add_parser(name or function, help=text, description=text[0].upper() + text[1:] + ".")
        one.set_defaults(module=module, function=function)
        for argument in arguments:
            one.add_argument(argument.lower(), metavar=argument)
        one.add_argument("--json", action="store_true", help="print the answer as JSON")
        return one

    def output(self, run: str, text: str, takes: str, makes: str, what: str) -> argparse.ArgumentParser:
        """A subcommand that makes one file of another."""
        one = self.command(run, text, takes)
        one.add_argument("-o", dest="output", metavar=makes, help=f"where {what} is written")
        return one


def parser() -> argparse.ArgumentParser:
    """The command line, with help for each subcommand."""
    line = Line()
    for name, text in (("check", "judge sheets: type, size and names used, or the refusal"),
                       ("profile", "the same, and that expressions have no side effects")):
        line.command("judging.check", text, name=name).add_argument("files", nargs="+", metavar="FILE")
    one = line.command("comparing.compare", "whether two routines have the same plays, or the first that only one has",
                       "OLD", "NEW")
    one.add_argument("--numbers", action="store_true", help="print what document 01's program prints")
    one = line.command("comparing.look", "the same by plays of at most so many moves", "OLD", "NEW")
    one.add_argument("--moves", type=_at_least(0), required=True, metavar="L", help="the greatest number of moves")
    line.command("comparing.follow", "how far a play goes in a routine; the play as compare prints it, or its records",
                 "SHEET", "PLAY")
    line.command("comparing.part", "compare by the one part in which two sheets differ, where that tells", "OLD", "NEW")
    line.output("making.renumber", "give ids of their own to what hides another, by the earlier rule", "SHEET", "NEW",
                "the sheet renumbered")
    line.output("making.card", "the card of a routine: the smallest table of its plays", "SHEET", "CARD", "the card")
    line.output("making.show", "a sheet as text", "SHEET", "TEXT", "the text")
    line.output("making.write", "a text as a sheet", "TEXT", "SHEET", "the sheet, and its words beside it,")
    one = line.output("drawing.draw", "a picture of a routine, or of the first difference of two", "SHEET", "FILE.svg",
                      "the picture")
    one.add_argument("other", nargs="?", metavar="NEW")
    _year(line)
    return line.top


def _year(line: Line) -> None:
    one = line.command("yearly.year", "compare each routine of a folder with last year's of its name", "OLD_FOLDER",
                       "NEW_FOLDER")
    one.add_argument("--report", metavar="FOLDER", help="where a page, a JSON and a CSV file are written")
    one.add_argument("--jobs", type=_at_least(1), default=os.cpu_count() or 1, metavar="N", help="how many at once")
    one.add_argument("--moves", type=_at_least(0), metavar="L", help="look through plays of at most L moves only")


def run(options: argparse.Namespace) -> int:
    """Runs a subcommand; its exit status. A sheet that it needs in order and that is refused is told."""
    command = getattr(importlib.import_module(f"desk.commands.{options.module}"), options.function)
    try:
        return command(options)
    except telling.NotAccepted as error:
        from desk import answers
        if options.json:
            telling.as_json({"file": error.file.name, **answers.refused_json(error.refused)})
        else:
            telling.lines(answers.refusal(error.refused, error.file, error.file))
        return APART


def printed(options: argparse.Namespace) -> int:
    """The same, with all that it prints printed. OSError where that fails."""
    if isinstance(sys.stdout, io.TextIOWrapper):
        sys.stdout.reconfigure(encoding="utf-8", errors="backslashreplace")
    status = run(options)
    sys.stdout.flush()
    return status


def main(words: List[str], library: Callable[[], bool] = lambda: True) -> int:
    """Runs the command; its exit status. `library` sees to the library before it is called, or tells why not."""
    sys.stderr = sys.stderr or open(os.devnull, "w", encoding="utf-8")
    options = parser().parse_args(words)
    if sys.stdout is None:
        return _told("standard output: it is closed")
    if not library():
        return TROUBLE
    signal.signal(signal.SIGINT, signal.default_int_handler)
    try:
        return printed(options)
    except (telling.Trouble, ImportError) as error:
        return _told(str(error))
    except KeyboardInterrupt:
        return _told("interrupted")
    except BrokenPipeError:
        _unheard()
        return TROUBLE
    except OSError as error:
        _unheard()
        return _told(f"standard output: {error.strerror}")


def _told(what: str) -> int:
    """Says what the trouble is."""
    print(f"negyvosal: {what}", file=sys.stderr)
    return TROUBLE


def _unheard() -> None:
    """What was not printed is not tried again."""
    os.dup2(os.open(os.devnull, os.O_WRONLY), sys.stdout.fileno())
