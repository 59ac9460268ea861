"""Each subcommand on examples: what it prints, as text and as JSON, its help, and its exit status."""
import pathlib
import unittest.mock

from desk.command import parser
from trial import ROOT, expect, run, said

EXAMPLES = ROOT / "examples"
FIRST, SAINTS, BREAKS, WHOLE = ([EXAMPLES / folder / f"{name}.sheet" for name in ("old", "new")]
                                for folder in ("first", "saints", "page-break/kind-1", "part/whole"))
BELLS, TORN, WIDE = (EXAMPLES / "cards" / f"{name}.sheet" for name in ("bells", "torn", "ink-wide"))
HIDING = EXAMPLES / "hiding" / "reading.sheet"


def judging(place: pathlib.Path) -> None:
    expect("check", run("check", FIRST[0]), f"{FIRST[0]}: command, size 4 of 4,096; uses no names\n")
    expect("check with names", run("check", BELLS),
           f"{BELLS}: command, size 7 of 4,096; uses n10, n13; not used: n11, n12\n")
    refused = f"{TORN}: refused 2 at byte 36: the sheet ends where a byte is needed\n" \
        "  bytes 30..: 255 255 255 255 24 16 (the end)\n                                    ^\n"
    expect("check refused", run("check", TORN, status=1), refused)
    expect("check in JSON", [one["answer"] for one in said("check", FIRST[0], TORN, status=1)], ["accepted", "refused"])
    expect("one that cannot be read", run("check", place / "none.sheet", TORN, place, status=2), refused)
    quiet = place / "quiet.sheet"
    quiet.write_bytes(bytes([1, 0, 25, 24, 16, 18, 1, 16, 16]))
    expect("profile", said("profile", FIRST[0])[0]["size"], 4)
    expect("profile refused", said("profile", quiet, status=1)[0]["number"], 18)
    expect("check is no profile", said("check", quiet)[0]["answer"], "accepted")


def comparing(place: pathlib.Path) -> None:
    expect("compare", run("compare", *FIRST, status=1),
           "apart: only the old routine has this play of 2 moves\n  run\n  done\n")
    expect("compare of the same", run("compare", *SAINTS), "same: the two routines have the same complete plays\n")
    expect("compare in JSON", said("compare", *FIRST, status=1)["play"][1],
           {"text": "done", "kind": 1, "id": 255, "argument": 0})
    expect("compare in numbers", run("compare", *FIRST, "--numbers", status=1),
           "old 4 new 4\nuses 0 of 0 and 0 of 0\napart in old 2\n0 255 0\n1 255 0\n")
    expect("compare refused", said("compare", TORN, BELLS, status=1)["sheet"], "old")
    expect("compare of two headings", run("compare", BELLS, WIDE, status=1),
           "refused 12: the headings or the types of the two sheets differ\n")
    expect("look", said("look", *BREAKS, "--moves", 4), {
        "old": str(BREAKS[0]), "new": str(BREAKS[1]), "answer": "same so far", "looked": 4})
    expect("look in words", run("look", *BREAKS, "--moves", 4), "same so far: no play of at most 4 moves tells the two "
           "routines apart; to be sure look through 46\n")
    expect("look further", said("look", *BREAKS, "--moves", 16, status=1)["moves"], 16)
    expect("look through all", run("look", *SAINTS, "--moves", 10**30),
           "same: the two routines have the same complete plays\n")
    for words in ([], ["--moves", -1], ["--moves", "many"]):
        run("look", *BREAKS, *words, status=2)


def parts(place: pathlib.Path) -> None:
    expect("part", run("part", *WHOLE), """the sheets differ in one part
  old, bytes 166 to 177:
    if !n30 = false then n13 else n12
  new, bytes 166 to 173:
    if !n30 then n12 else n13
same, and therefore the whole: the two parts have the same complete plays (theorem parts-compared)
""")
    expect("part in JSON", said("part", *WHOLE)["by"], "parts-compared")
    expect("part that is apart", run("part", *FIRST, status=1).splitlines()[-3:],
           ["apart: only the old routine has this play of 2 moves", "  run", "  done"])
    expect("part of equal sheets", said("part", BELLS, BELLS)["part"], None)
    expect("part of two headings", said("part", BELLS, WIDE, status=1)["number"], 12)


def following(place: pathlib.Path) -> None:
    play = place / "play"
    play.write_text(run("compare", *BREAKS, status=1), encoding="utf-8")
    expect("follow", run("follow", BREAKS[0], play), "complete: the routine has this play of 16 moves\n")
    expect("follow the other", run("follow", BREAKS[1], play, status=1),
           "not complete: the routine makes 9 of 16 moves, and then cannot go on with 'run n12'\n")
    play.write_bytes(bytes([0, 255, 0, 1, 255, 0]))
    expect("follow records", said("follow", FIRST[0], play)["answer"], "complete")
    play.write_bytes(bytes([0, 255, 0]))
    expect("follow a beginning", run("follow", FIRST[0], play, status=1),
           "not complete: the routine begins with this play of 1 move, and does not end there\n")
    play.write_bytes(bytes([0, 255]))
    expect("follow half a record", run("follow", FIRST[0], play, status=1),
           f"{play}: refused 15 at byte 0: the play has a record of an unknown kind, or ends inside one\n")
    expect("half a record in JSON", said("follow", FIRST[0], play, status=1)["number"], 15)
    play.write_bytes(b"")
    expect("follow nothing", said("follow", FIRST[0], play, status=1)["count"], 0)
    for text in ("run to", "jump", "value from n10", "run 3 n10", "value 999 from n10", "run unknown", "\xff", "é"):
        play.write_text(text, encoding="latin-1")
        run("follow", FIRST[0], play, status=2)


def making(place: pathlib.Path) -> None:
    expect("renumber", run("renumber", HIDING, "-o", place / "renumbered.sheet"),
           f"{HIDING}: 2 changes\n  byte 17: n1 becomes n0\n  byte 36: n2 becomes n3\n")
    expect("renumbered", said("check", place / "renumbered.sheet")[0]["answer"], "accepted")
    expect("renumber in JSON", len(said("renumber", HIDING)["changes"]), 2)
    expect("renumber refused", said("renumber", TORN, status=1)["number"], 2)
    expect("card", run("card", BELLS), f"{BELLS}: card 2ec8637f946b79b9, 93 bytes, 7 positions, 7 moves\n")
    expect("one card", said("card", BELLS)["card"], said("card", BELLS.with_name("bells-slowly.sheet"))["card"])
    run("card", BELLS, "-o", place / "card")
    expect("the card in a file", (place / "card").read_bytes().hex(), said("card", BELLS)["card"])


def drawing(place: pathlib.Path) -> None:
    drawn = run("draw", BELLS)
    expect("draw", ('4 -> 6 [label="run n13"];' in drawn, drawn.count("doublecircle")), (True, 1))
    expect("draw in JSON", said("draw", BELLS)["dot"], drawn)
    run("draw", BELLS, "-o", place / "bells.dot")
    expect("draw into a file", (place / "bells.dot").read_text(encoding="utf-8"), drawn)
    with unittest.mock.patch("shutil.which", lambda name: None):
        expect("draw without Graphviz", run("draw", BELLS, "-o", place / "table.svg"), "")
    expect("its DOT text", (place / "table.dot").read_text(encoding="utf-8"), drawn)
    parted = run("draw", *BREAKS, status=1)
    expect("draw a difference", ['label="only old:\\nrun n12", style=bold' in parted, "only new:\\n" in parted],
           [True, True])
    expect("no difference", run("draw", BELLS, BELLS), "same: there is no difference to draw\n")
    expect("no difference in JSON", said("draw", BELLS, BELLS), {"answer": "same"})
    expect("draw of two headings", said("draw", BELLS, WIDE, status=1)["number"], 12)


def refused(place: pathlib.Path) -> None:
    """Where a sheet must be in order, one that is refused is told in words."""
    for command in (["show"], ["card"], ["draw"], ["part", BELLS], ["draw", BELLS]):
        expect(f"{command} refused", run(*command, TORN, status=1).splitlines()[0],
               f"{TORN}: refused 2 at byte 36: the sheet ends where a byte is needed")
        expect(f"{command} refused in JSON", said(*command, TORN, status=1)["number"], 2)


def helps(place: pathlib.Path) -> None:
    """Every subcommand has help, and --json."""
    commands = list(parser()._subparsers._group_actions[0].choices)
    expect("subcommands", commands, ["check", "profile", "compare", "look", "follow", "part", "renumber", "card",
                                     "show", "write", "draw", "year"])
    expect("help", all(f"    {name} " in run("--help") for name in commands), True)
    for name in commands:
        expect(f"help of {name}", "--json" in run(name, "--help"), True)
    for words in ([], ["unknown"], ["check"], ["compare", BELLS], ["compare", BELLS, BELLS, BELLS]):
        run(*words, status=2)


def tests(place: pathlib.Path) -> None:
    for test in (judging, comparing, parts, following, making, drawing, refused, helps):
        test(place)
