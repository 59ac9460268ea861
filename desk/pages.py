"""The report of a year as one page that needs nothing else: readable without colour, and printed on A4."""
import difflib
import html
from typing import Iterator, List, Tuple

from desk.year import APART, ONLY_NEW, ONLY_OLD, QUIET, REFUSED, SAME, SO_FAR, UNREAD, Routine, Year

_SIGNS = {SAME: "=", SO_FAR: "≈", APART: "≠", REFUSED: "✕", ONLY_OLD: "−", ONLY_NEW: "+", UNREAD: "!"}
_STYLE = """
@page { size: A4; margin: 15mm }
body { font: 10.5pt/1.45 "DejaVu Sans", Verdana, sans-serif; color: #111; background: #fff; max-width: 190mm;
  margin: 0 auto; padding: 6mm }
h1 { font-size: 17pt; margin: 0 0 1mm } h2 { font-size: 12.5pt; margin: 6mm 0 1.5mm } p { margin: 1mm 0 3mm }
table { border-collapse: collapse; width: 100% }
th, td { text-align: left; vertical-align: top; padding: 1.2mm 2mm; border-bottom: .5pt solid #999 }
table.counts { width: auto } table.counts td.number { text-align: right }
td.sign { width: 6mm; text-align: center; font-weight: bold }
td.name { width: 40mm; font-weight: bold; overflow-wrap: anywhere }
section { border-top: 1.5pt solid #111; margin-top: 7mm } section h2 { margin-top: 2mm }
table.sides { table-layout: fixed; margin: 2mm 0 3mm } .sides col.mark { width: 5mm }
.sides th { border-bottom: 1pt solid #111; padding: .5mm 1mm }
.sides td { border: 0; padding: .2mm 1mm } .sides td.mark { text-align: center; font-weight: bold }
.sides td, pre { font: 8pt/1.4 "DejaVu Sans Mono", monospace; white-space: pre-wrap; overflow-wrap: anywhere }
.sides tr.other td { background: #eee; font-weight: bold }
.sides tr { height: 3.9mm }
pre { margin: 1mm 0; padding: 2mm 3mm; border: .5pt solid #999; border-left: 2pt solid #111 }
a { color: inherit }
ul { margin: 1mm 0; padding-left: 6mm }
@media print { body { padding: 0 } h2, p.found { break-after: avoid } tr { break-inside: avoid }
  pre { orphans: 4; widows: 4 } a { text-decoration: none } }
"""


def page(year: Year) -> str:
    """The page."""
    title = f"{html.escape(year.new)} beside {html.escape(year.old)}"
    quiet = ", ".join(one.name for one in year.routines if one.answer in QUIET)
    doubles = [f"{', '.join(names)} (in the {folder} folder)" for folder, all in year.doubles.items() for names in all]
    body = [_counts(year), _to_look_at(year), _list("Doubles: one routine by several names", doubles),
            _list("Retired ids", year.retirements()), _list("The same as before", [quiet] if quiet else []),
            *(_apart(one) for one in year.routines if one.answer == APART)]
    return f"""<!DOCTYPE html>
<html lang="en">
<head>
<meta charset="utf-8">
<meta name="viewport" content="width=device-width">
<title>{title}</title>
<style>{_STYLE}</style>
</head>
<body>
<h1>{title}</h1>
<p>{len(year.routines):,} routines, compared by their complete plays.</p>
{"".join(body)}</body>
</html>
"""


def _counts(year: Year) -> str:
    """How many routines have each answer."""
    rows = "".join(f"<tr><td class=sign>{_SIGNS[answer]}</td><td>{answer}</td><td class=number>{count:,}</td></tr>\n"
                   for answer, count in year.summary().items())
    return f"<table class=counts>\n{rows}</table>\n"


def _to_look_at(year: Year) -> str:
    """A line for each routine that somebody must look at."""
    rows = "".join(f"<tr><td class=sign>{_SIGNS[one.answer]}</td><td class=name>{_linked(one)}</td>"
                   f"<td>{html.escape(one.lines[0])}</td></tr>\n" for one in year.to_look_at())
    return f"<h2>To look at</h2>\n<table>\n{rows}</table>\n" if rows else ""


def _linked(one: Routine) -> str:
    name = html.escape(one.name)
    return f'<a href="#{_anchor(one)}">{name}</a>' if one.answer == APART else name


def _anchor(one: Routine) -> str:
    """The place of a routine in the page: its name, in signs that are the same in an address."""
    return "routine-" + one.name.encode("utf-8").hex()


def _list(title: str, items: List[str]) -> str:
    rows = "".join(f"<li>{html.escape(item)}</li>\n" for item in items)
    return f"<h2>{title}</h2>\n<ul>\n{rows}</ul>\n" if items else ""


def _apart(one: Routine) -> str:
    """The section of a routine that is apart: both texts beside each other, and the play."""
    assert one.old is not None and one.new is not None
    rows = "".join(
        f"<tr{' class=other' if differ else ''}><td class=mark>{'≠' if differ else ''}</td>"
        f"<td>{html.escape(old)}</td><td>{html.escape(new)}</td></tr>\n"
        for differ, old, new in _rows(one.old.text, one.new.text))
    play = html.escape("\n".join(line[2:] for line in one.lines[1:]))
    return f"""<section id="{_anchor(one)}">
<h2>{html.escape(one.name)}</h2>
<table class=sides><col class=mark><col><col>
<tr><th></th><th>old</th><th>new</th></tr>
{rows}</table>
<p class=found>{html.escape(one.lines[0][0].upper() + one.lines[0][1:])}:</p>
<pre>{play}</pre>
</section>
"""


def _rows(old: str, new: str) -> Iterator[Tuple[bool, str, str]]:
    """The lines of two texts beside each other, and whether they differ."""
    a, b = old.rstrip().split("\n"), new.rstrip().split("\n")
    for tag, i, i2, j, j2 in difflib.SequenceMatcher(None, a, b, autojunk=False).get_opcodes():
        for k in range(max(i2 - i, j2 - j)):
            yield tag != "equal", a[i + k] if i + k < i2 else "", b[j + k] if j + k < j2 else ""
