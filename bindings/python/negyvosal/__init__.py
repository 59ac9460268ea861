"""Negyvosal: routines of a small block language, written as sheets, compared by their complete plays.

Each service takes sheets as bytes and returns one of the answers of `negyvosal.answers`; none raises an exception
for what a sheet holds. What is lent to the library (working words, play space) is lent by these functions.

>>> import negyvosal
>>> negyvosal.compare(bytes([1, 0, 16]), bytes([1, 0, 17, 0]))
Apart(sheet=<Which.OLD: 0>, play=b'\\x00\\xff\\x00\\x01\\xff\\x00', ...)

The library is the one that NEGYVOSAL_LIBRARY names, or the one that is installed with this package, or the one that
`tools/library` builds in the repository, or the one that the system finds.
"""
from negyvosal.answers import (Accepted, Apart, Card, Change, Followed, Refused, Renumbered, Same, SoFar, Type, Uses,
                               Which)
from negyvosal.moves import ROUTINE, Move, MoveKind, bytes_of, moves_of
from negyvosal.services import card, check, compare, follow, look, profile, renumber

__all__ = ["Accepted", "Apart", "Card", "Change", "Followed", "Move", "MoveKind", "ROUTINE", "Refused", "Renumbered",
           "Same", "SoFar", "Type", "Uses", "Which", "bytes_of", "card", "check", "compare", "follow", "look",
           "moves_of", "profile", "renumber"]
