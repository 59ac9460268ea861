"""The services: each lends the library what it asks for and takes its answer apart."""
import ctypes
import functools
import threading
from typing import Any, Optional, Tuple, Union

from negyvosal import library as boundary
from negyvosal.answers import (Accepted, Apart, Card, Change, Followed, Refused, Renumbered, Same, SoFar, Type, Uses,
                               Which)

_Words = ctypes.c_uint32 * boundary.WORDS
_library = functools.lru_cache(maxsize=None)(boundary.load)
_lent = threading.local()
_Answer = Any
"""The words of an answer, a ctypes array of them."""


def _memory(name: str, unit: Any, length: int) -> Any:
    """Elements to be lent, kept from call to call in each thread: working words are 0 again after every call."""
    kept = getattr(_lent, name, None)
    if kept is None or len(kept) < length:
        kept = (unit * max(length, 1))()
        setattr(_lent, name, kept)
    return kept


def _call(service: str, *lent: Any) -> _Answer:
    """Calls a service; the words of its answer."""
    out = _Words()
    told = getattr(_library(), f"negyvosal_{service}")(*lent, out, boundary.WORDS)
    assert told == 1
    return out


def _sheet(sheet: bytes) -> Tuple[Any, int]:
    """A sheet as it is lent: any bytes, of which the library reads no more than their number."""
    return ctypes.cast(ctypes.c_char_p(bytes(sheet)), ctypes.c_void_p), len(sheet)


def _whole(out: _Answer, at: int) -> int:
    """A number in two words, the low half first."""
    return out[at] | out[at + 1] << 32


def _refused(out: _Answer) -> Refused:
    return Refused(out[1], Which(out[2]), _whole(out, 3))


def _uses(out: _Answer, at: int) -> Uses:
    mark, used, unused = out[at:at + 3]
    return Uses(mark, used, None if unused == boundary.NO_RECORD else unused)


def _checked(service: str, sheet: bytes) -> Union[Accepted, Refused]:
    out = _call(service, *_sheet(sheet))
    if out[0] == boundary.REFUSED:
        return _refused(out)
    return Accepted(Type(out[1]), out[2], _uses(out, boundary.OLD_USES))


def check(sheet: bytes) -> Union[Accepted, Refused]:
    """Whether a sheet is in order: its type and size, and which names it uses."""
    return _checked("check", sheet)


def profile(sheet: bytes) -> Union[Accepted, Refused]:
    """The same of a sheet whose expressions have no side effects; else it is refused by 18."""
    return _checked("profile", sheet)


def _words(sheet: bytes, size: int) -> Tuple[Any, int]:
    """Working words for that size and one position more."""
    count = boundary.state_words(sheet[0]) * (size + 1)
    return _memory("words", ctypes.c_uint32, count), count


def _asked(old: bytes, new: bytes) -> Tuple[int, int]:
    """How many working words and bytes of play space two sheets ask for; none where one of them is refused."""
    first, second = check(old), check(new)
    if isinstance(first, Refused) or isinstance(second, Refused):
        return 0, 0
    sizes = first.size + second.size
    return boundary.state_words(old[0]) * (sizes + 1), boundary.play_bytes(sizes)


def follow(sheet: bytes, play: bytes) -> Union[Followed, Refused]:
    """How far a play, as the records of its moves, is one of the sheet's."""
    judged = check(sheet)
    if isinstance(judged, Refused):
        return judged
    out = _call("follow", *_sheet(sheet), *_sheet(play), *_words(sheet, judged.size))
    if out[0] == boundary.REFUSED:
        return _refused(out)
    return Followed(_whole(out, 2), out[1] == 1)


def _search(service: str, old: bytes, new: bytes, *limit: int, lent: Optional[Tuple[int, int]] = None
            ) -> Union[Same, Apart, SoFar, Refused]:
    """What compare or look answers, with so many words and bytes lent, or just what the sizes of the sheets ask for."""
    count, room = lent or _asked(old, new)
    space = _memory("play", ctypes.c_uint8, room)
    words = _memory("words", ctypes.c_uint32, count)
    out = _call(service, *_sheet(old), *_sheet(new), *limit, words, count, space, room)
    if out[0] == boundary.REFUSED:
        return _refused(out)
    uses = _uses(out, boundary.OLD_USES), _uses(out, boundary.NEW_USES)
    moves = _whole(out, 2)
    if out[0] == boundary.APART:
        return Apart(Which(out[1]), _play(space, moves), moves, *uses)
    if out[0] == boundary.SO_FAR:
        return SoFar(moves, *uses)
    return Same(*uses, looked=moves if limit else None)


def _play(space: Any, moves: int) -> bytes:
    """The records of so many moves at the start of play space."""
    at = 0
    for _ in range(moves):
        at += 4 if space[at] >= 5 else 3
    return bytes(space[:at])


def compare(old: bytes, new: bytes, lent: Optional[Tuple[int, int]] = None) -> Union[Same, Apart, Refused]:
    """Whether two sheets have the same complete plays; else the first play that only one of them has.

    `lent`: how many working words and bytes of play space are lent, in place of what the sheets ask for.
    """
    answer = _search("compare", old, new, lent=lent)
    assert not isinstance(answer, SoFar)
    return answer


def look(old: bytes, new: bytes, moves: int) -> Union[Same, Apart, SoFar, Refused]:
    """The same by plays of at most so many moves."""
    return _search("look", old, new, min(moves, boundary.MOST_MOVES))


def card(sheet: bytes) -> Union[Card, Refused]:
    """The card of a sheet: the smallest table of positions that has exactly its complete plays."""
    judged = check(sheet)
    if isinstance(judged, Refused):
        return judged
    room = boundary.card_bytes(sheet[0], judged.size)
    space = _memory("card", ctypes.c_uint8, room)
    out = _call("card", *_sheet(sheet), *_words(sheet, judged.size), space, room)
    if out[0] == boundary.REFUSED:
        return _refused(out)
    return Card(bytes(memoryview(space)[:_whole(out, 2)]))


def renumber(sheet: bytes) -> Union[Renumbered, Refused]:
    """A sheet of the earlier rule with ids of their own for what hid another."""
    output = (ctypes.c_uint8 * max(len(sheet), 1))()
    changes = (ctypes.c_uint8 * boundary.LIST)()
    out = _call("renumber", *_sheet(sheet), output, len(sheet), changes, boundary.LIST)
    if out[0] == boundary.REFUSED:
        return _refused(out)
    listed = [bytes(changes[at:at + boundary.CHANGE]) for at in range(0, boundary.CHANGE * out[1], boundary.CHANGE)]
    return Renumbered(bytes(output[:len(sheet)]), tuple(Change(a | b << 8, old, new) for a, b, old, new in listed))
