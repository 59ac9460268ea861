"""The compiled library: where it is, and what its boundary looks like (include/negyvosal.h)."""
import ctypes
import os
import pathlib

WORDS = 11
"""How many words an answer has."""
REFUSED, ACCEPTED, FOLLOWS, SAME, APART, RENUMBERED, SO_FAR, CARD = range(8)
"""The kinds of answers, word 0."""
OLD_USES, NEW_USES = 5, 8
"""Where the words stand that tell which names a sheet uses: mark, used, unused."""
NO_RECORD = 32
"""What `unused` is where every declared name is used."""
LIST, CHANGE = 1020, 4
"""The bytes of the list that renumber needs, and how many a change has."""
FEW_NUMBERS = 7
"""The greatest Z for which the smaller figures of memory hold."""
MOST_MOVES = 2**64 - 1
"""The greatest number of moves of a look."""

_NAME = "libnegyvosal.so.1"
_BYTES = [ctypes.c_void_p, ctypes.c_size_t]
_SIGNATURES = {
    "check": 1 * _BYTES, "profile": 1 * _BYTES, "follow": 3 * _BYTES, "compare": 4 * _BYTES,
    "look": 2 * _BYTES + [ctypes.c_uint64] + 2 * _BYTES, "renumber": 3 * _BYTES, "card": 3 * _BYTES,
}


def state_words(z: int) -> int:
    """The working words for each position counted."""
    return 32 if z <= FEW_NUMBERS else 128


def card_bytes(z: int, size: int) -> int:
    """The bytes of card space for a sheet of that size."""
    return (128 if z <= FEW_NUMBERS else 512) * size


def play_bytes(sizes: int) -> int:
    """The bytes of play space for two sheets whose sizes add up to that."""
    return 4 * (sizes - 1)


def place() -> str:
    """Where the library is: where NEGYVOSAL_LIBRARY says; else as installed, or in the repository; else where the system
    looks for libraries."""
    root = pathlib.Path(__file__).resolve().parents[3]
    there = [path for path in (root / "lib" / _NAME, root / "target" / "library" / _NAME) if path.exists()]
    return os.environ.get("NEGYVOSAL_LIBRARY") or str(there[0] if there else _NAME)


def load() -> ctypes.CDLL:
    """The library, its functions with their types. ImportError where there is none."""
    try:
        library = ctypes.CDLL(place())
    except OSError as error:
        raise ImportError(str(error)) from None
    for service, lent in _SIGNATURES.items():
        function = getattr(library, f"negyvosal_{service}")
        function.argtypes, function.restype = lent + _BYTES, ctypes.c_uint32
    return library
