"""Names of files as they are printed."""
import os
import pathlib
from typing import Union


def shown(path: Union[str, pathlib.Path]) -> str:
    """A path as it is printed: what is no character, or none that can be seen, stands as \\x and figures."""
    return "".join(each if each.isprintable() else _escaped(each) for each in str(path))


def _escaped(character: str) -> str:
    try:
        return "".join(f"\\x{byte:02x}" for byte in os.fsencode(character))
    except UnicodeEncodeError:
        return f"\\u{ord(character):04x}"
