"""check and profile."""
import argparse
import sys
from typing import Any, Dict, List, Tuple

import negyvosal
from negyvosal import Refused
from desk import answers, telling
from desk.files import File
from desk.telling import APART, SAME, TROUBLE

_SERVICES = {"check": negyvosal.check, "profile": negyvosal.profile}


def check(options: argparse.Namespace) -> int:
    """One line for each sheet; a refusal has the bytes around it under it."""
    status, all_told = SAME, []
    for path in options.files:
        try:
            file = telling.read(path)
        except telling.Trouble as error:
            print(f"negyvosal: {error}", file=sys.stderr)
            status = TROUBLE
            continue
        own, lines, told = judged(options.command, file)
        status = max(status, own)
        all_told.append({"file": file.name, **told})
        if not options.json:
            telling.lines(lines)
    if options.json:
        telling.as_json(all_told)
    return status


def judged(service: str, file: File) -> Tuple[int, List[str], Dict[str, Any]]:
    """What a service says of one sheet: the status, the lines, and what JSON holds."""
    answer = _SERVICES[service](file.sheet)
    if isinstance(answer, Refused):
        return APART, answers.refusal(answer, file, file), answers.refused_json(answer)
    return SAME, [f"{file.name}: {answers.accepted(file)}"], answers.accepted_json(file)
