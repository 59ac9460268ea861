"""Random sheets that are in order: typed terms over random names, with private variables and procedures."""
import random
from typing import Dict, List, Optional, Tuple

COMMAND, TRUTH, NUMBER, TRUTH_VARIABLE, NUMBER_VARIABLE = range(5)
Things = Dict[int, Tuple[int, Tuple[int, ...]]]


class Maker:
    """Makes sheets from a seed."""

    def __init__(self, seed: int) -> None:
        self.any = random.Random(seed)

    def sheet(self, names: Optional[int] = None, depth: Optional[int] = None) -> bytes:
        """A sheet: heading and term, with so many names and so deep."""
        any = self.any
        self.z = any.choice([1, 1, 2, 7, 31])
        self.taken: List[int] = []
        heading, things = [self.z, any.randrange(3)], {}
        for _ in range(any.randrange(7) if names is None else names):
            id = self.fresh()
            if any.random() < 0.1:
                heading += [2, id]
                continue
            takes = [any.randrange(5) for _ in range(any.choice([0, 0, 0, 1, 1, 2, 4]))]
            result = any.randrange(5)
            heading += [any.choice([1, 1, 3]), id, result, len(takes)] + takes + [255] * (4 - len(takes))
            things[id] = result, tuple(takes)
        return bytes(heading + self.term(any.randrange(5), depth or any.randrange(2, 9), things))

    def fresh(self) -> int:
        """An id that nothing has yet."""
        id = self.any.choice([id for id in range(255) if id not in self.taken])
        self.taken.append(id)
        return id

    def term(self, type: int, depth: int, things: Things) -> List[int]:
        """A term of the type, in which the things may be used."""
        if depth <= 1:
            return self.leaf(type, things)
        form = self.any.choice([self.leaf, self.use, self.own, self.own, self.sequence, self.choice, self.procedure])
        return form(type, things) if form == self.leaf else form(type, depth - 1, things)

    def leaf(self, type: int, things: Things) -> List[int]:
        plain = [id for id, (result, takes) in things.items() if result == type and not takes]
        if plain and self.any.random() < 0.7:
            return [20, self.any.choice(plain)]
        if type == COMMAND and self.any.random() < 0.7:
            return [16]
        if type == TRUTH:
            return [18, self.any.randrange(2)]
        if type == NUMBER:
            return [19, self.any.randint(-self.z, self.z) & 255]
        return [17, type]

    def use(self, type: int, depth: int, things: Things) -> List[int]:
        fitting = [(id, takes) for id, (result, takes) in things.items() if result == type]
        if not fitting:
            return self.leaf(type, things)
        id, takes = self.any.choice(fitting)
        return [20, id] + [byte for taken in takes for byte in self.term(taken, depth, things)]

    def own(self, type: int, depth: int, things: Things) -> List[int]:
        """A form that only this type has."""
        any = self.any
        if type in (TRUTH, NUMBER) and any.random() < 0.3:
            return [21] + self.term(type + 2, depth, things)
        if type == NUMBER:
            return [22, any.randrange(4)] + self.both(NUMBER, depth, things)
        if type == TRUTH:
            operator = any.randrange(4, 9)
            return [22, operator] + self.both(NUMBER if operator < 6 else TRUTH, depth, things)
        if type != COMMAND:
            return self.leaf(type, things)
        form = any.randrange(3)
        if form == 0:
            data = any.choice([TRUTH, NUMBER])
            return [23] + self.term(data + 2, depth, things) + self.term(data, depth, things)
        if form == 1:
            return [26] + self.term(TRUTH, depth, things) + self.term(COMMAND, depth, things)
        id, data = self.fresh(), any.choice([TRUTH, NUMBER])
        return [27, id, data] + self.term(COMMAND, depth, {**things, id: (data + 2, ())})

    def both(self, type: int, depth: int, things: Things) -> List[int]:
        return self.term(type, depth, things) + self.term(type, depth, things)

    def sequence(self, type: int, depth: int, things: Things) -> List[int]:
        return [24] + self.term(COMMAND, depth, things) + self.term(type, depth, things)

    def choice(self, type: int, depth: int, things: Things) -> List[int]:
        return [25] + self.term(TRUTH, depth, things) + self.both(type, depth, things)

    def procedure(self, type: int, depth: int, things: Things) -> List[int]:
        any = self.any
        id, result = self.fresh(), any.randrange(5)
        pairs = [(self.fresh(), any.randrange(5)) for _ in range(any.randrange(4))]
        own = self.term(result, depth, {**things, **{pid: (ptype, ()) for pid, ptype in pairs}})
        rest = self.term(type, depth, {**things, id: (result, tuple(ptype for _, ptype in pairs))})
        body = [byte for pair in pairs for byte in pair] + [255] * (8 - 2 * len(pairs))
        return [28, id, result, len(pairs)] + body + own + rest


def damaged(text: str, any: random.Random) -> str:
    """A text with one or two places changed."""
    for _ in range(any.choice([1, 1, 2])):
        at = any.randrange(len(text) + 1)
        end = min(len(text), at + any.choice([0, 0, 1, 1, 2, 5, 20]))
        piece: Optional[str] = any.choice(["", "", "(", ")", ";", ",", "=", "!", "-", "300", "n7", "if ", " in ", "\n",
                                           "é", "\0", "/", "word 3 x\n", "procedure ", "diverge ", "command "])
        text = text[:at] + piece + text[end:]
    return text
