"""From text to sheets: `write`. docs/NOTATION.md has the grammar.

The text is read into a tree by recursive descent, and the tree is written as bytes; with each byte goes the place in
the text that it comes from, so that what check refuses is told by line and column.
"""
import dataclasses
from typing import Callable, Dict, Iterator, List, Optional, Tuple, TypeVar

import negyvosal
from negyvosal import Type
from desk import refusals
from desk.sheets import MOST_ARGUMENTS, UNUSED, Kind, NameKind, Operator
from desk.show import AND, COMPARISON, OR, PRODUCT, RULES, SIGNS, SUM, TYPES
from desk.tokens import Place, TextError, Tokens
from desk.words import WordError, Words

_Item = TypeVar("_Item")
MOST_DEPTH = 60
"""As deep as a text is read: more than the depth of any sheet, and less than what the stack of Python has room for."""
_RULES = {text: rule for rule, text in RULES.items()}
_DATA = {"truth": Type.TRUTH, "number": Type.NUMBER}
_VARIABLES = {Type.TRUTH: Type.TRUTH_VARIABLE, Type.NUMBER: Type.NUMBER_VARIABLE}
_CONTENTS = {Type.TRUTH_VARIABLE: Type.TRUTH, Type.NUMBER_VARIABLE: Type.NUMBER}
# The operators of each level, by their sign; what = is goes by the type of its left operand.
_LEVELS = [{sign: operator for operator, (sign, own) in reversed(SIGNS.items()) if own == level}
           for level in (OR, AND, COMPARISON, SUM, PRODUCT)]
_NUMBERS = (Operator.PLUS, Operator.MINUS, Operator.TIMES, Operator.REMAINDER)


def not_too_deep(depth: int, place: Place) -> None:
    """Refuses what is nested more deeply than a text is read."""
    if depth > MOST_DEPTH:
        raise TextError(place, "too many terms stand inside each other")


@dataclasses.dataclass
class Node:
    """A term as read: its kind, body and parts, its type, and the places of its kind and of each byte of its body."""

    kind: Kind
    type: Type
    places: List[Place]
    body: List[int] = dataclasses.field(default_factory=list)
    parts: List["Node"] = dataclasses.field(default_factory=list)
    depth: int = 1

    def __post_init__(self) -> None:
        self.depth = 1 + max((part.depth for part in self.parts), default=0)
        not_too_deep(self.depth, self.places[0])

    def bytes(self) -> Iterator[Tuple[int, Place]]:
        """The bytes of the term and where they come from."""
        for at, byte in enumerate([self.kind] + self.body):
            yield byte, self.places[min(at, len(self.places) - 1)]
        for part in self.parts:
            yield from part.bytes()


@dataclasses.dataclass(frozen=True)
class Thing:
    """What an id stands for: its type, and the types of what it takes."""

    type: Type
    takes: Tuple[Type, ...] = ()


Scope = Dict[int, Optional[Thing]]


def write(text: str) -> Tuple[bytes, Words]:
    """The sheet of a text, which check accepts, and its words. TextError where there is none."""
    reader = Reader(text)
    written = reader.sheet()
    sheet, places = bytes(byte for byte, _ in written), [place for _, place in written]
    answer = negyvosal.check(sheet)
    if isinstance(answer, negyvosal.Refused):
        at = answer.place if answer.place < len(places) else -1
        raise TextError(places[at], f"refused {answer.number}: {refusals.cause(answer.number)}")
    return sheet, reader.words


class Reader(Tokens):
    """Reads a text into the bytes of a sheet, each with the place that it comes from."""

    def __init__(self, text: str) -> None:
        super().__init__(text)
        self.words = Words()
        self.depth = 0

    # Names and types.

    def id(self) -> Tuple[int, Place]:
        """A word, as its id."""
        token = self.take()
        if token.kind != "word":
            raise TextError(token.place, f"a word is expected, and not {token.text!r}")
        try:
            return self.words.id(token.text), token.place
        except WordError as error:
            raise TextError(token.place, f"{error}: a line 'word ID {token.text}' gives it one") from None

    def type(self) -> Type:
        """A type."""
        if self.skip("command"):
            return Type.COMMAND
        return self.data(variable=True)

    def data(self, variable: bool = False) -> Type:
        """Truth or number; with `variable` also a variable of it."""
        data = self.one_of("a type" if variable else "'truth' or 'number'", _DATA)
        return _VARIABLES[data] if variable and self.skip("variable") else data

    def separated(self, item: Callable[[], _Item]) -> List[_Item]:
        """Items between parentheses, with commas between them."""
        self.expect("(")
        items: List[_Item] = []
        while not self.skip(")"):
            if items:
                self.expect(",")
            items.append(item())
        return items

    # The heading.

    def sheet(self) -> List[Tuple[int, Place]]:
        """The bytes of the sheet and where they come from."""
        self.expect("range")
        written = [self.number("the range", 127)]
        place = self.expect("overflow").place
        written.append((self.one_of("'stop', 'wrap' or 'infinity'", _RULES), place))
        scope: Scope = {}
        while self.stands("word", "declare", "retire"):
            written += self.heading(scope)
        self.expect("routine")
        term = self.sequence(scope)
        if self.next.kind != "end":
            raise TextError(self.next.place, f"the term has ended: {self.next.text!r} is not expected")
        return written + list(term.bytes())

    def heading(self, scope: Scope) -> List[Tuple[int, Place]]:
        """A line of the heading: the bytes of a name record, or none where it gives a word."""
        key = self.take()
        if key.text == "word":
            id, _ = self.number("an id", 254)
            word = self.take()
            try:
                self.words.give(id, word.text)
            except WordError as error:
                raise TextError(word.place, str(error)) from None
            return []
        if key.text == "retire":
            id, place = self.id()
            scope.setdefault(id, None)
            return [(NameKind.RETIRE, key.place), (id, place)]
        kind = NameKind.DECLARE_ONCE if self.skip("once") else NameKind.DECLARE
        result = self.type()
        id, place = self.id()
        takes = self.separated(self.type) if self.stands("(") else []
        if len(takes) > MOST_ARGUMENTS:
            raise TextError(place, f"a name takes at most {MOST_ARGUMENTS} arguments")
        scope.setdefault(id, Thing(result, tuple(takes)))
        record = [id, result, len(takes)] + takes + [UNUSED] * (MOST_ARGUMENTS - len(takes))
        return [(kind, key.place)] + [(byte, place) for byte in record]

    # The term.

    def sequence(self, scope: Scope) -> Node:
        """Statements with ; between them, taken from right to left."""
        statements, places = [self.statement(scope)], []
        while self.stands(";"):
            places.append(self.take().place)
            statements.append(self.statement(scope))
        rest = statements.pop()
        for first, place in zip(reversed(statements), reversed(places)):
            rest = Node(Kind.SEQUENCE, rest.type, [place], parts=[first, rest])
        return rest

    def statement(self, scope: Scope) -> Node:
        """A form that begins with a keyword, or an assignment, or an operation."""
        self.depth += 1
        not_too_deep(self.depth, self.next.place)
        forms = {"if": self.choice, "while": self.loop, "new": self.block, "procedure": self.procedure}
        node = forms[self.next.text](scope) if self.stands(*forms) else self.assignment(scope)
        self.depth -= 1
        return node

    def choice(self, scope: Scope) -> Node:
        """if, then, else."""
        place = self.take().place
        test = self.statement(scope)
        self.expect("then")
        yes = self.statement(scope)
        self.expect("else")
        return Node(Kind.IF, yes.type, [place], parts=[test, yes, self.statement(scope)])

    def loop(self, scope: Scope) -> Node:
        """while, do."""
        place = self.take().place
        test = self.statement(scope)
        self.expect("do")
        return Node(Kind.WHILE, Type.COMMAND, [place], parts=[test, self.statement(scope)])

    def block(self, scope: Scope) -> Node:
        """new: a private variable and the statement that it is private to."""
        place = self.take().place
        data = self.data()
        id, at = self.id()
        self.expect("in")
        inside = self.statement({**scope, id: Thing(_VARIABLES[data])})
        return Node(Kind.NEW, Type.COMMAND, [place, at, place], [id, data], [inside])

    def procedure(self, scope: Scope) -> Node:
        """A procedure: its parameters, its own term, and the statement in which it may be used."""
        place = self.take().place
        result = self.type()
        id, at = self.id()
        pairs = self.separated(lambda: (self.type(), self.id()))
        if len(pairs) > MOST_ARGUMENTS:
            raise TextError(at, f"a procedure takes at most {MOST_ARGUMENTS} parameters")
        self.expect("=")
        own = self.statement({**scope, **{parameter: Thing(type) for type, (parameter, _) in pairs}})
        self.expect("in")
        rest = self.statement({**scope, id: Thing(result, tuple(type for type, _ in pairs))})
        body, places = [id, result, len(pairs)], [place, at, at, at]
        for type, (parameter, where) in pairs:
            body, places = body + [parameter, type], places + [where, where]
        body += [UNUSED] * (2 * (MOST_ARGUMENTS - len(pairs)))
        return Node(Kind.PROCEDURE, rest.type, places + [at], body, [own, rest])

    def assignment(self, scope: Scope) -> Node:
        """An operation, or one to which something is assigned."""
        left = self.operation(scope, 0)
        if not self.stands(":="):
            return left
        place = self.take().place
        return Node(Kind.ASSIGN, Type.COMMAND, [place], parts=[left, self.statement(scope)])

    def operation(self, scope: Scope, level: int) -> Node:
        """Operators that bind as closely as this level or more; those of one level from left to right."""
        if level == len(_LEVELS):
            return self.fetch(scope)
        left = self.operation(scope, level + 1)
        while self.stands(*_LEVELS[level]):
            token = self.take()
            operator = _LEVELS[level][token.text]
            if operator is Operator.EQUAL:
                operator = self.equal(left, token.place)
            result = Type.NUMBER if operator in _NUMBERS else Type.TRUTH
            left = Node(Kind.OPERATE, result, [token.place], [operator], [left, self.operation(scope, level + 1)])
            if operator in (Operator.EQUAL, Operator.EQUAL_TRUTHS, Operator.LESS) and self.stands(*_LEVELS[level]):
                raise TextError(self.next.place, "one of two comparisons beside each other needs parentheses")
        return left

    def equal(self, left: Node, place: Place) -> Operator:
        """Which of the two operators = is, by the type of its left operand."""
        if left.type is Type.NUMBER:
            return Operator.EQUAL
        if left.type is Type.TRUTH:
            return Operator.EQUAL_TRUTHS
        fetched = ": its value is had by !" if left.type in _CONTENTS else ""
        raise TextError(place, f"= compares numbers or truths, and no {TYPES[left.type]}{fetched}")

    def fetch(self, scope: Scope) -> Node:
        """The value of a variable, or a plain term."""
        if not self.stands("!"):
            return self.plain(scope)
        place = self.take().place
        self.depth += 1
        not_too_deep(self.depth, place)
        part = self.fetch(scope)
        self.depth -= 1
        return Node(Kind.FETCH, _CONTENTS.get(part.type, part.type), [place], parts=[part])

    def plain(self, scope: Scope) -> Node:
        """A term without operators around it."""
        token = self.next
        if token.kind == "word":
            return self.use(scope)
        if token.kind == "number" or self.stands("-"):
            return self.constant()
        self.take()
        if token.text == "(" and token.kind == "sign":
            inside = self.sequence(scope)
            self.expect(")")
            return inside
        if token.kind == "key" and token.text == "skip":
            return Node(Kind.SKIP, Type.COMMAND, [token.place])
        if token.kind == "key" and token.text in ("true", "false"):
            return Node(Kind.TRUTH, Type.TRUTH, [token.place], [int(token.text == "true")])
        if token.kind == "key" and token.text == "diverge":
            type = self.type() if self.stands("command", *_DATA) else Type.COMMAND
            return Node(Kind.DIVERGE, type, [token.place], [type])
        raise TextError(token.place, f"a term is expected, and not {token.text!r}")

    def constant(self) -> Node:
        """A number, with its sign."""
        place = self.next.place
        sign = -1 if self.skip("-") else 1
        value, _ = self.number("a number", 127)
        return Node(Kind.NUMBER, Type.NUMBER, [place], [sign * value & 255])

    def use(self, scope: Scope) -> Node:
        """A name, a private variable, a procedure or a parameter, with its arguments."""
        id, place = self.id()
        word = self.words.word(id)
        if id not in scope:
            raise TextError(place, f"{word} is not declared, and nothing around it is called so")
        thing = scope[id]
        if thing is None:
            raise TextError(place, f"{word} is retired")
        given = self.separated(lambda: self.statement(scope)) if self.stands("(") else []
        if len(given) != len(thing.takes):
            raise TextError(place, f"{word} takes {len(thing.takes)} arguments, and not {len(given)}")
        return Node(Kind.USE, thing.type, [place, place], [id], given)
