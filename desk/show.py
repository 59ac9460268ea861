"""From sheets to text: `show`. docs/NOTATION.md has the grammar."""
from typing import Dict, List

from negyvosal import Type
from desk.sheets import Kind, Name, NameKind, Operator, Rule, Sheet, Term
from desk.words import Words

WIDTH = 100
INDENT = 2

TYPES = {Type.COMMAND: "command", Type.TRUTH: "truth", Type.NUMBER: "number", Type.TRUTH_VARIABLE: "truth variable",
         Type.NUMBER_VARIABLE: "number variable"}
RULES = {Rule.STOP: "stop", Rule.WRAP: "wrap", Rule.INFINITY: "infinity"}

# How closely a form binds: a part that binds less closely than its place asks for stands in parentheses.
SEQUENCE, STATEMENT, OR, AND, COMPARISON, SUM, PRODUCT, FETCH, PLAIN = range(9)
SIGNS = {Operator.PLUS: ("+", SUM), Operator.MINUS: ("-", SUM), Operator.TIMES: ("*", PRODUCT),
         Operator.REMAINDER: ("remainder", PRODUCT), Operator.EQUAL: ("=", COMPARISON),
         Operator.LESS: ("<", COMPARISON), Operator.AND: ("and", AND), Operator.OR: ("or", OR),
         Operator.EQUAL_TRUTHS: ("=", COMPARISON)}
_BINDING = {Kind.SEQUENCE: SEQUENCE, Kind.ASSIGN: STATEMENT, Kind.IF: STATEMENT, Kind.WHILE: STATEMENT,
            Kind.NEW: STATEMENT, Kind.PROCEDURE: STATEMENT, Kind.FETCH: FETCH}


def binding(term: Term) -> int:
    """How closely the form of a term binds."""
    if term.kind is Kind.OPERATE:
        return SIGNS[Operator(term.body[0])][1]
    return _BINDING.get(term.kind, PLAIN)


def show(sheet: Sheet, words: Words, width: int = WIDTH) -> str:
    """The text of a sheet, with the words of its ids, in lines of at most that width where they go that narrow."""
    lines = [f"range {sheet.z}", f"overflow {RULES[sheet.rule]}"]
    ids = {name.id for name in sheet.names} | {id for term in sheet.term.everything() for id in term.ids()}
    lines += [f"word {id} {words.by_id[id]}" for id in sorted(ids) if id in words.by_id]
    lines += [_name(name, words) for name in sheet.names]
    return "\n".join(lines + ["", "routine"] + Shown(words).lines(sheet.term, SEQUENCE, width)) + "\n"


def _name(name: Name, words: Words) -> str:
    if name.kind is NameKind.RETIRE:
        return f"retire {words.word(name.id)}"
    often = "declare once" if name.kind is NameKind.DECLARE_ONCE else "declare"
    arguments = f"({', '.join(TYPES[type] for type in name.arguments)})" if name.arguments else ""
    return f"{often} {TYPES[name.result]} {words.word(name.id)}{arguments}"


def _indented(lines: List[str]) -> List[str]:
    return [" " * INDENT + line for line in lines]


def _before(prefix: str, lines: List[str]) -> List[str]:
    return [prefix + lines[0]] + [" " * len(prefix) + line for line in lines[1:]]


def _after(lines: List[str], suffix: str) -> List[str]:
    return lines[:-1] + [lines[-1] + suffix]


class Shown:
    """Terms as text, by the words of ids."""

    def __init__(self, words: Words) -> None:
        self.word = words.word
        self.kept: Dict[int, str] = {}

    def flat(self, term: Term, level: int) -> str:
        """The term in one line, in parentheses where it binds less closely than its place asks for."""
        if term.place not in self.kept:
            self.kept[term.place] = self._flat(term)
        text = self.kept[term.place]
        return text if binding(term) >= level else f"({text})"

    def _flat(self, term: Term) -> str:
        head = self.head(term)
        if term.kind in (Kind.SKIP, Kind.DIVERGE, Kind.TRUTH, Kind.NUMBER):
            return head
        parts = [self.flat(part, level) for part, level in zip(term.parts, levels(term))]
        if term.kind is Kind.USE:
            return f"{head}({', '.join(parts)})" if parts else head
        if term.kind is Kind.FETCH:
            return f"!{parts[0]}"
        if term.kind is Kind.SEQUENCE:
            return f"{parts[0]}; {parts[1]}"
        if term.kind is Kind.IF:
            return f"if {parts[0]} then {parts[1]} else {parts[2]}"
        if term.kind is Kind.WHILE:
            return f"while {parts[0]} do {parts[1]}"
        if term.kind is Kind.NEW:
            return f"{head} {parts[0]}"
        if term.kind is Kind.PROCEDURE:
            return f"{head} {parts[0]} in {parts[1]}"
        return f"{parts[0]} {head} {parts[1]}"

    def head(self, term: Term) -> str:
        """What a record says before or between its parts."""
        body = term.body
        if term.kind is Kind.SKIP:
            return "skip"
        if term.kind is Kind.DIVERGE:
            return f"diverge {TYPES[Type(body[0])]}" if body[0] else "diverge"
        if term.kind is Kind.TRUTH:
            return "true" if body[0] else "false"
        if term.kind is Kind.NUMBER:
            return str((body[0] ^ 128) - 128)
        if term.kind is Kind.USE:
            return self.word(body[0])
        if term.kind is Kind.OPERATE:
            return SIGNS[Operator(body[0])][0]
        if term.kind is Kind.ASSIGN:
            return ":="
        if term.kind is Kind.NEW:
            return f"new {TYPES[Type(body[1])]} {self.word(body[0])} in"
        if term.kind is not Kind.PROCEDURE:
            return ""
        parameters = ", ".join(f"{TYPES[type]} {self.word(id)}" for id, type in term.parameters)
        return f"procedure {TYPES[Type(body[1])]} {self.word(body[0])}({parameters}) ="

    def lines(self, term: Term, level: int, width: int) -> List[str]:
        """The term in lines of at most that width, where they go that narrow."""
        text = self.flat(term, level)
        if len(text) <= width or not term.parts:
            return [text]
        if binding(term) < level:
            return _after(_before("(", self.broken(term, width - 1)), ")")
        return self.broken(term, width)

    def broken(self, term: Term, width: int) -> List[str]:
        """The term with its parts in lines of their own."""
        inner = width - INDENT
        head = self.head(term)
        first, *rest = term.parts
        own, *others = levels(term)
        if term.kind is Kind.USE:
            shown = [self.lines(part, STATEMENT, inner) for part in term.parts]
            listed = [line for lines in shown[:-1] for line in _after(lines, ",")] + shown[-1]
            return [f"{head}("] + _indented(listed) + [")"]
        if term.kind is Kind.FETCH:
            return _before("!", self.lines(first, own, width - 1))
        if term.kind is Kind.SEQUENCE:
            after = self.broken if rest[0].kind is Kind.SEQUENCE else self.statement
            return _after(self.lines(first, own, width - 1), ";") + after(rest[0], width)
        if term.kind is Kind.IF:
            return self.choice(term, width)
        if term.kind is Kind.WHILE:
            return _after(_before("while ", self.lines(first, own, width - 9)), " do") \
                + _indented(self.lines(rest[0], others[0], inner))
        if term.kind is Kind.NEW:
            return [head] + _indented(self.lines(first, own, inner))
        if term.kind is Kind.PROCEDURE:
            return [head] + _indented(self.lines(first, own, inner)) + ["in"] \
                + _indented(self.lines(rest[0], others[0], inner))
        if term.kind is Kind.ASSIGN:
            return _after(self.lines(first, own, width - 3), " :=") + _indented(self.lines(rest[0], others[0], inner))
        sign = f"{head} "
        return self.lines(first, own, width) + _before(sign, self.lines(rest[0], others[0], width - len(sign)))

    def statement(self, term: Term, width: int) -> List[str]:
        """The term as a statement."""
        return self.lines(term, STATEMENT, width)

    def choice(self, term: Term, width: int) -> List[str]:
        """An if, and the ifs that stand after its else."""
        test, yes, no = term.parts
        lines = _after(_before("if ", self.lines(test, STATEMENT, width - 8)), " then") \
            + _indented(self.lines(yes, STATEMENT, width - INDENT))
        if no.kind is Kind.IF:
            after = self.choice(no, width)
            return lines + [f"else {after[0]}"] + after[1:]
        return lines + ["else"] + _indented(self.lines(no, STATEMENT, width - INDENT))


def levels(term: Term) -> List[int]:
    """How closely each part of a term must bind to stand without parentheses."""
    if term.kind is Kind.OPERATE:
        own = binding(term)
        return [own + 1, own + 1] if own == COMPARISON else [own, own + 1]
    if term.kind is Kind.FETCH:
        return [FETCH]
    if term.kind is Kind.ASSIGN:
        return [OR, STATEMENT]
    if term.kind is Kind.SEQUENCE:
        return [STATEMENT, SEQUENCE]
    return [STATEMENT] * len(term.parts)
