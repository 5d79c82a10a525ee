#!/usr/bin/env python3
"""A second reader of the rules: slow.py MODEL STREAM [--complete] prints the report that
docs/REPORT.md asks for, with --complete by the second filling, and no search.

It follows docs/LANGUAGE.md, BUILTINS.md, STREAM.md, FILLING.md and REPORT.md in the plainest way,
shares nothing with the checker, and serves to work out reports. Its table of builtins is that of
python/fzcheck/fuzz/rows.py. It leaves out the limits on the
lengths of texts and lists. Sets are listed number by number, and large ones are not for it
(TooLargeToList)."""
import io
import os
import re
import sys
from functools import partial
from typing import (
    Any, Callable, Dict, FrozenSet, Iterator, List, NoReturn, Optional, Tuple, TypeVar, Union)

HERE = os.path.dirname(os.path.abspath(__file__))
sys.path.insert(0, os.path.join(HERE, os.pardir, os.pardir, "python"))
from fzcheck.fuzz.rows import EITHER, FORMS, OTHER_TESTS, RESULTS, TESTS
from fzcheck.fuzz.rows import NotKnown, Row, row_named, same, total, where

# What the tests take from here that import this module.
__all__ = ["EITHER", "FORMS", "OTHER_TESTS", "RESULTS", "TESTS", "NotKnown", "Row", "total", "where"]

TOKEN = re.compile(
    rb"(?P<blank>[ \t\r\n]+|%[^\n]*)|(?P<word>[A-Za-z_][A-Za-z0-9_]*)"
    rb"|(?P<float>-?[0-9]+(?:\.[0-9]+(?:[eE][+-]?[0-9]+)?|[eE][+-]?[0-9]+))"
    rb"|(?P<whole>-?(?:0x[0-9A-Fa-f]+|0o[0-7]+|[0-9]+))"
    rb'|(?P<string>"(?:[^"\\\n]|\\[^\n])*")|(?P<mark>::|\.\.|[()\[\]{},;:=])'
)
RESERVED = set(
    "predicate array of var bool int float set constraint solve satisfy minimize maximize true false".split()
)
CLAIMS = {"=" * 10} | {"=====" + w + "=====" for w in "UNSATISFIABLE UNKNOWN UNBOUNDED UNSATorUNBOUNDED ERROR".split()}
LEAST, MOST = -(2**63), 2**63 - 1
MOST_SIZE, MOST_LEVELS, MOST_INDEXES = 1_048_576, 32, 6
MOST_LISTED = 1_000_000

T = TypeVar("T")
Value = Any  # a number, a Boolean, or a frozen set
Bounds = Union[None, range, FrozenSet[int]]
Term = Tuple[str, Any]  # ("var", number) or ("fixed", value)
Argument = Union[Term, List[Term]]
Note = Tuple[str, List[Any]]
Point = Tuple[str, str, Any, Any]
Constraint = Tuple[str, Optional[Row], List[Argument], Optional[Term]]
Step = Optional[Tuple[int, Value]]  # a variable and its value


class Refused(Exception):
    """What is refused (model, stream, block N), the fault's name and its place."""

    def __init__(self, what: str, name: str, start: int, end: int) -> None:
        super().__init__(f"refused: {what}: {name} at {start}..{end}")
        self.what, self.name, self.start, self.end = what, name, start, end


class TooLargeToList(Exception):
    """A set has more numbers than are listed here."""


class Token:
    def __init__(self, sort: str, text: str, start: int, end: int, value: int = 0) -> None:
        self.sort, self.text, self.start, self.end, self.value = sort, text, start, end, value


def number_of(text: str) -> int:
    sign, digits = (-1, text[1:]) if text.startswith("-") else (1, text)
    base = {"0x": 16, "0o": 8}.get(digits[:2], 10)
    return sign * int(digits[2:] if base != 10 else digits, base)


def tokens_of(source: bytes, what: str) -> List[Token]:
    at = 0
    tokens: List[Token] = []
    while at < len(source):
        found = TOKEN.match(source, at)
        if not found:
            raise Refused(what, "BadByte", at, at + 1)
        sort, text, end = found.lastgroup or "", found[0].decode("latin-1"), found.end()
        value = number_of(text) if sort == "whole" else 0
        if not LEAST <= value <= MOST:
            raise Refused(what, "TooLarge", at, end)
        if sort == "word":
            sort = text if text in RESERVED else "name"
        if sort == "mark":
            sort = text
        if sort != "blank":
            tokens.append(Token(sort, text, at, end, value))
        at = end
    tokens.append(Token("end", "", len(source), len(source)))
    return tokens


class Literal:
    def __init__(self, kind: str, raw: Any, start: int, end: int) -> None:
        self.kind, self.raw, self.start, self.end = kind, raw, start, end

    @property
    def value(self) -> Value:
        if not isinstance(self.raw, range):
            return self.raw
        if self.raw.stop - self.raw.start > MOST_LISTED:
            raise TooLargeToList
        return frozenset(self.raw)


Basic = Union[Token, Literal]
Item = Tuple[Token, Union[Literal, List[Literal]]]
Declaration = Tuple[bool, Optional[int], str, Bounds, Token, Any]
Posted = Tuple[str, List[Any], List[Note]]


class Reader:
    """Reads the grammar; a method for each of its rules."""

    def __init__(self, source: bytes, what: str) -> None:
        self.what, self.tokens, self.at = what, tokens_of(source, what), 0

    @property
    def next(self) -> Token:
        return self.tokens[self.at]

    def fail(self) -> NoReturn:
        t = self.next
        raise Refused(self.what, "Float" if t.sort == "float" else "Syntax", t.start, t.end)

    def take(self, *sorts: str) -> Token:
        if self.next.sort not in sorts:
            self.fail()
        self.at += 1
        return self.tokens[self.at - 1]

    def has(self, sort: str) -> bool:
        if self.next.sort == sort:
            self.at += 1
            return True
        return False

    def some(self, one: Callable[[], T], close: str) -> List[T]:
        """One or more with commas between them, or none before the closing mark."""
        items = []
        if self.next.sort != close:
            items.append(one())
            while self.has(","):
                items.append(one())
        self.take(close)
        return items

    def literal(self) -> Literal:
        t = self.take("whole", "true", "false", "{")
        if t.sort == "{":
            numbers = self.some(lambda: self.take("whole").value, "}")
            return Literal("S", frozenset(numbers), t.start, self.tokens[self.at - 1].end)
        if t.sort != "whole":
            return Literal("B", t.sort == "true", t.start, t.end)
        if not self.has(".."):
            return Literal("I", t.value, t.start, t.end)
        high = self.take("whole")
        return Literal("S", range(t.value, high.value + 1), t.start, high.end)

    def basic(self) -> Basic:
        return self.take("name") if self.next.sort == "name" else self.literal()

    def arg(self) -> Union[Basic, List[Basic]]:
        return self.some(self.basic, "]") if self.has("[") else self.basic()

    def bounds(self) -> Bounds:
        if self.has("int"):
            return None
        if self.next.sort not in ("whole", "{"):
            self.fail()
        found = self.literal()
        if found.kind == "I":
            self.fail()
        bounds: Bounds = found.raw
        return bounds

    def base(self) -> Tuple[str, Bounds]:
        if self.has("bool"):
            return "B", None
        if self.has("set"):
            self.take("of")
            return "S", self.bounds()
        return "I", self.bounds()

    def plain(self) -> str:
        sort = self.take("bool", "int", "set").sort
        if sort == "set":
            self.take("of")
            self.take("int")
        return {"bool": "B", "int": "I", "set": "S"}[sort]

    def size(self) -> int:
        if self.next.sort != "whole" or self.next.value != 1:
            self.fail()
        self.at += 1
        self.take("..")
        if self.next.sort != "whole" or self.next.value < 0:
            self.fail()
        if self.next.value > MOST_SIZE:
            raise Refused(self.what, "TooMany", self.next.start, self.next.end)
        return self.take("whole").value

    def predicate(self) -> None:
        self.take("name")
        self.take("(")
        self.some(self.parameter, ")")
        self.take(";")

    def parameter(self) -> None:
        if self.has("array"):
            self.take("[")
            self.index_set()
            count = 1
            while self.has(","):
                if count == MOST_INDEXES and self.next.sort in ("whole", "int"):
                    raise Refused(self.what, "TooMany", self.next.start, self.next.end)
                self.index_set()
                count += 1
            self.take("]")
            self.take("of")
        self.has("var")
        self.base()
        self.take(":")
        self.take("name")

    def index_set(self) -> None:
        if not self.has("int"):
            self.size()

    def notes(self) -> List[Note]:
        found = []
        while self.has("::"):
            found.append(self.note())
        return found

    def note(self, level: int = 1) -> Note:
        """The name and the arguments."""
        if level > MOST_LEVELS and self.next.sort == "name":
            raise Refused(self.what, "TooDeep", self.next.start, self.next.end)
        name = self.take("name").text
        args: List[Any] = []
        if self.has("("):
            if self.next.sort == ")":
                self.fail()
            args = self.some(lambda: self.note_arg(level + 1), ")")
        return name, args

    def note_arg(self, level: int) -> Any:
        if self.has("["):
            return self.some(lambda: self.note_basic(level), "]")
        return self.note_basic(level)

    def note_basic(self, level: int) -> Any:
        if self.next.sort == "name":
            return self.note(level)
        if self.next.sort in ("float", "string"):
            return self.take("float", "string")
        return self.literal()

    def declaration(self) -> Declaration:
        length = None
        if self.has("array"):
            self.take("[")
            length = self.size()
            self.take("]")
            self.take("of")
        is_var = self.has("var")
        kind, bounds = self.base() if is_var else (self.plain(), None)
        self.take(":")
        name = self.take("name")
        self.notes()
        value: Any = None
        if not is_var or length is not None or self.next.sort == "=":
            self.take("=")
            one = self.basic if is_var else self.literal
            if length is None:
                value = one()
            else:
                self.take("[")
                value = self.some(one, "]")
        self.take(";")
        return is_var, length, kind, bounds, name, value

    def model(self) -> Tuple[List[Declaration], List[Posted], str, Optional[Basic]]:
        while self.has("predicate"):
            self.predicate()
        declarations, constraints = [], []
        while self.next.sort in ("array", "var", "bool", "int", "set"):
            declarations.append(self.declaration())
        while self.has("constraint"):
            name = self.take("name").text
            self.take("(")
            args = self.some(self.arg, ")")
            constraints.append((name, args, self.notes()))
            self.take(";")
        self.take("solve")
        self.notes()
        goal = self.take("satisfy", "minimize", "maximize").sort
        objective = None if goal == "satisfy" else self.basic()
        self.take(";")
        self.take("end")
        return declarations, constraints, goal, objective

    def items(self) -> List[Item]:
        found = []
        while not self.has("end"):
            name = self.take("name")
            self.take("=")
            found.append((name, self.printed()))
            self.take(";")
        return found

    def printed(self) -> Union[Literal, List[Literal]]:
        word = self.next
        if not re.fullmatch("array[1-6]d", word.text):
            return self.literal()
        self.at += 1
        self.take("(")
        for _ in range(int(word.text[5])):
            self.bounds() if self.next.sort != "int" else self.fail()
            self.take(",")
        self.take("[")
        elements = self.some(self.literal, "]")
        self.take(")")
        return elements


class Model:
    """Scalars are ('var', number) or ('fixed', value); an array is a list of them with its kind."""

    def __init__(self, source: bytes) -> None:
        declarations, constraints, self.goal, objective = Reader(source, "model").model()
        self.names: Dict[str, Tuple[str, Any]] = {}
        self.variables: List[Tuple[str, str]] = []
        self.points: List[Point] = []
        for declaration in declarations:
            self.declare(*declaration)
        self.constraints = [self.constraint(*c) for c in constraints]
        self.objective = None
        if objective is not None:
            kind, self.objective = self.scalar(objective)
            if kind != "I":
                raise Refused("model", "Kind", objective.start, objective.end)

    def scalar(self, basic: Basic, wanted: Optional[str] = None) -> Tuple[str, Term]:
        """The kind and the term of a literal or a name of a scalar."""
        if isinstance(basic, Literal):
            kind, term = basic.kind, ("fixed", basic.value)
        else:
            if basic.text not in self.names:
                raise Refused("model", "UnknownName", basic.start, basic.end)
            kind, term = self.names[basic.text]
        if wanted and kind != wanted:
            raise Refused("model", "Kind", basic.start, basic.end)
        return kind, term

    def declare(self, is_var: bool, length: Optional[int], kind: str, bounds: Bounds, name: Token,
                value: Any) -> None:
        if name.text in self.names:
            raise Refused("model", "DuplicateName", name.start, name.end)
        if length is not None:
            if len(value) != length:
                raise Refused("model", "Length", name.start, name.end)
            terms = [self.scalar(v, kind)[1] for v in value]
            self.names[name.text] = (f"[{kind}]", terms)
            if is_var and bounds is not None:
                self.points.append(("array", name.text, bounds, terms))
            return
        term = None if value is None else self.scalar(value, kind)[1]
        if not is_var:
            self.names[name.text] = (kind, term)
            return
        own = ("var", len(self.variables))
        self.points.append(("domain", name.text, bounds, own))
        if term is not None:
            self.points.append(("definition", name.text, own, term))
        self.variables.append((name.text, kind))
        self.names[name.text] = (kind, own)

    def constraint(self, name: str, args: List[Any], notes: List[Note]) -> Constraint:
        """The name, the row or none, the arguments, the target or none."""
        row = row_named(name, len(args))
        found: List[Tuple[str, Any]] = []
        for arg in args:
            if isinstance(arg, list):
                terms = [self.scalar(a) for a in arg]
                kinds = {k for k, _ in terms}
                kind = f"[{kinds.pop()}]" if len(kinds) == 1 else "[]" if not kinds else "[mixed]"
                found.append((kind, [t for _, t in terms]))
            else:
                found.append(self.scalar(arg))
        fits = row.known and len(row.kinds) == len(found) and all(
            k == want or (k == "[]" and want.startswith("[")) for (k, _), want in zip(found, row.kinds)
        )
        if fits:
            fits = len({len(found[place][1]) for place in row.together}) < 2
        if fits and row.has_whole_rows:
            fits = row.has_whole_rows(*(terms for _, terms in found))
        target: Optional[Term] = None
        for note, note_args in notes:
            if note == "defines_var" and len(note_args) == 1 and isinstance(note_args[0], tuple):
                inner, more = note_args[0]
                _, term = self.names.get(inner, ("", None)) if not more else ("", None)
                if isinstance(term, tuple) and term[0] == "var":
                    target = "var", term[1]
                    break
        return name, row if fits else None, [t for _, t in found], target


class Values(Dict[int, Value]):
    """The values of variables by number."""

    def of(self, term: Argument) -> Any:
        if isinstance(term, list):
            found = [self.of(t) for t in term]
            return None if None in found else found
        return term[1] if term[0] == "fixed" else self.get(term[1])


def inside(value: Value, bounds: Bounds) -> bool:
    if bounds is None:
        return True
    return all(x in bounds for x in value) if isinstance(value, frozenset) else value in bounds


def state_of(point: Point, values: Values) -> str:
    sort, name, a, b = point
    if sort == "array":
        found = [values.of(t) for t in b]
        if any(v is not None and not inside(v, a) for v in found):
            return "fails"
        return "no value" if None in found else "holds"
    if sort == "domain":
        value = values.of(b)
        return "no value" if value is None else "holds" if inside(value, a) else "fails"
    left, right = values.of(a), values.of(b)
    if left is None or right is None:
        return "no value"
    return "holds" if same(left, right) else "fails"


def state_of_constraint(constraint: Constraint, values: Values) -> str:
    name, row, args, target = constraint
    if row is None:
        return "unknown"
    found = [values.of(a) for a in args]
    if any(v is None for v in found):
        return "no value"
    try:
        return "holds" if row.holds(found) else "fails"
    except NotKnown:
        return "unknown"
    except OverflowError:
        return "too large"


def holds_one(bounds: Union[range, FrozenSet[int]]) -> bool:
    return bounds.start + 1 == bounds.stop if isinstance(bounds, range) else len(bounds) == 1


def step_of(point: Point, values: Values) -> Step:
    """The variable's number and its value, where a declaration's point forces one."""
    sort, name, a, b = point
    if sort == "domain" and values.of(b) is None and a is not None and holds_one(a):
        return b[1], next(iter(a))
    if sort == "definition":
        for unset, other in ((a, b), (b, a)):
            if values.of(unset) is None and values.of(other) is not None:
                return unset[1], values.of(other)
    return None


def step_of_constraint(constraint: Constraint, values: Values) -> Step:
    name, row, args, target = constraint
    if row is None or target is None or values.of(target) is not None:
        return None
    flat = [t for a in args for t in (a if isinstance(a, list) else [a])]
    if flat.count(target) != 1 or any(t != target and values.of(t) is None for t in flat):
        return None
    try:
        if row.element_is_result and target in args[1]:
            at = args[1].index(target)
            factors = values.of(args[0])
            rest = [0 if t == target else values.of(t) for t in args[1]]
            if factors[at] not in (1, -1):
                return None
            value = (values.of(args[2]) - total(factors, rest)) * factors[at]
        else:
            place = next((p for p in row.results if args[p] == target), None)
            if place is None:
                return None
            value = row.value_at(place, [None if a == target else values.of(a) for a in args])
    except (NotKnown, OverflowError):
        return None
    whole = isinstance(value, int) and not isinstance(value, bool)
    if value is None or (whole and not LEAST <= value <= MOST):
        return None
    return target[1], value


def step_by_result(constraint: Constraint, values: Values) -> Step:
    """The same, where the only scalar without a value may be any that `defines_var` might name."""
    name, row, args, target = constraint
    flat = [t for a in args for t in (a if isinstance(a, list) else [a])]
    unset = [t for t in flat if values.of(t) is None]
    return step_of_constraint((name, row, args, unset[0]), values) if unset else None


def filled(model: Model, values: Values,
           step_of_row: Callable[[Constraint, Values], Step] = step_of_constraint) -> Values:
    """Passes over the points until one sets nothing."""
    kinds = [k for _, k in model.variables]
    again = True
    while again:
        again = False
        steps: List[Callable[[], Step]] = [partial(step_of, p, values) for p in model.points]
        steps += [partial(step_of_row, c, values) for c in model.constraints]
        for step in steps:
            found = step()
            if found and not (kinds[found[0]] == "S" and not isinstance(found[1], frozenset)):
                values[found[0]] = found[1]
                again = True
    return values


def start_of(model: Model, items: List[Item], number: int, offset: int) -> Values:
    """The printed values; a block that doesn't fit the model is refused."""
    what = f"block {number}"
    values = Values()
    for name, printed in items:
        place = offset + name.start, offset + name.end
        if name.text not in model.names:
            raise Refused(what, "UnknownName", *place)
        kind, term = model.names[name.text]
        if isinstance(term, list) != isinstance(printed, list):
            raise Refused(what, "Kind", *place)
        if isinstance(printed, list) and len(printed) != len(term):
            raise Refused(what, "Length", *place)
        for literal in printed if isinstance(printed, list) else [printed]:
            if literal.kind != kind.strip("[]"):
                raise Refused(what, "Kind", offset + literal.start, offset + literal.end)
    for name, printed in items:
        term = model.names[name.text][1]
        pairs = zip(term, printed) if isinstance(printed, list) else [(term, printed)]
        for t, literal in pairs:
            if t[0] == "var":
                values.setdefault(t[1], literal.value)
    return values


def verdict_on(model: Model, items: List[Item], values: Values, before: Optional[int]
               ) -> Tuple[str, Optional[int]]:
    """The verdict's words, and the objective's value."""
    now = None if model.objective is None else values.of(model.objective)
    for name, printed in items:
        wanted = [p.value for p in printed] if isinstance(printed, list) else printed.value
        if values.of(model.names[name.text][1]) != wanted:
            return f"violated: printed {name.text}", now
    undecided = None
    for point in model.points:
        state = state_of(point, values)
        if state == "fails":
            sort = "definition" if point[0] == "definition" else "domain"
            return f"violated: {sort} of {point[1]}", now
        if state == "no value" and undecided is None:
            undecided = f"undecided: no value for {point[1]}"
    for number, constraint in enumerate(model.constraints, 1):
        state = state_of_constraint(constraint, values)
        if state == "fails":
            return f"violated: constraint {number} {constraint[0]}", now
        if state == "unknown" and undecided is None:
            undecided = f"undecided: constraint {number} {constraint[0]} not known"
        if state == "too large" and undecided is None:
            undecided = f"undecided: constraint {number} too large"
    if now is not None and before is not None:
        if not (now < before if model.goal == "minimize" else now > before):
            return f"violated: objective {now} not better than {before}", now
    return undecided or "satisfied", now


def parts_of(stream: bytes) -> Iterator[Tuple[Any, Optional[List[Item]]]]:
    """Claims as text, and blocks as their offset and items."""
    at, opened = 0, None
    for line in io.BytesIO(stream):
        bare = line.strip(b" \t\r\n")
        if bare == b"-" * 10:
            offset = at if opened is None else opened
            try:
                items = Reader(stream[offset:at], "stream").items()
            except Refused as e:
                raise Refused("stream", e.name, offset + e.start, offset + e.end) from None
            seen = set()
            for name, _ in items:
                if name.text in seen:
                    raise Refused("stream", "DuplicateName", offset + name.start, offset + name.end)
                seen.add(name.text)
            yield offset, items
            opened = None
        elif bare.decode("latin-1") in CLAIMS:
            if opened is not None:
                raise Refused("stream", "Unfinished", opened, at)
            yield bare.decode(), None
        elif bare and not bare.startswith(b"%") and opened is None:
            opened = at
        at += len(line)
    if opened is not None:
        raise Refused("stream", "Unfinished", opened, at)


def report(source: bytes, stream: bytes, completes: bool = False) -> Iterator[str]:
    """The lines of the report as they are known. With the second filling nothing is looked for
    that isn't forced."""
    model = Model(source)
    verdicts: List[str] = []
    before: Optional[int] = None
    for where, items in parts_of(stream):
        if items is None:
            yield f"claim: {where} not judged"
            continue
        number = len(verdicts) + 1
        values = filled(model, start_of(model, items, number, where))
        if completes:
            values = filled(model, values, step_by_result)
        words, before = verdict_on(model, items, values, before)
        verdicts.append(words)
        yield f"block {number}: {words}"
    for sort, answer in (("violated", "rejected"), ("undecided", "undecided")):
        for number, words in enumerate(verdicts, 1):
            if words.startswith(sort):
                yield f"{answer}: block {number}"
                return
    yield f"accepted: blocks {len(verdicts)}" if verdicts else "no blocks"


def main() -> None:
    with open(sys.argv[1], "rb") as f, open(sys.argv[2], "rb") as g:
        model, stream = f.read(), g.read()
    try:
        for line in report(model, stream, "--complete" in sys.argv[3:]):
            print(line)
    except Refused as e:
        print(e)


if __name__ == "__main__":
    main()
