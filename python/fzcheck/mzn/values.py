"""Values as MiniZinc prints them in the text of data files and in the default output.

A value is a Python int, float, bool or str, None where it is absent, or one of the classes below.
"""
import re
from typing import Any, Iterator, List, NamedTuple, Optional, Sequence, Tuple

TOKEN = re.compile(
    r"(?P<blank>[ \t\r\n]+|%[^\n]*)"
    r"|(?P<float>-?[0-9]+(?:\.[0-9]+(?:[eE][-+]?[0-9]+)?|[eE][-+]?[0-9]+))"
    r"|(?P<int>-?(?:0x[0-9A-Fa-f]+|0o[0-7]+|[0-9]+))"
    r'|(?P<string>"(?:[^"\\\n]|\\.)*")'
    r"|(?P<quoted>'[^'\n]+')"
    r"|(?P<word>[^\W\d]\w*)"
    r"|(?P<mark>\.\.|<>|[][(){}|,:;=])")
ARRAY = re.compile(r"array([1-6])d$")
WORDS = {"true": True, "false": False}
MOST_LISTED = 1_000_000
MOST_DIGITS = 400
MOST_LEVELS = 50  # of values in one another


class Term(NamedTuple):
    """A name, such as that of an enum's value, or a call: `dig`, `C(dig)`, `to_enum(Anon,2)`."""
    name: str
    arguments: Tuple[Any, ...] = ()

    def __str__(self) -> str:
        inner = ",".join(map(str, self.arguments))
        return f"{self.name}({inner})" if self.arguments else self.name


class Range(NamedTuple):
    low: Any
    high: Any


class SetOf(NamedTuple):
    """A set: its elements, and ranges of them."""
    parts: Tuple[Any, ...]


class Array(NamedTuple):
    """An array: how long it is in each dimension, its indices in each where they are printed,
    and its elements, row by row."""
    lengths: List[int]
    indices: List[Optional[List[Any]]]
    elements: List[Any]


class Item(NamedTuple):
    """A name with its value, the place of the name, and those of an array's elements."""
    name: str
    value: Any
    start: int
    starts: List[int]


class Token(NamedTuple):
    sort: str
    text: str
    start: int


class Unreadable(Exception):
    """What can't be read, with the place in the text, and whether the text ends there."""

    def __init__(self, message: str, start: int = 0, at_end: bool = False) -> None:
        super().__init__(message)
        self.start, self.at_end = start, at_end


class Misformed(Unreadable):
    """A text that isn't of the form that MiniZinc prints."""


def tokens_of(text: str, at: int = 0) -> Iterator[Token]:
    while at < len(text):
        found = TOKEN.match(text, at)
        if not found:
            is_cut = text[at] in "\"'" or at + 1 == len(text)
            raise Misformed(f"{text[at]!r} isn't expected", at, is_cut)
        if found.lastgroup != "blank":
            yield Token(str(found.lastgroup), found[0], at)
        at = found.end()
    yield Token("end", "", at)


def whole(text: str) -> int:
    if len(text) > MOST_DIGITS:
        raise Unreadable(f"{text[:20]}.. is too large a number")
    return int(text, 0) if text.lstrip("-")[:2] in ("0x", "0o") else int(text)


class Reader:
    """Reads values, and items `name = value;`, from a text."""

    def __init__(self, text: str) -> None:
        self.tokens, self.at, self.level = list(tokens_of(text)), 0, 0
        self.starts: List[int] = []  # of the elements of arrays

    @property
    def next(self) -> Token:
        return self.tokens[self.at]

    def fail(self) -> Unreadable:
        token = self.next
        return Misformed(f"{token.text!r} isn't expected" if token.text else "it ends too soon",
                         token.start, token.sort == "end")

    def has(self, text: str) -> bool:
        if self.next.text != text or self.next.sort not in ("mark", "word"):
            return False
        self.at += 1
        return True

    def take(self, text: str) -> None:
        if not self.has(text):
            raise self.fail()

    def items(self) -> Iterator[Item]:
        while self.next.sort != "end":
            token = self.next
            if token.sort not in ("word", "quoted"):
                raise self.fail()
            self.at += 1
            self.take("=")
            self.starts = []
            value = self.value()
            self.take(";")
            yield Item(token.text.strip("'"), value, token.start, self.starts)

    def value(self) -> Any:
        self.level += 1
        if self.level > MOST_LEVELS:
            raise Unreadable("values are too deep in one another", self.next.start)
        value = self.simple()
        if self.has(".."):
            value = SetOf((Range(value, self.simple()),))
        while self.has("union"):
            other = self.value()
            value = SetOf(parts_of(value) + parts_of(other))
        self.level -= 1
        return value

    def simple(self) -> Any:
        token = self.next
        self.at += 1
        if token.sort == "int":
            return whole(token.text)
        if token.sort == "float":
            return float(token.text)
        if token.sort == "string":
            return token.text[1:-1]
        if token.sort in ("word", "quoted"):
            return self.named(token)
        if token.text == "<>":
            return None
        if token.text == "{":
            return SetOf(tuple(self.listed("}")))
        if token.text == "[":
            return self.table() if self.has("|") else self.row()
        self.at -= 1
        raise self.fail()

    def named(self, token: Token) -> Any:
        if token.text in WORDS:
            return WORDS[token.text]
        if token.sort == "quoted" or not self.has("("):
            return Term(token.text.strip("'"))
        arguments = self.listed(")")
        if ARRAY.match(token.text):
            return shaped(int(token.text[5]), arguments, token)
        return Term(token.text, tuple(arguments))

    def listed(self, close: str) -> List[Any]:
        """Values with commas between them, up to the closing mark."""
        values: List[Any] = []
        while not self.has(close):
            values.append(self.value())
            if not self.has(","):
                self.take(close)
                break
        return values

    def indexed(self) -> Tuple[Any, bool]:
        """A value, and whether it is an index, which has a colon behind it."""
        start = self.next.start
        value = self.value()
        is_index = self.has(":")
        if not is_index:
            self.starts.append(start)
        return value, is_index

    def row(self) -> Array:
        indices: List[Any] = []
        elements: List[Any] = []
        while not self.has("]"):
            value, is_index = self.indexed()
            if is_index:
                indices.append(value)
                value, _ = self.indexed()
            elements.append(value)
            if not self.has(","):
                self.take("]")
                break
        return Array([len(elements)], [indices or None], elements)

    def table(self) -> Array:
        """An array of two dimensions, behind its `[|`: the indices of columns come first, that of
        a row before its elements."""
        columns: List[Any] = []
        names: List[Any] = []
        rows: List[List[Any]] = []
        self.has("|")  # right behind the other where there is nothing at all
        while not self.has("]"):
            start = self.next.start
            line = self.line(columns, names)
            if line and rows and len(line) != len(rows[0]):
                raise uneven(len(line), len(rows[0]), start)
            if line:
                rows.append(line)
        elements = [value for row in rows for value in row]
        width = len(rows[0]) if rows else len(columns)
        return Array([len(rows), width], [names or None, columns or None], elements)

    def line(self, columns: List[Any], names: List[Any]) -> List[Any]:
        """What stands before the next bar: a row's elements, or none behind columns' indices."""
        values: List[Any] = []
        heads: List[Any] = []
        while not self.has("|"):
            value, is_index = self.indexed()
            (heads if is_index else values).append(value)
            if not is_index and not self.has(","):
                self.take("|")
                break
        (names if values else columns).extend(heads)
        return values


def parts_of(value: Any) -> Tuple[Any, ...]:
    if not isinstance(value, SetOf):
        raise Unreadable("a set is expected")
    return value.parts


def shaped(dimensions: int, arguments: Sequence[Any], token: Token) -> Array:
    """The array of a call such as `array2d(1..2, 1..3, [..])`, whose indices are given."""
    indices = [listing(value) for value in arguments[:-1]]
    if not arguments or len(indices) != dimensions or not isinstance(arguments[-1], Array):
        raise Unreadable(f"{token.text} has other arguments", token.start)
    # A name stands for a whole index set, and a range of names can't be counted here.
    counted = [len(index) if index is not None else -1 for index in indices]
    return Array(counted, indices, arguments[-1].elements)


def listing(value: Any) -> Optional[List[Any]]:
    """The elements of a set, or none where names are in it that only the model can count."""
    listed: List[Any] = []
    for part in value.parts if isinstance(value, SetOf) else (Range(value, value),):
        if not isinstance(part, Range):
            listed.append(part)
        elif not isinstance(part.low, int) or not isinstance(part.high, int):
            return None
        elif part.high - part.low >= MOST_LISTED:
            raise Unreadable("a set is too large to be listed")
        else:
            listed.extend(range(part.low, part.high + 1))
    return listed


def uneven(length: int, first: int, start: int) -> Unreadable:
    """What is wrong with a row of another length than the first."""
    return Unreadable(f"this row has {length} elements, and the first has {first}", start)
