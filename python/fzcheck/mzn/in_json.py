"""Values as MiniZinc prints them in JSON, with the places of their names and elements."""
import json
from typing import Any, Callable, Dict, List

from fzcheck.mzn.values import (
    MOST_LEVELS, Array, Item, Misformed, Range, SetOf, Term, Token, Unreadable,
    tokens_of, uneven, whole)

WORDS = {"true": True, "false": False, "null": None}


class Members(Dict[str, Any]):
    """An object of JSON, and its members in order."""

    def __init__(self, items: List[Item]) -> None:
        super().__init__((item.name, item.value) for item in items)
        self.items_in_order = items


class Row(List[Any]):
    """A list of JSON, and where it begins."""

    def __init__(self, elements: List[Any], start: int) -> None:
        super().__init__(elements)
        self.start = start


class JsonReader:
    """Reads one object of JSON, which begins at this place of a text."""

    def __init__(self, text: str, start: int) -> None:
        self.tokens = tokens_of(text, start)
        self.next = next(self.tokens)
        self.end, self.level = start, 0  # where the last token ends, and how deep it is
        self.text_end = len(text)
        self.starts: List[int] = []  # of the elements of arrays in the member that is read

    def object(self) -> Members:
        self.take("{")
        members: List[Item] = []
        self.listed("}", lambda: members.append(self.member(members)))
        return Members(members)

    def take(self, text: str = "") -> Token:
        """Passes the next token, which has to be this mark."""
        token = self.next
        if text and (token.text != text or token.sort != "mark"):
            raise self.fail()
        self.end = token.start + len(token.text)
        # What comes behind the object needn't be JSON.
        self.next = Token("end", "", self.end) if self.ends(token) else next(self.tokens)
        return token

    def ends(self, token: Token) -> bool:
        """Whether a token closes the whole object; counts how deep it is."""
        if token.sort == "mark":
            self.level += (token.text in "{[") - (token.text in "}]")
        if self.level > MOST_LEVELS:
            raise Unreadable("values are too deep in one another", token.start)
        return self.level == 0

    def fail(self) -> Unreadable:
        token = self.next
        is_last = token.start + len(token.text) == self.text_end
        return Misformed(f"{token.text!r} isn't expected" if token.text else "it ends too soon",
                         token.start, is_last)

    def listed(self, close: str, read: Callable[[], Any]) -> None:
        """Reads parts with commas between them, up to the closing mark."""
        while self.next.text != close:
            read()
            if self.next.text != close:
                self.take(",")
                if self.next.text == close:
                    raise self.fail()
        self.take(close)

    def member(self, before: List[Item]) -> Item:
        token = self.next
        if token.sort != "string":
            raise self.fail()
        name = self.string(self.take())
        if any(name == item.name for item in before):
            raise Unreadable(f"{name} comes twice", token.start)
        self.take(":")
        outer, self.starts = self.starts, []
        item = Item(name, self.value(), token.start, self.starts)
        self.starts = outer
        return item

    def value(self) -> Any:
        token = self.next
        if token.text == "{" and token.sort == "mark":
            return self.object()
        if token.text == "[" and token.sort == "mark":
            return self.row()
        if token.sort == "string":
            return self.string(self.take())
        if token.sort in ("int", "float"):
            self.take()
            return whole(token.text) if token.sort == "int" else float(token.text)
        if token.text not in WORDS:
            raise self.fail()
        return WORDS[self.take().text]

    def row(self) -> Row:
        elements: List[Any] = []
        start = self.take("[").start
        self.listed("]", lambda: elements.append(self.element()))
        return Row(elements, start)

    def element(self) -> Any:
        start = self.next.start
        is_row = self.next.text == "["
        value = self.value()
        if not is_row:
            self.starts.append(start)
        return value

    def string(self, token: Token) -> str:
        try:
            return str(json.loads(token.text))
        except ValueError as error:
            raise Unreadable(f"this is no JSON: {error}", token.start) from None


def from_json(value: Any) -> Any:
    """What a value of JSON stands for, in MiniZinc's way of writing sets and enums."""
    if isinstance(value, list):
        return nested(value, [from_json(element) for element in value])
    if not isinstance(value, dict):
        return value
    if "set" in value and isinstance(value["set"], list):
        return SetOf(tuple(map(set_part, value["set"])))
    if set(value) == {"e"}:
        return Term(str(value["e"]))
    if set(value) == {"e", "i"}:
        return Term("to_enum", (Term(str(value["e"])), value["i"]))
    if set(value) == {"c", "e"}:
        return Term(str(value["c"]), (from_json(value["e"]),))
    raise Unreadable(f"{value!r:.60} is no value")


def set_part(part: Any) -> Any:
    if isinstance(part, list) and len(part) == 2:
        return Range(*map(from_json, part))
    return from_json(part)


def nested(rows: List[Any], values: List[Any]) -> Array:
    """The array of a list; lists in it are further dimensions."""
    inner = [value for value in values if isinstance(value, Array)]
    if not inner:
        return Array([len(values)], [None], values)
    for row, value in zip(rows, values):
        if not isinstance(value, Array) or value.lengths != inner[0].lengths:
            length = len(value.elements) if isinstance(value, Array) else 1
            raise uneven(length, len(inner[0].elements), row.start if isinstance(row, Row) else 0)
    elements = [element for value in inner for element in value.elements]
    return Array([len(values), *inner[0].lengths], [None, *inner[0].indices], elements)
