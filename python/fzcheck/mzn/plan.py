"""Reads what `minizinc` printed: items `name = value;` with or without comments and statistics
between them, objects of JSON, or a JSON stream; and the items of a FlatZinc stream."""
import bisect
import re
from typing import Any, Iterable, Iterator, List, NamedTuple, Union

from fzcheck.mzn.in_json import JsonReader, Members, from_json
from fzcheck.mzn.values import Item, Misformed, Reader, Unreadable

MARKER = "----------"
CLAIMS = {"==========", *(f"====={word}=====" for word in (
    "UNSATISFIABLE", "UNKNOWN", "UNBOUNDED", "UNSATorUNBOUNDED", "ERROR"))}
STATUSES = {"OPTIMAL_SOLUTION": "==========", "ALL_SOLUTIONS": "==========", "SATISFIED": "",
            "UNSAT_OR_UNBOUNDED": "=====UNSATorUNBOUNDED====="}
FOLLOWS = re.compile(r'^(-{10}|=====|\{"type")', re.M)  # what may come behind a whole object
UNFINISHED_LINE = re.compile(r"^(-+|=+\w*=*)$(?![\s\S])", re.M)  # of dashes, or of a claim
WARNING = re.compile(r"^warning: .*(?:\n[ \t]+[^\s|\"{}\[\]].*)*", re.M | re.I)  # MiniZinc's own
ADVICE = ("print the plan with `minizinc --output-mode dzn` or `--output-mode json`, where the "
          "model has an output item")
NO_TEXTS = (
    ("\ufeff", "a byte order mark is in front of the text: save the file without it"),
    ("\x1f\udc8b", "this is a gzip file: unpack it first"),
    ("\udcff\udcfe", "this is UTF-16: save the file as UTF-8"),
    ("\udcfe\udcff", "this is UTF-16: save the file as UTF-8"),
)


class Printed(NamedTuple):
    """A value that is printed, the line of its name, from 1, and those of an array's elements."""
    name: str
    value: Any
    line: int
    lines: List[int]

    def line_of(self, element: int) -> int:
        """The line of an element, from 0, or of the name where that isn't known."""
        return self.lines[element] if element < len(self.lines) else self.line


class Solution(NamedTuple):
    values: List[Printed]
    line: int  # where it ends


class Claim(NamedTuple):
    text: str
    line: int


class Cut(NamedTuple):
    """The place, in characters, from which on an unfinished solution stands at the plan's end."""
    start: int
    line: int


Part = Union[Solution, Claim, Cut]


class Refused(Exception):
    """A plan that can't be checked: what is wrong with it, and in which line of which plan."""

    def __init__(self, message: str, line: int, plan: str = "") -> None:
        super().__init__(message)
        self.line, self.plan = line, plan


class Plan:
    """The text of a plan, and how far it is read."""

    def __init__(self, text: str) -> None:
        for front, told in NO_TEXTS:
            if text.startswith(front):
                raise Refused(told, 1)
        # MiniZinc's warnings are blanked out, so that all else stays in its place.
        self.text = WARNING.sub(lambda found: re.sub(r"[^\n]", " ", found[0]), text)
        self.at = 0
        self.newlines = [found.start() for found in re.finditer("\n", text)]
        self.messages: List[str] = []  # what a JSON stream says of an error

    def parts(self) -> Iterator[Part]:
        while self.at < len(self.text):
            line = self.peek()
            word = line.strip()
            if word.startswith("{"):
                yield from self.object()
            elif not word or word.startswith("%"):
                self.at += len(line)
            elif word in CLAIMS:
                yield Claim(word, self.line(self.at))
                self.at += len(line)
            else:
                yield self.block()

    def peek(self) -> str:
        end = self.text.find("\n", self.at)
        return self.text[self.at : end + 1 if end >= 0 else len(self.text)]

    def line(self, place: int) -> int:
        """The line, from 1, of a place in the text."""
        return bisect.bisect_left(self.newlines, place) + 1

    def refused(self, error: Unreadable, start: int) -> Refused:
        """What is wrong with the text, of which a part is read that starts here."""
        return Refused(advised(error), self.line(start + error.start))

    def block(self) -> Part:
        """The items up to the next line of ten dashes, without which they are cut off."""
        start = self.at
        while self.at < len(self.text):
            line, end = self.peek(), self.at
            if line.strip() == MARKER:
                values = self.items(self.text[start:end], start)
                self.at += len(line)
                return Solution(values, self.line(end))
            if line.strip() in CLAIMS:
                last = self.items(self.text[start:end], start)[-1].name
                raise Refused(f"a line of ten dashes is missing behind {last}", self.line(end))
            self.at += len(line)
        self.read_as_far(start)
        return Cut(start, self.line(start))

    def object(self) -> Iterator[Part]:
        """An object of JSON: a message of a JSON stream, or a solution before its dashes."""
        start = self.at + self.peek().index("{")
        reader = JsonReader(self.text, start)
        try:
            found = reader.object()
        except Unreadable as error:
            if not error.at_end or FOLLOWS.search(self.text, start + 1):
                raise Refused(f"{error}, in JSON", self.line(error.start)) from None
            self.at = len(self.text)
            yield Cut(start, self.line(start))
            return
        self.at = reader.end
        if isinstance(found.get("type"), str):
            yield from self.message(found, start)
        else:
            yield self.closed(self.members(found), start)

    def closed(self, values: List[Printed], start: int) -> Part:
        """The solution of these values, where a line of dashes comes next."""
        while self.at < len(self.text):
            line, place = self.peek(), self.at
            if line.strip() == MARKER:
                self.at += len(line)
                return Solution(values, self.line(place))
            is_cut = not line.endswith("\n") and MARKER.startswith(line.strip())
            if line.strip() and not line.strip().startswith("%") and not is_cut:
                raise Refused("a line of ten dashes is missing before this", self.line(place))
            self.at += len(line)
        return Cut(start, self.line(start))

    def message(self, found: Members, start: int) -> Iterator[Part]:
        line = self.line(start)
        if found["type"] == "solution":
            yield Solution(self.output(found.get("output"), line), line)
        elif found["type"] == "status":
            word = str(found.get("status"))
            claim = STATUSES.get(word, f"====={word}=====")
            if claim and claim not in CLAIMS:
                raise Refused(f"the status {word} isn't known", line)
            if claim:
                yield Claim(claim, line)
        elif found["type"] == "error":
            self.messages.append(str(found.get("message")))

    def output(self, found: Any, line: int) -> List[Printed]:
        """The values in the output of a message: of its forms the one that says most."""
        if isinstance(found, Members):
            if isinstance(found.get("json"), Members):
                return self.members(found["json"])
            for section in ("dzn", "default", "raw"):
                if isinstance(found.get(section), str):
                    return in_one_line(found[section], line)
        raise Refused(f"a solution has no output that can be read: {ADVICE}", line)

    def members(self, found: Members) -> List[Printed]:
        return [self.printed(item._replace(value=self.from_json(item)), 0)
                for item in found.items_in_order]

    def from_json(self, item: Item) -> Any:
        try:
            return from_json(item.value)
        except Unreadable as error:
            place = error.start or item.start
            raise Refused(f"{item.name}: {error}", self.line(place)) from None

    def items(self, text: str, start: int) -> List[Printed]:
        """The values of items, in a part of the text that starts here."""
        try:
            return [self.printed(item, start) for item in distinct(Reader(text).items())]
        except Unreadable as error:
            raise self.refused(error, start) from None

    def printed(self, item: Item, start: int) -> Printed:
        lines = [self.line(start + place) for place in item.starts]
        return Printed(item.name, item.value, self.line(start + item.start), lines)

    def read_as_far(self, start: int) -> None:
        """Looks at what is cut off: free text without any dashes is no plan at all."""
        try:
            for _ in Reader(UNFINISHED_LINE.sub("", self.text[start:])).items():
                pass
        except Unreadable as error:
            if not error.at_end:
                raise self.refused(error, start) from None


def distinct(items: Iterable[Item]) -> Iterator[Item]:
    """The items, none of which may be there twice."""
    names = set()
    for item in items:
        if item.name in names:
            raise Unreadable(f"{item.name} is printed twice: is a line of ten dashes missing before?",
                             item.start)
        names.add(item.name)
        yield item


def in_one_line(text: str, line: int) -> List[Printed]:
    """The values of items in a text that stands in one line of the plan."""
    try:
        return [Printed(item.name, item.value, line, []) for item in distinct(Reader(text).items())]
    except Unreadable as error:
        raise Refused(advised(error), line) from None


def advised(error: Unreadable) -> str:
    """What is wrong, and of a text of another form how to print one that can be read."""
    return f"{error}: {ADVICE}" if isinstance(error, Misformed) else str(error)
