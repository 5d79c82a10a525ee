"""The compiler's table of names in the planner's words: the names of enums in the place of indices
and of the values of loop variables, and a name for each variable of the compiler's that stands for
an element of an array, or for an optional value.

A line is a name of the FlatZinc, the model's name of it, and the path to it, with tabs between. A
path's segment on a loop variable is `FILE|LINE|COLUMN|LINE|COLUMN|NAME=NUMBER;`: what the variable
goes through stands in that place of the model, as `NAME in ENUM`, `NAME in SET` or
`NAME in {VALUE, ..}`."""
import re
from typing import Any, Dict, Iterator, List, Match, Tuple

from fzcheck.mzn.names import Name, element_names, index_name

ELEMENT = re.compile(r"(\w+)\[(\d+(?:,\d+)*)\]$")
LOOP = re.compile(r"([^;|\t]+)\|(\d+)\|(\d+)\|(\d+)\|(\d+)\|(\w+)=(\d+)(?=;)")
THROUGH = re.compile(r"(\w+)(?:\s*,\s*\w+)*\s+in\s+\{?\s*('[^'\n]+'|\w+)(?!\w|\s*\()")
UNFIT = re.compile(r"[;|\t\n]")  # what would end a part of the line
NO_NAMES = ("true", "false")


class Table:
    """`enums` are the values of each, `names` what the names of the model are."""

    def __init__(self, enums: Dict[str, List[str]], names: Dict[str, Name]) -> None:
        self.enums, self.names = enums, names
        self.sources: Dict[str, bytes] = {}
        self.known: Dict[Tuple[str, ...], str] = {}  # what loop variables go through, by place
        self.found: Dict[str, str] = {}  # what the compiler's variables are called
        # A name without an element says most, so it comes first.
        for name in sorted(names, key=lambda name: names[name].is_array):
            for variable, text in self.variables(name, names[name]):
                if variable not in names:
                    self.found.setdefault(variable, text)

    def named(self, text: str) -> str:
        """The table, with a line for each variable that has a name."""
        there = {line.partition("\t")[0] for line in text.split("\n")}
        more = [f"{name}\t{told}\t\n" for name, told in self.found.items() if name not in there]
        return "\n".join(map(self.line, text.split("\n"))) + "".join(more)

    def variables(self, name: str, found: Name) -> Iterator[Tuple[str, str]]:
        """The compiler's variables for a name, and what each is called in the model."""
        for element, variable in zip(element_names(name, found, self.enums), found.variables):
            if not UNFIT.search(element):
                yield from called(variable, element)

    def line(self, line: str) -> str:
        columns = line.split("\t")
        if len(columns) != 3:
            return line
        if columns[0] == columns[1] and columns[0] not in self.names:
            columns[1] = self.found.get(columns[0], columns[1])
        else:
            columns[1] = ELEMENT.sub(self.element, columns[1])
        columns[2] = LOOP.sub(self.loop, columns[2])
        return "\t".join(columns)

    def element(self, found: "Match[str]") -> str:
        name, numbers = self.names.get(found[1]), found[2].split(",")
        if not name or len(name.index_enums) != len(numbers):
            return found[0]
        return f"{found[1]}[{','.join(map(self.value, name.index_enums, numbers))}]"

    def loop(self, found: "Match[str]") -> str:
        place = found[1], found[2], found[3], found[6]
        if place not in self.known:
            self.known[place] = self.goes_through(*place)
        return found[0][: -len(found[7])] + self.value(self.known[place], found[7])

    def value(self, enum: str, number: str) -> str:
        name = index_name(self.enums.get(enum, []), int(number))
        return number if UNFIT.search(name) else name

    def goes_through(self, path: str, line: str, column: str, name: str) -> str:
        """The enum that a loop variable goes through, by what stands in this place of a file."""
        behind = self.source(path).split(b"\n", int(line) - 1)[int(line) - 1 :]
        text = b"".join(behind)[int(column) - 1 :].decode(errors="replace")
        found = THROUGH.match(text)
        return self.enum_of(found[2].strip("'")) if found and found[1] == name else ""

    def enum_of(self, word: str) -> str:
        """The enum that a word is, or is of: a name of the model, or one of the enum's values."""
        if word in self.enums:
            return word
        if word in self.names:
            return self.names[word].enum
        return next((enum for enum, values in self.enums.items() if word in values), "")

    def source(self, path: str) -> bytes:
        if path not in self.sources:
            try:
                with open(path, "rb") as file:
                    self.sources[path] = file.read()
            except OSError:
                self.sources[path] = b""
        return self.sources[path]


def called(variable: Any, element: str) -> Iterator[Tuple[str, str]]:
    """What the variables of an element are called: one of FlatZinc's, or the two of an optional."""
    if not isinstance(variable, (list, tuple)):
        yield variable, element
        return
    there, inner = variable
    if isinstance(there, list):
        yield there[0], element
    elif isinstance(there, str) and there not in NO_NAMES:
        yield there, f"occurs({element})"
    if isinstance(inner, str):
        yield inner, element
