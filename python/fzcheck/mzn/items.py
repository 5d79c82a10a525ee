"""The items of a model's FlatZinc: which names of the model they are about, and where in it they
come from.

The compiler writes each item in a line. In its table of names a line is a name of the FlatZinc, or
a constraint's number from 0, then the model's name, and the path to it, with tabs between. A path
is a list of segments `FILE|LINE|COLUMN|LINE|COLUMN|..;`."""
import os
import re
from functools import cached_property
from typing import Callable, Dict, Iterable, List, NamedTuple

from fzcheck.mzn.model import MODEL, TABLE
from fzcheck.mzn.sources import shown_path
from fzcheck.mzn.stream import OF_NO_MODEL

WORD = re.compile(r"[A-Za-z_]\w*")
DECLARED = re.compile(r"[^:]+: (\w+)")
DEFINES = re.compile(r"defines_var\((\w+)\)")
TO_THE_END = 1_000_000  # the length of what goes on in the next line
NOTED = re.compile(r'mzn_constraint_name\(("(?:[^"\\]|\\.)*")\)')
NAMED = re.compile(r'\bconstraint\s*::\s*("(?:[^"\\\n]|\\.)*")\s*$')


class Place(NamedTuple):
    """A place in the model, by a path that an editor opens from the working directory."""
    path: str
    line: int
    column: int
    length: int = 1  # of what stands there, in this line

    def __str__(self) -> str:
        return f"{self.path}:{self.line}:{self.column}"


class Row(NamedTuple):
    name: str
    path: str


class Constraint(NamedTuple):
    number: int
    name: str
    arguments: str  # the text between its parentheses
    notes: str  # its annotations

    def __str__(self) -> str:
        return f"constraint {self.number} {self.name}"


def text_of(path: str) -> str:
    with open(path, encoding="utf-8", errors="surrogateescape") as file:
        return file.read()


def place_in(path: str, told: str) -> Place:
    """The place that is told as `FILE:LINE:COLUMN`, with the folder that the path has for FILE."""
    name, line, column = told.rsplit(":", 2)
    for segment in path.split(";")[::-1]:  # the innermost expression comes last
        fields = segment.split("|")
        if os.path.basename(fields[0]) == name and fields[1:3] == [line, column]:
            is_line = fields[1] == fields[3]
            length = int(fields[4]) - int(fields[2]) + 1 if is_line else TO_THE_END
            return Place(shown_path(fields[0]), int(line), int(column), length)
    return Place(name, int(line), int(column))


class Items:
    """Each part is read once it is asked for."""

    def __init__(self, folder: str) -> None:
        self.folder = folder

    @cached_property
    def lines(self) -> List[str]:
        return text_of(os.path.join(self.folder, MODEL)).split("\n")

    @cached_property
    def rows(self) -> Dict[str, Row]:
        """The table of names."""
        found: Dict[str, Row] = {}
        for line in text_of(os.path.join(self.folder, TABLE)).split("\n"):
            columns = line.split("\t")
            if len(columns) == 3:
                found.setdefault(columns[0], Row(columns[1], columns[2]))
        return found

    @cached_property
    def constraints(self) -> Dict[int, Constraint]:
        """The constraints by their lines, from 1."""
        found: Dict[int, Constraint] = {}
        for number, line in enumerate(self.lines, 1):
            if line.startswith("constraint "):
                head, _, notes = line.partition("::")
                name, _, arguments = head[len("constraint "):].partition("(")
                arguments = arguments.rpartition(")")[0]
                found[number] = Constraint(len(found) + 1, name, arguments, notes)
        return found

    @cached_property
    def definers(self) -> Dict[str, str]:
        """The arguments of what defines a variable."""
        found: Dict[str, str] = {}
        for constraint in self.constraints.values():
            for variable in DEFINES.findall(constraint.notes):
                found.setdefault(variable, constraint.arguments)
        return found

    @cached_property
    def array_lines(self) -> Dict[str, str]:
        """The declarations of arrays."""
        return {self.declared(line): line for line in self.lines if line.startswith("array ")}

    @cached_property
    def arrays(self) -> Dict[str, List[str]]:
        """The variables in each array."""
        return {name: words(line.partition(" = [")[2].rpartition("]")[0])
                for name, line in self.array_lines.items()}

    @staticmethod
    def declared(line: str) -> str:
        """The name that a line of the FlatZinc declares, or an empty text."""
        found = DECLARED.match(line)
        return found[1] if found else ""

    def row(self, line: int) -> Row:
        """The row of the table on the item in this line."""
        constraint = self.constraints.get(line)
        name = str(constraint.number - 1) if constraint else self.declared(self.lines[line - 1])
        return self.rows.get(name, Row(name, ""))

    def subject(self, line: int) -> str:
        """The model's name of the constraint in this line, in quotes."""
        noted = NOTED.search(self.constraints[line].notes)
        return noted[1] if noted else written_name(self.row(line).path)

    def head(self, line: int) -> str:
        """What the constraint in this line is called, where it is, and with which values of loop
        variables."""
        path = self.row(line).path
        if line not in self.constraints or not path:
            return str(self.constraints.get(line, self.row(line).name))
        place, loops = item_of(path), loops_of(path)
        subject = self.subject(line)
        front = f"{subject}, " if subject else "constraint at "
        with_values = f", with {', '.join(loops)}" if loops else ""
        return f"{front}{place.path}:{place.line}{with_values}"

    def name(self, variable: str) -> str:
        """What the model calls a variable of the FlatZinc; an empty text where it has no name."""
        found = self.rows[variable].name if variable in self.rows else variable
        return "" if OF_NO_MODEL.match(found) else found

    def around(self, line: int) -> List[str]:
        """The variables in all constraints that come from the same expression of the model, with
        the same values of loop variables, as the item in this line."""
        origin = origin_of(self.row(line).path)
        return [word for number, constraint in self.constraints.items()
                if self.row(number).path.startswith(origin) for word in words(constraint.arguments)]

    def behind(self, names: Iterable[str], is_known: Callable[[str], bool]) -> List[str]:
        """The model's names for these variables, or, of those that have none or aren't known, for
        the variables that they are defined by, in order."""
        found: Dict[str, None] = {}
        waiting, seen = list(names)[::-1], set()
        while waiting:
            variable = waiting.pop()
            if variable in seen:
                continue
            seen.add(variable)
            name = self.name(variable)
            if variable in self.arrays:
                waiting += self.arrays[variable][::-1]
            elif name and (is_known(name) or variable not in self.definers):
                found[name] = None
            elif variable in self.definers:
                waiting += words(self.definers[variable])[::-1]
        return list(found)


def origin_of(path: str) -> str:
    """The front of a path up to its last loop variable, or else its first segment."""
    segments = path.split(";")
    loops = [at for at, segment in enumerate(segments) if is_loop(segment.split("|"))]
    last = max(loops, default=0)
    return ";".join(segments[: last + 1]) + ";"


def is_loop(fields: List[str]) -> bool:
    """Whether a segment is a loop variable with its value."""
    return len(fields) == 6 and "=" in fields[5]


def item_of(path: str) -> Place:
    """The place of the model's item that a path begins with."""
    fields = path.split(";")[0].split("|")
    return Place(shown_path(fields[0]), int(fields[1]), int(fields[2]))


def loops_of(path: str) -> List[str]:
    """The values of the loop variables in a path, in the file that the path begins with."""
    segments = [segment.split("|") for segment in path.split(";")]
    return [fields[5].replace("=", " = ", 1) for fields in segments
            if fields[0] == segments[0][0] and is_loop(fields)]


def written_name(path: str) -> str:
    """The name that the model's text gives what has this path: of a constraint in quotes as there,
    which the compiler loses where two constraints are the same, or of a variable."""
    fields = path.split(";")[0].split("|")
    if fields[5:6] == ["id"]:
        return f"definition of {fields[6]}"
    try:
        lines = text_of(fields[0]).split("\n")[: int(fields[1])]
        lines[-1] = lines[-1][: int(fields[2]) - 1]
    except (OSError, ValueError, IndexError):
        return ""
    found = NAMED.search("\n".join(lines))
    return found[1] if found else ""


def words(text: str) -> List[str]:
    return [word for word in WORD.findall(text) if word not in ("true", "false")]
