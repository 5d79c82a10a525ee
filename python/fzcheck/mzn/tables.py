"""The values of a plan as tables of HTML, with footnotes on the elements that clash."""
import itertools
from html import escape
from typing import Any, Dict, Iterator, List, NamedTuple, Sequence, Tuple

from fzcheck.mzn.model import Model
from fzcheck.mzn.plan import Solution
from fzcheck.mzn.stream import OF_NO_MODEL
from fzcheck.mzn.wording import printed_indices, value_text

OBJECTIVE = "_objective"
MOST_ACROSS = 150  # letters of a list whose indices are columns; of a longer one they are rows
MOST_NOTES = 3  # footnotes of an element
MOST_COLOURED = 8  # values of an enum that have colours
LONG = 30  # letters of a value that may be broken into lines
BLANKS = 2  # around the text of a cell, in letters


Cell = Tuple[str, str]  # its text, and its HTML
Row = Tuple[str, List[Cell]]


class Notes(NamedTuple):
    """Which failures each element is in, by their numbers from 1, and the texts of these."""
    numbers: Dict[str, List[int]]
    texts: List[str]

    def text(self, elements: Sequence[str]) -> str:
        """What is told of these elements, a line for each failure."""
        found = sorted({number for one in elements for number in self.numbers.get(one, ())})
        return "\n".join(f"{number}: {self.texts[number - 1]}" for number in found)


class Tables:
    def __init__(self, model: Model, printed: Dict[str, Any], notes: Notes) -> None:
        self.model, self.printed, self.notes = model, printed, notes

    def html(self, solution: Solution) -> Iterator[str]:
        """The values that stand alone, then the arrays in their order."""
        found = [(one.name, printed_indices(self.model, one.name, one.value))
                 for one in solution.values
                 if one.name == OBJECTIVE or not OF_NO_MODEL.match(one.name)]
        single = [name for name, indices in found if not indices]
        if single:
            yield table("", [], [(name.strip("_"), [self.cell(name)]) for name in single])
        arrays = [one for one in found if one[1]]
        for indices, group in itertools.groupby(arrays, key=lambda one: one[1]):
            names = [name for name, _ in group]
            if len(indices) == 1:
                yield self.lists(indices[0], names)
                continue
            for name in names:
                yield from self.matrices(name, indices)

    def lists(self, indices: List[str], names: List[str]) -> str:
        """Arrays of one index set."""
        across = [(name, [self.cell(f"{name}[{index}]") for index in indices]) for name in names]
        if letters_of(indices, across) <= MOST_ACROSS:
            return table("", indices, across)
        rows = [(index, [self.cell(f"{name}[{index}]") for name in names]) for index in indices]
        return table("", names, rows)

    def matrices(self, name: str, indices: List[List[str]]) -> Iterator[str]:
        """The last two dimensions of an array, for all indices in the others."""
        *outer, rows, columns = indices
        for fixed in itertools.product(*outer):
            front = "".join(f"{index}," for index in fixed)
            yield table(f"{name}[{front}..]" if fixed else name, columns, [
                (row, [self.cell(f"{name}[{front}{row},{column}]") for column in columns])
                for row in rows])

    def cell(self, element: str) -> Cell:
        """The text of an element, and its cell."""
        found = self.model.names.get(element.partition("[")[0])
        enum = self.model.enums.get(found.enum, []) if found else []
        text = value_text(self.printed[element], enum)
        kinds = ["long"] if len(text) > LONG else []
        if text in enum and len(enum) <= MOST_COLOURED:
            kinds.append(f"v{enum.index(text) + 1}")
        numbers = self.notes.numbers.get(element, [])
        if not numbers:
            return text, f'<td{attribute("class", kinds)}>{escape(text)}</td>'
        links = " ".join(f'<a href="#f{number}">{number}</a>' for number in numbers[:MOST_NOTES])
        more = " .." if len(numbers) > MOST_NOTES else ""
        told = attribute("title", [f"{element} = {text}\n{self.notes.text([element])}"])
        return text, (f'<td{attribute("class", [*kinds, "clash"])}{told}>{escape(text)}'
                      f"<sup>{links}{more}</sup></td>")


def attribute(name: str, words: List[str]) -> str:
    return f' {name}="{escape(" ".join(words))}"' if words else ""


def letters_of(columns: List[str], rows: List[Row]) -> int:
    """The letters that the widest lines of a table take."""
    letters = max((len(name) for name, _ in rows), default=0) + BLANKS
    for at in range(max((len(cells) for _, cells in rows), default=0)):
        texts = [*columns[at : at + 1], *(cells[at][0][:LONG] for _, cells in rows)]
        letters += max(map(len, texts)) + BLANKS
    return letters


def table(caption: str, columns: List[str], rows: List[Row]) -> str:
    """A table, with its letters, by which it fits on paper."""
    lines = [f'<div class="wide"><table style="--letters:{letters_of(columns, rows)}">']
    if caption:
        lines.append(f"<caption>{escape(caption)}</caption>")
    if columns:
        heads = "".join(f"<th>{escape(name)}</th>" for name in columns)
        lines.append(f"<thead><tr><td></td>{heads}</tr></thead>")
    lines.append("<tbody>")
    for name, cells in rows:
        lines.append(f"<tr><th>{escape(name)}</th>{''.join(cell for _, cell in cells)}</tr>")
    lines.append("</tbody></table></div>")
    return "\n".join(lines)
