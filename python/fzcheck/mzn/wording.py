"""Values and names in the planner's words: those of enums by their names, elements by indices."""
import math
import re
from functools import cached_property
from typing import Any, Dict, List, Optional

from fzcheck.mzn.items import Items
from fzcheck.mzn.model import Model
from fzcheck.mzn.names import element_names, elements_of, index_sets
from fzcheck.mzn.plan import Solution
from fzcheck.mzn.values import Array, Range, SetOf

Part = Dict[str, Any]  # of a text: its kind, its text, and which variable it is about
WHOLE = re.compile(r"-?\d+")


def base(name: str) -> str:
    """The name of an element's array."""
    return name.partition("[")[0]


def name_of(enum: List[str], value: Any) -> Any:
    """The name of an enum's value, which is counted from 1."""
    is_number = isinstance(value, int) and not isinstance(value, bool)
    return enum[value - 1] if is_number and 1 <= value <= len(enum) else value


def printed_indices(model: Model, name: str, value: Any) -> List[List[str]]:
    """The same of a value that was printed, by its own indices where the model's aren't known."""
    if not isinstance(value, Array):
        return []
    known = index_sets(model.names[name], model.enums) if name in model.names else []
    if math.prod(map(len, known)) == len(value.elements) and known:
        return known
    if math.prod(value.lengths) != len(value.elements):
        return [list(map(str, range(1, len(value.elements) + 1)))]
    return [list(map(str, indices or range(1, length + 1)))
            for indices, length in zip(value.indices, value.lengths)]


def value_text(value: Any, enum: List[str]) -> str:
    """A value that was printed."""
    if value is None:
        return "absent"
    if isinstance(value, bool):
        return "true" if value else "false"
    if isinstance(value, Range):
        return f"{value_text(value.low, enum)}..{value_text(value.high, enum)}"
    if isinstance(value, SetOf):
        inner = ", ".join(value_text(part, enum) for part in value.parts)
        is_range = len(value.parts) == 1 and isinstance(value.parts[0], Range)
        return inner if is_range else f"{{{inner}}}"
    return str(name_of(enum, value))


def printed_values(model: Model, solution: Solution) -> Dict[str, Any]:
    """The values of a solution by the names of elements."""
    values: Dict[str, Any] = {}
    for name, value, *_ in solution.values:
        elements = value.elements if isinstance(value, Array) else [value]
        values.update(zip(elements_of(name, printed_indices(model, name, value)), elements))
    return values


class Wording:
    """Puts names and values of the FlatZinc into the planner's words."""

    def __init__(self, model: Model, items: Items) -> None:
        self.model, self.items = model, items

    @cached_property
    def same(self) -> Dict[str, List[str]]:
        """The names of elements that are one variable, by each of them."""
        names: Dict[str, List[str]] = {}
        for name, found in self.model.names.items():
            elements = element_names(name, found, self.model.enums)
            for element, variable in zip(elements, self.items.arrays.get(name, ())):
                names.setdefault(variable, []).append(element)
        return {name: alike for alike in names.values() if len(alike) > 1 for name in alike}

    def enum(self, name: str) -> List[str]:
        """The names of the values that a name of the model, or an element, can have."""
        found = self.model.names.get(base(name))
        return self.model.enums.get(found.enum, []) if found else []

    def text(self, parts: List[Part]) -> str:
        return joined(self.parts(parts))

    def is_named(self, parts: List[Part]) -> bool:
        """Whether the model has names for all variables that a text speaks of."""
        return all(self.part_name(part) for part in parts if "variable" in part)

    def parts(self, parts: List[Part]) -> List[Part]:
        """The parts of a text, each in words."""
        return [{**part, "text": self.part(part)} for part in parts]

    def part(self, part: Part) -> str:
        text = str(part["text"])
        if part["kind"] not in ("variable", "value"):
            return text
        name = self.part_name(part)
        return (name or text) if part["kind"] == "variable" else self.named(name, text)

    def part_name(self, part: Part) -> str:
        """The model's name of the variable, or the element, that a part is about."""
        variable = str(part["variable"])
        element: Optional[int] = part.get("element")
        if element is None:
            return self.items.name(variable)
        if variable in self.model.names:
            names = list(element_names(variable, self.model.names[variable], self.model.enums))
        else:
            names = list(map(self.items.name, self.items.arrays.get(variable, ())))
        return names[element - 1] if element <= len(names) else ""

    def named(self, name: str, text: str) -> str:
        """The text of a value, in which numbers stand for values of an enum."""
        enum = self.enum(name)
        return WHOLE.sub(lambda number: str(name_of(enum, int(number[0]))), text) if enum else text

    def value(self, name: str, value: Any) -> Any:
        """A value of the report's JSON, a set among them, which is a list of ranges."""
        enum = self.enum(name)
        if isinstance(value, list):
            return [[name_of(enum, bound) for bound in one] for one in value]
        return name_of(enum, value)


def joined(parts: List[Part]) -> str:
    return "".join(str(part["text"]) for part in parts)


def json_text(value: Any, left_out: Optional[int] = None) -> str:
    """The text of a value of the report's JSON."""
    if not isinstance(value, list):
        return str(value).lower() if isinstance(value, bool) else str(value)
    if len(value) == 1 and not left_out and value[0][0] != value[0][1]:
        return f"{value[0][0]}..{value[0][1]}"
    ranges = [f"{low}" if low == high else f"{low}..{high}" for low, high in value]
    if left_out:
        ranges.append(f"... and {left_out} more")
    return f"{{{', '.join(ranges)}}}"
