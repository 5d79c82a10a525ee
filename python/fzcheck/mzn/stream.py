"""Turns what was printed into a FlatZinc stream."""
import re
from typing import Any, Dict, Iterator, List, NamedTuple, Optional, Set, Tuple

from fzcheck.mzn.computed import OutputModel, Wanted, is_close, is_same
from fzcheck.mzn.fitting import Unfit, did_you_mean, fitted, literal, shown
from fzcheck.mzn.model import Model
from fzcheck.mzn.names import Name, element_names
from fzcheck.mzn.plan import MARKER, Claim, Cut, Part, Printed, Refused
from fzcheck.mzn.sources import SourceItem, declared
from fzcheck.mzn.values import Array, SetOf, Unreadable, listing

# The compiler's own variables, whose numbers depend on how it is called, and such as `_output`.
OF_NO_MODEL = re.compile(r"X_INTRODUCED_\d+_$|_")
CUT_SHORT = "-"  # the front of a marker


class Waiting(NamedTuple):
    """A name that has to be computed, and the line of the stream that is kept free for it."""
    place: int
    block: int  # from 0
    printed: Printed
    elements: List[Any]


class Writer:
    """Writes a stream, each item in a line of its own."""

    def __init__(self, model: Model, output: OutputModel, sources: List[SourceItem]) -> None:
        self.model, self.output, self.sources = model, output, sources
        self.pieces: List[str] = []
        self.lines: List[int] = []  # of the plan, for each line of the stream
        self.unchecked: Dict[str, None] = {}  # names, in order
        self.missing: Dict[str, None] = {}
        self.bare = 0  # how many solutions have no name that is checked
        # How a name differs that the FlatZinc hasn't, by the line of the stream, from 1.
        self.differing: Dict[int, str] = {}
        self.cut: Optional[int] = None  # the place in the plan
        self.values: Dict[str, Any] = {}  # in the block, of FlatZinc's variables
        self.placed: Set[str] = set()  # those of them that are written
        self.blocks: List[Wanted] = []
        self.waiting: List[Waiting] = []

    def stream(self, parts: Iterator[Part]) -> str:
        for part in parts:
            if isinstance(part, Claim):
                self.put(part.text, part.line)
            elif isinstance(part, Cut):
                self.put(CUT_SHORT, part.line, "")
                self.cut = part.start
            else:
                self.solution(part.values)
                self.put(MARKER, part.line)
        self.compute()
        return "".join(self.pieces)

    def put(self, text: str, line: int, end: str = "\n") -> None:
        self.pieces.append(text + end)
        self.lines.append(line)

    def solution(self, values: List[Printed]) -> None:
        self.values, self.placed = {}, set()
        self.blocks.append(Wanted((), {}))
        printed = {value.name for value in values}
        unchecked = len([value for value in sorted(values, key=self.order)
                         if not self.printed(value)])
        wanted = [name for name, found in self.model.names.items() if found.is_wanted]
        self.missing.update(dict.fromkeys(name for name in wanted if name not in printed))
        self.bare += bool(wanted) and unchecked == len(values)
        last = values[-1].line if values else 0
        for name, value in self.values.items():
            if name not in self.placed:
                self.put(f"{name} = {literal(value)};", last)
                self.blocks[-1].values.setdefault(name, literal(value))

    def order(self, value: Printed) -> int:
        """What stands for other variables comes behind them, so that their values are known."""
        found = self.model.names.get(value.name)
        return ("own", "single", "optional", "computed", "").index(found.how) if found else 0

    def printed(self, value: Printed) -> bool:
        """Writes a value, and tells whether it can be checked."""
        found = self.model.names.get(value.name)
        if found is None and not OF_NO_MODEL.match(value.name):
            meant = did_you_mean(value.name, self.model.names)
            raise Refused(f"{value.name}: the model has no such name{meant}", value.line)
        if found is None or not found.how:
            self.unchecked[value.name] = None
            return False
        try:
            self.fitted(value, found, fitted(value.value, value.name, found, self.model.enums))
        except Unfit as error:
            line = value.line if error.element is None else value.line_of(error.element)
            told = str(error) if error.is_named else f"{value.name}: {error}"
            raise Refused(told, line) from None
        except Unreadable as error:
            raise Refused(f"{value.name}: {error}", value.line) from None
        return True

    def fitted(self, value: Printed, found: Name, elements: List[Any]) -> None:
        """Writes a value that has these elements in FlatZinc."""
        if found.how == "computed":
            names = (*self.blocks[-1].names, value.name)
            self.blocks[-1] = self.blocks[-1]._replace(names=names)
            self.waiting.append(Waiting(len(self.pieces), len(self.blocks) - 1, value, elements))
            self.put("", value.line)
        elif found.how == "optional":
            self.optional(value, found, elements)
        else:
            is_list = found.is_array or found.how == "single"
            whole = Array([len(elements)], [None], elements) if is_list else elements[0]
            self.put(f"{found.flat} = {literal(whole)};", value.line)
            self.values[found.flat] = whole
            self.placed.add(found.flat)
            self.note(value.name, found, elements)

    def note(self, name: str, found: Name, elements: List[Any]) -> None:
        """Notes a value for the output model, in which other variables may stand for it."""
        at_hand = self.blocks[-1].values
        for variable, element in zip(found.variables, elements):
            at_hand.setdefault(variable, literal(element))
        if found.is_array:
            sets = found.dimensions or [[1, found.size]]
            indices = ",".join(f"{low}..{high}" for low, high in sets)
            texts = ",".join(map(literal, elements))
            at_hand[name] = f"array{len(sets)}d({indices},[{texts}])"
        elif found.how == "own":
            at_hand[name] = literal(elements[0])

    def optional(self, value: Printed, found: Name, elements: List[Any]) -> None:
        """Gives the compiler's variables for an optional name the values that say the same."""
        clashes = [self.clash(there, inner, element, found)
                   for (there, inner), element in zip(found.variables, elements)]
        names = element_names(value.name, found, self.model.enums)
        told = [(f"{name} {'is absent' if element is None else '= ' + self.shown(element, found)}"
                 f", but {clash}", place) for place, (name, element, clash)
                in enumerate(zip(names, elements, clashes)) if clash]
        text, place = told[0] if told else ("", 0)
        item = self.compared(found, text, len(self.lines) + 1)
        self.put(item, value.line_of(place) if told else value.line)

    def compared(self, found: Name, told: str, line: int) -> str:
        """The item for a value of which the FlatZinc only has a 0; `told` is how it differs, and
        `line` where it stands in the stream, from 1."""
        if told:
            self.differing[line] = told
        return f"{found.flat} = {int(bool(told))};"

    def shown(self, value: Any, found: Name) -> str:
        return shown(value, self.model.enums.get(found.enum, []))

    def clash(self, there: Any, inner: Any, element: Any, found: Name) -> str:
        """Why an optional element can't have this value, or nothing; its variables then get it."""
        if isinstance(there, list):
            name, absent = there
            if element == absent:
                return "that is no value which the model has for it"
            is_given = self.gives(name, absent if element is None else element)
            return "" if is_given else self.other(self.values[name], found)
        is_there = element is not None
        if not self.gives(there, is_there):
            return "the model has it there" if there in (True, "true") or not is_there else \
                "the model leaves it absent"
        if is_there and not self.gives(inner, element):
            return self.other(self.values.get(inner, inner), found)
        if isinstance(inner, str) and not is_there:
            # The output model reads it, whatever it is.
            is_bool = found.kind == "bool"
            self.blocks[-1].values.setdefault(inner, "false" if is_bool else "0")
        return ""

    def other(self, value: Any, found: Name) -> str:
        return f"the model has {self.shown(value, found)} there"

    def gives(self, place: Any, value: Any) -> bool:
        """Whether a variable gets a value that it hasn't otherwise, or a literal is the value."""
        if not isinstance(place, str) or place in ("true", "false"):
            return literal(place) == literal(value)
        return literal(self.values.setdefault(place, value)) == literal(value)

    def compute(self) -> None:
        """Fills in the lines that were kept free, or leaves them empty where nothing is known."""
        found = self.output.computed(self.blocks) if self.waiting else []
        for place, block, value, elements in self.waiting:
            name = self.model.names[value.name]
            told = self.difference(value, name, elements, found[block].get(value.name))
            if told is None:
                self.unchecked[value.name] = None
                continue
            text, element = told
            self.pieces[place] = self.compared(name, text, place + 1) + "\n"
            self.lines[place] = value.line_of(element) if text else value.line

    def difference(self, value: Printed, name: Name, elements: List[Any],
                   computed: Any) -> Optional[Tuple[str, int]]:
        """How a value differs from the one that was computed, and in which element: an empty text
        where it doesn't, and nothing where that can't be told."""
        try:
            right = fitted(computed, value.name, name, self.model.enums)
        except (Unfit, Unreadable):
            return None
        if len(right) != len(elements):
            return None
        pairs = [(normal(one), normal(other)) for one, other in zip(elements, right)]
        differing = [place for place, pair in enumerate(pairs) if not is_same(*pair)]
        if all(is_close(*pairs[place]) for place in differing):
            return None if differing else ("", 0)
        place = next(place for place in differing if not is_close(*pairs[place]))
        named = list(element_names(value.name, name, self.model.enums))
        source = declared(self.sources, value.name)
        told = f": {source.value}, {source.place}".replace(": , ", ": ") if source else ""
        return (f"{named[place] if place < len(named) else value.name} is printed as "
                f"{self.shown(elements[place], name)} here, and is "
                f"{self.shown(right[place], name)}{told}", place)


def normal(value: Any) -> Any:
    """A value, of a set its elements in order."""
    return sorted(listing(value) or ()) if isinstance(value, SetOf) else value
