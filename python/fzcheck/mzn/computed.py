"""Computes names that the compiler left out of the FlatZinc by its own output model."""
import json
import os
import shutil
from typing import Any, Dict, FrozenSet, List, NamedTuple, Set, Tuple

from fzcheck.mzn.in_json import from_json
from fzcheck.mzn.model import OUTPUT, Model, run, text_in
from fzcheck.mzn.names import Output
from fzcheck.mzn.plan import MARKER
from fzcheck.mzn.values import Unreadable

MOST_RUNS = 100
EXACT, CLOSE = 1e-9, 1e-5  # how far floats differ by which rest, relative to their sizes


class Wanted(NamedTuple):
    """The names that are wanted of a block, and the values at hand, as a stream has them."""
    names: Tuple[str, ...]
    values: Dict[str, str]

    def group(self) -> Tuple[FrozenSet[str], FrozenSet[str]]:
        return frozenset(self.names), frozenset(self.values)


class OutputModel:
    """The output model, which is run with other items than its own."""

    def __init__(self, model: Model, scratch: str) -> None:
        self.model, self.scratch, self.runs = model, scratch, 0
        self.minizinc = shutil.which("minizinc") or ""
        self.definitions = ""
        self.free: Set[str] = set()  # the names that a stream gives a value

    def computed(self, blocks: List[Wanted]) -> List[Dict[str, Any]]:
        """The values of the names that are wanted of each block, as far as they can be computed."""
        text = text_in(self.model.folder, OUTPUT)
        self.definitions = "".join(line for line in text.splitlines(keepends=True)
                                   if not line.startswith("output "))
        self.free = {name for name, value in Output(text).values.items() if value is None}
        found: List[Dict[str, Any]] = [{} for _ in blocks]
        groups: Dict[Any, List[int]] = {}
        for place, block in enumerate(blocks):
            if block.names:
                groups.setdefault(block.group(), []).append(place)
        for places in groups.values():
            self.add(found, blocks, places, blocks[places[0]].names)
        return found

    def add(self, found: List[Dict[str, Any]], blocks: List[Wanted], places: List[int],
            names: Tuple[str, ...]) -> None:
        """Adds what one run tells of these blocks. If it fails, as where a value that isn't at
        hand is wanted, the names are tried one at a time, and then the blocks."""
        printed = self.printed(names, [blocks[place].values for place in places])
        if len(printed) == len(places):
            for place, values in zip(places, printed):
                found[place].update(values)
        elif len(names) > 1:
            for name in names:
                self.add(found, blocks, places, (name,))
        elif len(places) > 1:
            for place in places:
                self.add(found, blocks, [place], names)

    def printed(self, names: Tuple[str, ...], blocks: List[Dict[str, str]]) -> List[Dict[str, Any]]:
        """What the output model prints of these names for each block."""
        self.runs += 1
        if not self.minizinc or self.runs > MOST_RUNS:
            return []
        path = os.path.join(self.scratch, "computed.ozn")
        shown = ', ",", '.join(f'"\\"{number}\\":", {self.model.names[name].expression}'
                               for number, name in enumerate(names))
        with open(path, "w", encoding="utf-8", errors="surrogateescape") as file:
            file.write(f'output ["{{", {shown}, "}}\\n"];\n{self.definitions}')
        stream = "".join(map(self.block, blocks))
        ran = run(self.minizinc, "--ozn-file", path, given=stream)
        lines = [line for line in ran.stdout.splitlines() if line.startswith("{")]
        return [values_in(line, names) for line in lines] if ran.returncode == 0 else []

    def block(self, values: Dict[str, str]) -> str:
        """A block of a stream with the values that the output model wants."""
        items = [f"{name} = {value};\n" for name, value in values.items() if name in self.free]
        return "".join(items) + MARKER + "\n"


def values_in(line: str, names: Tuple[str, ...]) -> Dict[str, Any]:
    """The values of these names that stand in a line of JSON."""
    try:
        return {names[int(number)]: from_json(value) for number, value in json.loads(line).items()}
    except (ValueError, Unreadable):
        return {}


def is_same(printed: Any, computed: Any) -> bool:
    """Whether values are the same, floats up to what is lost as they are printed."""
    if isinstance(computed, float) and isinstance(printed, (int, float)):
        return is_near(printed, computed, EXACT)
    return bool(printed == computed)


def is_close(printed: Any, computed: Any) -> bool:
    """Whether a float is so near, or so rounded, that it may be meant."""
    if not isinstance(computed, float) or not isinstance(printed, (int, float)):
        return False
    decimals = len(repr(float(printed)).partition(".")[2])
    return is_near(printed, computed, CLOSE) or round(computed, decimals) == printed


def is_near(value: float, other: float, distance: float) -> bool:
    return abs(value - other) <= distance * max(1.0, abs(value), abs(other))
