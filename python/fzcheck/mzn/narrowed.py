"""Which constraint of the model narrowed a domain that fails, or fixed a value.

The compiler narrows domains by constraints that it then leaves out. So the model is compiled with
one of its constraints at a time, and the plan is checked against that, as long as it is cheap."""
import os
import re
import time
from typing import Callable, Dict, List, NamedTuple, Optional

from fzcheck.lines import Object
from fzcheck.mzn.model import MODEL, Failed, Inputs, Model, compiled_beside
from fzcheck.mzn.sources import SourceItem, declared, shown_path

MOST_TRIED, MOST_SECONDS = 20, 30.0
MOST_BYTES = 5_000_000  # of a FlatZinc that is compiled anew
DOMAIN = re.compile(r"domain of (\w+) fails in block (\d+)")
NAMED = re.compile(r'constraint\s*::\s*("(?:[^"\\\n]|\\.)*")')
PRINTED = re.compile(r"printed (\w+) differs in block (\d+)")
# The blocks that are violated, with the names of which a domain, or what is printed, fails, each
# with a `;` behind it.
Judge = Callable[[Model], Dict[int, str]]


class Guilty(NamedTuple):
    """A constraint that a block violates, and its name in quotes, if it has one."""
    item: SourceItem
    name: str

    @property
    def place(self) -> str:
        return f"{shown_path(self.item.path)}:{self.item.line}"

    def told(self) -> Object:
        line = self.item.text.partition("\n")[0]
        return {"name": self.name, "line": line, "place": f"{self.place}:1"}


class Narrowing:
    """Compiles parts of a model into a folder; `judge` checks the plan against each."""

    def __init__(self, model: Model, inputs: Inputs, sources: List[SourceItem], scratch: str,
                 judge: Judge) -> None:
        self.model, self.inputs, self.scratch, self.judge = model, inputs, scratch, judge
        self.sources = sources
        self.constraints = [item for item in sources if item.text.startswith("constraint")]
        self.violated: Dict[int, Dict[int, str]] = {}  # by the number of the constraint
        self.ends = time.monotonic() + MOST_SECONDS

    def told(self, found: Object) -> Object:
        """An explanation; of a domain that was narrowed with what it was, and by what."""
        name = narrowed_name(found)
        if not name or not self.is_cheap():
            return found
        is_fixed = found["message"].startswith("printed ")
        if is_fixed and not self.is_in_flatzinc(name):
            return found
        block = int(found["explained"])
        bare = self.blocks(None)
        if bare is None or block in bare:
            return found  # by its own declaration, or that can't be told
        guilty = self.guilty(found, block, name)
        text = self.text(found, guilty, is_fixed)
        notes = [*found["notes"], text]
        parts = [*found.get("notes_parts", ()), [{"kind": "words", "text": text}]]
        more = {"narrowed": guilty.told()} if guilty and not is_fixed else {}
        return {**found, "notes": notes, "notes_parts": parts, **more}

    def is_in_flatzinc(self, flat: str) -> bool:
        """Whether the FlatZinc itself says what a name is."""
        return any(name.flat == flat and name.how in ("own", "single")
                   for name in self.model.names.values())

    def is_cheap(self) -> bool:
        return os.path.getsize(os.path.join(self.model.folder, MODEL)) <= MOST_BYTES

    def text(self, found: Object, guilty: Optional[Guilty], is_fixed: bool) -> str:
        """The line on what a domain was, and what narrowed it, or what fixed a value."""
        by = "another constraint"
        if guilty:
            by = f"{guilty.name or 'the constraint'}, {guilty.place}"
        if is_fixed:
            return f"the compiler left no other value, by {by}"
        source = declared(self.sources, element(found).partition("[")[0])
        kind = re.sub(r"^(?:array\s*\[.*?\]\s*of\s+)?(?:var\s+)?(?:opt\s+)?", "",
                      source.kind if source else "")
        return f"narrowed by the compiler{f' from {kind}' if kind else ''}, by {by}"

    def guilty(self, found: Object, block: int, name: str) -> Optional[Guilty]:
        """The first constraint that narrows a domain alone so that it fails, or else the first that
        fails at all; those that may have to do with it come first. The compiler's own variables
        have other names in each model."""
        is_own = name.startswith("X_INTRODUCED_")
        last: Optional[Guilty] = None
        for number in self.order(found)[:MOST_TRIED]:
            domains = (self.blocks(number) or {}).get(block)
            item = self.constraints[number]
            named = NAMED.match(item.text)
            guilty = Guilty(item, named[1] if named else "")
            if domains and (is_own or f"{name};" in domains):
                return guilty
            last = guilty if last is None and domains is not None else last
        return last

    def order(self, found: Object) -> List[int]:
        """The numbers of constraints: of the one where the compiler says that the variable is from,
        of those that name it, and of the others."""
        file, _, line = found.get("model", {}).get("place", "").rpartition(":")[0].rpartition(":")
        name = element(found).partition("[")[0]
        word = re.compile(rf"\b{re.escape(name)}\b")

        def distance(number: int) -> int:
            item = self.constraints[number]
            is_there = os.path.basename(item.path) == file and line.isdigit() and \
                item.line <= int(line) <= item.line + item.text.count("\n")
            return 0 if is_there else 1 if word.search(item.text) else 2

        return sorted(range(len(self.constraints)), key=distance)

    def blocks(self, number: Optional[int]) -> Optional[Dict[int, str]]:
        """The blocks that violate the model with this constraint alone, or with none."""
        key = -1 if number is None else number
        if key not in self.violated:
            if time.monotonic() > self.ends:
                return None
            try:
                self.violated[key] = self.judge(self.compiled(key))
            except Failed:
                self.violated[key] = {}
        return self.violated[key]

    def compiled(self, number: int) -> Model:
        """The model with this constraint alone. Lines stay where they were."""
        folder = os.path.join(self.scratch, f"alone{number}")
        os.mkdir(folder)
        inputs = Inputs([], [], [])
        paths = {path: os.path.join(folder, f"{place} {os.path.basename(path)}")
                 for place, path in enumerate(self.inputs.files) if path.endswith(".mzn")}
        for path, other in paths.items():
            with open(path, encoding="utf-8", errors="surrogateescape") as file:
                text = file.read()
            for place, item in enumerate(self.constraints):
                if item.path == path and place != number:
                    blank = re.sub(r"[^\n]", " ", text[item.start : item.end])
                    text = text[: item.start] + blank + text[item.end :]
            with open(other, "w", encoding="utf-8", errors="surrogateescape") as file:
                file.write(text)
        for path in paths:
            inputs.words.extend(("-I", os.path.dirname(os.path.abspath(path))))
        inputs.words.extend(paths.get(word, word) for word in self.inputs.words)
        inputs.files.extend(paths.get(path, path) for path in self.inputs.files)
        return compiled_beside(inputs, folder)


def narrowed_name(found: Object) -> str:
    """The name of which a domain, or a printed value, fails; an empty one at another point."""
    message = found.get("message", "") if "explained" in found else ""
    printed = PRINTED.match(message)
    if printed:
        return printed[1]
    return element(found) if DOMAIN.match(message) else ""


def element(found: Object) -> str:
    """The name that an explanation is about."""
    variable = found["variables"][0] if found["variables"] else {}
    return str(variable.get("element", variable.get("name", "")))
