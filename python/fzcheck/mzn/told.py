"""The report of `fzcheck check --json` in the planner's words, as text or as JSON."""
import json
import re
from typing import Dict, Iterator, List, NamedTuple, Optional, Tuple

from fzcheck import lines
from fzcheck.lines import Object
from fzcheck.mzn.failures import Failure, Reader, undecided
from fzcheck.mzn.groups import grouped
from fzcheck.mzn.items import Items
from fzcheck.mzn.model import Model
from fzcheck.mzn.plan import Solution
from fzcheck.mzn.wording import Wording, joined

SHOWN = re.compile(rb"[ -~]{0,60}")  # of what is cut off


class Source(NamedTuple):
    """What is checked: the plan, its solutions, and the lines that the stream's are from."""
    model: Model
    plan: str  # what the plan is called
    text: List[str]  # its lines
    solutions: List[Solution]
    lines: List[int]  # of the plan, for each line of the stream
    cut: Optional[Tuple[int, int]]  # the bytes of the plan that are cut off

    def line(self, number: int) -> int:
        """The line of the plan that a line of the stream is from."""
        return self.lines[min(number, len(self.lines)) - 1] if self.lines else 1

    def of_plan(self, found: Object) -> Object:
        """An object of the report, with lines of the plan in the place of the stream's."""
        found = dict(found)
        is_printed = "printed" in (found.get("point"), found.get("message", "").partition(" ")[0])
        if "line" in found and (is_printed or found.get("refused") in ("stream", "block")):
            found["line"] = self.line(found["line"])
            found.pop("column", None)
        if "cut" in found and self.cut:
            found["cut"], found["from"] = list(self.cut), self.cut_front(self.cut[0])
        return found

    def cut_front(self, at: int) -> str:
        """What is shown of the plan's text from this byte on, which is cut off."""
        text = "\n".join(self.text).encode("utf-8", "surrogateescape")
        shown = SHOWN.match(text, at)
        return shown[0].decode() if shown else ""


class Told:
    """`objects` are what `fzcheck check` wrote, and what was found beside it."""

    def __init__(self, source: Source, objects: List[Object]) -> None:
        self.source = source
        self.objects = [source.of_plan(found) for found in objects]
        self.items = Items(source.model.folder)
        self.wording = Wording(source.model, self.items)
        verdicts = {found["block"]: found for found in self.objects if "verdict" in found}
        reader = Reader(self.wording, source.solutions, source.plan, source.text)
        self.failures: List[Failure] = []
        self.first: Dict[int, Failure] = {}  # of each block
        for found in self.objects:
            if "explained" in found:
                failure = reader.failure(found, verdicts[found["explained"]])
                self.failures.append(failure)
                self.first.setdefault(failure.block, failure)

    def report(self) -> List[str]:
        """The lines of the report."""
        return [line for line in map(self.report_line, self.objects) if line]

    def report_line(self, found: Object) -> str:
        if "verdict" in found:
            return self.verdict(found)
        if "answer" in found and "why" in found:
            return f"{found['answer']}: {found['why']}"
        if "not_checked" in found:
            return f"not checked: {', '.join(found['not_checked'])}"
        if "not_printed" in found:
            fit = ", found values that fit" if found["found"] else ""
            *names, last = found["not_printed"]
            return f"not printed: {', '.join(names)}{' and ' * bool(names)}{last}{fit}"
        return "\n".join(lines.report_lines([found], tells_file=True))

    def verdict(self, found: Object) -> str:
        """The line of a block."""
        line = f"block {found['block']}: {found['verdict']}"
        if found["verdict"] == "satisfied":
            return line
        if found["block"] in self.first:
            return f"{line}: {self.first[found['block']].head}"
        return f"{line}: {self.point(found)}"

    def point(self, found: Object) -> str:
        """The point of a block that isn't explained."""
        point = found.get("point", found.get("reason"))
        subject = self.items.head(found["line"]) if "number" in found else ""
        if "reason" in found:
            return undecided(self.items, found, subject)
        if point == "objective":
            return f"objective {found['now']} not better than {found['before']}"
        return subject or f"{point} of {found['name']}".replace("printed of", "printed")

    def explanation(self, with_flatzinc: bool) -> Iterator[str]:
        """The lines on what fails, and what the report's last object says besides."""
        for group in grouped(self.failures):
            yield from group.lines(with_flatzinc)
        for found in self.objects:
            if "points_left_out" in found:
                yield f"... and {found['points_left_out']} more points fail"
            if found.get("unconstrained"):
                yield lines.unconstrained_line(found)
            if "refused" in found and "message" in found:
                yield found["message"]

    def in_json(self) -> Iterator[str]:
        """The objects in the words of the model, a line each."""
        failures = iter(self.failures)
        for found in self.objects:
            if "explained" in found:
                found = self.explained(found, next(failures))
            elif found.get("block") in self.first and "verdict" in found:
                found = {**found, "model": model_of(self.first[found["block"]])}
            yield json.dumps(found, ensure_ascii=False, separators=(",", ":"))

    def explained(self, found: Object, failure: Failure) -> Object:
        """An explanation with its texts and values in words."""
        variables = list(map(self.variable, found["variables"]))
        model = {**found.get("model", {}), **model_of(failure)}
        return {**self.in_words(found), "model": model, "variables": variables}

    def in_words(self, found: Object) -> Object:
        """The object with its texts, and their parts, in words."""
        found = dict(found)
        for key in ("reason", "notes", "behind"):
            parts = found.get(f"{key}_parts")
            if parts is not None and isinstance(found[key], str):
                found[f"{key}_parts"] = self.wording.parts(parts)
                found[key] = joined(found[f"{key}_parts"])
            elif parts is not None:
                found[f"{key}_parts"] = list(map(self.wording.parts, parts))
                found[key] = list(map(joined, found[f"{key}_parts"]))
        return found

    def variable(self, found: Object) -> Object:
        name = found.get("element") or self.items.name(found["name"])
        words = {key: self.wording.value(name, found[key])
                 for key in ("value", "low", "high") if key in found}
        return {**self.in_words(found), **words}


def model_of(failure: Failure) -> Object:
    """What fails in the model."""
    place = {"place": str(failure.place)} if failure.place else {}
    return {"names": [failure.subject], **place, "loops": list(failure.loops)}
