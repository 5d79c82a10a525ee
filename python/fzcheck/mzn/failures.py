"""What an explanation of `fzcheck check --json` says, in the planner's words.

A failure is a constraint, a domain, a definition, a printed value or the objective that fails, or
can't hold, under the values of a block, or that leaves it undecided."""
from typing import Any, Dict, Iterator, List, NamedTuple, Optional, Tuple

from fzcheck.mzn.items import Items, Place, place_in, words, written_name
from fzcheck.mzn.plan import Solution
from fzcheck.mzn.stream import OF_NO_MODEL
from fzcheck.mzn.wording import Wording, json_text, printed_values, value_text

NAMELESS = "constraint"  # the subject where the model has no name for it
KNOWN = "value", "low", "high"  # what is known of a variable
REASONS = {
    "no value": "no value for {name}",
    "not known": "{subject} isn't known",
    "too large": "{subject} is too large",
    "not shown better": "objective {now} not shown better than {found}",
}


class Fact(NamedTuple):
    """A name of the model, and what is said of it."""
    name: str
    text: str


class Failure(NamedTuple):
    block: int
    subject: str  # what fails, such as `"cover"`
    verb: str
    place: Optional[Place]  # in the model, or in the plan
    source: str  # the line there
    loops: Tuple[str, ...]  # such as `d = 1`
    reasons: Tuple[str, ...]
    facts: Tuple[Fact, ...]
    clashing: Tuple[str, ...]  # the elements that the reason speaks of, or else all
    flatzinc: Tuple[str, ...]  # lines on the point of the FlatZinc

    @property
    def values(self) -> str:
        """The values of loop variables with which it fails."""
        return f"with {', '.join(self.loops)}" if self.loops else ""

    @property
    def head(self) -> str:
        """What fails, where, and with which values of loop variables."""
        place = self.place and f"{self.place.path}:{self.place.line}"
        if place and self.subject == NAMELESS:
            place = f"{self.subject} at {place}"
        elif self.verb != "differs":  # a value of the plan, whose name tells its line
            place = ", ".join(filter(None, (self.subject, place)))
        else:
            place = self.subject
        return ", ".join(filter(None, (place, self.values)))


def undecided(items: Items, verdict: Dict[str, Any], subject: str) -> str:
    """What leaves a block undecided; `subject` is a constraint."""
    name = items.name(verdict.get("name", "")) or verdict.get("name", "")
    return REASONS[verdict["reason"]].format(**{**verdict, "name": name, "subject": subject})


class Reader:
    """Makes failures of explanations, in the words of the model."""

    def __init__(self, wording: Wording, solutions: List[Solution], plan: str, lines: List[str]
                 ) -> None:
        self.wording, self.items = wording, wording.items
        self.values = [printed_values(wording.model, solution) for solution in solutions]
        self.plan, self.lines = plan, lines

    def failure(self, found: Dict[str, Any], verdict: Dict[str, Any]) -> Failure:
        """What an explanation says of a block with this verdict."""
        point = str(found["message"]).partition(" ")[0]
        is_printed = point == "printed"
        place, source = self.plan_place(found) if is_printed else self.place(found)
        subject = self.subject(found, point)
        verb = "can't hold" if any("low" in one for one in found["variables"]) else "fails"
        if is_printed:
            verb = "differs"
        elif verdict["verdict"] == "undecided":
            subject, verb = undecided(self.items, verdict, subject), "is undecided"
        facts = self.facts(found)
        return Failure(
            found["explained"], subject, verb, place, source,
            tuple(found.get("model", {}).get("loops", ())), self.reasons(found), facts,
            self.clashing(found, facts), () if is_printed else tuple(self.flatzinc(found)))

    def plan_place(self, found: Dict[str, Any]) -> Tuple[Place, str]:
        line = self.lines[found["line"] - 1].rstrip()
        return Place(self.plan, found["line"], 1, len(line)), line

    def place(self, found: Dict[str, Any]) -> Tuple[Optional[Place], str]:
        model: Dict[str, Any] = found.get("narrowed") or found.get("model") or {}
        if "place" not in model:
            return None, ""
        return place_in(self.items.row(found["line"]).path, model["place"]), model.get("line", "")

    def subject(self, found: Dict[str, Any], point: str) -> str:
        if "narrowed" in found:
            return str(found["narrowed"]["name"]) or NAMELESS
        constraint = self.items.constraints.get(found["line"])
        if point in ("objective", "printed"):
            return str(found["message"]).rpartition(" in block")[0].replace(" differs", "")
        if constraint:
            model = found.get("model", {})
            return (", ".join(model.get("names", ())) or self.items.subject(found["line"])
                    or (NAMELESS if "place" in model else str(constraint)))
        name, path = self.items.row(found["line"])
        if OF_NO_MODEL.match(name) and path:
            return written_name(path) or NAMELESS
        return f"{point} of {name}" if point in ("domain", "definition") else name

    def reasons(self, found: Dict[str, Any]) -> Tuple[str, ...]:
        """The reason, where it speaks of the model's variables alone, and the notes."""
        notes = found.get("notes_parts", ())
        texts = [self.wording.text(parts) for parts in notes if self.wording.is_named(parts)]
        texts += found["notes"][len(notes):]
        if "reason_parts" in found and all(map(self.named, found["variables"])):
            texts.insert(0, self.wording.text(found["reason_parts"]))
        return tuple(texts)

    def named(self, variable: Dict[str, Any]) -> str:
        """The model's name of a variable that is told."""
        return str(variable.get("element") or self.items.name(variable["name"]))

    def facts(self, found: Dict[str, Any]) -> Tuple[Fact, ...]:
        """The variables of the model that are behind a failure, with their values."""
        facts: Dict[str, Fact] = {}
        for variable in found["variables"]:
            name = self.named(variable)
            if name:
                facts.setdefault(name, Fact(name, self.fact(name, variable)))
                continue
            behind = self.behind([variable["name"]], found["explained"])
            if not behind and self.items.row(found["line"]).path:
                behind = self.behind(self.items.around(found["line"]), found["explained"])
            for name in behind:
                facts.setdefault(name, Fact(name, self.printed(name, found["explained"])))
        for fixed in found.get("fixed", ()):
            name = self.named(fixed)
            if name:
                facts.setdefault(name, Fact(name, f"{name} = {self.fixed(fixed)}, fixed"))
        return tuple(facts.values())

    def fixed(self, found: Dict[str, Any]) -> str:
        parts = found.get("value_parts")
        return self.wording.text(parts) if parts else str(found["value"])

    def behind(self, variables: List[str], block: int) -> List[str]:
        values = self.printed_in(block)
        return self.items.behind(variables, lambda name: name in values)

    def printed_in(self, block: int) -> Dict[str, Any]:
        return self.values[block - 1] if block <= len(self.values) else {}

    def printed(self, name: str, block: int) -> str:
        values = self.printed_in(block)
        if name not in values:
            return f"{name}, which isn't printed"
        return f"{name} = {value_text(values[name], self.wording.enum(name))}"

    def fact(self, name: str, variable: Dict[str, Any]) -> str:
        name = f"{variable['role']}: {name}" if "role" in variable else name
        if "source" not in variable:
            return f"{name} = none: it isn't printed, and what is printed doesn't give it"
        told = {key: json_text(self.wording.value(self.named(variable), variable[key]),
                               variable.get("left_out"))
                for key in KNOWN if key in variable}
        known = f"= {told['value']}" if "value" in told else f"is {told['low']}..{told['high']}"
        return f"{name} {known}{self.origin(variable)}"

    def origin(self, variable: Dict[str, Any]) -> str:
        """Where a value is from that wasn't printed."""
        if variable["source"] == "printed":
            return ""
        if "line" not in variable:
            return f", by {variable['source']}"
        place = variable.get("model", {}).get("place")
        if not place:
            return ", by another constraint"
        found = place_in(self.items.row(variable["line"]).path, place)
        return f", by {found.path}:{found.line}"

    def clashing(self, found: Dict[str, Any], facts: Tuple[Fact, ...]) -> Tuple[str, ...]:
        """The elements that the reason speaks of; where it speaks of none, all there are."""
        parts = [part for part in found.get("reason_parts", ()) if "variable" in part]
        names = [self.wording.part_name(part) for part in parts]
        names += [self.named(one) for one in found["variables"] if "role" in one]
        if names and all(names):
            return tuple(dict.fromkeys(names))
        constraint = self.items.constraints.get(found["line"])
        variables = words(constraint.arguments) if constraint else []
        behind = self.behind(variables, found["explained"])
        return tuple(dict.fromkeys([fact.name for fact in facts] + behind))

    def flatzinc(self, found: Dict[str, Any]) -> Iterator[str]:
        line = found["line"]
        yield f"model.fzn:{line}:{found['column']}: {self.items.lines[line - 1]}"
        yield found["message"]
        if "reason" in found:
            yield found["reason"]
        for variable in found["variables"]:
            at = f", line {variable['line']}" if "line" in variable else ""
            known = [json_text(variable[key]) for key in KNOWN if key in variable]
            yield f"{variable['name']} = {'..'.join(known)}, {variable.get('source', 'none')}{at}"
            yield from (f"  {reason}" for reason in variable.get("behind", ()))
