"""Makes a model small on which a solver has a fault, while the fault stays and the model has
sense."""
import copy
from dataclasses import dataclass, field
from typing import List, NamedTuple, Optional, Sequence

from fzcheck.flatzinc import Model, stream_of
from fzcheck.fuzz.checking import MARKER, Setting, Values
from fzcheck.fuzz.disputed import is_bounded, is_defined, is_disputed
from fzcheck.fuzz.faults import WANTS_SOLUTION, Fault, Kind
from fzcheck.fuzz.judge import Case, values_of
from fzcheck.fuzz.running import Allowance
from fzcheck.fuzz.smaller import PASSES, Edits, without_unused

TIMES = 5  # that the small model is run at the end
RUNS = (15, 10, 6, 4, 1, 1)  # of each step, by how often the fault was seen in so many runs
MOST_SHORTER = 5  # times shorter is a limit while a model is made small on which it is reached


class Sense(NamedTuple):
    """What the small model is to keep of what the model had."""

    is_undisputed: bool
    is_bounded: bool
    is_defined: bool
    has_solution: bool

    def is_kept_by(self, other: "Sense") -> bool:
        return all(its or not own for own, its in zip(self, other))


def sense_of(case: Case, fault: Fault) -> Sense:
    model = case.model
    wants_solution = fault.kind in WANTS_SOLUTION
    return Sense(
        not any(is_disputed(model, it.name, it.arguments) for it in model.constraints),
        is_bounded(model),
        not wants_solution or all(is_defined(model, it) for it in model.constraints),
        wants_solution and case.has_solution)


class Small(NamedTuple):
    """A model that was made small, and in how many of so many runs the fault was seen there."""

    model: Model
    fault: Fault
    seen: int
    times: int

    @property
    def varies(self) -> bool:
        return self.seen < self.times

    @property
    def certainty(self) -> str:
        count = f"{self.seen} of {self.times}"
        return f"comes and goes: {count}" if self.varies else f"seen in {count} runs"


@dataclass
class Shrinker:
    """Goes on by the first smaller model that still has the fault, until there is none."""

    setting: Setting
    folder: str
    model: Model
    fault: Fault
    allowance: Allowance
    known: Sequence[Values] = ()
    runs: int = 1  # of each step
    sense: Sense = field(init=False)

    def __post_init__(self) -> None:
        self.sense = sense_of(self.case(self.model), self.fault)

    def case(self, model: Model) -> Case:
        return Case(self.setting, model, self.folder, self.known)

    def fails(self, model: Model) -> Optional[Fault]:
        """The same fault of the solver on the model."""
        try:
            case = self.case(model)
            sense = sense_of(case, self.fault)
            if not self.sense.is_kept_by(sense):
                return None
            for _ in range(self.runs):
                found = case.outcome(self.fault.options).like(self.fault)
                if found:
                    self.sense = sense
                    return found
        except (ValueError, KeyError, IndexError):
            pass  # what is left is no model
        return None

    def take(self, model: Model) -> bool:
        fault = self.fails(model) if not self.allowance.is_over() else None
        if fault:
            self.model, self.fault = model, fault
        return fault is not None

    def run(self) -> None:
        before = ""
        while before != self.model.text() and not self.allowance.is_over():
            before = self.model.text()
            self.drop_constraints()
            for edits in PASSES:
                self.go_through(edits)

    def drop_constraints(self) -> None:
        """Halves first, then smaller parts."""
        part = max(1, len(self.model.constraints) // 2)
        while part:
            at = 0
            while at < len(self.model.constraints):
                model = copy.deepcopy(self.model)
                del model.constraints[at : at + part]
                if not self.take(without_unused(model)):
                    at += part
            part //= 2

    def go_through(self, edits: Edits) -> None:
        """Tries each edit; one that is taken begins the rest anew."""
        again = True
        while again and not self.allowance.is_over():
            again = any(self.take(without_unused(model))
                        for model in edits(self.model, self.likely()))

    def likely(self) -> List[Values]:
        """The solution that is missing, or that the solver printed first."""
        wrong = self.fault.wrong
        text = wrong.missing[0] if wrong.missing else self.fault.ran.output
        stream = stream_of(text[: text.find(MARKER) + len(MARKER) + 1])
        return values_of(self.model, stream)


def seen(case: Case, fault: Fault, times: int) -> List[Fault]:
    """The same fault in so many runs on the model."""
    found = (case.outcome(fault.options).like(fault) for _ in range(times))
    return [it for it in found if it]


def setting_for(setting: Setting, kind: Kind) -> Setting:
    """That of the many runs of a fault: one of time or length takes the whole limit in each."""
    if kind == Kind.SLOW:
        return setting._replace(limit=max(1, setting.limit // MOST_SHORTER))
    if kind == Kind.ENDLESS:
        return setting._replace(most_printed=setting.most_printed // MOST_SHORTER)
    return setting


def shrunk(setting: Setting, case: Case, fault: Fault, folder: str, seconds: float) -> Small:
    """Makes a model small; one of whose fault comes and goes is run several times at each step."""
    own = setting_for(setting, fault.kind)
    times = TIMES  # runs to the limit are dear, and hardly ever come and go
    if fault.kind != Kind.SLOW:
        times = len(seen(Case(own, case.model, folder, case.known), fault, TIMES))
    shrinker = Shrinker(own, folder, copy.deepcopy(case.model), fault, Allowance(seconds),
                        case.known, RUNS[times])
    shrinker.run()
    last = shrinker.case(shrinker.model)
    again = seen(last, shrinker.fault, TIMES)
    if own != setting and not seen(Case(setting, last.model, folder, case.known), fault, 1):
        return Small(case.model, fault, times, TIMES)  # it was slow, no more
    return Small(last.model, again[-1] if again else shrinker.fault, len(again), TIMES)
