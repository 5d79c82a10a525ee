"""What is wrong with a run, and by what two faults are the same."""
import enum
from dataclasses import dataclass, field
from typing import Iterable, List, NamedTuple, Optional, Tuple

from fzcheck.fuzz.checking import Values
from fzcheck.fuzz.running import Ran

VARIES = ", comes and goes"
NO_CONSTRAINT = "no constraint"


class Kind(enum.Enum):
    WRONG = "wrong solution"
    LOST = "lost solutions"
    TWICE = "solution twice"
    NOT_BETTER = "no better solution"
    OPTIMUM = "wrong optimum"
    CLAIM = "wrong claim"
    SILENT = "no claim"
    CRASH = "crash"
    STATUS = "error status"
    SLOW = "time limit"
    ENDLESS = "output without end"
    UNREADABLE = "unreadable output"
    MODEL_CHANGED = "model changed"


ANSWERS = {Kind.WRONG, Kind.LOST, Kind.OPTIMUM}  # one wrong builtin shows itself by all of these
PROTOCOL = {Kind.CLAIM, Kind.SILENT, Kind.STATUS, Kind.SLOW, Kind.ENDLESS, Kind.UNREADABLE,
            Kind.MODEL_CHANGED}
# Nobody is held to much of a model without solutions, so small models of these keep one.
WANTS_SOLUTION = {Kind.CRASH, Kind.STATUS, Kind.SLOW, Kind.ENDLESS}


class Wrong(NamedTuple):
    """A fault as it is seen: its kind, in a fault of protocol which it is, and words."""

    kind: Kind
    text: str
    form: str = ""
    missing: Tuple[str, ...] = ()  # blocks that the solver should have found


@dataclass
class Fault:
    """A fault, the options behind the solver's own, and the run that shows it."""

    wrong: Wrong
    options: List[str]
    ran: Ran

    @property
    def kind(self) -> Kind:
        return self.wrong.kind

    def is_like(self, other: "Fault") -> bool:
        return (self.kind, self.wrong.form) == (other.kind, other.wrong.form)


@dataclass
class Outcome:
    """What a run shows: faults, the plainest first, or why the solver refused the model."""

    faults: List[Fault] = field(default_factory=list)
    refused: Optional[str] = None
    undecided: bool = False
    solutions: List[Values] = field(default_factory=list)  # the last ones that hold

    def like(self, fault: Fault) -> Optional[Fault]:
        return next((it for it in self.faults if it.is_like(fault)), None)


class Cause(NamedTuple):
    """By what a fault is told. One of protocol is one whatever model shows it, and so is one that
    comes and goes; others are told apart by the builtins that the small model has."""

    kind: Kind
    names: Tuple[str, ...] = ()
    form: str = ""
    varies: bool = False

    def __str__(self) -> str:
        what = self.kind.value + (VARIES if self.varies else "")
        if self.kind in PROTOCOL:
            return f"{what}: {self.form}" if self.form else what
        if self.varies:
            return what
        return f"{what}: {', '.join(self.names) or NO_CONSTRAINT}"

    @property
    def key(self) -> str:
        """Equal for causes that are the same."""
        if self.kind in PROTOCOL:
            return str(self._replace(varies=False))
        if self.kind in ANSWERS and self.names and not self.varies:
            return str(self._replace(kind=Kind.WRONG))
        return str(self)


def cause_of(fault: Fault, names: Iterable[str], varies: bool = False) -> Cause:
    if varies:
        return Cause(fault.kind, form=fault.wrong.form, varies=True)
    if fault.kind in PROTOCOL:
        return Cause(fault.kind, form=fault.wrong.form)
    return Cause(fault.kind, tuple(sorted(set(names))))


def cause_from(line: str) -> Cause:
    """Reads what `str` wrote; ValueError where it is something else."""
    what, _, rest = line.strip().partition(": ")
    varies = what.endswith(VARIES)
    kind = Kind(what[: -len(VARIES)] if varies else what)
    if kind in PROTOCOL or varies:
        return Cause(kind, form=rest, varies=varies)
    names = () if rest in ("", NO_CONSTRAINT) else tuple(rest.split(", "))
    return Cause(kind, names)
