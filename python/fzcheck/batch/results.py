"""The results of a season: a folder with one file for each pair of a model and a solver.

`pairs/MODEL/SOLVER.json` has a line with the result, a line with what the job took, which alone
differs from run to run, and then the report. It is written in `new` and renamed, so each file is
whole, and all machines may write into one folder.
"""
import enum
import json
import os
import shutil
import socket
from dataclasses import dataclass, field
from typing import Any, Collection, Dict, Iterator, List, NamedTuple, Optional, Tuple

PAIRS, NEW, ENDING = "pairs", "new", ".json"
UNSATISFIABLE, COMPLETE = "=====UNSATISFIABLE=====", "=========="
UNKNOWN, ERROR = "=====UNKNOWN=====", "=====ERROR====="


class Outcome(str, enum.Enum):
    """What came of a pair, in the order in which a table has it."""

    VIOLATED = "violated"
    REFUTED = "refuted claim"
    REFUSED = "refused"
    UNDECIDED = "undecided"
    NO_BLOCKS = "no blocks"
    ACCEPTED = "accepted"
    MODEL = "model refused"
    OUT_OF_MEMORY = "out of memory"
    TIME_LIMIT = "time limit"
    FAILED = "failed"


WRONG = (Outcome.VIOLATED, Outcome.REFUTED, Outcome.REFUSED)
LIMITED = (Outcome.OUT_OF_MEMORY, Outcome.TIME_LIMIT)
UNJUDGED = (*LIMITED, Outcome.FAILED)  # which say nothing of the solver


class Finish(str, enum.Enum):
    """What a solver says of its whole search, and what is known of that."""

    PROVED = "proved"
    CLAIMED = "claimed only"
    REFUTED = "refuted"
    GIVEN_UP = "given up"  # it says that it doesn't know, or that it failed
    NONE = "unfinished"


class Key(NamedTuple):
    """All that a result depends on: where it is the same, the pair isn't run again."""

    program: str
    options: Tuple[str, ...]
    model: str
    names: str
    stream: str
    beside: Tuple[str, ...] = ()  # the sums of the files beside the stream
    known: Tuple[Tuple[str, str], ...] = ()  # solvers, and the sums of their streams


@dataclass
class Claim:
    """A solver's claim after so many blocks, with the objective of the last of them."""

    claim: str
    after: int
    objective: Optional[int] = None
    refuted_by: Optional[str] = None
    by_known: bool = False
    proved: Optional[int] = None  # by so many nodes of a search

    @property
    def judgement(self) -> str:
        if self.refuted_by:
            return f"refuted by {self.refuted_by}"
        if self.proved is not None:
            return f"proved, {self.proved} node{'' if self.proved == 1 else 's'}"
        return "not judged"


@dataclass
class Solving:
    """What the solver took, as far as its stream and the files beside it tell."""

    seconds: Optional[float] = None
    best_at: Optional[float] = None  # when it printed its best satisfied block
    memory: Optional[int] = None  # bytes
    status: str = ""


@dataclass
class Result:
    """What is known of a pair."""

    model: str
    solver: str
    key: Key
    version: str
    sense: str
    limits: str = ""
    outcome: Outcome = Outcome.FAILED
    words: str = ""
    explanation: List[str] = field(default_factory=list)
    satisfied: int = 0
    violated: int = 0
    undecided: int = 0
    claims: List[Claim] = field(default_factory=list)
    cut: str = ""
    best: Optional[int] = None  # the best objective of a satisfied block
    best_block: Optional[int] = None
    reach: Optional[int] = None  # the same of all blocks that might be satisfied by themselves
    might_be_solved: bool = False
    solving: Solving = field(default_factory=Solving)
    # Of some blocks the number, the objective, whether it is satisfied, and the seconds or none.
    points: List[List[Any]] = field(default_factory=list)

    @property
    def blocks(self) -> int:
        return self.satisfied + self.violated + self.undecided

    @property
    def is_wrong(self) -> bool:
        """Whether the solver is to blame."""
        return self.outcome in WRONG

    def claims_that_are(self, finish: Finish) -> List[Claim]:
        return [claim for claim in self.claims if finish_of(claim) is finish]

    @property
    def last_claim(self) -> Optional[Claim]:
        """The claim that tells most: one that is refuted, or else the last one."""
        refuted = self.claims_that_are(Finish.REFUTED)
        return refuted[0] if refuted else self.claims[-1] if self.claims else None

    @property
    def finish(self) -> Finish:
        return finish_of(self.last_claim) if self.last_claim else Finish.NONE

    @property
    def says_unsatisfiable(self) -> bool:
        return self.last_claim is not None and self.last_claim.claim == UNSATISFIABLE

    def is_of(self, key: Key, limits: str) -> bool:
        """Whether this is what a run would give, whatever streams were known."""
        same = self.key._replace(known=()) == key._replace(known=())
        limited = self.outcome in LIMITED and self.limits != limits
        return same and self.outcome is not Outcome.FAILED and not limited

    def better(self, one: Optional[int], other: Optional[int]) -> bool:
        """Whether one objective is better than the other, or than none."""
        if one is None or self.sense == "satisfy":
            return False
        return other is None or (one < other if self.sense == "minimize" else one > other)


def finish_of(claim: Claim) -> Finish:
    if claim.refuted_by:
        return Finish.REFUTED
    if claim.proved is not None:
        return Finish.PROVED
    return Finish.GIVEN_UP if claim.claim in (UNKNOWN, ERROR) else Finish.CLAIMED


class Usage(NamedTuple):
    """What the last job of a pair took."""

    at: float  # when it ended
    seconds: float  # of the processor
    elapsed: float
    memory: int  # bytes


class Stored(NamedTuple):
    result: Result
    usage: Usage


class Row(NamedTuple):
    """A model, with the best objective of a satisfied block, and the solvers that have it and are
    nowhere wrong on it."""

    model: str
    pairs: List[Stored]
    best: Optional[int]
    holders: List[str]

    @property
    def fault(self) -> str:
        """Why the model itself can't be judged by, where that is so."""
        refused = [it.result for it in self.pairs if it.result.outcome is Outcome.MODEL]
        return refused[0].words if refused else ""


def row_of(model: str, pairs: List[Stored]) -> Row:
    best = None
    for result, _ in pairs:
        best = result.best if result.better(result.best, best) else best
    holders = [result.solver for result, _ in pairs
               if best is not None and result.best == best and not result.is_wrong]
    return Row(model, pairs, best, holders)


def result_from(text: Dict[str, Any]) -> Result:
    key = text["key"]
    known = tuple((solver, stream) for solver, stream in key["known"])
    text["key"] = Key(**key)._replace(options=tuple(key["options"]), beside=tuple(key["beside"]),
                                      known=known)
    text["claims"] = [Claim(**claim) for claim in text["claims"]]
    text["outcome"] = Outcome(text["outcome"])
    text["solving"] = Solving(**text["solving"])
    return Result(**text)


def text_of(result: Result) -> str:
    return json.dumps({**vars(result), "key": result.key._asdict()}, default=vars) + "\n"


def escaped(name: str) -> str:
    """A name as that of one file."""
    return name.replace("%", "%25").replace("/", "%2F")


def unescaped(name: str) -> str:
    return name.replace("%2F", "/").replace("%25", "%")


class Store:
    """A folder of results."""

    def __init__(self, folder: str) -> None:
        self.folder = folder
        self.host = socket.gethostname()

    def path(self, model: str, solver: str) -> str:
        return f"{self.folder}/{PAIRS}/{escaped(model)}/{escaped(solver)}{ENDING}"

    def prepare(self, models: Collection[str]) -> None:
        """Makes the folders."""
        for kind in (PAIRS, NEW):
            os.makedirs(os.path.join(self.folder, kind), exist_ok=True)
        for model in models:
            os.makedirs(os.path.join(self.folder, PAIRS, escaped(model)), exist_ok=True)

    def new_path(self) -> str:
        """A file of this process alone, which is renamed when it is whole."""
        return f"{self.folder}/{NEW}/{self.host}.{os.getpid()}"

    def put(self, result: Result, usage: Usage, report: List[str]) -> None:
        """Stores what a run gave."""
        new = self.new_path()
        with open(new, "wb") as file:
            file.write(text_of(result).encode())
            file.write((json.dumps(usage._asdict()) + "\n").encode())
            file.write("".join(report).encode())
        os.replace(new, self.path(result.model, result.solver))

    def stored(self, model: str, solver: str) -> Optional[Stored]:
        """What is stored of a pair, or nothing where there is none that can be read."""
        try:
            with open(self.path(model, solver), "rb") as file:
                result = result_from(json.loads(file.readline()))
                return Stored(result, Usage(**json.loads(file.readline())))
        except (OSError, ValueError, KeyError, TypeError, AttributeError):
            return None

    def names(self) -> Iterator[Tuple[str, List[str]]]:
        """Each model, with the solvers that have results on it."""
        folder = os.path.join(self.folder, PAIRS)
        for model in sorted(os.listdir(folder)):
            names = sorted(os.listdir(os.path.join(folder, model)))
            yield unescaped(model), [unescaped(name[: -len(ENDING)]) for name in names
                                     if name.endswith(ENDING)]


def merge(store: Store, others: List[Store]) -> Tuple[int, List[str]]:
    """Takes the others' results over: how many there were, and which differ from those before."""
    count, told = 0, []
    for other in others:
        found = list(other.names())
        store.prepare([model for model, _ in found])
        for model, solver in ((model, solver) for model, solvers in found for solver in solvers):
            count += 1
            before, now = store.stored(model, solver), other.stored(model, solver)
            if before and (not now or before.result != now.result):
                told.append(f"{solver} on {model} differs in {other.folder}, and isn't taken")
            elif not before:
                take(store, other, model, solver)
    return count, told


def take(store: Store, other: Store, model: str, solver: str) -> None:
    shutil.copyfile(other.path(model, solver), store.new_path())
    os.replace(store.new_path(), store.path(model, solver))
