"""The work of fzcheck-fuzz: models are made, the solver is run, what is found is made small."""
import copy
import random
import re
from collections import Counter
from dataclasses import dataclass, field
from typing import (
    Counter as CounterOf, FrozenSet, List, NamedTuple, Optional, Sequence, Set, Tuple)

from fzcheck.flatzinc import Model
from fzcheck.fuzz.checking import Setting
from fzcheck.fuzz.faults import PROTOCOL, Cause, Fault, Outcome, cause_from, cause_of
from fzcheck.fuzz.features import Feature, Limits, Taken
from fzcheck.fuzz.judge import Case
from fzcheck.fuzz.make import Maker, Shape, fits
from fzcheck.fuzz.own import Base, Changer
from fzcheck.fuzz.probe import made_for
from fzcheck.fuzz.shrink import TIMES, Small, seen, setting_for, shrunk
from fzcheck.fuzz.smaller import without_unused
from fzcheck.fuzz.truth import MOST_TRIED, size

CANDIDATES = 6  # from which the name is taken that came least
FAVOUR = 3  # times as often comes what found something
DIGITS = re.compile(r"\d+")


class Plan(NamedTuple):
    """What a run is to do."""

    setting: Setting
    seed: str
    models: Optional[int]  # of each job
    taken: Taken
    limits: Optional[Limits]
    faults: Optional[int]  # causes after which it ends
    known: FrozenSet[str]  # keys of causes that aren't told
    bases: List[Base]  # models of one's own
    shrinking: float  # seconds for each fault


class Found(NamedTuple):
    """A cause as it is met for the first time."""

    cause: Cause
    small: Small
    before: Model  # as it was made
    origin: str  # which model it was


@dataclass
class Tally:
    """What was done; of a cause how often it was met."""

    models: int = 0
    runs: int = 0
    undecided: int = 0
    used: CounterOf[str] = field(default_factory=Counter)  # models that the solver ran, by name
    messages: CounterOf[str] = field(default_factory=Counter)
    causes: CounterOf[Cause] = field(default_factory=Counter)
    known: CounterOf[str] = field(default_factory=Counter)

    def add(self, other: "Tally") -> None:
        self.models += other.models
        self.runs += other.runs
        self.undecided += other.undecided
        self.used.update(other.used)
        self.messages.update(other.messages)
        self.causes.update(other.causes)
        self.known.update(other.known)


class Chooser:
    """Which builtins a model of a shape has: those that came seldom in that, and pairs that weren't
    together."""

    def __init__(self, taken: Taken) -> None:
        self.favoured = set(taken.faulty)
        self.names = {shape: [it for it in taken.names if fits(shape, it)] or taken.names
                      for shape in Shape}
        self.times: CounterOf[Tuple[Shape, str]] = Counter()
        self.pairs: CounterOf[Tuple[str, str]] = Counter()

    def choose(self, rand: random.Random, shape: Shape) -> List[str]:
        found: List[str] = []
        for _ in range(rand.choice(shape.value.counts)):
            candidates = rand.choices(self.names[shape], k=CANDIDATES)
            found.append(min(candidates, key=lambda it: self.weight(shape, found, it)))
        self.times.update((shape, it) for it in found)
        self.pairs.update((one, other) for one in found for other in found if one < other)
        return found

    def weight(self, shape: Shape, found: List[str], name: str) -> Tuple[int, float]:
        """By pairs first where these are what the shape is for."""
        together = sum(self.pairs[min(it, name), max(it, name)] for it in found)
        times = self.times[shape, name] / (FAVOUR if name in self.favoured else 1)
        return together if shape == Shape.PAIRS else 0, times


class Next(NamedTuple):
    """A model, how the solver is asked, and whose it is, where it is made of one's own."""

    case: Case
    names: List[str]
    ways: List[List[str]]
    base: Optional[Base]


class Fuzzer:
    """Makes models one after another, and knows what was found before."""

    def __init__(self, plan: Plan, seed: str, folder: str, faulty: Sequence[str] = ()) -> None:
        self.plan, self.seed, self.folder, self.faulty = plan, seed, folder, faulty
        self.tally = Tally()
        self.chooser = Chooser(plan.taken)
        self.searches = (plan.taken.selects, plan.taken.choices)
        self.fresh = list(plan.bases)  # that weren't run yet
        self.bases: List[Base] = []  # that the solver takes
        self.number = 0

    def next(self) -> Next:
        rand = random.Random(f"{self.seed} {self.number}")
        self.number += 1
        if self.number <= len(self.faulty):
            return self.asked(self.faulty[self.number - 1], rand)
        return self.own(rand) if self.plan.bases else self.made(rand)

    def asked(self, name: str, rand: random.Random) -> Next:
        """The model of a name that showed a fault when it was asked for."""
        maker = made_for(name, self.plan.seed, self.plan.taken)
        assert maker is not None
        case = Case(self.plan.setting, maker.model, self.folder, maker.known)
        return Next(case, [name], self.ways(rand, maker.model, True), None)

    def made(self, rand: random.Random) -> Next:
        """A model of a shape, with what the solver takes."""
        taken = self.plan.taken
        shapes = [it for it in Shape if it != Shape.SEARCHED or Feature.SEARCH in taken.features]
        shape = rand.choices(shapes, [it.value.weight for it in shapes])[0]
        names = self.chooser.choose(rand, shape)
        maker = Maker(rand, shape, taken, self.plan.limits)
        model = maker.make(names)
        case = Case(self.plan.setting, model, self.folder, maker.known)
        return Next(case, names, self.ways(rand, model, rand.random() < 0.3), None)

    @property
    def has_nothing(self) -> bool:
        """Whether the solver takes none of the models of one's own."""
        return bool(self.plan.bases) and not self.fresh and not self.bases

    def own(self, rand: random.Random) -> Next:
        """Each model as it is first, and then with changes those that the solver takes."""
        if self.fresh:
            base = self.fresh.pop(0)
            model = base.model
            self.bases.append(base)
        else:
            changer = Changer(rand, self.bases, set(self.plan.taken.names), self.searches)
            base = changer.base
            model = changer.change() if rand.random() < 0.9 else base.model
        case = Case(self.plan.setting, model, self.folder, base.known, is_own=True)
        whole = size(model)
        is_small = model.objective is None and whole is not None and whole <= MOST_TRIED
        return Next(case, [], self.ways(rand, model, False, is_small), base)

    def ways(self, rand: random.Random, model: Model, both: bool, wants_all: bool = True
             ) -> List[List[str]]:
        """For all solutions, or for the optimum, and sometimes in the other way too."""
        found: List[List[str]] = [[]]
        if wants_all and self.plan.taken.takes_all:
            found.append([self.plan.setting.all_option])
        if model.objective is None:
            found.reverse()
        return found[: 2 if both else 1]

    def step(self) -> Optional[Found]:
        it = self.next()
        self.tally.models += 1
        for options in it.ways:
            outcome = self.judged(it.case, options)
            self.tally.runs += 1
            self.tally.undecided += outcome.undecided
            if outcome.refused is not None:
                self.tally.messages[DIGITS.sub("N", outcome.refused)] += 1
                if it.base in self.bases and it.case.model is it.base.model:
                    self.bases.remove(it.base)
                return None
            if it.base:
                it.base.learn(outcome.solutions)
            found = self.find(it.case, outcome)
            if found:
                self.tally.used.update({one.name for one in it.case.model.constraints})
                return found
        self.tally.used.update({one.name for one in it.case.model.constraints})
        return None

    def judged(self, case: Case, options: List[str]) -> Outcome:
        """A model that `fzcheck` refuses is left out, too: it may be one's own."""
        try:
            return case.outcome(options)
        except ValueError as error:
            return Outcome(refused=str(error))

    def find(self, case: Case, outcome: Outcome) -> Optional[Found]:
        """The first fault whose cause wasn't met before: the search goes on around others."""
        for fault in outcome.faults:
            known = self.cause_before(case, fault)
            if known is not None:
                self.count(known)
                continue
            small = shrunk(self.plan.setting, case, fault, self.folder, self.plan.shrinking)
            names = [it.name for it in small.model.constraints]
            cause = cause_of(fault, names, small.varies)
            self.chooser.favoured.update(names)
            is_new = cause.key not in self.keys() and cause.key not in self.plan.known
            self.count(cause)
            if is_new:
                return Found(cause, small, case.model, self.origin)
        return None

    @property
    def origin(self) -> str:
        return f"job {self.seed.rpartition('-')[2]}, model {self.number}"

    def keys(self) -> Set[str]:
        return {it.key for it in self.tally.causes}

    def count(self, cause: Cause) -> None:
        if cause.key in self.plan.known:
            self.tally.known[cause.key] += 1
        else:
            own = next((it for it in self.tally.causes if it.key == cause.key), cause)
            self.tally.causes[own] += 1

    def cause_before(self, case: Case, fault: Fault) -> Optional[Cause]:
        """The cause from before that this fault shows."""
        before = self.keys() | self.plan.known
        cause = cause_of(fault, [])
        if fault.kind in PROTOCOL and cause.key in before:
            return cause
        varying = cause_of(fault, [], varies=True)
        if fault.kind not in PROTOCOL and varying.key in before:
            own = setting_for(self.plan.setting, fault.kind)
            times = len(seen(Case(own, case.model, self.folder, case.known), fault, TIMES))
            if times < TIMES:
                return varying
        return self.cause_by_names(case, fault, before)

    def cause_by_names(self, case: Case, fault: Fault, before: Set[str]) -> Optional[Cause]:
        """The cause whose constraints alone show the fault."""
        if fault.kind in PROTOCOL:
            return None
        there = {it.name for it in case.model.constraints}
        subsets = {names_of_key(key) for key in before}
        for names in sorted(it for it in subsets if it is not None and set(it) <= there):
            cause = cause_of(fault, names)
            if cause.key in before and self.is_shown(case, fault, names):
                return cause
        return None

    def is_shown(self, case: Case, fault: Fault, names: Tuple[str, ...]) -> bool:
        rest = copy.deepcopy(case.model)
        rest.constraints = [it for it in rest.constraints if it.name in names]
        try:
            own = Case(self.plan.setting, without_unused(rest), self.folder, case.known)
            return own.outcome(fault.options).like(fault) is not None
        except (ValueError, KeyError):
            return False


def names_of_key(key: str) -> Optional[Tuple[str, ...]]:
    """The builtins of a cause that is told apart by them."""
    cause = cause_from(key)
    return None if cause.kind in PROTOCOL or cause.varies else cause.names
