"""Models of one's own, and what is made of them: constraints dropped, domains narrowed and opened,
numbers and operators turned, two models joined."""
import copy
import os
import random
import re
from dataclasses import dataclass, field
from typing import Callable, Dict, Iterator, List, Optional, Sequence, Set, Tuple, Union

from fzcheck.flatzinc import (
    Argument, Constraint, Declaration, Model, Name, Numbers, Reader, Scalar, elements)
from fzcheck.fuzz.checking import Values
from fzcheck.fuzz.disputed import fixed_places, is_disputed
from fzcheck.fuzz.features import ALL_NAMES, MOST_NUMBER, search_note
from fzcheck.fuzz.rows import Row
from fzcheck.fuzz.smaller import put
from fzcheck.fuzz.truth import fitting_row

MOST_KNOWN = 8
COUNTS = (1, 1, 2, 2, 3)  # changes of a model
MOST_WIDE = 1000  # numbers of a domain that is changed, and declarations of a model that is joined
Owner = Union[Constraint, Declaration]  # of numbers


@dataclass
class Base:
    """A model of one's own, with solutions of it and of what was made of it: each is judged where
    it is used, so it needn't be one of the model at hand."""

    path: str
    model: Model
    known: List[Values] = field(default_factory=list)

    def learn(self, solutions: Sequence[Values]) -> None:
        for it in solutions:
            if it and it not in self.known:
                self.known.append(it)
        del self.known[:-MOST_KNOWN]


def read_models(folder: str) -> Tuple[List[Base], List[str]]:
    """The models in a folder and those below it, and which of the files can't be used, and why."""
    bases: List[Base] = []
    left_out: List[str] = []
    for path in paths_of(folder):
        try:
            with open(path, encoding="latin-1") as file:
                bases.append(Base(path, Reader(file.read()).model()))
        except ValueError as error:
            left_out.append(f"{path}: {error}")
    return bases, left_out


def paths_of(folder: str) -> List[str]:
    if os.path.isfile(folder):
        return [folder]
    return sorted(os.path.join(place, it) for place, _, files in os.walk(folder)
                  for it in files if it.endswith(".fzn"))


def alike(name: str) -> Optional[Tuple[Tuple[str, ...], Tuple[int, ...], Tuple[int, ...]]]:
    """What two names have to have in common, so that one may stand for the other."""
    row = Row(name)
    if not row.known or row.has_whole_rows:
        return None
    return tuple(row.kinds), tuple(row.together), tuple(fixed_places(name))


class Changer:
    """Makes one model of the bases. A change that can't be made is left out."""

    def __init__(self, rand: random.Random, bases: Sequence[Base], names: Set[str],
                 searches: Tuple[Sequence[str], Sequence[str]]) -> None:
        self.rand, self.bases, self.names, self.searches = rand, bases, names, searches
        self.base = rand.choice(bases)
        self.model = copy.deepcopy(self.base.model)

    def change(self) -> Model:
        for _ in range(self.rand.choice(COUNTS)):
            changes: List[Callable[[], None]] = [
                self.drop_constraints, self.narrow, self.fix, self.open, self.turn_number,
                self.turn_operator, self.turn_operator, self.join, self.turn_goal,
                self.turn_search]
            self.rand.choice(changes)()
        return self.model

    @property
    def known(self) -> List[Values]:
        return self.base.known

    def domains(self) -> List[Declaration]:
        return [it for it in self.model.variables() if it.kind != "B" and it.value is None]

    def known_number(self, declaration: Declaration) -> Optional[int]:
        """What an integer is in a solution: half of the changes keep it one."""
        values = [it[declaration.name] for it in self.known if declaration.name in it]
        numbers = [it for it in values if isinstance(it, int)]
        return self.rand.choice(numbers) if numbers and self.rand.random() < 0.5 else None

    def drop_constraints(self) -> None:
        count = len(self.model.constraints)
        most = self.rand.choice((1, 1, 2, max(1, count // 2)))
        for number in sorted(self.rand.sample(range(count), min(most, count)), reverse=True):
            undefine(self.model, self.model.constraints.pop(number))

    def narrow(self) -> None:
        declarations = [it for it in self.domains() if it.domain and 1 < len(it.domain) < MOST_WIDE]
        if not declarations:
            return
        it = self.rand.choice(declarations)
        numbers = sorted(it.domain or ())
        at = self.rand.randrange(1, len(numbers))
        parts = [numbers[:at], numbers[at:]]
        known = self.known_number(it)
        part = next((part for part in parts if known in part), self.rand.choice(parts))
        it.domain = as_domain(part)

    def fix(self) -> None:
        integers = [it for it in self.domains() if it.kind == "I"]
        if not integers:
            return
        it = self.rand.choice(integers)
        known = self.known_number(it)
        if known is None and it.domain and len(it.domain) < MOST_WIDE:
            known = self.rand.choice(sorted(it.domain))
        if known is not None and (it.domain is None or known in it.domain):
            it.domain = range(known, known + 1)

    def open(self) -> None:
        declarations = [it for it in self.domains() if it.domain and len(it.domain) < MOST_WIDE]
        if declarations:
            it = self.rand.choice(declarations)
            low, high = min(it.domain or (0,)), max(it.domain or (0,))
            more = self.rand.choice((1, 1, 2, 5))
            it.domain = range(low - self.rand.choice((0, more)), high + more + 1)

    def turn_number(self) -> None:
        places = list(numbers_of(self.model))
        if not places:
            return
        owner, place, at, number = self.rand.choice(places)
        other = self.rand.choice((number - 1, number + 1, -number, 2 * number, 0))
        before = argument_of(owner, place)
        changed: Argument = other
        if isinstance(before, list):
            changed = [*before[:at], other, *before[at + 1 :]]
        set_argument(owner, place, changed)
        if abs(other) > MOST_NUMBER or any(is_disputed(self.model, it.name, it.arguments)
                                           for it in self.model.constraints):
            set_argument(owner, place, before)

    def turn_operator(self) -> None:
        constraints = [it for it in self.model.constraints if it.name in ALL_NAMES]
        if not constraints:
            return
        it = self.rand.choice(constraints)
        others = [name for name in sorted(self.names) if name != it.name
                  and alike(name) == alike(it.name) and alike(name)]
        if not others:
            return
        name = self.rand.choice(others)
        if fitting_row(name, self.model, it.arguments) and not is_disputed(
                self.model, name, it.arguments):
            it.name = name
            undefine(self.model, it)

    def join(self) -> None:
        """Adds another model, one of whose variables is one of this model's."""
        other = copy.deepcopy(self.rand.choice(self.bases).model)
        names = {it.name: Name(f"other_{it.name}") for it in other.declarations}
        if len(self.model.declarations) > MOST_WIDE or any(
                it in self.model.declared() for it in names.values()):
            return
        renamed(other, names)
        self.share(other)
        present = set(self.model.predicates)
        self.model.predicates += [it for it in other.predicates if it not in present]
        self.model.declarations += other.declarations
        self.model.constraints += other.constraints

    def share(self, other: Model) -> None:
        own = [it for it in self.domains() if it.kind == "I" and it.domain is not None]
        its = [it for it in other.variables() if it.kind == "I" and it.domain is not None
               and it.value is None]
        pairs = [(a, b) for a in own for b in its
                 if len(a.domain or ()) < MOST_WIDE and set(a.domain or ()) & set(b.domain or ())]
        if pairs:
            kept, gone = self.rand.choice(pairs)
            kept.domain = as_domain(sorted(set(kept.domain or ()) & set(gone.domain or ())))
            changed = put(other, gone.name, kept.name)
            other.declarations, other.constraints = changed.declarations, changed.constraints

    def turn_goal(self) -> None:
        integers = [it.name for it in self.domains() if it.kind == "I" and it.domain is not None]
        self.model.goal = self.rand.choice(("satisfy", "minimize", "maximize"))
        if self.model.goal == "satisfy":
            self.model.objective = None
        elif self.model.objective is None and integers:
            self.model.objective = self.rand.choice(integers)
        elif self.model.objective is None:
            self.model.goal = "satisfy"

    def turn_search(self) -> None:
        own = [it.name for it in self.domains() if it.kind == "I"]
        selects, choices = self.searches
        self.model.notes = []
        if own and selects and choices and self.rand.random() < 0.8:
            searched = f"[{','.join(own)}]"
            self.model.notes = [search_note(
                self.rand.choice(selects), self.rand.choice(choices), searched)]


def argument_of(owner: Owner, place: int) -> Argument:
    if isinstance(owner, Constraint):
        return owner.arguments[place]
    assert owner.value is not None
    return owner.value


def set_argument(owner: Owner, place: int, argument: Argument) -> None:
    if isinstance(owner, Constraint):
        owner.arguments[place] = argument
    else:
        owner.value = argument


def renamed(model: Model, names: Dict[Name, Name]) -> None:
    def other(it: Scalar) -> Scalar:
        return names.get(it, it) if isinstance(it, Name) else it

    def changed(argument: Argument) -> Argument:
        return [other(it) for it in argument] if isinstance(argument, list) else other(argument)

    for constraint in model.constraints:
        constraint.arguments = [changed(it) for it in constraint.arguments]
        constraint.notes = [renamed_note(it, names) for it in constraint.notes]
    for declaration in model.declarations:
        declaration.name = names[declaration.name]
        if declaration.value is not None:
            declaration.value = changed(declaration.value)


def renamed_note(note: str, names: Dict[Name, Name]) -> str:
    return re.sub(r"\w+", lambda found: names.get(Name(found[0]), found[0]), note)


def as_domain(numbers: Sequence[int]) -> Numbers:
    is_range = numbers[-1] - numbers[0] == len(numbers) - 1
    return range(numbers[0], numbers[-1] + 1) if is_range else frozenset(numbers)


def undefine(model: Model, constraint: Constraint) -> None:
    """Takes back that a constraint which is gone, or is another one, defines a variable."""
    defined = [it for it in constraint.notes if it.startswith("defines_var")]
    constraint.notes = [it for it in constraint.notes if it not in defined]
    for it in model.declarations:
        if f"defines_var({it.name})" in defined:
            it.notes = [note for note in it.notes if note != "is_defined_var"]


def numbers_of(model: Model) -> Iterator[Tuple[Owner, int, int, int]]:
    """The integers that stand in constraints and parameters, with their places."""
    for constraint in model.constraints:
        for place, argument in enumerate(constraint.arguments):
            for at, it in enumerate(elements(argument)):
                if isinstance(it, int) and not isinstance(it, bool):
                    yield constraint, place, at, it
    for declaration in model.declarations:
        if declaration.value is not None and not declaration.is_variable:
            for at, it in enumerate(elements(declaration.value)):
                if isinstance(it, int) and not isinstance(it, bool):
                    yield declaration, 0, at, it
