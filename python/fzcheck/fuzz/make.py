"""Random models over the builtins of rows.py, most of them around a solution that is known."""
import enum
import random
from typing import Any, Dict, List, NamedTuple, Optional, Sequence, Set, Tuple

from fzcheck.flatzinc import (
    Argument, Constraint, Declaration, Model, Name, Numbers, Scalar, Value, elements, text_of)
from fzcheck.fuzz.checking import Values
from fzcheck.fuzz.disputed import fixed_places, is_disputed
from fzcheck.fuzz.features import POWERS, Feature, Limits, Taken, base_of, search_note
from fzcheck.fuzz.rows import NotKnown, Row
from fzcheck.fuzz.truth import fitting_row

OFFSETS = ("circuit", "offset", "channel", "inverse_set", "link_set", "bin_packing_load",
           "gecode_range")
RANGES = [range(low, high + 1) for low, high in (
    (0, 1), (0, 2), (1, 3), (0, 4), (1, 4), (-2, 3), (-3, 0), (-1, 1), (-4, 2), (-5, -1))]
SPARSE = [frozenset(it) for it in ((1, 3, 4), (0, 2, 5), (-3, 0, 2), (1, 5), (-4, -1))]
LITTLE = [range(2, 3), range(0, 1), range(1, 2), range(-1, 0)]
UNIVERSES: List[Numbers] = [
    range(1, 4), range(0, 3), range(1, 3), frozenset((1, 3)), range(-1, 2), range(1, 2),
    frozenset((0, 2, 5))]
SMALL_NUMBERS = (0, 1, 1, 2, 2, 3, 4, -1, -2, -3, 5)
SET_CHOICES = ("indomain_min", "indomain_max")
MOST_TRIES = 15  # to post a constraint that the known solution satisfies
LONG = 5  # elements


class Style(NamedTuple):
    """How a kind of models differs from the others."""

    weight: int
    counts: Sequence[int] = (1, 2, 3, 4)  # constraints
    lengths: Sequence[int] = (0, 1, 1, 2, 2, 2, 3, 3, 4)  # of lists
    shares: Sequence[float] = (0.0, 0.1, 0.1, 0.4)  # of literals among arguments
    assignments: Sequence[int] = (30, 100, 300, 300, 1000)  # at most
    reused: float = 0.45  # variables that are there already
    large: float = 0.0  # numbers near a power
    searched: float = 0.4  # a search annotation
    optimised: float = 0.25


class Shape(enum.Enum):
    """The kinds of models."""

    MIXED = Style(2)
    LONG_LISTS = Style(2, (2, 2, 3), range(LONG, 31), (0.7, 0.9, 0.95), (30, 300))
    PAIRS = Style(4, (6, 7, 8), (1, 2, 2, 3), (0.0, 0.2), (100, 300), reused=0.8)
    LARGE_NUMBERS = Style(2, (2, 3, 4), (1, 2, 2, 3), assignments=(100, 300), large=0.7)
    SEARCHED = Style(2, (2, 3), searched=1.0, optimised=0.4, assignments=(100, 300))
    OPTIMISED = Style(1, searched=0.5, optimised=1.0, assignments=(100, 1000))
    PLAIN = Style(0, (1,), (2,), (0.0,), (300,), 0.0, 0.0, 0.0, 0.0)  # for a name that is new


def fits(shape: Shape, name: str) -> bool:
    """Whether a builtin has what models of the shape are made for."""
    kinds = Row(name).kinds
    if shape == Shape.LONG_LISTS:
        return any(it.startswith("[") for it in kinds)
    return shape != Shape.LARGE_NUMBERS or any(it.strip("[]") == "I" for it in kinds)


class Maker:
    """Makes one model of constraints with the given names."""

    def __init__(self, rand: random.Random, shape: Shape, taken: Taken,
                 limits: Optional[Limits]) -> None:
        self.rand, self.taken, self.limits = rand, taken, limits
        self.style: Style = shape.value
        self.model = Model()
        self.values: Dict[Name, Any] = {}  # a solution, while that is wanted
        self.wants_solution = shape == Shape.PLAIN or self.chance(0.85)
        self.budget = float(rand.choice(self.style.assignments))
        self.offset = rand.choice((1, 1, 1, 0, 2))
        self.channels = rand.choice((0.05, 0.1, 0.8)) if shape != Shape.PLAIN else 0.0
        self.numbers = 0
        self.used: Set[Name] = set()  # variables that the constraint at hand has already
        powers = [it for it in POWERS if it <= taken.largest]
        self.power: int = rand.choice(powers[: len(powers) // 2] if self.chance(0.6) else powers)

    def chance(self, probability: float) -> bool:
        return self.rand.random() < probability

    def has(self, feature: Feature) -> bool:
        return feature in self.taken.features

    def make(self, names: List[str]) -> Model:
        for name in names:
            self.post(name)
        if not self.model.variables():
            self.new_variable("I")
        if self.has(Feature.OBJECTIVE) and self.chance(self.style.optimised):
            self.set_objective()
        self.annotate()
        declarations = self.model.declarations  # an array comes behind its elements
        declarations.sort(key=lambda it: (it.length is not None and it.is_variable))
        return self.model

    @property
    def known(self) -> List[Values]:
        """The solution that the model is made around."""
        return [self.values] if self.wants_solution else []

    def fresh(self, letter: str) -> Name:
        self.numbers += 1
        return Name(f"{letter}{self.numbers}")

    # Values

    def number(self) -> int:
        if self.limits and self.chance(0.3):
            near = self.rand.choice((0, 0, 1, 2))
            return self.rand.choice((self.limits.low + near, self.limits.high - near))
        if self.chance(self.style.large):
            return self.near_power()
        return self.rand.choice(SMALL_NUMBERS)

    def near_power(self) -> int:
        part = self.rand.choice((1, 1, 1, 2))  # also half of it: a sum of two is near it
        number = self.power // part + self.rand.choice((-2, -1, -1, 0, 0, 1, 2))
        return -number if self.chance(0.25) else number

    def literal(self, kind: str) -> Scalar:
        if kind == "B":
            return self.chance(0.5)
        if kind == "I":
            return self.number()
        universe = sorted(self.rand.choice(UNIVERSES[:-1]))
        if self.chance(0.4):
            low, high = self.rand.randint(-1, 3), self.rand.randint(0, 4)
            return range(low, high + 1) if low <= high else frozenset()
        return frozenset(it for it in universe if self.chance(0.5))

    def literals(self, kind: str, length: int) -> List[Scalar]:
        """The literals of a list. Those of a long list of numbers are often all different, in
        order, or equal, as builtins want them."""
        if kind != "I" or length < LONG:
            return [self.literal(kind) for _ in range(length)]
        pattern = self.rand.choice(("any", "different", "order", "equal", "few"))
        if pattern == "any":
            return [self.rand.randint(-3, length) for _ in range(length)]
        if pattern == "few":
            return [self.rand.choice((0, 1, 2)) for _ in range(length)]
        if pattern == "equal":
            return [self.number()] * length
        start = self.rand.choice((-2, 0, 1, 1))
        numbers = self.rand.sample(range(start, start + length + 3), length)
        return list(sorted(numbers) if pattern == "order" else numbers)

    def value(self, argument: Argument) -> Any:
        """What an argument is in the known solution."""
        if isinstance(argument, list):
            return [self.value(it) for it in argument]
        if not isinstance(argument, Name):
            return frozenset(argument) if isinstance(argument, range) else argument
        if argument in self.values:
            return self.values[argument]
        value = self.model.declared()[argument].value
        assert value is not None
        return self.value(value)

    # Variables

    def domain(self, kind: str) -> Optional[Numbers]:
        if kind == "B":
            return None
        if kind == "S":
            return self.rand.choice(UNIVERSES)
        if self.limits and self.chance(0.3):
            low, high = self.limits
            return self.rand.choice((range(low, low + 3), range(high - 2, high + 1)))
        if self.chance(self.style.large):
            return self.around(self.near_power())
        which = self.rand.random()
        if 0.75 < which < 0.92 and self.has(Feature.SPARSE):
            return self.rand.choice(SPARSE)
        ranges = RANGES if which < 0.92 else LITTLE
        return self.rand.choice(ranges)

    def around(self, number: int) -> Numbers:
        low = number - self.rand.choice((0, 1, 1, 2))
        return range(low, number + self.rand.choice((0, 1, 1, 2)) + 1)

    def can_be(self, kind: str) -> bool:
        """Whether the solver takes variables of the kind."""
        return self.has({"S": Feature.SETS, "B": Feature.BOOLEANS}[kind]) if kind != "I" else True

    def own(self, kind: str) -> List[Name]:
        """The variables of a kind that have a domain."""
        return [it.name for it in self.model.variables()
                if it.kind == kind and (kind == "B" or it.domain is not None)]

    def variable(self, kind: str) -> Scalar:
        """A new variable, where the budget has room for it, or else one that is there."""
        own = self.own(kind)
        others = [it for it in own if it not in self.used] if self.chance(0.8) else own
        if others and self.chance(self.style.reused):
            found = self.rand.choice(others)
        else:
            new = self.new_variable(kind)
            if new is None and not own:
                return self.literal(kind)
            found = new or self.rand.choice(others or own)
        self.used.add(found)
        return found

    def new_variable(self, kind: str) -> Optional[Name]:
        declaration = Declaration(kind, self.fresh("x"), domain=self.domain(kind))
        if not self.can_be(kind) or len(declaration.values()) > self.budget:
            return None
        equal = [it for it in self.own(kind) if self.values[it] in declaration.values()]
        if equal and kind == "I" and self.has(Feature.EQUATED) and self.chance(0.04):
            declaration.value = self.rand.choice(equal)
        if kind == "I" and self.has(Feature.BOOLEANS) and self.chance(self.channels) and (
                declaration.value is None and "bool2int" in self.taken.names and self.budget > 4):
            return self.channel(declaration)
        return self.declare(declaration, self.value(declaration.value)
                            if declaration.value is not None
                            else self.rand.choice(declaration.values()))

    def declare(self, declaration: Declaration, value: Value) -> Name:
        if declaration.domain is not None or declaration.kind == "B":
            self.budget /= len(declaration.values())
        self.model.declarations.append(declaration)
        self.values[declaration.name] = value
        return declaration.name

    def channel(self, declaration: Declaration) -> Name:
        """Makes an integer that of a Boolean, which solvers often take for the integer."""
        declaration.domain = range(0, 2)
        truth = self.chance(0.5)
        own = self.declare(Declaration("B", self.fresh("x")), truth)
        self.declare(declaration, int(truth))
        self.model.constraints.append(Constraint("bool2int", [own, declaration.name]))
        return declaration.name

    def fitted(self, kind: str, value: Any, is_result: bool = False) -> Scalar:
        """What has the value in the known solution: a variable, or the value. The result of a
        constraint may be a variable without bounds."""
        own = [it for it in self.own(kind) if self.values[it] == value]
        if own and self.chance(self.style.reused):
            return self.rand.choice(own)
        declaration = Declaration(kind, self.fresh("x"))
        if kind == "S":
            declaration.domain = frozenset(value) | {self.rand.randint(-1, 3)}
        elif kind == "I" and not (is_result and self.has(Feature.OPEN) and self.chance(0.05)):
            declaration.domain = self.around(value)
        values = [] if kind == "I" and declaration.domain is None else declaration.values()
        if self.can_be(kind) and len(values) <= self.budget:
            return self.declare(declaration, value)
        return value  # type: ignore[no-any-return]

    # Arguments

    def scalar(self, kind: str, fixed: float) -> Scalar:
        if self.rand.random() >= fixed:
            return self.variable(kind)
        value = self.literal(kind)
        if self.has(Feature.PARAMETERS) and self.chance(0.1):
            name = self.fresh("p")
            self.model.declarations.append(Declaration(kind, name, False, value=value))
            return name
        return value

    def elements(self, kind: str, length: int, fixed: float) -> Argument:
        """A list, or an array with a name, which may be there from another constraint."""
        wants_variables = fixed < 1
        same = [it.name for it in self.model.declarations if it.length == length
                and it.kind == kind and it.is_variable == wants_variables]
        if same and self.chance(0.3):
            return self.rand.choice(same)
        found = self.some(kind, length, fixed)
        if length and self.chance(0.08 if wants_variables else 0.3):
            found = [found[0]] * length if not wants_variables else [*found[:-1], found[0]]
        feature = Feature.ARRAYS if wants_variables else Feature.PARAMETERS
        if not self.has(feature) or self.chance(0.75):
            return found
        name = self.fresh("a")
        if not wants_variables:
            found = [self.literal(kind) if isinstance(it, Name) else it for it in found]
        self.model.declarations.append(
            Declaration(kind, name, wants_variables, length, value=found))
        return name

    def some(self, kind: str, length: int, fixed: float) -> List[Scalar]:
        if length < LONG:
            return [self.scalar(kind, fixed) for _ in range(length)]
        literals = self.literals(kind, length)
        return [it if self.rand.random() < fixed else self.fitted(kind, self.value(it))
                for it in literals]

    def lengths(self, row: Row) -> Dict[int, int]:
        together = self.rand.choice(self.style.lengths)
        lists = [place for place, kind in enumerate(row.kinds) if kind.startswith("[")]
        return {it: together if it in row.together else self.rand.choice(self.style.lengths)
                for it in lists}

    def arguments(self, name: str, row: Row) -> List[Argument]:
        self.used = set()
        fixed, lengths = fixed_places(name), self.lengths(row)
        share = self.rand.choice(self.style.shares)
        base = base_of(name)
        if "regular" in base:
            return self.automaton(row, share)
        if "table_" in base:
            return self.table(row, share)
        found: List[Argument] = []
        for place, kind in enumerate(row.kinds):
            own = 1.0 if place in fixed else share
            if kind.startswith("["):
                found.append(self.elements(kind[1], lengths[place], own))
            elif place in fixed and kind == "I" and any(it in base for it in OFFSETS):
                found.append(self.offset)
            else:
                found.append(self.scalar(kind, min(own, 0.4) if own < 1 else own))
        return found

    def last(self, row: Row, count: int) -> List[Argument]:
        """The Boolean of a reified form that has so many arguments before it."""
        return [self.scalar("B", 0.2)] if len(row.kinds) > count else []

    def automaton(self, row: Row, share: float) -> List[Argument]:
        states, symbols = self.rand.randint(1, 3), self.rand.randint(1, 3)
        length = self.rand.choice(self.style.lengths)
        least = 0 if length < LONG else 1  # a long word would hardly ever be taken
        steps: List[Scalar] = [
            self.rand.randint(least, states) for _ in range(states * symbols)]
        final = frozenset(it for it in range(1, states + 1) if self.chance(0.6))
        word: Argument = self.elements("I", length, share)
        if length >= LONG:
            word = [self.fitted("I", self.rand.randint(1, symbols)) if self.chance(1 - share)
                    else self.rand.randint(1, symbols) for _ in range(length)]
        start = self.rand.randint(1, states)
        return [word, states, symbols, steps, start, final, *self.last(row, 6)]

    def table(self, row: Row, share: float) -> List[Argument]:
        kind = row.kinds[0][1]
        width, rows = self.rand.choice(self.style.lengths[1:] or (1,)), self.rand.randint(0, 4)
        cells: List[Scalar] = [self.literal(kind) for _ in range(width * rows)]
        if not rows or not self.wants_solution:
            return [self.elements(kind, width, share), cells, *self.last(row, 2)]
        at = self.rand.randrange(rows) * width
        own: List[Scalar] = [self.fitted(kind, it) for it in cells[at : at + width]]
        return [own, cells, *self.last(row, 2)]

    # Constraints

    def post(self, name: str) -> None:
        """Adds a constraint, which holds in the known solution. Where none is found that does,
        there is none known."""
        if self.try_to_post(name):
            return
        if self.wants_solution and not self.model.constraints:
            self.wants_solution = False
            self.try_to_post(name)

    def try_to_post(self, name: str) -> bool:
        row = Row(name)
        for _ in range(MOST_TRIES):
            declarations, constraints = len(self.model.declarations), len(self.model.constraints)
            before = self.budget, self.numbers, dict(self.values)
            arguments = self.mended(row, self.arguments(name, row))
            if self.is_good(name, row, arguments):
                self.model.constraints.append(Constraint(name, arguments))
                self.define(row, arguments)
                return True
            del self.model.declarations[declarations:]
            del self.model.constraints[constraints:]
            self.budget, self.numbers, self.values = before
        return False

    def is_good(self, name: str, row: Row, arguments: List[Argument]) -> bool:
        if not fitting_row(name, self.model, arguments) or is_disputed(
                self.model, name, arguments):
            return False
        return not self.wants_solution or self.holds(row, arguments)

    def holds(self, row: Row, arguments: List[Argument]) -> bool:
        try:
            found = [self.value(it) for it in arguments]
            numbers = (it for argument in found for it in elements(argument)
                       if isinstance(it, int))
            return all(abs(it) <= self.taken.largest for it in numbers) and bool(row.holds(found))
        except (NotKnown, OverflowError):
            return False

    def mended(self, row: Row, arguments: List[Argument]) -> List[Argument]:
        """With a result that the constraint has in the known solution."""
        if not self.wants_solution or not row.results or self.holds(row, arguments):
            return arguments
        place = self.rand.choice(sorted(row.results))
        try:
            value = row.value_at(place, [self.value(it) for it in arguments])
        except (NotKnown, OverflowError, IndexError, KeyError):
            value = None
        if value is None or (isinstance(value, int) and abs(value) > self.taken.largest):
            return arguments
        other = list(arguments)
        other[place] = self.fitted(row.kinds[place], value, is_result=not row.either)
        return other

    def define(self, row: Row, arguments: List[Argument]) -> None:
        """Some results are annotated as defined: only such as are declared behind all else that
        the constraint has, so that no variable is defined by itself."""
        declared = self.model.declared()
        flat = [it for argument in arguments for it in elements(argument)]
        named = [declared[it] for it in flat if isinstance(it, Name)]
        last = max(named, key=self.model.declarations.index, default=None)
        results = [arguments[place] for place in row.results]
        if (last and last.is_variable and last.length is None and last.value is None
                and last.name in results and flat.count(last.name) == 1 and not last.notes
                and self.has(Feature.DEFINED) and self.chance(0.5)):
            self.model.constraints[-1].notes.append(f"defines_var({last.name})")
            last.notes.append("is_defined_var")

    # The rest of a model

    def set_objective(self) -> None:
        own = self.own("I")
        if own:
            self.model.objective = self.rand.choice(own)
            self.model.goal = self.rand.choice(("minimize", "maximize"))

    def annotate(self) -> None:
        """Search, and what is printed: most often all variables, some of them in arrays."""
        if self.has(Feature.SEARCH) and self.chance(self.style.searched):
            self.model.notes = self.search()
        hides = self.chance(0.1)
        in_arrays = set()
        for it in self.model.declarations:
            if it.is_variable and it.length and self.has(Feature.OUTPUT_ARRAYS) and (
                    self.chance(0.3)):
                it.notes.append(f"output_array([1..{it.length}])")
                in_arrays.update(elements(it.value or []))
        for it in self.model.variables():
            left_out = it.name in in_arrays and self.chance(0.5) or hides and self.chance(0.4)
            if not left_out:
                it.notes.append("output_var")

    def search(self) -> List[str]:
        parts = []
        for kind, prefix in (("I", "int"), ("B", "bool"), ("S", "set")):
            own: List[Scalar] = [Name(it) for it in self.own(kind) if self.chance(0.8)]
            if own and self.chance(0.8):
                select, choice = self.words_of_search(kind)
                note = search_note(select, choice, text_of(own))
                parts.append(note.replace("int_search", f"{prefix}_search"))
        self.rand.shuffle(parts)
        return parts if len(parts) < 2 else [f"seq_search([{','.join(parts)}])"]

    def words_of_search(self, kind: str) -> Tuple[str, str]:
        if kind == "S":
            return "input_order", self.rand.choice(SET_CHOICES)
        return self.rand.choice(self.taken.selects), self.rand.choice(self.taken.choices)
