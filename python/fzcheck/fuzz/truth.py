"""The solutions of a small model, found by trying all values, with the table of rows.py."""
from typing import Any, Callable, Dict, List, NamedTuple, Optional, Tuple

from fzcheck.flatzinc import (
    Argument, Constraint, Declaration, Model, Name, Numbers, Scalar, Value, elements)
from fzcheck.fuzz.rows import NotKnown, Row, row_named

MOST_TRIED = 100_000  # assignments
Assignment = Tuple[Value, ...]
KIND_OF = {bool: "B", int: "I", range: "S", frozenset: "S"}


class Truth(NamedTuple):
    """The variables, and their values in each solution. Whether those in `unsure` are solutions
    isn't known: they have a power with a negative exponent, or a sum that leaves 128 bits."""

    names: List[Name]
    solutions: List[Assignment]
    unsure: List[Assignment]


class Term(NamedTuple):
    """A scalar: the variable of that number, or a value."""

    variable: Optional[int]
    value: Any = None

    def of(self, values: List[Value]) -> Any:
        return self.value if self.variable is None else values[self.variable]

    @property
    def last(self) -> int:
        """The variable that has to have a value, or -1."""
        return -1 if self.variable is None else self.variable


Check = Tuple[int, Callable[[List[Value]], bool]]  # the last variable that it needs


def inside(domain: Numbers, kind: str, term: Term) -> Callable[[List[Value]], bool]:
    """That an element is in its array's domain."""
    if kind == "I":
        return lambda values: term.of(values) in domain
    return lambda values: bool(term.of(values) <= frozenset(domain))


class Search:
    """Tries all values of the variables in their order, and leaves those out early that no
    constraint lets pass."""

    def __init__(self, model: Model) -> None:
        self.model, self.declared = model, model.declared()
        self.variables = model.variables()
        self.numbers = {it.name: number for number, it in enumerate(self.variables)}
        self.checks: Dict[int, List[Callable[[List[Value]], bool]]] = {}
        self.found: List[Assignment] = []
        self.unsure: List[Assignment] = []
        for last, check in [*self.of_declarations(), *map(self.of_constraint, model.constraints)]:
            self.checks.setdefault(last, []).append(check)
        self.domains = [it.values() for it in self.variables]

    def term(self, scalar: Scalar) -> Term:
        if not isinstance(scalar, Name):
            return Term(None, frozenset(scalar) if isinstance(scalar, range) else scalar)
        if scalar in self.numbers:
            return Term(self.numbers[scalar])
        value = self.declared[scalar].value  # of a parameter
        if value is None or isinstance(value, list):
            raise ValueError(f"{scalar} has no value")
        return self.term(value)

    def terms(self, argument: Argument) -> Any:
        """The term of a scalar, or those of an array."""
        if isinstance(argument, Name) and self.declared[argument].length is not None:
            argument = self.declared[argument].value or []
        return [self.term(it) for it in argument] if isinstance(argument, list) else (
            self.term(argument))

    def of_declarations(self) -> List[Check]:
        found: List[Check] = []
        for it in self.model.declarations:
            if it.is_variable and it.value is not None:
                found.extend(self.of_definition(it))
        return found

    def of_definition(self, declaration: Declaration) -> List[Check]:
        """That a variable has its defined value, or that elements are in their array's domain."""
        terms = [self.term(it) for it in elements(declaration.value or [])]
        if declaration.length is None:
            own, other = self.numbers[declaration.name], terms[0]
            return [(max(own, other.last), lambda values: bool(values[own] == other.of(values)))]
        domain = declaration.domain
        if domain is None:
            return []
        return [(it.last, inside(domain, declaration.kind, it)) for it in terms]

    def of_constraint(self, constraint: Constraint) -> Check:
        fitting = fitting_row(constraint.name, self.model, constraint.arguments)
        if fitting is None:
            raise ValueError(f"{constraint.name} isn't known")
        row = fitting
        found = [self.terms(it) for it in constraint.arguments]
        flat = [term for it in found for term in (it if isinstance(it, list) else [it])]
        last = max((it.last for it in flat), default=-1)

        def check(values: List[Value]) -> bool:
            return row.holds([[term.of(values) for term in it] if isinstance(it, list)
                              else it.of(values) for it in found])

        return last, check

    def run(self) -> Truth:
        self.extend([], False)
        return Truth([it.name for it in self.variables], self.found, self.unsure)

    def extend(self, values: List[Value], is_unsure: bool) -> None:
        for check in self.checks.get(len(values) - 1, []):
            try:
                if not check(values):
                    return
            except (NotKnown, OverflowError):
                is_unsure = True
        if len(values) == len(self.variables):
            (self.unsure if is_unsure else self.found).append(tuple(values))
            return
        for value in self.domains[len(values)]:
            values.append(value)
            self.extend(values, is_unsure)
            values.pop()


def kind_of(model: Dict[Name, Declaration], argument: Argument) -> str:
    """The kind as the table writes it; of an empty list in brackets `[]`."""
    if isinstance(argument, Name):
        it = model[argument]
        return it.kind if it.length is None else f"[{it.kind}]"
    if isinstance(argument, list):
        kinds = {kind_of(model, it) for it in argument}
        return f"[{kinds.pop() if len(kinds) == 1 else ''}]"
    return KIND_OF[type(argument)]


def fitting_row(name: str, model: Model, arguments: List[Argument]) -> Optional[Row]:
    """The row of the name, where the arguments fit it."""
    row, declared = row_named(name, len(arguments)), model.declared()
    if not row.known or len(row.kinds) != len(arguments):
        return None
    for kind, argument in zip(row.kinds, arguments):
        own = kind_of(declared, argument)
        if own != kind and not (own == "[]" and kind.startswith("[") and not argument):
            return None
    shapes = [shape_of(declared, it) for it in arguments]
    if len({len(shapes[place]) for place in row.together}) > 1:
        return None
    return None if row.has_whole_rows and not row.has_whole_rows(*shapes) else row


def shape_of(declared: Dict[Name, Declaration], argument: Argument) -> Any:
    """The list of an array's elements, or whether a scalar is fixed, with its value."""
    if not isinstance(argument, Name):
        return argument if isinstance(argument, list) else ("fixed", argument)
    own = declared[argument]
    if own.length is not None:
        return own.value or []
    return ("var", None) if own.is_variable else ("fixed", own.value)


def size(model: Model) -> Optional[int]:
    """How many assignments there are to try, or none where a domain has no end."""
    product = 1
    for it in model.variables():
        if it.value is None and it.kind != "B":
            if it.domain is None or (it.kind == "S" and len(it.domain) > 20):
                return None
            product *= len(it.domain) if it.kind == "I" else 2 ** len(it.domain)
        elif it.value is None:
            product *= 2
    return product


def truth_of(model: Model) -> Optional[Truth]:
    """All solutions, or none where there are too many assignments, or a constraint isn't known."""
    whole = size(model)
    if whole is None or whole > MOST_TRIED:
        return None
    try:
        return Search(model).run()
    except (ValueError, KeyError):
        return None
