"""Smaller models than one, in which a fault may still be seen."""
import copy
import re
from typing import Callable, Iterator, List, Optional, Sequence, Tuple, Union

from fzcheck.flatzinc import (
    Argument, Constraint, Declaration, Model, Name, Numbers, Scalar, elements)
from fzcheck.fuzz.checking import Values

PREDICATE_NAME = re.compile(r"predicate (\w+)")
MOST_OF_SET = 6
Edits = Callable[[Model, Sequence[Values]], Iterator[Model]]


def without_unused(model: Model) -> Model:
    """Without the predicates and declarations that nothing names, but for what may be the fault
    itself: one variable stays."""
    used_names = {it.name for it in model.constraints}
    model.predicates = [it for it in model.predicates if predicate_name(it) in used_names]
    while True:
        used = set(model.names_used())
        unused = [it for it in model.declarations if it.name not in used]
        if not model.constraints and len(unused) == len(model.declarations):
            unused = unused[1:]
        if not unused:
            return model
        for it in unused:
            drop(model, it)


def predicate_name(text: str) -> str:
    found = PREDICATE_NAME.match(text)
    return found[1] if found else ""


def drop(model: Model, declaration: Declaration) -> None:
    """Takes a declaration away, and the annotations that name it."""
    model.declarations.remove(declaration)
    for it in owners(model):
        it.notes = [note for note in it.notes if not re.search(rf"\b{declaration.name}\b", note)]


def put(model: Model, name: Name, value: Scalar) -> Model:
    """The model with a value, or another variable, in the place of a name."""
    model = copy.deepcopy(model)

    def other(it: Scalar) -> Scalar:
        return value if isinstance(it, Name) and it == name else it

    def changed(argument: Argument) -> Argument:
        return [other(it) for it in argument] if isinstance(argument, list) else other(argument)

    for constraint in model.constraints:
        constraint.arguments = [changed(it) for it in constraint.arguments]
    for declaration in model.declarations:
        if declaration.value is not None:
            declaration.value = changed(declaration.value)
    drop(model, model.declared()[name])
    return model


def notes_dropped(model: Model, likely: Sequence[Values]) -> Iterator[Model]:
    """All annotations but those that say what is printed, then one after another."""
    wholly = copy.deepcopy(model)
    for owner in owners(wholly):
        owner.notes = [note for note in owner.notes if note.startswith("output_")]
    if wholly.text() != model.text():
        yield wholly
    for number, owner in enumerate(owners(model)):
        for place, note in enumerate(owner.notes):
            if not note.startswith("output_var"):
                other = copy.deepcopy(model)
                del owners(other)[number].notes[place]
                yield other


def owners(model: Model) -> List[Union[Declaration, Constraint, Model]]:
    """What may have annotations."""
    return [*model.declarations, *model.constraints, model]


def goal_dropped(model: Model, likely: Sequence[Values]) -> Iterator[Model]:
    if model.goal != "satisfy":
        other = copy.deepcopy(model)
        other.goal, other.objective = "satisfy", None
        yield other


def arrays_written_out(model: Model, likely: Sequence[Values]) -> Iterator[Model]:
    """Arrays, parameters and other names for a variable, in the place of their names."""
    for it in model.declarations:
        if it.value is None or it.name == model.objective:
            continue
        if not isinstance(it.value, list):
            yield put(model, it.name, it.value)
            continue
        other = copy.deepcopy(model)
        for constraint in other.constraints:
            constraint.arguments = [list(it.value) if argument == it.name
                                    and isinstance(argument, Name) else argument
                                    for argument in constraint.arguments]
        yield other


def variables_fixed(model: Model, likely: Sequence[Values]) -> Iterator[Model]:
    """A value, or an earlier variable of the same kind, in the place of each variable."""
    variables = [it for it in model.variables() if it.name != model.objective]
    for number, it in enumerate(variables):
        others: List[Scalar] = [other.name for other in variables[:number]
                                if other.kind == it.kind]
        for value in [*likely_values(it, likely), *others]:
            yield put(model, it.name, value)


def likely_values(declaration: Declaration, likely: Sequence[Values]) -> List[Scalar]:
    """Those of the solution that is missing or wrong first, then the plainest ones."""
    found: List[Scalar] = [it[declaration.name] for it in likely if declaration.name in it]
    try:
        found += declaration.values()[:2]
    except ValueError:
        pass  # too many
    return list(dict.fromkeys(found))


def domains_narrowed(model: Model, likely: Sequence[Values]) -> Iterator[Model]:
    for number, it in enumerate(model.declarations):
        for domain in narrower(it.domain):
            other = copy.deepcopy(model)
            other.declarations[number].domain = domain
            yield other


def narrower(domain: Optional[Numbers]) -> Iterator[Numbers]:
    if domain is None or len(domain) < 2:
        return
    numbers = sorted(domain)
    half = len(numbers) // 2
    for part in (numbers[:half], numbers[half:], numbers[1:], numbers[:-1],
                 numbers[:1] + numbers[2:]):
        is_range = part[-1] - part[0] == len(part) - 1
        if part != numbers:
            yield range(part[0], part[-1] + 1) if is_range else frozenset(part)


def elements_dropped(model: Model, likely: Sequence[Values]) -> Iterator[Model]:
    """Half of the elements, or one, of each list in brackets, or of all lists of a constraint that
    are as long."""
    for number, constraint in enumerate(model.constraints):
        for group in groups_of_lists(constraint):
            length = len(elements(constraint.arguments[group[0]]))
            half = length // 2
            for dropped in [*([slice(half), slice(half, length)] if half > 1 else []),
                            *(slice(at, at + 1) for at in range(length))]:
                other = copy.deepcopy(model)
                for place in group:
                    del elements(other.constraints[number].arguments[place])[dropped]
                yield other


def groups_of_lists(constraint: Constraint) -> List[List[int]]:
    """The places of each list, and of those that are as long."""
    lengths = {place: len(it) for place, it in enumerate(constraint.arguments)
               if isinstance(it, list)}
    same = [[place for place in lengths if lengths[place] == length]
            for length in sorted(set(lengths.values()))]
    return [[place] for place in lengths] + [it for it in same if len(it) > 1]


def numbers_plainer(model: Model, likely: Sequence[Values]) -> Iterator[Model]:
    for number, constraint in enumerate(model.constraints):
        for place, at, value in literals(constraint):
            for plainer in plainer_values(value):
                other = copy.deepcopy(model)
                own = other.constraints[number].arguments
                if isinstance(own[place], list):
                    elements(own[place])[at] = plainer
                else:
                    own[place] = plainer
                yield other


def literals(constraint: Constraint) -> Iterator[Tuple[int, int, Scalar]]:
    for place, argument in enumerate(constraint.arguments):
        for at, value in enumerate(elements(argument)):
            if not isinstance(value, Name):
                yield place, at, value


def plainer_values(value: Scalar) -> Iterator[Scalar]:
    if isinstance(value, (range, frozenset)):
        yield from (frozenset(value) - {it} for it in sorted(value)[:MOST_OF_SET])
    elif isinstance(value, (bool, Name)):
        return
    elif abs(value) > 1:
        half = abs(value) // 2 * (1 if value > 0 else -1)
        yield from dict.fromkeys((0, 1, half, value - (1 if value > 0 else -1)))
    elif value == -1:
        yield from (0, 1)


PASSES: Tuple[Edits, ...] = (
    notes_dropped, goal_dropped, arrays_written_out, elements_dropped, variables_fixed,
    domains_narrowed, numbers_plainer)
