"""Turns printed values into those of FlatZinc, if they are of the model's types and shapes."""
import difflib
from typing import Any, Dict, Iterable, List, Optional, Sequence

from fzcheck.mzn.names import Name, element_names
from fzcheck.mzn.values import Array, Range, SetOf, Term, listing

KINDS = {"int": "number", "bool": "bool: true or false", "float": "number", "string": "text"}
MOST_TOLD = 8  # of an enum's values


class Unfit(Exception):
    """What is wrong with a value; with the number, from 0, of the element where it is, and whether
    the message names what it is about."""

    def __init__(self, message: str, element: Optional[int] = None, is_named: bool = False) -> None:
        super().__init__(message)
        self.element, self.is_named = element, is_named


def did_you_mean(word: str, known: Iterable[str]) -> str:
    """The word that may be meant, as the end of a message."""
    close = difflib.get_close_matches(word, list(known), 1)
    return f": did you mean {close[0]}?" if close else ""


def fitted(value: Any, name: str, found: Name, enums: Dict[str, List[str]]) -> List[Any]:
    """The elements of a printed value, or the value as the only one; none is None."""
    if isinstance(value, Array) != found.is_array:
        raise Unfit("it is an array in the model, and not here" if found.is_array else
                    "it is an array here, and not in the model")
    if not isinstance(value, Array):
        return [typed(value, found, enums)]
    compare_shapes(value, found, enums)
    elements: List[Any] = []
    for place, element in enumerate(value.elements):
        try:
            elements.append(typed(element, found, enums))
        except Unfit as error:
            called = list(element_names(name, found, enums))
            raise Unfit(f"{called[place]}: {error}", place, True) from None
    return elements


def compare_shapes(value: Array, found: Name, enums: Dict[str, List[str]]) -> None:
    """Compares lengths and indices with those of the model."""
    sets = found.dimensions
    if sets and value.elements and len(value.lengths) != len(sets):
        raise Unfit(f"it has {len(value.lengths)} dimensions here, and {len(sets)} in the model")
    kinds = found.index_enums or ("",) * len(value.lengths)
    for place, (low, high) in enumerate(sets or ()):
        if value.elements:
            compare_indices(value, place, range(low, high + 1), enums.get(kinds[place]),
                            kinds[place])
    size = total(sets) if sets else found.size
    if len(value.elements) != size and (sets or found.how != "computed"):
        raise Unfit(f"it has {len(value.elements)} elements here, and {size} in the model")


def total(sets: List[List[int]]) -> int:
    """How many elements an array of these index sets has."""
    size = 1
    for low, high in sets:
        size *= high - low + 1
    return size


def compare_indices(value: Array, place: int, wanted: range, enum: Optional[List[str]],
                    kind: str) -> None:
    """Compares what is printed in one of the dimensions with the model's indices."""
    printed, length = value.indices[place], value.lengths[place]
    row = len(value.elements) // length if place == 0 and length > 0 else 1
    numbers: List[int] = []
    for at, index in enumerate(printed or ()):
        number = numbered(index, enum, kind)
        if number in numbers:
            raise Unfit(f"{told(index, enum)} is there twice", at * row)
        numbers.append(number)
    # A few arrays print the first index alone.
    missing = [number for number in wanted if number not in numbers] if len(numbers) > 1 else []
    if missing:
        raise Unfit(f"{', '.join(told(number, enum) for number in missing)} "
                    f"{'is' if len(missing) == 1 else 'are'} missing")
    if 0 <= length != len(wanted):
        words = ("elements",) if len(value.lengths) == 1 else ("rows", "columns")
        what = words[place] if len(value.lengths) <= 2 else f"indices in dimension {place + 1}"
        raise Unfit(f"it has {length} {what} here, and {len(wanted)} in the model")
    for number, other in zip(numbers, wanted):
        if number != other:
            raise Unfit(f"{told(number, enum)} stands where the model has {told(other, enum)}",
                        numbers.index(number) * row)


def told(index: Any, enum: Optional[List[str]]) -> str:
    """An index as it is called."""
    if isinstance(index, int):
        in_enum = enum and 1 <= index <= len(enum)
        return (enum or [])[index - 1] if in_enum else f"index {index}"
    return str(index)


def typed(value: Any, found: Name, enums: Dict[str, List[str]]) -> Any:
    """A value of the model's type, in FlatZinc, or None where it is absent."""
    if value is None:
        if not found.is_optional:
            raise Unfit("it is absent here, and isn't optional in the model")
        return None
    enum = enums.get(found.enum)
    if not found.is_set:
        return single(value, found.kind, enum, found.enum)
    if isinstance(value, Term) and enum and str(value) == found.enum:
        return SetOf((Range(1, len(enum)),))
    if not isinstance(value, SetOf):
        raise Unfit(f"{shown(value)} is no set")
    return SetOf(tuple(
        Range(*(single(bound, found.kind, enum, found.enum) for bound in part))
        if isinstance(part, Range) else single(part, found.kind, enum, found.enum)
        for part in value.parts))


def single(value: Any, kind: str, enum: Optional[List[str]], name: str) -> Any:
    """A value that is no set, of one of the types of the model."""
    if enum is not None and kind == "int" and isinstance(value, (Term, str)):
        return numbered(value, enum, name)
    if isinstance(value, str) and kind != "string":
        raise Unfit(f'"{value}" is text: write {KINDS[kind]} without quotes')
    is_fit = {"bool": isinstance(value, bool), "string": isinstance(value, str),
              "int": isinstance(value, int) and not isinstance(value, bool),
              "float": isinstance(value, (int, float)) and not isinstance(value, bool)}
    if not is_fit.get(kind, False):
        raise Unfit(f"{shown(value)} is no {name if enum else KINDS.get(kind, kind)}")
    return value


def numbered(value: Any, enum: Optional[List[str]], name: str) -> int:
    """The number, from 1, of an enum's value."""
    if isinstance(value, int):
        return value
    known = [text.replace(", ", ",") for text in enum or ()]
    if str(value) in known:
        return known.index(str(value)) + 1
    if not enum:
        raise Unfit(f"{shown(value)} is no value here")
    meant = did_you_mean(str(value), known)
    listed = f": {', '.join(known)}" if len(known) <= MOST_TOLD else ""
    raise Unfit(f"{shown(value)} is no value of {name}{meant or listed}")


def shown(value: Any, enum: Sequence[str] = ()) -> str:
    """A value for a message, of an enum's values by their names."""
    if value is None:
        return "absent"
    if isinstance(value, bool):
        return "true" if value else "false"
    if isinstance(value, int) and 1 <= value <= len(enum):
        return enum[value - 1]
    if isinstance(value, SetOf):
        return "{" + ", ".join(shown(part, enum) for part in value.parts) + "}"
    if isinstance(value, Range):
        return f"{shown(value.low, enum)}..{shown(value.high, enum)}"
    return f'"{value}"' if isinstance(value, str) else str(value)


def literal(value: Any) -> str:
    """A value as it is printed in a stream."""
    if isinstance(value, bool):
        return "true" if value else "false"
    if isinstance(value, Array):
        return f"array1d(1..{len(value.elements)},[{','.join(map(literal, value.elements))}])"
    if not isinstance(value, SetOf):
        return str(value)
    if len(value.parts) == 1 and isinstance(value.parts[0], Range):
        return f"{value.parts[0].low}..{value.parts[0].high}"
    listed = listing(value)
    if listed is None or not all(isinstance(one, int) for one in listed):
        raise Unfit("a set of other values than numbers")
    return "{" + ",".join(map(str, sorted(set(listed)))) + "}"
