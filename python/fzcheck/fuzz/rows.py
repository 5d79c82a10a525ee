"""The table of docs/BUILTINS.md in the plainest way: what each builtin takes, and whether it holds.

It shares nothing with the checker, so that the second checker of the tests can work out reports by
it, and a fuzzer can look for what a solver lost."""
from typing import Any, Callable, Dict, List, Set, Tuple

from fzcheck.fuzz import relations


class NotKnown(Exception):
    """A power has a negative exponent."""


# The table: kinds, the result's place (none: -1) and, from the other arguments, the result or
# whether it holds.


def quotient(a: int, b: int) -> int:
    q = abs(a) // abs(b)
    return q if (a < 0) == (b < 0) else -q


def total(a: List[int], b: List[int]) -> int:
    """The sum from the left, or none where a partial sum leaves 128 bits."""
    s = 0
    for x, y in zip(a, b):
        s += x * y
        if not -(2**127) <= s < 2**127:
            raise OverflowError
    return s


def power(a: int, b: int) -> int:
    """A power; NotKnown where the exponent is negative, OverflowError where it leaves 128 bits."""
    if b < 0:
        raise NotKnown
    if abs(a) > 1 and b > 127:
        raise OverflowError
    if not -(2**127) <= a**b < 2**127:
        raise OverflowError
    return int(a**b)


def where(a: List[int], b: List[bool]) -> int:
    """The sum of the numbers whose Booleans are true."""
    return sum(x for x, y in zip(a, b) if y)


def element(a: int, b: List[Any]) -> Any:
    return b[a - 1] if 1 <= a <= len(b) else None


TESTS: Dict[str, Tuple[str, Callable[..., Any]]] = {
    "int_eq": ("I I", lambda a, b: a == b),
    "int_ne": ("I I", lambda a, b: a != b),
    "int_le": ("I I", lambda a, b: a <= b),
    "int_lt": ("I I", lambda a, b: a < b),
    "int_ge": ("I I", lambda a, b: a >= b),
    "int_gt": ("I I", lambda a, b: a > b),
    "int_lin_eq": ("[I] [I] I", lambda a, b, c: total(a, b) == c),
    "int_lin_ne": ("[I] [I] I", lambda a, b, c: total(a, b) != c),
    "int_lin_le": ("[I] [I] I", lambda a, b, c: total(a, b) <= c),
    "bool_eq": ("B B", lambda a, b: a == b),
    "bool_le": ("B B", lambda a, b: a <= b),
    "bool_lt": ("B B", lambda a, b: a < b),
    "bool_ge": ("B B", lambda a, b: a >= b),
    "bool_gt": ("B B", lambda a, b: a > b),
    "bool_clause": ("[B] [B]", lambda a, b: any(a) or not all(b)),
    "set_in": ("I S", lambda a, b: a in b),
    "set_eq": ("S S", lambda a, b: a == b),
    "set_ne": ("S S", lambda a, b: a != b),
    "set_subset": ("S S", lambda a, b: a <= b),
    "set_superset": ("S S", lambda a, b: a >= b),
    "array_bool_xor": ("[B]", lambda a: sum(a) % 2 == 1),
    "bool_lin_ne": ("[I] [B] I", lambda a, b, c: where(a, b) != c),
    "bool_lin_le": ("[I] [B] I", lambda a, b, c: where(a, b) <= c),
    "bool_lin_lt": ("[I] [B] I", lambda a, b, c: where(a, b) < c),
    "bool_lin_ge": ("[I] [B] I", lambda a, b, c: where(a, b) >= c),
    "bool_lin_gt": ("[I] [B] I", lambda a, b, c: where(a, b) > c),
    **{name: row[:2] for name, row in relations.TESTS.items()},
}
OTHER_TESTS: Dict[str, Tuple[str, Callable[..., Any]]] = {
    "bool_and_imp": ("B B B", lambda a, b, c: not c or (a and b)),
    "bool_or_imp": ("B B B", lambda a, b, c: not c or a or b),
    "bool_xor_imp": ("B B B", lambda a, b, c: not c or a != b),
    "array_bool_and_imp": ("[B] B", lambda a, b: not b or all(a)),
    "array_bool_or_imp": ("[B] B", lambda a, b: not b or any(a)),
}
RESULTS: Dict[str, Tuple[str, int, Callable[..., Any]]] = {
    "int_plus": ("I I I", 2, lambda a, b: a + b),
    "int_minus": ("I I I", 2, lambda a, b: a - b),
    "int_times": ("I I I", 2, lambda a, b: a * b),
    "int_min": ("I I I", 2, min),
    "int_max": ("I I I", 2, max),
    "int_abs": ("I I", 1, abs),
    "int_negate": ("I I", 1, lambda a: -a),
    "int_div": ("I I I", 2, lambda a, b: quotient(a, b) if b else None),
    "int_mod": ("I I I", 2, lambda a, b: a - b * quotient(a, b) if b else None),
    "int_pow": ("I I I", 2, power),
    "gecode_int_pow": ("I I I", 2, power),
    "array_int_element": ("I [I] I", 2, element),
    "array_var_int_element": ("I [I] I", 2, element),
    "array_int_maximum": ("I [I]", 0, lambda b: max(b, default=None)),
    "array_int_minimum": ("I [I]", 0, lambda b: min(b, default=None)),
    "bool_and": ("B B B", 2, lambda a, b: a and b),
    "bool_or": ("B B B", 2, lambda a, b: a or b),
    "bool_xor": ("B B B", 2, lambda a, b: a != b),
    "array_bool_and": ("[B] B", 1, all),
    "array_bool_or": ("[B] B", 1, any),
    "array_bool_element": ("I [B] B", 2, element),
    "array_var_bool_element": ("I [B] B", 2, element),
    "bool_lin_eq": ("[I] [B] I", 2, where),
    "set_union": ("S S S", 2, lambda a, b: a | b),
    "set_intersect": ("S S S", 2, lambda a, b: a & b),
    "set_diff": ("S S S", 2, lambda a, b: a - b),
    "set_symdiff": ("S S S", 2, lambda a, b: a ^ b),
    "set_card": ("S I", 1, len),
    "array_set_element": ("I [S] S", 2, element),
    "array_var_set_element": ("I [S] S", 2, element),
    "gecode_array_set_element_union": ("S [S] S", 2, relations.union_at),
    **relations.RESULTS,
}
# Rows of which either side may be filled: how a side follows from the other.
EITHER: Dict[str, Tuple[str, Callable[[Any], Any], Callable[[Any], Any]]] = {
    "int_eq": ("I I", lambda b: b, lambda a: a),
    "bool_eq": ("B B", lambda b: b, lambda a: a),
    "set_eq": ("S S", lambda b: b, lambda a: a),
    "bool_not": ("B B", lambda b: not b, lambda a: not a),
    "bool_ne": ("B B", lambda b: not b, lambda a: not a),
    "bool2int": ("B I", lambda b: {0: False, 1: True}.get(b), int),
}
# What has forms with `_reif` and `_imp`.
FORMS = {*TESTS, *relations.RESULTS, "bool_lin_eq", "bool_not", "bool_ne"}


def same(a: Any, b: Any) -> bool:
    """Equal, and of one kind."""
    return isinstance(a, bool) == isinstance(b, bool) and bool(a == b)


def without_last(test: Callable[..., Any]) -> Callable[..., Any]:
    """Of a reified form, whose last argument is its Boolean."""
    return lambda *terms: test(*terms[:-1])


class Row:
    """A row: the kinds, the places that may be filled, whether it holds, and the value of a
    place."""

    kinds: List[str]
    results: Set[int]
    test: Callable[..., Any]
    value: Callable[..., Any]

    def __init__(self, name: str) -> None:
        self.known = True
        paired = "01" if name.startswith(("int_lin", "bool_lin", "gecode_set_weights")) else ""
        together = relations.TESTS[name][2] if name in relations.TESTS else paired
        self.together = [int(place) for place in together]
        self.has_whole_rows = relations.WHOLE_ROWS.get(name)
        self.element_is_result = name == "int_lin_eq"
        self.either = EITHER.get(name)
        base, _, form = name.rpartition("_")
        if self.either:
            self.kinds, self.results = self.either[0].split(), {0, 1}
        elif name in RESULTS:
            kinds, place, self.value = RESULTS[name]
            self.kinds, self.results = kinds.split(), {place}
        elif name in TESTS or name in OTHER_TESTS:
            kinds, self.test = (TESTS.get(name) or OTHER_TESTS[name])
            self.kinds, self.results = kinds.split(), set()
        elif base in FORMS and form in ("reif", "imp"):
            self.be_form(Row(base), form)
        else:
            self.known = False

    def be_form(self, row: "Row", form: str) -> None:
        self.kinds, self.together = row.kinds + ["B"], row.together
        of_plain = row.has_whole_rows
        if of_plain:
            self.has_whole_rows = without_last(of_plain)
        if form == "imp":
            self.results = set()
            self.test = lambda *args: row.holds([*args[:-1]]) or not args[-1]
        else:
            self.results = {len(row.kinds)}
            self.value = lambda *args: row.holds([*args])

    def value_at(self, place: int, args: List[Any]) -> Any:
        """The one value of a result place, or none."""
        if self.either:
            _, first, second = self.either
            return (second if place else first)(args[1 - place])
        return self.value(*(a for i, a in enumerate(args) if i != place))

    def holds(self, args: List[Any]) -> bool:
        if self.either:
            wanted = self.either[2](args[0])
            return same(wanted, args[1])
        if not self.results:
            return bool(self.test(*args))
        place = min(self.results)
        value = self.value_at(place, args)
        return value is not None and same(value, args[place])


def row_named(name: str, count: int) -> Row:
    """The row of a constraint with so many arguments: `bool_xor` of two is `bool_ne`."""
    return Row("bool_ne" if (name, count) == ("bool_xor", 2) else name)
