"""What arguments a builtin takes: which are parameters, and which mean different things to
different libraries, so that no fault is to be seen there."""
from typing import List, Set, Tuple, Union

from fzcheck.flatzinc import Argument, Constraint, Model, Name, Numbers, elements
from fzcheck.fuzz.features import base_of
from fzcheck.fuzz.rows import Row

# The arguments that are parameters by the Handbook, or by the library that declares the name.
FIXED = {
    "int_lin_eq": "02", "int_lin_ne": "02", "int_lin_le": "02", "bool_lin_eq": "0",
    "bool_lin_ne": "02", "bool_lin_le": "02", "bool_lin_lt": "02", "bool_lin_ge": "02",
    "bool_lin_gt": "02", "array_int_element": "1", "array_bool_element": "1",
    "array_set_element": "1", "gecode_int_pow": "1", "regular": "12345", "table_int": "1",
    "table_bool": "1", "global_cardinality": "1", "global_cardinality_closed": "1",
    "global_cardinality_low_up": "123", "global_cardinality_low_up_closed": "123", "among": "2",
    "bin_packing": "02", "bin_packing_load": "23", "circuit": "0", "subcircuit": "0",
    "inverse_offsets": "13", "value_precede_int": "01", "precede": "12", "precede_set": "12",
    "value_precede_chain_int": "0", "sliding_sum": "012", "among_seq_int": "1234",
    "set_weights": "01", "at_least_int": "02", "at_most_int": "02", "exactly_int": "02",
    "link_set_to_booleans": "2", "int_set_channel": "13", "inverse_set": "23", "knapsack": "01",
    "range": "1",
    "maximum_arg_int_offset": "1", "minimum_arg_int_offset": "1", "maximum_arg_bool_offset": "1",
}
# Where libraries may well differ from the table: an argument with a number below 0, with a number
# twice, or with less than one or two elements; lists of different lengths; and a set with other
# numbers than the indices of a list, which are counted from a third argument.
NEGATIVE, TWICE, EMPTY, SINGLE, UNEQUAL, OUTSIDE = range(6)
DISPUTED = (
    ("cumulative", NEGATIVE, "123"), ("disjunctive", NEGATIVE, "1"),
    ("schedule_unary", NEGATIVE, "1"), ("diffn", NEGATIVE, "23"), ("nooverlap", NEGATIVE, "13"),
    ("knapsack", NEGATIVE, "01234"), ("bin_packing", NEGATIVE, "0"), ("seq_precede", NEGATIVE, "0"),
    ("nvalue", EMPTY, "1"), ("bin_packing", EMPTY, "1"), ("sliding_sum", EMPTY, "3"),
    ("regular", EMPTY, "0"), ("_arg_", EMPTY, "0"), ("lex_less", EMPTY, "01"),
    ("array_int_l", EMPTY, "01"), ("array_bool_l", EMPTY, "01"), ("value_precede_int", EMPTY, "2"),
    ("gecode_precede", EMPTY, "0"), ("precede_chain", EMPTY, "0"),
    ("value_precede_chain", EMPTY, "1"), ("circuit", SINGLE, "1"),
    ("global_cardinality", TWICE, "1"), ("distribute", TWICE, "1"), ("set_weights", TWICE, "0"),
    ("sort", UNEQUAL, "01"), ("link_set", OUTSIDE, "012"),
)
DIVISIONS = ("int_div", "int_mod")
POWERS = ("int_pow", "gecode_int_pow")
MOST_LISTED = 1000
FRONTS = ("fzn_", "gecode_", "geas_", "fzcheck_")


def fixed_places(name: str) -> List[int]:
    base = base_of(name)
    plain = next((base[len(it) :] for it in FRONTS if base.startswith(it)), base)
    return [int(place) for place in FIXED.get(base, FIXED.get(plain, ""))]


def differs(what: int, lists: List[List[List[int]]]) -> bool:
    """Whether arguments, each with the numbers that its elements can be, are such a case."""
    if what == NEGATIVE:
        return any(number < 0 for it in lists for part in it for number in part)
    if what == TWICE:
        return len({tuple(it) for it in lists[0]}) < len(lists[0])
    if what == UNEQUAL:
        return len(lists[0]) != len(lists[1])
    if what == OUTSIDE:
        numbers, elements_of_list, [[first]] = lists
        return not {*numbers[0]} <= {*range(first, first + len(elements_of_list))}
    return any(len(it) < (1 if what == EMPTY else 2) for it in lists)


def is_disputed(model: Model, name: str, arguments: List[Argument]) -> bool:
    """Whether it is a case that docs/BUILTINS.md tells under "Where these rows differ"."""
    row, base = Row(name), base_of(name)
    if not row.known or len(row.kinds) != len(arguments):
        return False  # it isn't known, so nothing is said of it
    return any(differs(what, [possible(model, arguments[int(place)]) for place in places])
               for part, what, places in DISPUTED if part in base)


def some_of(domain: Union[Numbers, Tuple[()]]) -> List[int]:
    """The numbers of a domain, or of a wide one those that matter here."""
    if len(domain) <= MOST_LISTED:
        return sorted(domain)
    return sorted({min(domain), max(domain)} | ({0} if 0 in domain else set()))


def possible(model: Model, argument: Argument) -> List[List[int]]:
    """Of each element the numbers that it can be, or have as a set."""
    declared = model.declared()
    own = declared.get(argument) if isinstance(argument, Name) else None
    if own and own.length is not None:
        return possible(model, own.value or [])
    found = []
    for it in elements(argument):
        declaration = declared.get(it) if isinstance(it, Name) else None
        if declaration and declaration.is_variable:
            found.append(some_of(declaration.domain or ()))
        else:
            value = declaration.value if declaration else it
            found.append([value] if isinstance(value, int) else
                         sorted(value) if isinstance(value, (range, frozenset)) else [])
    return found


def is_bounded(model: Model) -> bool:
    """Whether each variable without a domain is a constraint's result, so that solutions end."""
    results: Set[Name] = set()
    for it in model.constraints:
        row = Row(it.name)
        places = row.results if row.known else set()
        own = (it.arguments[place] for place in places if place < len(it.arguments))
        results.update(it for it in own if isinstance(it, Name))
    return all(it.kind == "B" or it.domain is not None or it.value is not None
               or it.name in results for it in model.variables())


def is_defined(model: Model, constraint: Constraint) -> bool:
    """Whether no divisor is 0, no exponent negative, and no index outside of its list."""
    row, base = Row(constraint.name), base_of(constraint.name)
    if not row.known or len(row.kinds) != len(constraint.arguments):
        return True
    if base in DIVISIONS:
        return not any(0 in it for it in possible(model, constraint.arguments[1]))
    if base in POWERS:
        return not any(number < 0 for it in possible(model, constraint.arguments[1])
                       for number in it)
    if base.endswith("_element"):
        indices = range(1, len(possible(model, constraint.arguments[1])) + 1)
        return all(number in indices for it in possible(model, constraint.arguments[0])
                   for number in it)
    return True
