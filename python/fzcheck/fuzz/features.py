"""What a solver may take or not: names, kinds of declarations, words of search annotations."""
import enum
from dataclasses import dataclass, field
from typing import Dict, List, NamedTuple, Set

from fzcheck.fuzz.rows import EITHER, FORMS, OTHER_TESTS, RESULTS, TESTS

ROWS = sorted({*TESTS, *OTHER_TESTS, *RESULTS, *EITHER})
ALL_NAMES = ROWS + sorted(name + form for name in FORMS for form in ("_reif", "_imp"))
STANDARD = ("int_", "bool_", "set_", "array_bool_", "array_int_", "array_set_", "array_var_",
            "bool2int")  # how the names of the Handbook's builtins begin
SOME_INTEGER = "var 1..3: x :: output_var;\n"
SATISFY = "solve satisfy;\n"
SELECTS = ("input_order", "first_fail", "anti_first_fail", "smallest", "largest", "occurrence",
           "most_constrained", "max_regret", "dom_w_deg")
CHOICES = ("indomain_min", "indomain_max", "indomain_split", "indomain_median", "indomain_middle",
           "indomain_reverse_split", "indomain", "indomain_interval", "indomain_random")
MOST_NUMBER = 2**63 - 1
POWERS = sorted([2**power for power in (5, 6, 7, 8, 10, 15, 16, 24, 31, 32, 53, 62)] + [
    10**power for power in (2, 3, 4, 6, 9)])


def search_note(select: str, choice: str, searched: str = "[x]") -> str:
    return f"int_search({searched},{select},{choice},complete)"


class Feature(enum.Enum):
    """Each with a model that has it, and nothing else."""

    BOOLEANS = "var bool: x :: output_var;\n" + SATISFY
    SETS = "var set of 1..3: x :: output_var;\n" + SATISFY
    SPARSE = "var {1,3,4}: x :: output_var;\n" + SATISFY
    OPEN = "var int: x :: output_var;\n" + SATISFY
    EQUATED = SOME_INTEGER + "var 1..3: y :: output_var = x;\n" + SATISFY
    PARAMETERS = "int: p = 1;\narray [1..2] of int: a = [1,2];\n" + SOME_INTEGER + SATISFY
    ARRAYS = SOME_INTEGER + "array [1..2] of var int: a = [x,x];\n" + SATISFY
    OUTPUT_ARRAYS = SOME_INTEGER + (
        "array [1..2] of var int: a :: output_array([1..2]) = [x,x];\n" + SATISFY)
    OBJECTIVE = SOME_INTEGER + "solve minimize x;\n"
    SEARCH = SOME_INTEGER + f"solve :: {search_note(SELECTS[0], CHOICES[0])} satisfy;\n"
    DEFINED = "var 1..3: x :: output_var :: is_defined_var;\n" + SATISFY


@dataclass
class Taken:
    """What a solver took of what it was asked. `refused` has the names that it didn't take."""

    names: List[str] = field(default_factory=list)
    refused: List[str] = field(default_factory=list)
    unasked: List[str] = field(default_factory=list)  # for lack of time
    faulty: Set[str] = field(default_factory=set)  # that showed a fault already
    features: Set[Feature] = field(default_factory=set)
    selects: List[str] = field(default_factory=list)
    choices: List[str] = field(default_factory=list)
    largest: int = MOST_NUMBER
    takes_all: bool = True  # the option for all solutions
    is_stuck: bool = False  # it never ends, so that it isn't asked for more

    def add(self, other: "Taken") -> None:
        self.names += other.names
        self.refused += other.refused
        self.unasked += other.unasked
        self.faulty |= other.faulty


class Limits(NamedTuple):
    """The numbers that a solver takes, near which some are chosen."""

    low: int
    high: int


def base_of(name: str) -> str:
    """The row of a name, or of its reified form."""
    base, _, form = name.rpartition("_")
    return base if form in ("reif", "imp") and name not in ROWS else name


def families(names: List[str]) -> List[List[str]]:
    """The names with their reified forms behind them, those of the Handbook first."""
    found: Dict[str, List[str]] = {}
    for name in sorted(names, key=lambda it: (not it.startswith(STANDARD), len(it))):
        found.setdefault(base_of(name), []).append(name)
    return list(found.values())
