#!/usr/bin/env python3
"""Damages blocks of small random models, and checks what is told of them with --complete.

    damaged.py PROGRAM COUNT [SEED]

A model has a solution by the way it is made, over the whole table of builtins, and its stream
prints a part of that. In each of COUNT blocks one printed value is another one of its variable's
domain. Whether a solution extends a block is found by trying all values of the variables that it
leaves out, with the rows of slow.py. No block may be violated that a solution extends, and none
satisfied that none extends. Where it would take a power that isn't known, a block has to stay
undecided. Prints how many of the blocks that nothing extends are violated, and ends with
'N passed, M failed'; the files of a wrong verdict are kept."""
import itertools
import math
import os
import random
import subprocess
import sys
import tempfile
from typing import Dict, Iterable, Iterator, List, Optional, Sequence, Tuple

HERE = os.path.dirname(os.path.abspath(__file__))
sys.path.insert(0, HERE)
import slow
from slow import Argument, Row, Term, Value, Values  # which finds the module fzcheck
import fzcheck

CORE = (
    "int_lin_le int_lin_eq int_lin_ne int_le int_lt int_eq int_ne int_plus int_times int_pow "
    "int_min int_max bool2int bool_clause array_bool_and array_bool_or bool_and bool_or bool_eq "
    "bool_not array_int_element array_var_int_element array_bool_element array_int_maximum "
    "int_lin_le_reif int_lin_eq_reif int_le_reif int_eq_reif int_ne_reif int_lin_le_imp int_eq_imp "
    "bool_clause_reif set_in_reif fzn_all_different_int fzn_count_eq fzn_table_int set_card"
).split()
FORMS = [name + form for name in slow.FORMS for form in ("_reif", "_imp")]
NAMES = sorted({*slow.TESTS, *slow.OTHER_TESTS, *slow.RESULTS, *slow.EITHER, *FORMS})
DOMAINS: Dict[str, List[List[Value]]] = {
    "I": [list(range(low, high + 1)) for low, high in ((0, 2), (1, 3), (0, 4), (1, 4), (-2, 3))]
    + [[1, 3, 4], [0, 2, 5]],
    "B": [[False, True]],
    "S": [[frozenset(c) for n in range(4) for c in itertools.combinations((1, 2, 3), n)]],
}
DAMAGED = 6  # blocks of a model
MOST_TRIED = 20_000  # assignments of a block
MOST_SECONDS = 60


class Small:
    """A small model: variables with their domains and a solution, and constraints on them."""

    def __init__(self, rand: random.Random) -> None:
        self.rand = rand
        kinds = "IIIBBS" if rand.random() < 0.3 else "IIIBB"
        self.kinds = [rand.choice(kinds) for _ in range(rand.randint(4, 8))]
        self.domains = [rand.choice(DOMAINS[kind]) for kind in self.kinds]
        self.solution = Values(enumerate(map(rand.choice, self.domains)))
        self.constraints: List[Tuple[str, Row, List[Argument]]] = []
        self.goal = "satisfy"
        for _ in range(rand.randint(3, 7)):
            self.add()

    def term(self, kind: str, fixed: float) -> Term:
        own = [n for n, k in enumerate(self.kinds) if k == kind]
        if own and self.rand.random() >= fixed:
            return "var", self.rand.choice(own)
        return "fixed", self.rand.choice(self.rand.choice(DOMAINS[kind]))

    def argument(self, kind: str, length: int, fixed: float) -> Argument:
        if kind.startswith("["):
            return [self.term(kind[1], fixed) for _ in range(length)]
        return self.term(kind, fixed)

    def add(self) -> None:
        """Adds a constraint that the solution satisfies, where one of its name is soon found."""
        name = self.rand.choice(CORE if self.rand.random() < 0.6 else NAMES)
        row = Row(name)
        lists = [place for place, kind in enumerate(row.kinds) if kind.startswith("[")]
        for _ in range(300):
            length = self.rand.randint(1, 4)
            lengths = {p: length if p in row.together else self.rand.randint(1, 4) for p in lists}
            args = []
            for place, kind in enumerate(row.kinds):
                is_factors = "lin" in name and place == 0
                fixed = 0.9 if is_factors else self.rand.choice((0.1, 0.1, 0.6))
                args.append(self.argument(kind, lengths.get(place, 1), fixed))
            if row.has_whole_rows and not row.has_whole_rows(*args):
                continue
            if holds(row, args, self.solution):
                self.constraints.append((name, row, args))
                return

    def text(self) -> str:
        lines = [f"var {self.type_text(number)}: x{number};" for number in range(len(self.kinds))]
        for name, row, args in self.constraints:
            words = ",".join(map(argument_text, args))
            lines.append(f"constraint {name}({words}){self.note(row, args)};")
        return "\n".join([*lines, f"solve {self.goal};\n"])

    def type_text(self, number: int) -> str:
        return domain_text(self.domains[number], self.kinds[number])

    def note(self, row: Row, args: List[Argument]) -> str:
        """Half of the results are defined."""
        for place in sorted(row.results):
            if args[place][0] == "var" and self.rand.random() < 0.5:
                return f" :: defines_var(x{args[place][1]})"
        return ""

    def right_verdict(self, values: Values) -> Optional[str]:
        """The verdict that is right beside `undecided`: `satisfied` where some values of the other
        variables make a solution, `violated` where none do, and neither where that rests on what
        isn't known. None where there are too many to try."""
        if self.size(n for n in range(len(self.kinds)) if n not in values) > MOST_TRIED:
            return None
        if any(values[n] not in self.domains[n] for n in values):
            return "violated"
        right = "violated"
        for whole in self.extensions(values):
            if self.is_solution(whole):
                return "satisfied"
            right = "undecided"
        return right

    def size(self, numbers: Iterable[int]) -> int:
        return math.prod(len(self.domains[n]) for n in numbers)

    def is_solution(self, values: Values) -> bool:
        return all(holds(row, args, values) for _, row, args in self.constraints)

    def extensions(self, values: Values) -> Iterable[Values]:
        """The values of all variables, these among them, that satisfy each constraint that is
        known."""
        found: Iterable[Values] = [values]
        for number in range(len(self.kinds)):
            found = self.extended(found, number)
        return found

    def extended(self, found: Iterable[Values], number: int) -> Iterator[Values]:
        """Those of the next variable too. A constraint is tried at the last of its variables."""
        due = [(row, args) for _, row, args in self.constraints if last_variable(args) == number]
        for values in found:
            for value in [values[number]] if number in values else self.domains[number]:
                whole = Values({**values, number: value})
                if all(holds(row, args, whole, True) for row, args in due):
                    yield whole


def holds(row: Row, args: List[Argument], values: Values, unknown: bool = False) -> bool:
    """Whether a constraint holds, and what is asked for where it isn't known."""
    try:
        return row.holds([values.of(a) for a in args])
    except slow.NotKnown:
        return unknown
    except OverflowError:
        return False


def last_variable(args: List[Argument]) -> int:
    terms = [t for a in args for t in (a if isinstance(a, list) else [a])]
    return max((what for sort, what in terms if sort == "var"), default=0)


def value_text(value: Value) -> str:
    if isinstance(value, bool):
        return "true" if value else "false"
    if isinstance(value, frozenset):
        return "{" + ",".join(map(str, sorted(value))) + "}"
    return str(value)


def domain_text(domain: List[Value], kind: str) -> str:
    if kind == "B":
        return "bool"
    if kind == "S":
        return "set of 1..3"
    if domain == list(range(domain[0], domain[-1] + 1)):
        return f"{domain[0]}..{domain[-1]}"
    return "{" + ",".join(map(str, domain)) + "}"


def argument_text(argument: Argument) -> str:
    if isinstance(argument, list):
        return "[" + ",".join(map(argument_text, argument)) + "]"
    sort, what = argument
    return f"x{what}" if sort == "var" else value_text(what)


def block_text(values: Values) -> str:
    items = [f"x{n} = {value_text(v)};\n" for n, v in sorted(values.items())]
    return "".join(items) + "-" * 10 + "\n"


def damaged(model: Small, printed: Values, rand: random.Random) -> Values:
    """The values with another one in one place."""
    number = rand.choice(sorted(printed))
    others = [v for v in model.domains[number] if v != printed[number]]
    return Values({**printed, number: rand.choice(others)})


def write(folder: str, *texts: str) -> List[str]:
    """The paths of the model and the stream."""
    paths = [os.path.join(folder, name) for name in ("model.fzn", "stream.txt")]
    for path, text in zip(paths, texts):
        with open(path, "w", encoding="utf-8") as file:
            file.write(text)
    return paths


def report(program: str, folder: str, options: List[str], *texts: str) -> str:
    """What the program writes of a model and a stream."""
    words = [program, "check", *options, *write(folder, *texts)]
    try:
        ran = subprocess.run(words, capture_output=True, text=True, timeout=MOST_SECONDS)
    except subprocess.TimeoutExpired:
        return f"more than {MOST_SECONDS} seconds"
    return ran.stdout + ran.stderr


def verdicts(model: str, blocks: Sequence[Values]) -> List[str]:
    """The verdict on each block of a stream, or why there is none."""
    stream = "".join(map(block_text, blocks))
    try:
        report = fzcheck.check(model.encode(), stream.encode(), complete=True, timeout=MOST_SECONDS)
    except fzcheck.Error as error:
        return [str(error)] * len(blocks)
    return [it.verdict for it in report.blocks]


def main() -> int:
    os.environ["FZCHECK"], count = os.path.abspath(sys.argv[1]), int(sys.argv[2])
    seed = sys.argv[3] if len(sys.argv) > 3 else "1"
    passed = failed = refuted = without = number = 0
    while passed + failed < count:
        rand = random.Random(f"{seed} {number}")
        number += 1
        model = Small(rand)
        printed = Values({n: v for n, v in model.solution.items() if rand.random() < 0.6})
        if not printed:
            continue
        blocks = [damaged(model, printed, rand) for _ in range(DAMAGED)]
        text = model.text()
        for block, told in zip(blocks, verdicts(text, blocks)):
            right = model.right_verdict(block)
            if right is None:
                continue
            without += right == "violated"
            refuted += right == told == "violated"
            if told in ("undecided", right):
                passed += 1
            else:
                failed += 1
                kept = tempfile.mkdtemp(prefix=f"damaged-{seed}-{number}-")
                write(kept, text, block_text(block))
                print(f"{kept}: {told}, and it should be {right} or undecided")
    print(f"{refuted} of {without} blocks that nothing extends are violated")
    print(f"{passed} passed, {failed} failed")
    return 1 if failed else 0


if __name__ == "__main__":
    sys.exit(main())
