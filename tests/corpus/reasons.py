#!/usr/bin/env python3
"""Evaluates what explanations say of random constraints that fail.

    reasons.py PROGRAM [COUNT] [SEED]

Each constraint stands alone in a model, over literals, and fails by the tests of
python/fzcheck/fuzz/rows.py. What `check --explain` tells as the reason is read here, and has to
be so of these literals. COUNT is how many have to fail, 10,000 where none is given. Prints what
isn't so, how many had a reason, and ends with 'N passed, M failed'."""
import collections
import math
import os
import random
import re
import sys
from typing import Any, Callable, Dict, List, Optional, Set, Tuple, Union

import slow
import fzcheck
from fzcheck.fuzz import relations

RELATIONS: Dict[str, Callable[[Any, Any], Any]] = {
    "": lambda a, b: a == b,
    "≠": lambda a, b: a != b,
    "≤": lambda a, b: a <= b,
    "<": lambda a, b: a < b,
    "≥": lambda a, b: a >= b,
    ">": lambda a, b: a > b,
}
BLOCK = b"----------\n"
MOST_LISTED = 8
NUMBER = "-?[0-9]+"
SCALAR = f"(?:{NUMBER}|true|false)"
# What rows over Booleans compare with their last argument.
TRUTHS: Dict[str, Callable[..., Any]] = {
    "bool_le": lambda a, b: a,
    "bool_lt": lambda a, b: a,
    "bool_ge": lambda a, b: a,
    "bool_gt": lambda a, b: a,
    "bool_and_imp": lambda a, b, c: a and b,
    "bool_or_imp": lambda a, b, c: a or b,
    "bool_xor_imp": lambda a, b, c: a != b,
    "array_bool_and_imp": lambda a, b: all(a),
    "array_bool_or_imp": lambda a, b: any(a),
}


def literal(kind: str, rand: random.Random) -> Any:
    """A random value of a kind: small, so that constraints fail in many ways."""
    if kind.startswith("["):
        return [literal(kind[1:-1], rand) for _ in range(rand.randint(0, 5))]
    if kind == "B":
        return rand.random() < 0.5
    if kind == "S":
        return set(rand.sample(range(-1, 6), rand.randint(0, 4)))
    return rand.randint(-1, 5)


def arguments(row: slow.Row, rand: random.Random) -> List[Any]:
    args = [literal(kind, rand) for kind in row.kinds]
    for place in row.together:
        first = args[row.together[0]]
        args[place] = (args[place] + [literal(row.kinds[place][1:-1], rand) for _ in first])[: len(first)]
    return args


def text_of(value: Any) -> str:
    if isinstance(value, bool):
        return str(value).lower()
    if isinstance(value, int):
        return str(value)
    if isinstance(value, set):
        return "{" + ",".join(map(str, sorted(value))) + "}"
    return "[" + ",".join(map(text_of, value)) + "]"


def failing(rand: random.Random) -> Tuple[str, List[Any]]:
    """The name and the arguments of a constraint that fails."""
    names = sorted({*slow.TESTS, *slow.OTHER_TESTS, *slow.RESULTS, *slow.EITHER})
    while True:
        name = rand.choice(names)
        if name in slow.FORMS and rand.random() < 0.3:
            name += rand.choice(["_reif", "_imp"])
        row = slow.Row(name)
        args = arguments(row, rand)
        terms = [it if isinstance(it, list) else ("fixed", it) for it in args]
        if row.has_whole_rows and not row.has_whole_rows(*terms):
            continue
        try:
            if not row.holds(args):
                return name, args
        except slow.NotKnown:
            continue


def product_text(is_first: bool, factor: int, value: int) -> str:
    sign = ("-" if is_first else " - ") if factor < 0 else "" if is_first else " + "
    size = "" if abs(factor) == 1 else f"{abs(factor)}·"
    return sign + size + (str(value) if value >= 0 or is_first and factor == 1 else f"({value})")


def products_are(told: str, value: int, pairs: List[Tuple[int, int]]) -> bool:
    """Whether the listed products are some of these in their order, and make the value. Of one
    number nothing is listed."""
    left_out = re.search(r" \+ ([0-9]+) more$", told)
    told = told[: left_out.start()] if left_out else told
    terms = re.findall(r"(?:^-?| [-+] )(?:[0-9]+·)?(?:[0-9]+|\(-[0-9]+\))", told)
    count = len(terms) + (int(left_out[1]) if left_out else 0)
    rest = iter(pairs)
    in_order = all(any(product_text(place == 0, *pair) == term for pair in rest) for place, term in enumerate(terms))
    is_one = told == "" and (pairs == [] or len(pairs) == 1 and abs(pairs[0][0]) == 1)
    return in_order and "".join(terms) == told and (is_one or count == len(pairs) and len(terms) <= MOST_LISTED) \
        and sum(math.prod(pair) for pair in pairs) == value


def sides(name: str, args: List[Any], told: str) -> Optional[bool]:
    """Of `LEFT, not RELATION RIGHT`: whether the left side is so and doesn't compare with the right
    one as it is asked."""
    parts = re.fullmatch(f"(.*?)({NUMBER}|true|false|no value)( times)?, not ([≠≤<≥>]?) ?({NUMBER}|true|false)", told)
    if not parts:
        return None
    front, left, _, relation, right = parts.groups()
    if name in slow.RESULTS:
        place = slow.RESULTS[name][1]
        value = slow.Row(name).value_at(place, args)
        so = text_of(args[place]) == right and left == ("no value" if value is None else text_of(value))
        return so and relation == "" and value != args[place]
    if name in slow.EITHER:
        return left != right and relation == "" and right in map(text_of, args)
    if name in TRUTHS:
        value = TRUTHS[name](*args)
        decides = re.fullmatch("element ([0-9]+) is (true|false): ", front)
        so = text_of(value) == left and (not decides or text_of(at(args[0], decides[1])) == decides[2])
        return so and text_of(args[-1]) == right and not RELATIONS[relation](value, args[-1])
    value = int(left)
    if name.startswith("int_lin"):
        so = products_are(front.removesuffix(" = "), value, list(zip(args[0], args[1])))
    elif name.startswith("bool_lin"):
        so = slow.where(args[0], args[1]) == value
    elif " comes " in front:
        so = args[[isinstance(it, list) for it in args].index(True)].count(int(front.split()[0])) == value
    else:
        so = value == args[0]
    return so and text_of(args[-1] if "comes" not in front else right) == right and not RELATIONS[relation](value, int(right))


def stretches(told: List[str], starts: List[int], lengths: List[int], one: int, other: int) -> bool:
    """Whether two stretches of time are those of the two tasks and overlap or one is in the other."""
    ends = [(starts[place], starts[place] + lengths[place]) for place in (one, other)]
    return told == [str(end) for pair in ends for end in pair] and ends[0][0] < ends[1][1] and ends[1][0] < ends[0][1] \
        or told == [str(end) for pair in ends for end in pair] and 0 in (lengths[one], lengths[other])


def circle(args: List[Any], way: str, length: str, count: str) -> bool:
    path = way.split(" → ")
    first, following = args[0], args[1]
    steps = [(int(a), int(b)) for a, b in zip(path, path[1:]) if "..." not in (a, b)]
    return all(following[a - first] == b for a, b in steps) and int(length) < int(count) == len(following) \
        and path[0] == path[-1]


def leads_nowhere(place: Any, value: Any, one: List[int], first: Any, other: List[int], other_first: Any) -> Any:
    """Whether the element has the value, and the position that it names isn't back at its own."""
    return at(one, place) == value and at(other, value - first + 1) != place - 1 + other_first


def leaves_out(args: List[Any], way: str) -> bool:
    first, following = args
    path = way.split(" → ")
    steps = [(int(a), int(b)) for a, b in zip(path, path[1:]) if "..." not in (a, b)]
    moved = {k + first for k, v in enumerate(following) if v != k + first}
    return all(following[a - first] == b for a, b in steps) and path[0] == path[-1] and not moved <= {a for a, _ in steps}


def transitions(args: List[Any]) -> Tuple[List[int], int]:
    x, states, symbols, table, start, final = args
    state, states_before = start, []
    for symbol in x:
        states_before.append(state)
        state = table[(state - 1) * symbols + symbol - 1] if 1 <= symbol <= symbols and 1 <= state <= states else 0
        if not 1 <= state <= states:
            break
    return states_before, state


def at(values: List[Any], place: Union[int, str]) -> Any:
    """An element that counts from 1, or none."""
    return values[int(place) - 1] if 1 <= int(place) <= len(values) else None


def clash(args: List[Any], one: str, other: str, value: str) -> bool:
    elements = next(it for it in args if isinstance(it, list))
    return one != other and at(elements, one) == at(elements, other) == int(value)


def scalar(text: str) -> Union[bool, int]:
    return text == "true" if text in ("true", "false") else int(text)


def neighbours(args: List[Any], place: str, value: str, relation: str, other: str) -> bool:
    return at(args[0], place) == scalar(value) and at(args[0], int(place) + 1) == scalar(other) \
        and not RELATIONS[relation](scalar(value), scalar(other))


def first_difference(lists: List[List[Any]], place: Any, left: Any, right: Any) -> Any:
    place, (one, other) = int(place), lists
    return one[: place - 1] == other[: place - 1] and at(one, place) == scalar(left) != at(other, place) == scalar(right)


def compared(name: str, args: List[Any]) -> List[List[Any]]:
    """The lists that a row compares: one that sorts compares the first in ascending order."""
    return [sorted(args[0]) if name in ("fzn_sort", "sort") else args[0], args[1]]


def shared(parts: List[Set[int]], one: str, other: str, value: str) -> bool:
    return one != other and int(value) in at(parts, one) and int(value) in at(parts, other)


def not_in_its_set(args: List[Any], index: str, value: str, name_of_set: str, again: str) -> bool:
    x, first, parts, first_part = args
    return at(x, int(index) - first + 1) == int(value) == int(name_of_set) and index == again \
        and int(index) not in (at(parts, int(value) - first_part + 1) or set())


def in_another_set(args: List[Any], part: str, value: str, again: str, back: Optional[str]) -> bool:
    x, first, parts, first_part = args
    return value == again and int(value) in at(parts, int(part) - first_part + 1) \
        and at(x, int(value) - first + 1) == (None if back is None else int(back)) != int(part)


def refers_nowhere(place: int, value: int, x: List[Any], y: List[Any], first: int, first_y: int) -> bool:
    return value in at(x, place) and first + place - 1 not in (at(y, value - first_y + 1) or set())


def early_set(args: List[Any], place: str, value: str, before: str, *again: str) -> bool:
    sets, pair = args[0], (int(before), int(value))
    alone = [(s in it and t not in it) for s, t in (pair, pair[::-1]) for it in sets[: int(place)]]
    return [before, value] == [*again] and [*pair] == args[1:3] and alone[-1] and not any(alone[: int(place) - 1])


def in_chosen(args: List[Any], number: str, sets: str, third: str) -> bool:
    chosen = [args[1][i - 1] for i in args[0] if 1 <= i <= len(args[1])]
    return in_one([chosen, args[2]], number, sets, third)


def in_range(args: List[Any], number: str, elements: str, fourth: str) -> bool:
    x, first, indices, wanted = args
    chosen = [x[i - first] for i in indices if first <= i < first + len(x)]
    return (int(number) in chosen) == (elements == "one") != (int(number) in wanted) == (fourth == "in")


def in_one(args: List[Any], number: str, sets: str, whole: str) -> bool:
    return any(int(number) in it for it in args[0]) == (sets == "one") != (int(number) in args[1]) == (whole == "in")


def flagged(args: List[Any], number: str, there: str, truth: str) -> bool:
    flag = at(args[1], int(number) - args[2] + 1) or False
    return (int(number) in args[0]) == (there == "in") != flag == (truth == "is")


def in_sets(args: List[Any], number: str, *there: str) -> bool:
    sets = [it for it in args if isinstance(it, set)]
    return all((int(number) in it) == (word == "in") for it, word in zip(sets, there))


def tasks_overlap(args: List[Any], one: str, other: str, *ends: str) -> bool:
    return stretches(list(ends), args[0], args[1], int(one) - 1, int(other) - 1)


def load(args: List[Any], time: Any, tasks: Any, used: Any, limit: Any) -> Any:
    time = int(time)
    running = [k for k, (s, d) in enumerate(zip(args[0], args[1])) if s <= time < s + d]
    told = [int(it) - 1 for it in tasks.split(", ") if it]
    return told == running[: len(told)] and sum(args[2][k] for k in running) == int(used) > int(limit) == args[3]


def boxes(name: Any, args: List[Any], one: Any, other: Any, *ends: Any) -> Any:
    x, y, dx, dy = (args[0], args[2], args[1], args[3]) if name == "gecode_nooverlap" else args
    one, other = int(one) - 1, int(other) - 1
    return stretches(list(ends[:4]), x, dx, one, other) and stretches(list(ends[4:]), y, dy, one, other)


def near_row(args: List[Any], row: Any, place: Any, wanted: Any, value: Any) -> Any:
    width = len(args[0])
    found = args[1][(int(row) - 1) * width : int(row) * width]
    place = int(place) - 1
    return found[:place] == args[0][:place] and wanted != value \
        and [found[place], args[0][place]] == [scalar(wanted), scalar(value)]


STRETCH = f"from ({NUMBER}) to ({NUMBER}) and from ({NUMBER}) to ({NUMBER})"
# What is told, and whether it is so of a constraint's arguments.
FORMS: Dict[str, Callable[..., Any]] = {
    "no literal is true": lambda n, a: not any(a[0]) and all(a[1]),
    "an even number of elements are true": lambda n, a: sum(a[0]) % 2 == 0,
    f"elements (\\d+) and (\\d+) are both ({NUMBER})": lambda n, a, *p: clash(a, *p),
    f"element (\\d+) is ({SCALAR}), not ([≠≤<≥>]?) ?({SCALAR}), the next one": lambda n, a, *p: neighbours(a, *p),
    f"element (\\d+) is ({NUMBER}), which isn't in the cover": lambda n, a, k, v: at(a[0], k) == int(v) not in a[1],
    f"no element is ({SCALAR})": lambda n, a, v: scalar(v) not in a[0] and scalar(v) == a[1],
    f"({NUMBER}) isn't in the set": lambda n, a, v: int(v) not in a[1] and int(v) == a[0],
    "the sets are the same": lambda n, a: a[0] == a[1],
    f"sets (\\d+) and (\\d+) both have ({NUMBER})": lambda n, a, *p: shared(a[0], *p),
    f"the first difference is at element (\\d+): ({SCALAR}) and ({SCALAR})": lambda n, a, *p: first_difference(a[:2], *p),
    f"in ascending order element (\\d+) is ({NUMBER}), not ({NUMBER})": lambda n, a, *p: first_difference(compared(n, a), *p),
    r"the second list ends before element (\d+), the first goes on": lambda n, a, k: (
        compared(n, a)[1] == compared(n, a)[0][: int(k) - 1] != compared(n, a)[0]),
    r"the first list ends before element (\d+), the second goes on": lambda n, a, k: (
        compared(n, a)[0] == compared(n, a)[1][: int(k) - 1] != compared(n, a)[1]),
    "the lists are the same": lambda n, a: a[0] == a[1],
    f"element (\\d+) is ({NUMBER}), and none before it is ({NUMBER})": lambda n, a, k, v, b: any(
        isinstance(x, list) and at(x, k) == int(v) and int(b) not in x[: int(k) - 1] for x in a),
    f"set (\\d+) has ({NUMBER}) without ({NUMBER}), none before it ({NUMBER}) without ({NUMBER})": lambda n, a, *p: early_set(a, *p),
    f"task (\\d+) lasts ({NUMBER})": lambda n, a, k, v: any(
        isinstance(x, list) and at(x, k) == int(v) < 0 for x in a),
    f"task (\\d+) uses ({NUMBER})": lambda n, a, k, v: at(a[2], k) == int(v) < 0,
    f"the limit is ({NUMBER}), not ≥ 0": lambda n, a, v: a[3] == int(v) < 0 < len(a[0]),
    f"the number of thing (\\d+) is ({NUMBER}), not ≥ 0": lambda n, a, k, v: at(a[2], k) == int(v) < 0,
    f"the weight is ({NUMBER}), not ≥ 0": lambda n, a, v: a[3] == int(v) < 0,
    f"the profit is ({NUMBER}), not ≥ 0": lambda n, a, v: a[4] == int(v) < 0,
    f"the number of neighbours is ({NUMBER}), not ≥ 0": lambda n, a, v: a[2] == int(v) < 0,
    f"tasks (\\d+) and (\\d+) overlap: {STRETCH}": lambda n, a, *p: tasks_overlap(a, *p),
    f"boxes (\\d+) and (\\d+) overlap: {STRETCH}, and {STRETCH}": lambda n, a, *p: boxes(n, a, *p),
    f"at ({NUMBER}) the tasks ([0-9, ]*) run and use ({NUMBER}), not ≤ ({NUMBER})": lambda n, a, *p: load(a, *p),
    f"in bin ({NUMBER}) lies ({NUMBER}), not ≤ ({NUMBER})": lambda n, a, b, w, m: (
        relations.load(a[1], a[2], int(b)) == int(w) > int(m) == a[0]),
    r"the circle (.*) has (\d+) of (\d+)": lambda n, a, *p: circle(a, *p),
    f"element (\\d+) of the (first|second) list is ({NUMBER}), which doesn't lead back": lambda n, a, k, l, v: (
        leads_nowhere(int(k), int(v), *(a if l == "first" else (a[2], a[3], a[0], a[1])))),
    f"element (\\d+) of the (first|second) list has ({NUMBER}), which doesn't lead back": lambda n, a, k, l, v: (
        refers_nowhere(int(k), int(v), *(a if l == "first" else (a[1], a[0], a[3], a[2])))),
    f"the element with index ({NUMBER}) is ({NUMBER}), and set ({NUMBER}) hasn't ({NUMBER})": (
        lambda n, a, *p: not_in_its_set(a, *p)),
    f"the element with index ({NUMBER}) is ({NUMBER}), which is no index": lambda n, a, i, v: (
        at(a[0], int(i) - a[1] + 1) == int(v) and at(a[2], int(v) - a[3] + 1) is None),
    f"set ({NUMBER}) has ({NUMBER}), and the element with index ({NUMBER}) is ({NUMBER})": (
        lambda n, a, *p: in_another_set(a, *p)),
    f"set ({NUMBER}) has ({NUMBER}), which is no index": lambda n, a, j, v: in_another_set(a, j, v, v, None),
    f"it begins in ({NUMBER}), which is no state": lambda n, a, q: a[4] == int(q) and not 1 <= int(q) <= a[1],
    f"element (\\d+): no step from state ({NUMBER}) by ({NUMBER})": lambda n, a, k, q, s: (
        transitions(a)[0][-1] == int(q) and len(transitions(a)[0]) == int(k) and at(a[0], k) == int(s)
        and 1 <= int(q) <= a[1] and not 1 <= transitions(a)[1] <= a[1]),
    f"it ends in state ({NUMBER}), which isn't one of the last": lambda n, a, q: (
        len(transitions(a)[0]) == len(a[0]) and transitions(a)[1] == int(q) not in a[5] and 1 <= int(q) <= a[1]),
    f"element (\\d+) is ({NUMBER}), not from ({NUMBER}) to ({NUMBER})": lambda n, a, k, v, l, h: (
        any(isinstance(x, list) and at(x, k) == int(v) for x in a) and not int(l) <= int(v) <= int(h)),
    f"the element with index ({NUMBER}) is ({NUMBER}), not from ({NUMBER}) to ({NUMBER})": (
        lambda n, a, i, v, l, h: at(a[1], int(i) - a[0] + 1) == int(v) and a[0] == int(l)
        and not int(l) <= int(v) <= int(h) and int(h) - int(l) + 1 == len(a[1])),
    f"the index is ({NUMBER}), not from ({NUMBER}) to ({NUMBER})": lambda n, a, v, l, h: (
        a[0] == int(v) and [int(l), int(h)] == [1, len(a[1])] and not int(l) <= int(v) <= int(h)),
    r"the circle (.*) leaves out others that are moved": lambda n, a, path: leaves_out(a, path),
    f"in bin ({NUMBER}) lies ({NUMBER}), not ({NUMBER})": lambda n, a, b, w, m: (
        relations.load(a[1], a[2], int(b)) == int(w) != int(m) == a[0][int(b) - a[3]]),
    f"the weight is ({NUMBER}), not ({NUMBER})": lambda n, a, w, m: (
        slow.total(a[0], a[2]) == int(w) != int(m) == a[3]),
    f"the profit is ({NUMBER}), not ({NUMBER})": lambda n, a, w, m: (
        slow.total(a[1], a[2]) == int(w) != int(m) == a[4]),
    f"elements (\\d+) to (\\d+) add up to ({NUMBER}), not from ({NUMBER}) to ({NUMBER})": lambda n, a, i, j, s, l, h: (
        int(j) - int(i) + 1 == a[2] and sum(a[3][int(i) - 1 : int(j)]) == int(s)
        and [int(l), int(h)] == a[:2] and not int(l) <= int(s) <= int(h)),
    f"({NUMBER}) of elements (\\d+) to (\\d+) are in the set, not from ({NUMBER}) to ({NUMBER})": (
        lambda n, a, s, i, j, l, h: int(j) - int(i) + 1 == a[2]
        and sum(v in a[1] for v in a[0][int(i) - 1 : int(j)]) == int(s)
        and [int(l), int(h)] == a[3:5] and not int(l) <= int(s) <= int(h)),
    f"({NUMBER}) isn't in the set, which has a lesser number and a greater one": lambda n, a, v: (
        min(a[0]) < int(v) < max(a[0]) and int(v) not in a[0]),
    f"no row fits; row (\\d+) differs at element (\\d+): ({SCALAR}), not ({SCALAR})": lambda n, a, *p: near_row(a, *p),
    f"({NUMBER}) is (in|not in) the first, (in|not in) the second and (in|not in) the third": lambda n, a, *p: in_sets(a, *p),
    f"({NUMBER}) is (in|not in) the first and (in|not in) the second": lambda n, a, *p: in_sets(a, *p),
    f"({NUMBER}) is (in|not in) the element and (in|not in) the set": lambda n, a, v, *there: (
        in_sets([at(a[1], a[0]), a[2]], v, *there) and there[0] != there[1]),
    f"({NUMBER}) is in (one|none) of the chosen sets and (in|not in) the third": lambda n, a, *p: in_chosen(a, *p),
    f"({NUMBER}) is in the first, and no index": lambda n, a, v: int(v) in a[0] and at(a[1], v) is None,
    f"({NUMBER}) is (one|none) of the chosen elements and (in|not in) the fourth": lambda n, a, *p: in_range(a, *p),
    f"({NUMBER}) is in the third, and no index": lambda n, a, v: (
        int(v) in a[2] and not a[1] <= int(v) < a[1] + len(a[0])),
    f"({NUMBER}) is in (one|none) of the sets and (in|not in) the whole": lambda n, a, *p: in_one(a, *p),
    f"({NUMBER}) is (in|not in) the set, and its Boolean (is|isn't) true": lambda n, a, *p: flagged(a, *p),
}


def is_so(name: str, args: List[Any], told: str) -> Optional[bool]:
    """Whether what is told of a base row's arguments is so; none where it has no known form."""
    for form, test in FORMS.items():
        if parts := re.fullmatch(form, told):
            return bool(test(name, args, *parts.groups()))
    if parts := re.fullmatch(f"({NUMBER}) comes (\\d+) times, not ([≠≤<≥>]?) ?({NUMBER})", told):
        value, times, relation, asked = parts.groups()
        lists = [it for it in args if isinstance(it, list)]
        counted = any(it.count(int(value)) == int(times) for it in lists)
        return counted and not RELATIONS[relation](int(times), int(asked))
    return sides(name, args, told)


def reason_of(name: str, args: List[Any]) -> Optional[str]:
    model = f"constraint {name}({','.join(map(text_of, args))});\nsolve satisfy;\n"
    report = fzcheck.check(model.encode(), BLOCK, explain=True)
    if report.status != fzcheck.Status.REJECTED:
        raise SystemExit(f"{name}{args}: status {report.status}")
    return report.explanations[0].reason or None


def outcome(name: str, args: List[Any], told: str) -> Optional[bool]:
    base, _, form = name.rpartition("_")
    if name in slow.OTHER_TESTS or form not in ("reif", "imp"):
        return is_so(name, args, told)
    if held := re.fullmatch("(.*), but the Boolean is false", told):
        return form == "reif" and args[-1] is False and slow.Row(base).holds(args[:-1])
    return args[-1] is True and is_so(base, args[:-1], told)


def main() -> int:
    os.environ["FZCHECK"] = os.path.abspath(sys.argv[1])
    count = int(sys.argv[2]) if len(sys.argv) > 2 else 10_000
    rand = random.Random(int(sys.argv[3]) if len(sys.argv) > 3 else 1)
    told_of: "collections.Counter[str]" = collections.Counter()
    without: "collections.Counter[str]" = collections.Counter()
    failed = 0
    for _ in range(count):
        name, args = failing(rand)
        told = reason_of(name, args)
        if told is None:
            without[name] += 1
            continue
        told_of[name] += 1
        if not outcome(name, args, told):
            failed += 1
            print(f"failed: {name}({','.join(map(text_of, args))}): {told}")
    never = " ".join(sorted({*without} - {*told_of}))
    print(f"{sum(told_of.values())} of {count} had a reason; none of: {never}")
    print(f"{count - failed} passed, {failed} failed")
    return 1 if failed else 0


if __name__ == "__main__":
    sys.exit(main())
