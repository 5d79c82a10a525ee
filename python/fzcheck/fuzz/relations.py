"""Global constraints in the plainest way, for rows.py: the kinds of their arguments,
whether they hold, the places of the arrays that have to be of equal lengths, which have to have
whole rows, and other names for them.

They follow docs/BUILTINS.md. Lists that lead to places are walked, cumulative looks at each start,
and nothing is sorted but to compare."""
from typing import Any, Callable, Dict, FrozenSet, List, Optional, Tuple

Numbers = List[int]
Set = FrozenSet[int]
Shape = Tuple[str, Any]  # whether a scalar is fixed, and its value


def count(x: Numbers, v: int) -> int:
    return sum(1 for y in x if y == v)


def all_different(x: Numbers) -> bool:
    return len(set(x)) == len(x)


def neighbours(test: Callable[[Any, Any], bool], x: Numbers) -> bool:
    return all(test(a, b) for a, b in zip(x, x[1:]))


def cover_counts(x: Numbers, cover: Numbers, low: Numbers, high: Numbers) -> bool:
    return all(a <= count(x, v) <= b for v, a, b in zip(cover, low, high))


def closed(x: Numbers, cover: Numbers) -> bool:
    return all(v in cover for v in x)


def cumulative(s: Numbers, d: Numbers, r: Numbers, b: int) -> bool:
    if any(v < 0 for v in d + r) or (s and b < 0):
        return False
    tasks = list(zip(s, d, r))
    starts = [a for a, n, use in tasks if n > 0 and use > 0]
    return all(sum(use for a, n, use in tasks if a <= t < a + n) <= b for t in starts)


def in_turn(tasks: List[Tuple[int, int]]) -> bool:
    pairs = [(p, q) for i, p in enumerate(tasks) for q in tasks[:i]]
    return all(a + m <= b or b + n <= a for (a, m), (b, n) in pairs)


def disjunctive(s: Numbers, d: Numbers, strict: bool) -> bool:
    if any(n < 0 for n in d):
        return False
    return in_turn([(a, n) for a, n in zip(s, d) if strict or n > 0])


def apart(x: Numbers, y: Numbers, dx: Numbers, dy: Numbers, strict: bool) -> bool:
    boxes = [b for b in zip(x, y, dx, dy) if strict or (b[2] != 0 and b[3] != 0)]
    pairs = [(p, q) for i, p in enumerate(boxes) for q in boxes[:i]]
    return all(
        a + n <= b or b + m <= a or c + k <= d or d + j <= c
        for (a, c, n, k), (b, d, m, j) in pairs
    )


def load(b: Numbers, w: Numbers, v: int) -> int:
    return sum(k for c, k in zip(b, w) if c == v)


def loads(l: Numbers, b: Numbers, w: Numbers, o: int) -> bool:
    n = len(l)
    return all(o <= v < o + n for v in b) and all(load(b, w, o + j) == l[j] for j in range(n))


def knapsack(w: Numbers, p: Numbers, x: Numbers, weight: int, profit: int) -> bool:
    """OverflowError where a partial sum leaves 128 bits."""
    sums = []
    for values in (w, p):
        s = 0
        for a, b in zip(values, x):
            s += a * b
            if not -(2**127) <= s < 2**127:
                raise OverflowError
        sums.append(s)
    return min([0, *x, weight, profit]) == 0 and sums == [weight, profit]


def windows(low: int, high: int, k: int, x: Numbers) -> bool:
    if k < 0:
        return False
    return all(low <= sum(x[i : i + k]) <= high for i in range(len(x) - k + 1))


def weight(e: Numbers, w: Numbers, x: Set) -> Optional[int]:
    """None where a thing comes twice, or the set has another."""
    if not all_different(e) or not x <= set(e):
        return None
    return sum(n for v, n in zip(e, w) if v in x)


def cycle(x: Numbers, start: int) -> List[int]:
    """The places from one on, until one comes again."""
    seen, place = [], start
    while place not in seen:
        seen.append(place)
        place = x[place]
    return seen


def circuit(o: int, x: Numbers) -> bool:
    x = [v - o for v in x]
    if any(not 0 <= v < len(x) for v in x):
        return False
    return not x or (len(cycle(x, 0)) == len(x) and all_different(x))


def subcircuit(o: int, x: Numbers) -> bool:
    x = [v - o for v in x]
    if not x or any(not 0 <= v < len(x) for v in x) or not all_different(x):
        return False
    moved = [i for i, v in enumerate(x) if v != i]
    return not moved or len(cycle(x, moved[0])) == len(moved)


def inverse(f: Numbers, fo: int, g: Numbers, go: int) -> bool:
    f, g = [v - fo for v in f], [v - go for v in g]

    def leads_back(a: Numbers, b: Numbers) -> bool:
        return all(0 <= v < len(b) and b[v] == i for i, v in enumerate(a))

    return leads_back(f, g) and leads_back(g, f)


def has_rows(x: List[Any], t: List[Any]) -> bool:
    """So many whole rows, each as long as x, which has an element. Each argument is its term, or
    the list of its terms."""
    return len(x) > 0 and len(t) % len(x) == 0


def is_row(x: List[Any], t: List[Any]) -> bool:
    n = len(x)
    return has_rows(x, t) and any(t[i : i + n] == x for i in range(0, len(t), n))


def has_transitions(
    x: List[Any], states: Shape, symbols: Shape, d: List[Any], q: Shape, final: Shape
) -> bool:
    """One for each state and symbol, whose numbers are fixed."""
    return states[0] == symbols[0] == "fixed" and bool(states[1] * symbols[1] == len(d))


def regular(x: Numbers, states: int, symbols: int, d: Numbers, q: int, final: Set) -> bool:
    if len(d) != states * symbols:
        return False
    for v in x:
        if not (1 <= q <= states and 1 <= v <= symbols):
            return False
        q = d[(q - 1) * symbols + v - 1]
    return 1 <= q <= states and q in final


def precede(s: int, t: int, x: Numbers) -> bool:
    return all(s in x[:i] for i, v in enumerate(x) if v == t)


def rises(x: Numbers) -> bool:
    return all(v <= max([0] + x[:i]) + 1 for i, v in enumerate(x))


def flags(s: Set, b: List[bool], o: int) -> bool:
    return s == {o + i for i, v in enumerate(b) if v}


def channels(x: Numbers, xo: int, y: List[Set], yo: int) -> bool:
    if any(not yo <= v < yo + len(y) for v in x):
        return False
    return all(part == {xo + i for i, v in enumerate(x) if v == yo + j} for j, part in enumerate(y))


def inverse_sets(x: List[Set], y: List[Set], xo: int, yo: int) -> bool:
    pairs = {(i, j) for i, part in enumerate(x, xo) for j in part}
    return pairs == {(i, j) for j, part in enumerate(y, yo) for i in part}


def precede_sets(x: List[Set], s: int, t: int) -> bool:
    return all(
        any(s in q and t not in q for q in x[:i])
        for i, p in enumerate(x)
        if t in p and s not in p
    )


def union_at(x: Set, y: List[Set]) -> Optional[Set]:
    """None where x has what is no index of y."""
    if not x <= set(range(1, len(y) + 1)):
        return None
    return frozenset().union(*(y[i - 1] for i in x))


def values_at(x: Numbers, o: int, s: Set) -> Optional[Set]:
    """None where s has what is no index of x."""
    if not s <= set(range(o, o + len(x))):
        return None
    return frozenset(x[i - o] for i in s)


def partition(parts: List[Set], whole: Set) -> bool:
    return set().union(*parts) == whole and sum(map(len, parts)) == len(whole)


I, C, L = "[I]", "[I] I I", "[I] [I]"
TESTS: Dict[str, Tuple[str, Callable[..., Any], str]] = {
    "fzn_all_different_int": (I, all_different, ""),
    "fzn_alldifferent_except_0": (I, lambda x: all_different([v for v in x if v]), ""),
    "fzn_all_equal_int": (I, lambda x: len(set(x)) <= 1, ""),
    "fzn_count_neq": (C, lambda x, y, c: c != count(x, y), ""),
    "fzn_count_geq": (C, lambda x, y, c: c >= count(x, y), ""),
    "fzn_count_gt": (C, lambda x, y, c: c > count(x, y), ""),
    "fzn_count_leq": (C, lambda x, y, c: c <= count(x, y), ""),
    "fzn_count_lt": (C, lambda x, y, c: c < count(x, y), ""),
    "fzn_at_least_int": ("I [I] I", lambda n, x, v: count(x, v) >= n, ""),
    "fzn_at_most_int": ("I [I] I", lambda n, x, v: count(x, v) <= n, ""),
    "fzn_exactly_int": ("I [I] I", lambda n, x, v: count(x, v) == n, ""),
    "fzn_global_cardinality": ("[I] [I] [I]", lambda x, c, k: cover_counts(x, c, k, k), "12"),
    "fzn_global_cardinality_closed": (
        "[I] [I] [I]",
        lambda x, c, k: cover_counts(x, c, k, k) and closed(x, c),
        "12",
    ),
    "fzn_global_cardinality_low_up": ("[I] [I] [I] [I]", cover_counts, "123"),
    "fzn_global_cardinality_low_up_closed": (
        "[I] [I] [I] [I]",
        lambda x, c, l, u: cover_counts(x, c, l, u) and closed(x, c),
        "123",
    ),
    "fzn_distribute": ("[I] [I] [I]", lambda k, v, x: cover_counts(x, v, k, k), "01"),
    "fzn_cumulative": ("[I] [I] [I] I", cumulative, "012"),
    "fzn_disjunctive": (L, lambda s, d: disjunctive(s, d, False), "01"),
    "fzn_disjunctive_strict": (L, lambda s, d: disjunctive(s, d, True), "01"),
    "gecode_schedule_unary": (L, lambda s, d: in_turn(list(zip(s, d))), "01"),
    "fzn_diffn": ("[I] [I] [I] [I]", lambda x, y, dx, dy: apart(x, y, dx, dy, True), "0123"),
    "fzn_diffn_nonstrict": (
        "[I] [I] [I] [I]",
        lambda x, y, dx, dy: apart(x, y, dx, dy, False),
        "0123",
    ),
    "gecode_nooverlap": (
        "[I] [I] [I] [I]",
        lambda x, dx, y, dy: apart(x, y, dx, dy, True),
        "0123",
    ),
    "gecode_circuit": ("I [I]", circuit, ""),
    "fzcheck_subcircuit": ("I [I]", subcircuit, ""),
    "inverse_offsets": ("[I] I [I] I", inverse, ""),
    "fzn_table_int": (L, is_row, ""),
    "fzn_table_bool": ("[B] [B]", is_row, ""),
    "fzn_regular": ("[I] I I [I] I S", regular, ""),
    "fzn_bin_packing": (
        "I [I] [I]",
        lambda c, b, w: all(load(b, w, v) <= c for v in b),
        "12",
    ),
    "gecode_bin_packing_load": ("[I] [I] [I] I", loads, "12"),
    "fzn_lex_less_int": (L, lambda x, y: x < y, ""),
    "fzn_lex_lesseq_int": (L, lambda x, y: x <= y, ""),
    "fzn_lex_less_bool": ("[B] [B]", lambda x, y: x < y, ""),
    "fzn_lex_lesseq_bool": ("[B] [B]", lambda x, y: x <= y, ""),
    "fzn_increasing_int": (I, lambda x: neighbours(lambda a, b: bool(a <= b), x), ""),
    "fzn_increasing_bool": ("[B]", lambda x: neighbours(lambda a, b: bool(a <= b), x), ""),
    "fzn_decreasing_int": (I, lambda x: neighbours(lambda a, b: bool(a >= b), x), ""),
    "fzn_decreasing_bool": ("[B]", lambda x: neighbours(lambda a, b: bool(a >= b), x), ""),
    "fzn_strictly_increasing_int": (I, lambda x: neighbours(lambda a, b: bool(a < b), x), ""),
    "fzn_value_precede_int": ("I I [I]", precede, ""),
    "gecode_precede": (C, lambda x, s, t: precede(s, t, x), ""),
    "gecode_precede_set": ("[S] I I", precede_sets, ""),
    "fzn_value_precede_chain_int": (
        L,
        lambda c, x: neighbours(lambda s, t: precede(s, t, x), c),
        "",
    ),
    "fzn_seq_precede_chain_int": (I, rises, ""),
    "fzn_sort": (L, lambda x, y: sorted(x) == y, ""),
    "fzn_member_int": ("[I] I", lambda x, y: y in x, ""),
    "fzn_member_bool": ("[B] B", lambda x, y: y in x, ""),
    "fzn_knapsack": ("[I] [I] [I] I I", knapsack, "012"),
    "fzn_sliding_sum": ("I I I [I]", windows, ""),
    "gecode_among_seq_int": (
        "[I] S I I I",
        lambda x, s, l, m, n: windows(m, n, l, [v in s for v in x]),
        "",
    ),
    "set_convex": ("S", lambda s: not s or max(s) - min(s) < len(s), ""),
    "gecode_link_set_to_booleans": ("S [B] I", flags, ""),
    "gecode_int_set_channel": ("[I] I [S] I", channels, ""),
    "gecode_inverse_set": ("[S] [S] I I", inverse_sets, ""),
    "fzn_disjoint": ("S S", lambda a, b: not a & b, ""),
    "fzn_partition_set": ("[S] S", partition, ""),
}
RESULTS: Dict[str, Tuple[str, int, Callable[..., Any]]] = {
    "fzn_count_eq": (C, 2, count),
    "fzn_among": ("I [I] S", 0, lambda x, s: sum(1 for v in x if v in s)),
    "fzn_nvalue": ("I [I]", 0, lambda x: len(set(x))),
    "gecode_maximum_arg_int_offset": (C, 2, lambda x, o: o + x.index(max(x)) if x else None),
    "gecode_minimum_arg_int_offset": (C, 2, lambda x, o: o + x.index(min(x)) if x else None),
    "gecode_maximum_arg_bool_offset": (
        "[B] I I",
        2,
        lambda x, o: o + x.index(max(x)) if x else None,
    ),
    "gecode_set_weights": ("[I] [I] S I", 3, weight),
    "gecode_range": ("[I] I S S", 3, values_at),
}
WHOLE_ROWS: Dict[str, Callable[..., Any]] = {
    "fzn_table_int": has_rows,
    "fzn_table_bool": has_rows,
    "fzn_regular": has_transitions,
}
OTHER_NAMES = {
    "all_different_int": "fzn_all_different_int",
    "gecode_all_different_int": "fzn_all_different_int",
    "geas_all_different_int": "fzn_all_different_int",
    "geas_all_different_except_0": "fzn_alldifferent_except_0",
    "all_equal_int": "fzn_all_equal_int",
    "count": "fzn_count_eq",
    "gecode_count": "fzn_count_eq",
    "among": "fzn_among",
    "nvalue": "fzn_nvalue",
    "at_least_int": "fzn_at_least_int",
    "at_most_int": "fzn_at_most_int",
    "member_int": "fzn_member_int",
    "gecode_member_int": "fzn_member_int",
    "gecode_member_bool": "fzn_member_bool",
    "gecode_global_cardinality": "fzn_global_cardinality",
    "geas_global_cardinality": "fzn_global_cardinality",
    "gecode_global_cardinality_closed": "fzn_global_cardinality_closed",
    "global_cardinality_low_up": "fzn_global_cardinality_low_up",
    "global_cardinality_low_up_closed": "fzn_global_cardinality_low_up_closed",
    "cumulatives": "fzn_cumulative",
    "geas_cumulative": "fzn_cumulative",
    "geas_cumulative_var": "fzn_cumulative",
    "geas_disjunctive": "fzn_disjunctive",
    "fzcheck_circuit": "gecode_circuit",
    "gecode_inverse_offsets": "inverse_offsets",
    "gecode_table_int": "fzn_table_int",
    "geas_table_int": "fzn_table_int",
    "gecode_table_bool": "fzn_table_bool",
    "gecode_regular": "fzn_regular",
    "fzcheck_bin_packing_load": "gecode_bin_packing_load",
    "array_int_lt": "fzn_lex_less_int",
    "gecode_array_int_lt": "fzn_lex_less_int",
    "array_int_lq": "fzn_lex_lesseq_int",
    "gecode_array_int_lq": "fzn_lex_lesseq_int",
    "array_bool_lt": "fzn_lex_less_bool",
    "gecode_array_bool_lt": "fzn_lex_less_bool",
    "array_bool_lq": "fzn_lex_lesseq_bool",
    "gecode_array_bool_lq": "fzn_lex_lesseq_bool",
    "increasing_int": "fzn_increasing_int",
    "decreasing_int": "fzn_decreasing_int",
    "sort": "fzn_sort",
    "disjoint": "fzn_disjoint",
    "array_set_partition": "fzn_partition_set",
    "gecode_array_set_partition": "fzn_partition_set",
}
ALL: Tuple[Dict[str, Any], ...] = (TESTS, RESULTS, WHOLE_ROWS)
for rows in ALL:
    rows.update({other: rows[name] for other, name in OTHER_NAMES.items() if name in rows})
