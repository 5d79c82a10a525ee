#!/usr/bin/env python3
"""Writes a model and a solver's output for it, of which every block is satisfied by the way
they are made, except that of `broken`.

    generate.py SORT MEGABYTES FOLDER [SEED]

writes FOLDER/SORT-MEGABYTES.fzn and FOLDER/SORT-MEGABYTES.out, the same bytes for the same words. A MB is
1,000,000 bytes. The sorts are:

    model    a model of that size over the whole table of builtins, and a stream of one block
    stream   a stream of that size, of blocks of 1,500 bytes that get better and a claim, and a model for it
    chain    a model of that size whose definitions are posted in reverse order of their dependence, and a
             stream that prints the first value alone
    broken   such a chain with a constraint that its last value fails
    lines    a stream of that size, of blocks of one line, and a model of a variable
    long     a stream of that size, of 200 blocks that get better, and a model over the whole table for it, at
             90 MB one of 16 MB

A value is chosen for each variable first. Then constraints are made that hold under these values; those
with a result mostly define a variable of their own, which the stream leaves out."""
import os
import random
import sys

ELEMENTS = range(1, 41)  # what set variables may hold
MOST = 1_000_000  # no variable is given a number past this


def text_of(value):
    """A value as it is written in models and streams."""
    if isinstance(value, bool):
        return "true" if value else "false"
    if isinstance(value, int):
        return str(value)
    numbers = sorted(value)
    if len(numbers) > 2 and numbers[-1] - numbers[0] + 1 == len(numbers):
        return f"{numbers[0]}..{numbers[-1]}"
    return "{" + ",".join(map(str, numbers)) + "}"


def list_of(texts):
    return "[" + ",".join(texts) + "]"


def quotient(a, b):
    """a divided by b, cut off toward zero."""
    q = abs(a) // abs(b)
    return q if (a < 0) == (b < 0) else -q


class Model:
    """A model that grows, with the value of each of its names. A term is a pair of a text and its value."""

    def __init__(self, rand, most_variables):
        self.rand = rand
        self.most_variables = most_variables
        self.declared = []
        self.posted = []
        self.size = 0
        self.variables = 0
        self.pool = {"I": [], "B": [], "S": []}
        self.with_value = {"I": {}, "B": {}, "S": {}}
        self.indexes = []
        self.tables = {"I": [], "B": [], "S": []}
        self.lists = {"I": [], "B": [], "S": []}
        self.decisions = {"I": [], "B": [], "S": []}
        self.introduced = []
        self.path = 0

    def declare(self, line):
        self.declared.append(line)
        self.size += len(line) + 1

    def post(self, name, args, notes=""):
        line = f"constraint {name}({','.join(args)}){notes};"
        self.posted.append(line)
        self.size += len(line) + 1

    def add(self, kind, name, value):
        term = (name, value)
        self.pool[kind].append(term)
        self.with_value[kind].setdefault(value, []).append(term)
        if kind == "I" and 1 <= value <= 20:
            self.indexes.append(term)
        return term

    # variables and tables

    def decision(self, kind):
        """A variable that the solver chooses and prints."""
        rand = self.rand
        name = f"x{self.variables}"
        self.variables += 1
        if kind == "I":
            value = rand.randint(1, 20) if rand.random() < 0.3 else rand.randint(0, 999)
            domain = rand.choice(["0..1000", "0..1000", "int", f"{value - value % 7}..{value + 30}"])
            if rand.random() < 0.1:
                domain = "{" + ",".join(map(str, sorted({value, *rand.sample(range(1000), 6)}))) + "}"
        elif kind == "B":
            value, domain = rand.random() < 0.5, "bool"
        else:
            value = self.some_set()
            domain = rand.choice(["set of 1..40", "set of 0..63", "set of int"])
        self.declare(f"var {domain}: {name};")
        self.decisions[kind].append((name, value))
        return self.add(kind, name, value)

    def defined(self, kind, value):
        """A variable that a constraint defines."""
        name = f"X_INTRODUCED_{self.variables}_"
        self.variables += 1
        if kind == "I":
            low, high = min(0, value), max(1000, value)
            domain = f"{low}..{high}" if self.rand.random() < 0.5 else "int"
        else:
            domain = "bool" if kind == "B" else "set of int"
        self.declare(f"var {domain}: {name} :: var_is_introduced :: is_defined_var;")
        self.introduced.append((name, value))
        return self.add(kind, name, value)

    def some_set(self):
        rand = self.rand
        if rand.random() < 0.4:
            low = rand.choice(ELEMENTS)
            return frozenset(range(low, min(low + rand.randint(0, 12), 40) + 1))
        return frozenset(rand.sample(ELEMENTS, rand.randint(0, 6)))

    def table(self, number):
        """Three parameters that are arrays, and three that are scalars."""
        rand = self.rand
        made = {
            "I": [rand.randint(0, 999) for _ in range(20)],
            "B": [rand.random() < 0.5 for _ in range(20)],
            "S": [self.some_set() for _ in range(20)],
        }
        words = {"I": "int", "B": "bool", "S": "set of int"}
        for kind, values in made.items():
            name = f"table_{kind}{number}"
            self.declare(f"array [1..20] of {words[kind]}: {name} = {list_of(map(text_of, values))};")
            self.tables[kind].append((name, values))
            self.declare(f"{words[kind]}: fixed_{kind}{number} = {text_of(values[0])};")
            self.add(kind, f"fixed_{kind}{number}", values[0])

    def array(self, number, kind):
        """An array of variables that constraints can name."""
        terms = [self.variable(kind) for _ in range(20)]
        base = {"I": "int", "B": "bool", "S": "set of 0..63"}[kind]
        name = f"array_{kind}{number}"
        self.declare(f"array [1..20] of var {base}: {name} = {list_of(t for t, _ in terms)};")
        self.lists[kind].append((name, [v for _, v in terms]))

    def outputs(self):
        """Arrays of all decisions, as the compiler makes them for output; the text of the block."""
        words = {"I": "int", "B": "bool", "S": "set of int"}
        block = []
        for kind, terms in self.decisions.items():
            for start in range(0, len(terms), 1000):
                part = terms[start : start + 1000]
                name = f"out_{kind}{start}"
                self.declare(
                    f"array [1..{len(part)}] of var {words[kind]}: {name} :: output_array([1..{len(part)}])"
                    f" = {list_of(t for t, _ in part)};"
                )
                block.append(f"{name} = array1d(1..{len(part)},{list_of(text_of(v) for _, v in part)});\n")
        return "".join(block)

    # terms

    def variable(self, kind):
        return self.rand.choice(self.pool[kind])

    def term(self, kind):
        """A name, or in one of eight cases a literal."""
        rand = self.rand
        if rand.random() < 0.875:
            return rand.choice(self.pool[kind])
        value = {"I": lambda: rand.randint(-50, 999), "B": lambda: rand.random() < 0.5, "S": self.some_set}[kind]()
        return text_of(value), value

    def terms(self, kind, least=2, most=5):
        return [self.term(kind) for _ in range(self.rand.randint(least, most))]

    def sequence(self, kind):
        """The text of an array and its values: a parameter, a declared array or a list."""
        which = self.rand.random()
        if which < 0.4:
            return self.rand.choice(self.tables[kind])
        if which < 0.7:
            return self.rand.choice(self.lists[kind])
        terms = self.terms(kind)
        return list_of(t for t, _ in terms), [v for _, v in terms]

    def constants(self, kind):
        if self.rand.random() < 0.9:
            return self.rand.choice(self.tables[kind])
        values = [v for _, v in self.terms(kind)]
        return list_of(map(text_of, values)), values

    def index(self, length):
        """A term for an index of an array."""
        for _ in range(20):
            term = self.rand.choice(self.indexes)
            if term[1] <= length:
                return term
        return "1", 1

    def known(self, kind, value):
        """A term with this value that stands already."""
        same = self.with_value[kind].get(value)
        return self.rand.choice(same) if same else (text_of(value), value)

    def result(self, kind, value):
        """A term with this value, and the annotation where it is a variable of its own."""
        small = kind != "I" or abs(value) <= MOST
        if small and self.variables < self.most_variables and self.rand.random() < 0.6:
            name, _ = self.defined(kind, value)
            notes = f" :: defines_var({name})"
            if self.rand.random() < 0.2:
                notes = " :: domain" + notes
            return name, notes
        return self.known(kind, value)[0], self.note()

    def note(self):
        which = self.rand.random()
        if which < 0.05:
            return " :: domain"
        if which < 0.07:
            self.path += 1
            return f' :: mzn_path("model.mzn|{self.path}|12|{self.path}|40")'
        return ""


# What each row of the table of builtins holds for. A maker posts one constraint that holds.


def by_result(name, kinds, kind, value_of):
    """A row whose last argument is a function of the others."""

    def make(model):
        terms = [model.term(k) for k in kinds]
        value = value_of(*(v for _, v in terms))
        if value is None:
            return
        text, notes = model.result(kind, value)
        model.post(name, [t for t, _ in terms] + [text], notes)

    return make


def linear(model):
    """Coefficients, terms and their sum."""
    terms = [model.variable("I") for _ in range(model.rand.randint(2, 5))]
    factors = [model.rand.choice([-3, -2, -1, 1, 1, 2, 5]) for _ in terms]
    return factors, terms, sum(f * v for f, (_, v) in zip(factors, terms))


def linear_args(factors, terms, right):
    return [list_of(map(str, factors)), list_of(t for t, _ in terms), str(right)]


def lin_eq(model):
    factors, terms, total = linear(model)
    if abs(total) > MOST or model.variables >= model.most_variables or model.rand.random() < 0.3:
        model.post("int_lin_eq", linear_args(factors, terms, total), model.note())
        return
    right = model.rand.randint(-20, 20)
    sign = model.rand.choice([1, -1])
    name, value = model.defined("I", (right - total) * sign)
    at = model.rand.randint(0, len(terms))
    factors.insert(at, sign)
    terms.insert(at, (name, value))
    model.post("int_lin_eq", linear_args(factors, terms, right), f" :: defines_var({name})")


def lin(name, right_of):
    def make(model):
        factors, terms, total = linear(model)
        model.post(name, linear_args(factors, terms, right_of(model.rand, total)), model.note())

    return make


def lin_reif(name, holds):
    def make(model):
        factors, terms, total = linear(model)
        right = model.rand.choice([total, total + 1, total - 3])
        text, notes = model.result("B", holds(total, right))
        model.post(name, linear_args(factors, terms, right) + [text], notes)

    return make


def ordered(name, kind, strictly):
    def make(model):
        a, b = sorted((model.term(kind), model.term(kind)), key=lambda term: term[1])
        if not strictly or a[1] < b[1]:
            model.post(name, [a[0], b[0]], model.note())

    return make


def same(name, kind):
    def make(model):
        text, value = model.term(kind)
        other, notes = model.result(kind, value)
        model.post(name, [text, other], notes)

    return make


def different(name, kind):
    def make(model):
        a, b = model.term(kind), model.term(kind)
        if a[1] != b[1]:
            model.post(name, [a[0], b[0]], model.note())

    return make


def element(name, kind, variables):
    def make(model):
        text, values = model.sequence(kind) if variables else model.constants(kind)
        index, place = model.index(len(values))
        result, notes = model.result(kind, values[place - 1])
        model.post(name, [index, text, result], notes)

    return make


def extreme(name, choose):
    def make(model):
        text, values = model.sequence("I")
        result, notes = model.result("I", choose(values))
        model.post(name, [result, text], notes)

    return make


def all_different(model):
    values = model.rand.sample(list(model.with_value["I"]), model.rand.randint(2, 8))
    model.post("fzn_all_different_int", [list_of(model.known("I", v)[0] for v in values)], model.note())


def array_bool(name, value_of):
    def make(model):
        text, values = model.sequence("B")
        result, notes = model.result("B", value_of(values))
        model.post(name, [text, result], notes)

    return make


def bool_xor_array(model):
    terms = model.terms("B")
    if sum(v for _, v in terms) % 2 == 0:
        terms.append(model.known("B", True))
    model.post("array_bool_xor", [list_of(t for t, _ in terms)], model.note())


def clause(model):
    yes, no = model.terms("B", 0, 3), model.terms("B", 0, 3)
    if not any(v for _, v in yes) and all(v for _, v in no):
        yes.append(model.known("B", True))
    model.post("bool_clause", [list_of(t for t, _ in yes), list_of(t for t, _ in no)], model.note())


def bool_lin(name, is_equal):
    def make(model):
        terms = model.terms("B")
        factors = [model.rand.randint(-5, 9) for _ in terms]
        total = sum(f for f, (_, v) in zip(factors, terms) if v)
        args = [list_of(map(str, factors)), list_of(t for t, _ in terms)]
        if is_equal:
            text, notes = model.result("I", total)
        else:
            text, notes = str(total + model.rand.randint(0, 4)), model.note()
        model.post(name, args + [text], notes)

    return make


def set_in(model):
    text, value = model.term("I")
    if model.rand.random() < 0.5:
        wanted = f"{value - model.rand.randint(0, 9)}..{value + model.rand.randint(0, 90)}"
    else:
        wanted = text_of(frozenset({value, *model.rand.sample(range(1000), model.rand.randint(1, 8))}))
    model.post("set_in", [text, wanted], model.note())


def subset(name, swap):
    def make(model):
        text, value = model.term("S")
        other = text_of(value | model.some_set())
        model.post(name, [other, text] if swap else [text, other], model.note())

    return make


ROWS = [
    same("int_eq", "I"),
    different("int_ne", "I"),
    ordered("int_le", "I", False),
    ordered("int_lt", "I", True),
    by_result("int_eq_reif", "II", "B", lambda a, b: a == b),
    by_result("int_ne_reif", "II", "B", lambda a, b: a != b),
    by_result("int_le_reif", "II", "B", lambda a, b: a <= b),
    by_result("int_lt_reif", "II", "B", lambda a, b: a < b),
    lin_eq,
    lin("int_lin_ne", lambda rand, total: total + rand.randint(1, 9)),
    lin("int_lin_le", lambda rand, total: total + rand.randint(0, 9)),
    lin_reif("int_lin_eq_reif", lambda total, right: total == right),
    lin_reif("int_lin_ne_reif", lambda total, right: total != right),
    lin_reif("int_lin_le_reif", lambda total, right: total <= right),
    by_result("int_plus", "II", "I", lambda a, b: a + b),
    by_result("int_times", "II", "I", lambda a, b: a * b),
    by_result("int_min", "II", "I", min),
    by_result("int_max", "II", "I", max),
    by_result("int_abs", "I", "I", abs),
    by_result("int_div", "II", "I", lambda a, b: quotient(a, b) if b else None),
    by_result("int_mod", "II", "I", lambda a, b: a - b * quotient(a, b) if b else None),
    element("array_int_element", "I", False),
    element("array_var_int_element", "I", True),
    extreme("array_int_maximum", max),
    extreme("array_int_minimum", min),
    all_different,
    same("bool_eq", "B"),
    ordered("bool_le", "B", False),
    ordered("bool_lt", "B", True),
    by_result("bool_eq_reif", "BB", "B", lambda a, b: a == b),
    by_result("bool_le_reif", "BB", "B", lambda a, b: a <= b),
    by_result("bool_lt_reif", "BB", "B", lambda a, b: a < b),
    by_result("bool_not", "B", "B", lambda a: not a),
    by_result("bool_and", "BB", "B", lambda a, b: a and b),
    by_result("bool_or", "BB", "B", lambda a, b: a or b),
    by_result("bool_xor", "BB", "B", lambda a, b: a != b),
    array_bool("array_bool_and", all),
    array_bool("array_bool_or", any),
    bool_xor_array,
    element("array_bool_element", "B", False),
    element("array_var_bool_element", "B", True),
    clause,
    by_result("bool2int", "B", "I", int),
    bool_lin("bool_lin_eq", True),
    bool_lin("bool_lin_le", False),
    set_in,
    by_result("set_in_reif", "IS", "B", lambda a, b: a in b),
    same("set_eq", "S"),
    different("set_ne", "S"),
    subset("set_subset", False),
    subset("set_superset", True),
    by_result("set_eq_reif", "SS", "B", lambda a, b: a == b),
    by_result("set_ne_reif", "SS", "B", lambda a, b: a != b),
    by_result("set_subset_reif", "SS", "B", lambda a, b: a <= b),
    by_result("set_superset_reif", "SS", "B", lambda a, b: a >= b),
    by_result("set_union", "SS", "S", lambda a, b: a | b),
    by_result("set_intersect", "SS", "S", lambda a, b: a & b),
    by_result("set_diff", "SS", "S", lambda a, b: a - b),
    by_result("set_symdiff", "SS", "S", lambda a, b: a ^ b),
    by_result("set_card", "S", "I", len),
    element("array_set_element", "S", False),
    element("array_var_set_element", "S", True),
]


def power(name):
    """A power by a small exponent; now and then one that isn't known, or that leaves 128 bits."""

    def make(model):
        text, base = model.term("I")
        exponent = model.rand.choice([-1, 0, 1, 2, 3, 4, 5, 6, 127])
        by, notes = model.known("I", exponent)[0], model.note()
        result = model.term("I")[0]
        if exponent >= 0 and (exponent < 127 or abs(base) < 2):
            value = base**exponent
            if abs(value) >= 2**63:
                return
            result, notes = model.result("I", value)
        model.post(name, [text, by, result], notes)

    return make


# Beside the others where two checkers are compared; the models that are measured have none.
POWERS = [power("int_pow"), power("gecode_int_pow")]


def make_model(size, rand, block_size=0, rows=ROWS):
    """A model over these rows of the table, and a stream of one block. Where the block is to be
    larger than its arrays make it, defined variables are printed by name."""
    variables = max(60, size // 160)
    model = Model(rand, variables)
    for number in range(max(1, size // 100_000)):
        model.table(number)
    for number in range(variables * 6 // 10):
        model.decision("IIIIIIBBBS"[number % 10])
    for number in range(max(1, size // 20_000)):
        model.array(number, "IBS"[number % 3])
    for number in range(3):
        model.array(f"_{number}", "IBS"[number])
    block = model.outputs()
    model.declare("var 0..1000000: cost :: output_var;")
    goal = "solve :: int_search(out_I0,first_fail,indomain_min,complete) :: restart_geometric(1.5,100) minimize cost;"
    while model.size < size - len(goal):
        rand.choice(rows)(model)
    for name, value in model.introduced:
        if len(block) >= block_size:
            break
        block += f"{name} = {text_of(value)};\n"
    rand.shuffle(model.posted)
    lines = ["predicate fzn_all_different_int(array [int] of var int: x);"]
    text = "\n".join(lines + model.declared + model.posted + [goal]) + "\n"
    return text, block + f"cost = {rand.randint(0, 1000)};\n----------\n"


def make_stream(size, rand):
    """A model with many solutions, and a stream of blocks that get better."""
    choices, places, truths = 240, 60, 40
    lines = ["predicate fzn_all_different_int(array [int] of var int: x);"]
    lines += [f"var 0..999: x_{i};" for i in range(choices)]
    lines += [f"var 1..{places}: p_{i};" for i in range(places)]
    lines += [f"var bool: b_{i} :: is_defined_var;" for i in range(truths)]
    lines += ["var set of 1..40: chosen :: output_var;", "var 0..40: size :: is_defined_var;"]
    lines += ["var 0..9999999: cost :: output_var;", "var int: slack :: is_defined_var;"]
    for name, letter, count in (("xs", "x", choices), ("ps", "p", places)):
        names = list_of(f"{letter}_{i}" for i in range(count))
        lines.append(f"array [1..{count}] of var int: {name} :: output_array([1..{count}]) = {names};")
    bools = list_of(f"b_{i}" for i in range(truths))
    lines.append(f"array [1..{truths}] of var bool: bs :: output_array([1..4,1..{truths // 4}]) = {bools};")
    lines.append("constraint fzn_all_different_int(ps);")
    lines += [f"constraint int_le_reif(x_{i},500,b_{i}) :: defines_var(b_{i});" for i in range(truths)]
    lines += [f"constraint int_le(x_{i},x_{i + 1});" for i in range(truths, choices - 1)]
    lines.append("constraint set_card(chosen,size) :: defines_var(size);")
    lines.append("constraint int_lin_eq([1,1],[cost,slack],9999999) :: defines_var(slack);")
    model = "\n".join(lines) + "\nsolve minimize cost;\n"
    blocks, total, cost = [], 0, 9_000_000
    while total < size:
        xs = [rand.randint(0, 999) for _ in range(truths)]
        xs += sorted(rand.randint(0, 999) for _ in range(choices - truths))
        ps = rand.sample(range(1, places + 1), places)
        bs = [x <= 500 for x in xs[:truths]]
        cost -= rand.randint(1, 300)
        block = (
            f"xs = array1d(1..{choices},{list_of(map(str, xs))});\n"
            f"ps = array1d(1..{places},{list_of(map(str, ps))});\n"
            f"bs = array2d(1..4,1..{truths // 4},{list_of(map(text_of, bs))});\n"
            f"chosen = {text_of(frozenset(rand.sample(ELEMENTS, rand.randint(0, 20))))};\n"
            f"cost = {cost};\n% time elapsed: {len(blocks) / 100:.2f} s\n----------\n"
        )
        blocks.append(block)
        total += len(block)
    return model, "".join(blocks) + "==========\n%%%mzn-stat: solutions=" + str(len(blocks)) + "\n"


def make_chain(size, rand):
    """Definitions in reverse order of their dependence, and the first value."""
    count = size // 150
    lines = ["var 0..9: X_INTRODUCED_0_ :: output_var;"]
    lines += [f"var int: X_INTRODUCED_{i}_ :: is_defined_var;" for i in range(1, count)]
    for i in range(count - 1, 0, -1):
        step, name = rand.randint(0, 9), f"X_INTRODUCED_{i}_"
        lines.append(f"constraint int_plus(X_INTRODUCED_{i - 1}_,{step},{name}) :: defines_var({name});")
    return "\n".join(lines) + "\nsolve satisfy;\n", "X_INTRODUCED_0_ = 3;\n----------\n"


def make_broken(size, rand):
    """A chain whose last value is too large, so that all values are behind the explanation."""
    model, stream = make_chain(size, rand)
    last = f"constraint int_le(X_INTRODUCED_{size // 150 - 1}_,2);\n"
    return model.replace("solve satisfy;", last + "solve satisfy;"), stream


def make_long(size, rand):
    """A large model, and 200 blocks of which each prints the arrays and so many of the other variables by name."""
    blocks = 200
    model, block = make_model(size * 16 // 90, rand, size // blocks)
    values, cost = block.rsplit("cost = ", 1)
    first = 1_000_000
    return model, "".join(f"{values}cost = {first - n};\n----------\n" for n in range(blocks))


def make_globals(which, rand):
    """Rows of global constraints over lists of 100,000 elements, or over 2,000 tasks."""
    if which == "tasks":
        count, lengths = 2_000, [rand.randint(0, 9) for _ in range(2_000)]
        starts = [sum(lengths[:i]) for i in range(count)]
        arrays = {"s": starts, "d": lengths, "r": [rand.randint(0, 9) for _ in range(count)]}
        arrays["y"], arrays["h"] = [0] * count, [1] * count
        posts = ["fzn_cumulative(s,d,r,9)", "fzn_disjunctive(s,d)", "fzn_diffn_nonstrict(s,y,d,h)"]
    else:
        count = 100_000
        order = rand.sample(range(1, count + 1), count)
        cycle = [0] * count
        for place, following in zip(order, order[1:] + order[:1]):
            cycle[place - 1] = following
        back = [0] * count
        for place, following in enumerate(cycle):
            back[following - 1] = place + 1
        arrays = {"p": order, "n": cycle, "m": back, "u": list(range(1, count + 1))}
        arrays["w"] = [rand.randint(1, 2) for _ in range(count)]
        arrays["one"] = [1] * count
        final = 1 + sum(v == 2 for v in arrays["w"]) % 2
        twos = arrays["w"].count(2)
        posts = [
            "fzn_all_different_int(p)",
            "fzn_sort(p,u)",
            "fzn_strictly_increasing_int(u)",
            "fzn_lex_less_int(w,p)" if arrays["w"] < order else "fzn_lex_less_int(p,w)",
            f"count(w,2,{twos})",
            "fzn_nvalue(2,w)",
            "fzn_global_cardinality_closed(p,u,one)",
            "fzcheck_circuit(1,n)",
            "fzcheck_subcircuit(1,n)",
            "inverse_offsets(n,1,m,1)",
            "fzn_table_int([%s],p)" % ",".join(map(str, order[-5:])),
            "fzn_regular(w,2,2,[1,2,2,1],1,{%d})" % final,
            "fzn_value_precede_chain_int(p,p)",
            "fzn_seq_precede_chain_int(u)",
        ]
    lines = [
        f"array [1..{len(values)}] of int: {name} = [{','.join(map(str, values))}];"
        for name, values in arrays.items()
    ]
    lines += ["var 1..1: x;"] + [f"constraint {post};" for post in posts]
    return "\n".join(lines) + "\nsolve satisfy;\n", "x = 1;\n----------\n"


def make_lines(size, rand):
    """Blocks of one line, which print nothing."""
    line = "----------\n"
    return "var 3..3: x :: output_var;\nsolve satisfy;\n", line * (size // len(line))


SORTS = {
    "model": make_model,
    "stream": make_stream,
    "chain": make_chain,
    "broken": make_broken,
    "lines": make_lines,
    "long": make_long,
}


def main():
    sort, megabytes, folder = sys.argv[1:4]
    seed = sys.argv[4] if len(sys.argv) > 4 else "1"
    rand = random.Random(f"{sort} {megabytes} {seed}")
    if sort == "globals":
        model, stream = make_globals(megabytes, rand)
    else:
        model, stream = SORTS[sort](int(float(megabytes) * 1_000_000), rand)
    os.makedirs(folder, exist_ok=True)
    for ending, text in ((".fzn", model), (".out", stream)):
        with open(os.path.join(folder, f"{sort}-{megabytes}{ending}"), "w") as f:
            f.write(text)


if __name__ == "__main__":
    main()
