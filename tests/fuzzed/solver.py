"""A FlatZinc solver of 23 builtins that tries all values, with faults that are switched on by name.

    python3 tests/fuzzed/run.py [--fault NAME] [--counter FILE] [-a] MODEL.fzn

It prints the values of all variables. FAULTS tells what the faults are: they are there so that
fzcheck-fuzz and fzcheck-shrink have something to find. FILE has how often it ran, so that what
comes and goes does so at the same runs each time. It shares nothing with fzcheck and its
companions, and loads no library, since a test runs it some thousand times."""
import os
import sys
import time

SIGNAL = 11
WRAPS_AT, SEEN, EVERY = 100, 4, 4
MARKER, COMPLETE, NONE = "-" * 10, "=" * 10, "=====UNSATISFIABLE====="
FAULTS = {
    "off-by-one": "int_lin_le lets the sum be one more",
    "half-reified": "int_le_reif lets the Boolean be false where the row holds",
    "rounding": "int_div is rounded down",
    "index": "array_int_element counts from 0",
    "maximum": "int_max is the first number where that is negative",
    "lost": "the last of all solutions is left out",
    "twice": "the first of all solutions comes twice",
    "optimum": "the search for an optimum ends with the first solution",
    "worse": "solutions of an optimisation needn't be better",
    "early-claim": "the claim to have all solutions stands before the last one",
    "crash": "fzn_all_different_int with a number that comes twice ends the solver",
    "endless": "int_mod with a negative number is never decided",
    "sleeps": "int_mod with a negative number sleeps",
    "protocol": "========== where there is no solution, and the fault `rounding`",
    "comes-and-goes": "every fourth run leaves a solution out",
    "fifth": "array_int_maximum and fzn_all_different_int see four elements",
    "pair": "int_max is the minimum where int_plus has one of its variables, too",
    "annotation": "indomain_split leaves the last value of a domain out",
    "wraps": "what int_plus adds up to 100 and more is 100 less",
}
OF_ALL = ("lost", "twice", "early-claim", "comes-and-goes")  # faults of a run for all solutions


def toward_zero(a, b):
    quotient = abs(a) // abs(b)
    return quotient if (a < 0) == (b < 0) else -quotient


def scalar_product(a, b):
    return sum(x * y for x, y in zip(a, b))


def element(index, elements):
    return elements[index - 1] if 1 <= index <= len(elements) else None


HOLDS = {
    "int_ne": lambda a, b: a != b,
    "int_le": lambda a, b: a <= b,
    "int_lt": lambda a, b: a < b,
    "int_eq_reif": lambda a, b, c: c == (a == b),
    "int_le_reif": lambda a, b, c: c == (a <= b),
    "int_lin_eq": lambda a, b, c: scalar_product(a, b) == c,
    "int_lin_le": lambda a, b, c: scalar_product(a, b) <= c,
    "int_lin_ne": lambda a, b, c: scalar_product(a, b) != c,
    "int_plus": lambda a, b, c: a + b == c,
    "int_times": lambda a, b, c: a * b == c,
    "int_div": lambda a, b, c: b != 0 and toward_zero(a, b) == c,
    "int_mod": lambda a, b, c: b != 0 and a - b * toward_zero(a, b) == c,
    "int_max": lambda a, b, c: max(a, b) == c,
    "int_abs": lambda a, b: abs(a) == b,
    "array_int_element": lambda a, b, c: element(a, b) == c,
    "array_var_int_element": lambda a, b, c: element(a, b) == c,
    "array_int_maximum": lambda a, b: bool(b) and max(b) == a,
    "bool2int": lambda a, b: int(a) == b,
    "bool_clause": lambda a, b: any(a) or not all(b),
    "bool_not": lambda a, b: a != b,
    "array_bool_or": lambda a, b: any(a) == b,
    "set_in": lambda a, b: a in b,
    "fzn_all_different_int": lambda a: len(set(a)) == len(a),
}


def crash(numbers):
    if len(set(numbers)) < len(numbers):
        sys.stdout.flush()
        os.kill(os.getpid(), SIGNAL)
    return True


def endless(a, b, c):
    while a < 0:
        pass
    return HOLDS["int_mod"](a, b, c)


def sleeps(a, b, c):
    if a < 0:
        time.sleep(3600)
    return HOLDS["int_mod"](a, b, c)


def wraps(a, b, c):
    return (a + b - WRAPS_AT if a + b >= WRAPS_AT else a + b) == c


ROUNDING = {"int_div": lambda a, b, c: b != 0 and a // b == c}
WRONG = {
    "off-by-one": {"int_lin_le": lambda a, b, c: scalar_product(a, b) <= c + 1},
    "half-reified": {"int_le_reif": lambda a, b, c: not c or a <= b},
    "rounding": ROUNDING,
    "protocol": ROUNDING,
    "index": {"array_int_element": lambda a, b, c: 0 <= a < len(b) and b[a] == c},
    "maximum": {"int_max": lambda a, b, c: c == (a if a < 0 else max(a, b))},
    "pair": {"int_max": lambda a, b, c: min(a, b) == c},
    "crash": {"fzn_all_different_int": crash},
    "endless": {"int_mod": endless},
    "sleeps": {"int_mod": sleeps},
    "fifth": {"array_int_maximum": lambda a, b: bool(b) and a == max(b[:SEEN]),
              "fzn_all_different_int": lambda a: len(set(a[:SEEN])) == len(a[:SEEN])},
    "wraps": {"int_plus": wraps},
}


class Refused(Exception):
    """The model has what isn't known."""


class Name(str):
    """The name of a variable."""


def parsed(text, named):
    """A literal, a name or a list of them; `named` has what is declared."""
    text = text.strip()
    if text.startswith("["):
        return [parsed(it, named) for it in parts(text[1:-1])]
    if text.startswith("{"):
        return frozenset(int(it) for it in parts(text[1:-1]))
    if ".." in text:
        low, high = text.split("..")
        return frozenset(range(int(low), int(high) + 1))
    if text in ("true", "false"):
        return text == "true"
    if text[0].isalpha() or text[0] == "_":
        if text not in named:
            raise Refused(f"undefined identifier {text}")
        return named[text]
    return int(text)


def parts(text):
    """What commas part outside of brackets."""
    found, depth, start = [], 0, 0
    for place, letter in enumerate(text):
        depth += (letter in "[{(") - (letter in ")}]")
        if letter == "," and depth == 0:
            found.append(text[start:place])
            start = place + 1
    return [*found, text[start:]] if text[start:].strip() else found


class Solver:
    """Gives the variables values in their order; each constraint is looked at when all of its
    variables have one, or all but one."""

    def __init__(self, text, fault):
        self.fault, self.domains, self.named, self.points = fault, {}, {}, []
        self.goal, self.objective = "satisfy", None
        self.is_cut = fault == "annotation" and "indomain_split" in text
        lines = (it for it in text.splitlines() if not it.startswith("%"))
        for item in "\n".join(lines).split(";"):
            self.read(item.strip())
        self.of = {name: [it for it in self.points if name in it[1]] for name in self.domains}

    def read(self, item):
        if item.startswith("constraint "):
            self.read_constraint(item[len("constraint ") :])
        elif item.startswith("solve"):
            words = item.rpartition(")")[2].split() if ")" in item else item.split()
            self.goal = next(it for it in words if it in ("satisfy", "minimize", "maximize"))
            if self.goal != "satisfy":
                self.objective = parsed(words[-1], self.named)
        elif item and not item.startswith("predicate"):
            self.declare(item)

    def declare(self, item):
        head, _, value = item.partition("=")
        kind, _, rest = head.partition(":")
        name = Name(rest.partition("::")[0].strip())
        if not kind.startswith("var "):
            self.named[name] = parsed(value, self.named)
            return
        self.domains[name] = self.domain(kind[len("var ") :].strip())
        if value:
            other = parsed(value, self.named)
            self.points.append((lambda a, b: a == b, names_in([name, other]), [name, other]))
        self.named[name] = name

    def domain(self, kind):
        if kind == "bool":
            return [False, True]
        if kind == "int" or kind.startswith("set"):
            raise Refused(f"var {kind} isn't known")
        found = sorted(parsed(kind, {}))
        return found[:-1] if self.is_cut and len(found) > 1 else found

    def read_constraint(self, text):
        name, _, rest = text.partition("(")
        if name not in HOLDS:
            raise Refused(f"constraint {name} isn't known")
        arguments = [parsed(it, self.named) for it in parts(rest.partition("::")[0].strip()[:-1])]
        holds = WRONG.get(self.fault, {}).get(name, HOLDS[name])
        self.points.append((holds, names_in(arguments), arguments))
        if self.fault == "pair":
            self.points[-1] += (name,)

    def repair_pairs(self):
        """A maximum is wrong only where a sum has one of its variables."""
        sums = {it for point in self.points for it in point[1] if point[3:] == ("int_plus",)}
        for place, point in enumerate(self.points):
            if point[3:] == ("int_max",) and not sums & set(point[1]):
                self.points[place] = (HOLDS["int_max"], *point[1:])

    def solutions(self):
        if self.fault == "pair":
            self.repair_pairs()
            self.of = {name: [it for it in self.points if name in it[1]] for name in self.domains}
        if all(self.fits(it, {}) for it in self.points if not it[1]):
            yield from self.extended({})

    def extended(self, values):
        name = next((it for it in self.domains if it not in values), None)
        if name is None:
            yield values
            return
        for value in self.domains[name]:
            own = self.with_value(values, name, value)
            if own is not None:
                yield from self.extended(own)

    def with_value(self, values, name, value):
        """With all that follows of a value, or nothing where it can't be."""
        found, given = dict(values), [(name, value)]
        while given:
            name, value = given.pop()
            if name in found and found[name] == value:
                continue
            if name in found or value not in self.domains[name]:
                return None
            found[name] = value
            for point in self.of[name]:
                follows = self.following(point, found)
                if follows is None:
                    return None
                given += follows
        return found

    def following(self, point, values):
        """The one value that is left for the last variable of a constraint; nothing where there is
        none."""
        left = {it for it in point[1] if it not in values}
        if not left:
            return [] if self.fits(point, values) else None
        if len(left) > 1:
            return []
        name = left.pop()
        fitting = [it for it in self.domains[name] if self.fits(point, {**values, name: it})]
        if not fitting:
            return None
        return [(name, fitting[0])] if len(fitting) == 1 else []

    def fits(self, point, values):
        return point[0](*(value_of(it, values) for it in point[2]))

    def improving(self):
        """Each solution that is better than the one before."""
        best, sign = None, 1 if self.goal == "minimize" else -1
        for values in self.solutions():
            now = value_of(self.objective, values)
            if best is None or sign * now < sign * best or self.fault == "worse":
                best = now
                yield values
                if self.fault == "optimum":
                    return

    def blocks(self, wants_all):
        for values in self.solutions() if self.goal == "satisfy" else self.improving():
            yield "".join(f"{it} = {text_of(values[it])};\n" for it in self.domains) + MARKER
            if self.goal == "satisfy" and not wants_all:
                return

    def lines(self, wants_all, runs):
        """What it prints, each block as it is found."""
        is_of_all = self.goal == "satisfy" and wants_all
        if is_of_all and self.fault in OF_ALL:
            yield from self.changed(list(self.blocks(True)), runs)
            return
        count = 0
        for block in self.blocks(wants_all):
            count += 1
            yield block
        if not count:
            yield COMPLETE if self.fault == "protocol" else NONE
        elif is_of_all or self.goal != "satisfy":
            yield COMPLETE

    def changed(self, blocks, runs):
        """What it prints of all solutions, with the fault."""
        loses = self.fault == "lost" or self.fault == "comes-and-goes" and runs % EVERY == 0
        if loses and len(blocks) > 1:
            blocks.pop()
        if self.fault == "twice":
            blocks += blocks[:1]
        if self.fault == "early-claim" and len(blocks) > 1:
            blocks.insert(len(blocks) - 1, COMPLETE)
        return [*blocks, COMPLETE] if blocks else [NONE]


def names_in(argument):
    if isinstance(argument, list):
        return [name for it in argument for name in names_in(it)]
    return [argument] if isinstance(argument, Name) else []


def value_of(argument, values):
    if isinstance(argument, list):
        return [value_of(it, values) for it in argument]
    return values[argument] if isinstance(argument, Name) else argument


def text_of(value):
    return str(value).lower() if isinstance(value, bool) else str(value)


def counted(path):
    """How often it ran, this time included."""
    with open(path, "a+", encoding="ascii") as file:
        file.write(".")
        return file.tell()


def taken_out(words, option):
    """The value of an option, which is taken out of the words."""
    if option not in words:
        return ""
    at = words.index(option)
    value = words[at + 1]
    del words[at : at + 2]
    return value


def main(words):
    fault, counter = taken_out(words, "--fault"), taken_out(words, "--counter")
    with open(words[-1], encoding="utf-8") as file:
        text = file.read()
    try:
        solver = Solver(text, fault)
    except Refused as why:
        sys.exit(str(why))
    for line in solver.lines("-a" in words, counted(counter) if counter else 1):
        print(line, flush=True)
