#!/usr/bin/env python3
"""What python/fzcheck-mzn tells of plans, with a script in the place of MiniZinc.

    tests/plan_told.py PROGRAM

What the compiler makes of the models is kept in tests/plans/kept and tests/pages. Objects that the
program may write are also told by themselves, of a model of a few lines."""
import json
import os
import shutil
import signal
import sys
import tempfile

from plan import COMMAND, FORMS, GOOD, KEPT, MINIZINC, checked, kept
from expecting import end, expect
from solver import ROOT, Place

from fzcheck.mzn.model import Model
from fzcheck.mzn.names import Name
from fzcheck.mzn.plan import Printed, Solution
from fzcheck.mzn.told import Source, Told
from fzcheck.mzn.values import Array, Term

SHOP = os.path.join(ROOT, "tests", "pages", "shop")
ENUMS = {"Job": ["Saw", "Plane", "Glue"], "Shift": ["Early", "Late"]}
# A FlatZinc with its table: `first` is of an enum, `on` an array by one. Y and Z have no names in
# the model; Y is defined by A and Z, and Z by B.
FLATZINC = """var 1..3: first;
var 1..2: A;
var 1..2: B;
var bool: Y;
var 0..9: Z;
array [1..3] of var int: on:: output_array([1..3]) = [A,B,A];
array [1..2] of int: two = [1,2];
constraint bool_eq(Y,true):: mzn_constraint_name("twice");
constraint int_eq_reif(A,Z,Y):: defines_var(Y);
constraint int_lin_eq([1],[B],Z):: defines_var(Z);
constraint int_ne(A,B);
solve satisfy;
"""
NAMES = """first\tfirst\tm.mzn|1|9|1|13|id|first;
A\ton[Saw]\tm.mzn|2|9|2|10|id|on;
B\ton[Plane]\tm.mzn|2|9|2|10|id|on;
Y\tX_INTRODUCED_4_\tm.mzn|3|22|3|30|bin|'=';
Z\tX_INTRODUCED_5_\tm.mzn|3|22|3|30|bin|'=';
0\t0\tm.mzn|3|22|3|50|ca|forall;m.mzn|3|29|3|29|j=Saw;m.mzn|3|40|3|48|bin|'=';
3\t3\tm.mzn|4|12|4|20|bin|'!=';
"""
REJECTED = ["claim: ========== not judged", "rejected: block 1"]


def violated(point):
    return [f"block 1: violated: {point}", *REJECTED]


def verdicts(place):
    """The verdict's line, and what is told of it."""
    for form in FORMS:
        checked(place, form, kept(form), 0, GOOD, ())
    plan = kept("plan.dzn")
    late = violated("constraint at model.mzn:18")
    told = ("model.mzn:18:12: the constraint fails\n   18 | constraint start[dig] + 3 <= start",
            "\n      | " + " " * 11 + "^" * 29 + "\n", "= start[dig] = 1\n", "= start[pour] = 3\n")
    checked(place, "too late", plan.replace("dig: 0", "dig: 1"), 1, late, told)
    in_json = kept("plan.json").replace("[0, 3, 5]", "[1, 3, 5]")
    checked(place, "too late, in JSON", in_json, 1, late, told)
    checked(place, "an enum's value", plan.replace("first = dig", "first = pour"), 1,
            violated("constraint at model.mzn:19"), ("= first = pour\n",))
    checked(place, "the same", plan.replace("right = 1", "right = 2"), 1, violated("printed right"),
            ("plan:20:1: printed right differs\n   20 | right = 2;\n", "printed as 2 here"))
    checked(place, "the objective", plan.replace("_objective = 8", "_objective = 7"), 1,
            violated("definition of total, model.mzn:17"), ("= total = 7\n",))
    checked(place, "fixed", plan.replace("three = 3", "three = 4"), 1,
            violated("domain of three, model.mzn:13"), ("three = 4\n", "of three is 3..3\n"))
    checked(place, "another instance's parameter", "n = 3;\n" + plan, 1, violated("printed n"),
            ("plan:1:1: printed n differs\n   1 | n = 3;\n",))


def groups(place):
    """All that fails is told by groups; `--first` stops at one, `--flatzinc` shows more."""
    for file in ("model.mzn", "data.dzn"):
        shutil.copy(os.path.join(SHOP, file), place.path(file))
    with open(os.path.join(SHOP, "bad"), encoding="utf-8") as file:
        plan = file.read()
    place.script("bin/minizinc", MINIZINC.replace(KEPT, SHOP))
    report = ['block 1: violated: "order", model.mzn:9, with j = Shelf', "rejected: block 1"]
    order = 'model.mzn:9:40: "order" fails: with j = Shelf\n'
    twice = 'model.mzn:11:3: "one at a time" fails twice: with m = Saw; m = Glue\n'
    both = ("      with m = Saw:\n      = tasks 1 and 2 overlap: from 0 to 3 and from 2 to 4\n"
            "      = task 1: start[Table,Saw] = 0\n", "      with m = Glue:\n")
    checked(place, "groups", plan, 1, report, (order, twice, *both, '"crew" fails\n'))
    checked(place, "the FlatZinc", plan, 1, report, (order, "      | model.fzn:"), "--flatzinc")
    got = place.run(COMMAND, "model.mzn", "data.dzn", "-o", "plan", "--first")
    expect("the first", (True, False), (order in got[2], "one at a time" in got[2]))
    got = place.run(COMMAND, "model.mzn", "data.dzn", "-o", "plan", "--json")
    objects = list(map(json.loads, got[1].splitlines()))
    model = {"names": ['"order"'], "place": "model.mzn:9:40", "loops": ["j = Shelf"]}
    expect("JSON", (model, [True] * 4, ""),
           (objects[0]["model"], ["explained" in one for one in objects[1:-1]], got[2]))


def told_of(folder, *objects):
    """What is told of objects that stand for the program's."""
    names = {"first": Name("own", enum="Job"), "two": Name("own", is_array=True, size=2),
             "on": Name("own", is_array=True, dimensions=[[1, 3]], size=3, enum="Shift",
                        index_enums=("Job",))}
    on = Array([3], [None], [Term("Early"), Term("Late"), Term("Early")])
    values = [Printed("first", Term("Plane"), 1, []), Printed("on", on, 2, [])]
    model = Model(folder, names, ENUMS, "", [])
    return Told(Source(model, "plan", ["first = Plane;", "on = ..;"], [Solution(values, 3)], [1, 2],
                       None), list(objects))


def variable(name, value=None, source="printed", **more):
    known = {} if value is None else {"value": value}
    return {"name": name, **more, **known, "source": source}


def explained(line, message, reason, *variables, **more):
    """An explanation. Its reason is a list of parts: words, or a kind, a text and what it is of."""
    parts = [{"kind": "words", "text": part} if isinstance(part, str) else
             dict(zip(("kind", "text", "variable", "element"), part)) for part in reason]
    texts = {"reason": "".join(part["text"] for part in parts), "reason_parts": parts}
    return {"explained": 1, "line": line, "column": 12, "message": message,
            **(texts if parts else {}), "variables": list(variables), "notes": [],
            "notes_parts": [], **more}


def words(folder):
    """Values of enums by their names on both sides, elements by their indices."""
    violated = {"block": 1, "verdict": "violated", "point": "constraint", "line": 11}
    model = {"names": [], "place": "m.mzn:4:12", "loops": [], "line": "constraint a != b;"}
    elements = variable("A", 1, element="on[Saw]"), variable("B", 1, element="on[Plane]")
    for what, reason, wanted in (
        ("a value", [("variable", "first", "first"), " = ", ("value", "2", "first"), ", not ",
                     ("value", "3", "first")], "first = Plane, not Glue"),
        ("an element", [("variable", "element 2 of on", "on", 2), " is ", ("value", "1", "on", 2)],
         "on[Plane] is Early"),
        ("a number", ["after ", ("number", "2"), " steps: ", ("value", "2", "A")],
         "after 2 steps: Late"),
        ("a set", [("value", "{1,3}", "first")], "{Saw,Glue}"),
        ("a range", [("value", "1..2", "first")], "Saw..Plane"),
        ("no value", ["state ", ("value", "7", "first"), " ", ("value", "true", "A")],
         "state 7 true"),
    ):
        told = told_of(folder, violated, explained(
            11, "constraint 4 int_ne fails in block 1", reason, *elements, model=model))
        expect(what, [wanted], list(told.failures[0].reasons))
    expect("values", ["on[Saw] = Early", "on[Plane] = Early"],
           [fact.text for fact in told.failures[0].facts])
    expect("in JSON", ["Early", "Early"],
           [one["value"] for one in json.loads(list(told.in_json())[1])["variables"]])
    expect("the head", ["block 1: violated: constraint at m.mzn:4"], told.report())


def without_names(folder):
    """Of the compiler's own variables those of the model are told that are behind them."""
    violated = {"block": 1, "verdict": "violated", "point": "constraint", "number": 1, "line": 8}
    more = {"model": {"names": ['"twice"'], "place": "m.mzn:3:40", "loops": ["j = Saw"],
                      "line": "constraint"}, "points_left_out": 23}
    told = told_of(folder, violated, explained(
        8, "constraint 1 bool_eq fails in block 1", [("variable", "Y", "Y"), " is false"],
        variable("Y", False, "constraint 2 int_eq_reif", line=9), **more))
    failure = told.failures[0]
    expect("no reason", (), failure.reasons)
    expect("what is behind", ["on[Saw] = Early", "on[Plane] = Late"],
           [fact.text for fact in failure.facts])
    expect("what clashes", ("on[Saw]", "on[Plane]"), failure.clashing)
    lines = list(told.explanation(False))
    expect("the group", ['m.mzn:3:40: "twice" fails: with j = Saw', "... and 23 more points fail"],
           [lines[0], lines[-1]])
    expect("one variable, two names", ["on[Saw]", "on[Glue]"], told.wording.same["on[Glue]"])
    domain = {"block": 1, "verdict": "violated", "point": "domain", "name": "first", "line": 1}
    outside = variable("first", 9)
    told = told_of(folder, domain, explained(1, "domain of first fails in block 1", [], outside))
    expect("a domain", ["block 1: violated: domain of first"], told.report())
    told = told_of(folder, violated, {**violated, "block": 2})
    expect("blocks that aren't explained",
           ['block 1: violated: "twice", m.mzn:3, with j = Saw',
            'block 2: violated: "twice", m.mzn:3, with j = Saw'], told.report())


def lines(folder):
    """The other lines of a report."""
    claim = "=========="
    for found, line in (
        ({"block": 1, "verdict": "satisfied"}, "block 1: satisfied"),
        ({"block": 2, "verdict": "violated", "point": "objective", "now": 9, "before": 5,
          "line": 12}, "block 2: violated: objective 9 not better than 5"),
        ({"block": 1, "verdict": "violated", "point": "printed", "name": "first", "line": 1},
         "block 1: violated: printed first"),
        ({"block": 1, "verdict": "undecided", "reason": "no value", "name": "first", "line": 1},
         "block 1: undecided: no value for first"),
        ({"block": 1, "verdict": "undecided", "reason": "not known", "number": 4, "name": "nix",
          "line": 11}, "block 1: undecided: constraint at m.mzn:4 isn't known"),
        ({"claim": claim, "after": 1}, f"claim: {claim} not judged"),
        ({"claim": claim, "after": 1, "proved": 1}, f"claim: {claim} proved, 1 node"),
        ({"claim": claim, "after": 1, "proved": 259}, f"claim: {claim} proved, 259 nodes"),
        ({"claim": claim, "after": 2, "refuted_by": {"block": 1}},
         f"claim: {claim} refuted by block 1"),
        ({"claim": claim, "after": 1, "refuted_by": {"block": 2}},
         f"claim after block 1: {claim} refuted by block 2"),
        ({"claim": claim, "after": 1, "refuted_by": {"file": "other", "block": 2}},
         f"claim: {claim} refuted by known block 2 of other"),
        ({"cut": [3, 9], "from": "x = 1"}, 'cut: 3..9, from "x = 1"'),
        ({"answer": "accepted", "blocks": 2}, "accepted: blocks 2"),
        ({"answer": "rejected", "block": 2, "blocks": 2}, "rejected: block 2"),
        ({"answer": "rejected", "claim_after": 1, "blocks": 2}, "rejected: claim after block 1"),
        ({"answer": "no blocks", "blocks": 0}, "no blocks"),
    ):
        expect(f"line {line}", [line], told_of(folder, found).report())


def by_themselves(folder):
    for name, text in (("model.fzn", FLATZINC), ("model.names", NAMES)):
        with open(os.path.join(folder, name), "w", encoding="utf-8") as file:
            file.write(text)
    words(folder)
    without_names(folder)
    lines(folder)


def main():
    program = os.path.abspath(sys.argv[1])
    signal.signal(signal.SIGINT, signal.default_int_handler)
    with tempfile.TemporaryDirectory() as folder:
        place = Place(os.path.join(folder, "a place"), program)
        place.variables["XDG_CACHE_HOME"] = place.path("cache")
        place.script("bin/minizinc", MINIZINC)
        for name in ("model.mzn", "data.dzn"):
            shutil.copy(os.path.join(KEPT, name), place.path(name))
        verdicts(place)
        groups(place)
        by_themselves(folder)
    return end()


if __name__ == "__main__":
    sys.exit(main())
