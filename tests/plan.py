#!/usr/bin/env python3
"""Runs python/fzcheck-mzn with a script in the place of MiniZinc, so that it needn't be there.

    tests/plan.py PROGRAM

What the compiler makes of a model, and plans of it, are kept in tests/plans/kept; tests/plans.py
asks MiniZinc itself. The readers are tried on values, on random ones in both forms, and on texts
that are cut anywhere or changed at random."""
import json
import os
import random
import re
import shutil
import signal
import sys
import tempfile

from expecting import end, expect
from solver import ROOT, Place

sys.path.insert(0, os.path.join(ROOT, "python"))
from fzcheck.mzn import model as model_module
from fzcheck.mzn.computed import OutputModel, is_close, is_same
from fzcheck.mzn.in_json import JsonReader, from_json
from fzcheck.mzn.names import Name
from fzcheck.mzn.narrowed import Narrowing
from fzcheck.mzn.plan import Plan, Refused
from fzcheck.mzn.sources import declared, items_of
from fzcheck.mzn.stream import Writer
from fzcheck.mzn.table import Table
from fzcheck.mzn.values import Array, Range, Reader, SetOf, Term

COMMAND = os.path.join(ROOT, "python", "fzcheck-mzn")
KEPT = os.path.join(ROOT, "tests", "plans", "kept")
FORMS = ("plan.dzn", "plan.json", "plan.jsonl")
TEXTS, VALUES = 2000, 500
MINIZINC = f"""echo "$*" >>"$FOLDER/calls"
case $* in *"-G std"*) fault=both ;; *) fault=fault ;; esac
if [ -e "$FOLDER/$fault" ]; then cat "$FOLDER/fault" >&2; exit 1; fi
case $* in
  *--model-types-only*) exec cat {KEPT}/types.json ;;
  *--ozn-file*) cat >"$FOLDER/at_hand"; exec cat "$FOLDER/computed" ;;
esac
while [ $# -gt 0 ]; do
  case $1 in
    --fzn) cp {KEPT}/model.fzn "$2" ;;
    --ozn) cp {KEPT}/model.ozn "$2" ;;
    --output-paths-to-file) cp {KEPT}/model.names "$2" ;;
  esac
  shift
done"""
GOOD = ["block 1: satisfied", "claim: ========== not judged", "accepted: blocks 1"]
DASHES = "----------\n"
NOT_ALL = "undecided: not all that is printed is checked"
# A text of data files and the value that it is.
IN_TEXT = (
    ("-3", -3), ("true", True), ("<>", None), ("1.5e3", 1500.0), ('"a b"', "a b"),
    ("'big crane'", Term("big crane")), ("Own(dig)", Term("Own", (Term("dig"),))),
    ("to_enum(Day,2)", Term("to_enum", (Term("Day"), 2))), ("{}", SetOf(())),
    ("{1,3}", SetOf((1, 3))), ("1..4", SetOf((Range(1, 4),))),
    ("1..2 union {5}", SetOf((Range(1, 2), 5))), ("[]", Array([0], [None], [])),
    ("[1, 2]", Array([2], [None], [1, 2])), ("[0: 1, 1: 2]", Array([2], [[0, 1]], [1, 2])),
    ("[|1,2|3,4|]", Array([2, 2], [None, None], [1, 2, 3, 4])),
    ("[| a: b:\n | 1, 2\n | 3, 4\n |]",
     Array([2, 2], [None, [Term("a"), Term("b")]], [1, 2, 3, 4])),
    ("[| 0: 1:\n | c: 1, 2\n |]", Array([1, 2], [[Term("c")], [0, 1]], [1, 2])),
    ("array2d(1..1, {3,4}, [7, 8])", Array([1, 2], [[1], [3, 4]], [7, 8])),
    ("array2d(Task, 0..0, [7, 8])", Array([-1, 1], [None, [0]], [7, 8])),
    ("[||]", Array([0, 0], [None, None], [])),
)
IN_JSON = (
    ("null", None), ('{"e": "dig"}', Term("dig")),
    ("[[1, 2]]", Array([1, 2], [None, None], [1, 2])),
    ('{"e": "Day", "i": 2}', Term("to_enum", (Term("Day"), 2))),
    ('{"c": "Own", "e": {"e": "dig"}}', Term("Own", (Term("dig"),))),
    ('{"set": [1, [3, 4]]}', SetOf((1, Range(3, 4)))),
)


def kept(name):
    with open(os.path.join(KEPT, name)) as file:
        return file.read()


def values():
    for text, value in IN_TEXT:
        expect(text, [("x", value, 0)], [one[:3] for one in Reader(f"x = {text};").items()])
    for text, value in IN_JSON:
        expect(text, value, from_json(json_of(text)))
    [item] = Reader("x =\n[| a: 1, 22\n | b: 3, 4 |];").items()
    expect("places of elements", [10, 13, 22, 25], item.starts)
    object_text = '  {"a": [[1, {"set": [2]}],\n [3, null]]} and more'
    reader = JsonReader(object_text, 2)
    [item] = reader.object().items_in_order
    expect("places in JSON", (3, [10, 13, 30, 33], object_text.index(" and")),
           (item.start, item.starts, reader.end))


def json_of(text):
    """The value of a text in JSON."""
    return JsonReader(f'{{"x": {text}}}', 0).object()["x"]


def random_value(rand, depth=0):
    """A value, as data files and as JSON have it."""
    kind = rand.randrange(7 if depth == 0 else 5)
    if kind == 0:
        number = rand.randint(-9, 9)
        return str(number), str(number)
    if kind == 1:
        return rand.choice((("true", "true"), ("false", "false"), ("<>", "null")))
    if kind == 2:
        word = rand.choice(("dig", "pour"))
        return word, json.dumps({"e": word})
    if kind == 3:
        low = rand.randint(-3, 3)
        return f"{low}..{low + 2}", json.dumps({"set": [[low, low + 2]]})
    if kind == 4:
        numbers = rand.sample(range(-9, 9), rand.randrange(4))
        return "{" + ",".join(map(str, numbers)) + "}", json.dumps({"set": numbers})
    rows = [[random_value(rand, 1) for _ in range(3)] for _ in range(rand.randint(1, 3))]
    texts = [", ".join(text for text, _ in row) for row in rows]
    listed = ["[" + ", ".join(text for _, text in row) + "]" for row in rows]
    if kind == 5:
        return f"[{texts[0]}]", listed[0]
    return "[| " + "\n | ".join(texts) + " |]", f"[{', '.join(listed)}]"


def random_values(rand):
    for _ in range(VALUES):
        text, in_json = random_value(rand)
        wanted = from_json(json_of(in_json))
        expect(text, [("x", wanted, 0)], [one[:3] for one in Reader(f"x = {text};").items()])


def stream_of(text, model):
    """The stream of a plan, or what is wrong with the plan."""
    writer = Writer(model, OutputModel(model, ""), [])
    try:
        return writer.stream(Plan(text).parts()), writer
    except Refused as error:
        return None, error


def random_texts(rand, model):
    """Each text has a stream of items and lines, or is refused; what is cut off never is."""
    lines = re.compile(r"(?:(?:-{10}|={5,10}\w*=*|\w+ = [^;\n]*;)\n)*-?")
    for number in range(TEXTS):
        text = kept(rand.choice((*FORMS, "stream")))
        if number % 4 == 0:
            text = text[: rand.randrange(len(text))]
        else:
            for _ in range(rand.randint(1, 3)):
                at = rand.randrange(len(text))
                other = rand.choice(("", "", ";", "{", "|", "9", "dig", '"'))
                text = text[:at] + other + text[at + 1 :]
        stream, found = stream_of(text, model)
        if stream is None:
            expect(f"text {number}: {found}", True, number % 4 != 0)
        else:
            expect(f"text {number}: {stream}", True, bool(lines.fullmatch(stream)))


def checked(place, what, plan, status, report, told, *words):
    """What comes of a plan: the status, lines of the report, and words that are told."""
    place.file("plan", plan)
    got = place.run(COMMAND, "model.mzn", "data.dzn", "--output", "plan", *words)
    left = [word for word in told if word not in got[2]]
    expect(what, (status, report, []), (got[0], got[1].splitlines(), left))


def endings(place):
    plan = kept("plan.dzn")
    cut = plan.index("start"), plan.index("tool")
    shown = plan[cut[0] : cut[0] + 60].splitlines()[0]
    told = f'cut: {cut[0]}..{cut[1]}, from "{shown}"'
    checked(place, "cut", plan[: cut[1]], 3, [told, "no blocks"], ("put one at its end",))
    stream = kept("plan.jsonl")
    begins = stream.index("\n") + 1
    checked(place, "a cut message", stream[:500], 3,
            [f'cut: {begins}..500, from "{stream[begins : begins + 60]}"', "no blocks"], ())
    checked(place, "unsatisfiable", '{"type": "status", "status": "UNSATISFIABLE"}\n', 3,
            ["claim: =====UNSATISFIABLE===== not judged", "no blocks"], ())
    checked(place, "an error", '{"type": "error", "message": "too bad"}\n', 3, ["no blocks"],
            ("tells of an error: too bad",))


def names_of_enums(place):
    """Indices and loop variables that are of an enum are told by its names."""
    place.file("loops.mzn", "constraint forall(\n  t, u in Task, i in 1..2, v in first(Task))(x);\n")
    path = place.path("loops.mzn")
    table = Table({"Task": ["dig", "pour", "big crane"]}, {
        "start": Name(index_enums=("Task",)), "crew": Name(index_enums=("Task", ""))})
    for before, after in (
        ("x\tstart[2]\t;\ny\tcrew[3,0]\t\n", "x\tstart[pour]\t;\ny\tcrew[big crane,0]\t\n"),
        ("x\tstart[4]\t\nx\tstart[1,1]\t", "x\tstart[4]\t\nx\tstart[1,1]\t"),
        (f"0\t0\t{path}|2|3|2|3|t=1;{path}|2|6|2|6|u=3;", f"0\t0\t{path}|2|3|2|3|t=dig;"
         f"{path}|2|6|2|6|u=big crane;"),
        *((f"0\t0\t{path}|{place_of}|ca|x;",) * 2 for place_of in (
            "2|17|2|17|i=2", "2|28|2|28|v=1", "2|3|2|3|t=4", "2|4|2|4|t=1", "9|3|9|3|t=1")),
        ("start[1]\n", "start[1]\n"), ("0\t0\tnix|2|3|2|3|t=1;", "0\t0\tnix|2|3|2|3|t=1;"),
    ):
        expect(f"table {before!r}", after, table.named(before))


def printed(place):
    """Names that the FlatZinc hasn't: what the output model says of them is kept here."""
    plan = kept("plan.dzn")
    place.file("computed", '{"0":7}\n----------\n')
    checked(place, "computed", "last = 7;\n" + plan, 0, GOOD, ())
    with open(place.path("at_hand"), encoding="utf-8") as file:
        at_hand = file.read()
    for line in ("start = array1d(1..3,[0,3,5]);", "odd = 1..2;", "left = 1;", "X_INTRODUCED_34_ = 0;",
                 "crew = array2d(1..3,0..1,[true,false,false,false,false,false]);"):
        expect(f"at hand: {line}", True, line in at_hand.splitlines())
    checked(place, "a stream", kept("stream"), 2, [
        *GOOD[:2], "not checked: X_INTRODUCED_34_",
        "not printed: spare, three and right, found values that fit", NOT_ALL], ())
    wrong = ["block 1: violated: printed last", GOOD[1], "rejected: block 1"]
    checked(place, "computed otherwise", "last = 8;\n" + plan, 1, wrong,
            ("= last is printed as 8 here, and is 7: max(start) + n, model.mzn:21\n",))
    place.file("computed", "")
    unchecked = [*GOOD[:2], "not checked: last", NOT_ALL]
    checked(place, "not computed", "last = 7;\n" + plan, 2, unchecked, ())
    checked(place, "optional", plan.replace("spare = <>", "spare = 3"), 0, GOOD, ())
    spare = ["block 1: violated: printed spare", GOOD[1], "rejected: block 1"]
    checked(place, "optional, outside", plan.replace("spare = <>", "spare = 0"), 1, spare,
            ("= spare = 0, but that is no value which the model has for it\n",))
    left = plan.replace("left = 1;\n", "")
    line = "not printed: left, found values that fit"
    checked(place, "not there", left, 0, [*GOOD[:2], line, GOOD[2]], ())
    checked(place, "not there, strictly", left, 2,
            [*GOOD[:2], line, "undecided: not all is printed"], (), "--strict")
    checked(place, "of no model", "_output = 3;\n" + plan, 2,
            [*GOOD[:2], "not checked: _output", NOT_ALL], ())
    wanted = "start, crew, with, load, first, day, tool, spare, three, left, right and odd"
    checked(place, "nothing", DASHES, 2, [
        GOOD[0], f"not printed: {wanted}, found values that fit",
        "undecided: a solution prints nothing that is checked"], ())
    place.file("plan", "_output = 3;\n" + left)
    report = place.run(COMMAND, "model.mzn", "data.dzn", "-o", "plan", "--json")[1]
    listed = [json.loads(line) for line in report.splitlines()]
    expect("in JSON", [{"not_checked": ["_output"]}, {"not_printed": ["left"], "found": True}],
           listed[2:4])
    expect("the answer in JSON", "undecided", listed[-1]["answer"])


SOURCE = """% a comment; with a mark
var 0..9: x;  /* another;
comment */ array [1..2] of var bool: "quoted; text" -> no;
array [int] of var 0..500: many;
constraint :: "low" x > 0;
constraint :: "open"
  x >= 2;
var int: total = sum(many) ;
enum Day = {Mon, Tue};
solve satisfy"""


class Trial(Narrowing):
    """Compiles nothing: a model with one constraint is its number, from 0, and -1 with none."""

    def is_cheap(self):
        return True

    def compiled(self, number):
        return number


def narrowed(place):
    """Items of a source, and the constraint that narrowed a domain, by fixed verdicts."""
    place.file("source.mzn", SOURCE)
    items = list(items_of(place.path("source.mzn")))
    expect("lines of items", [2, 3, 4, 5, 6, 8, 9, 10], [item.line for item in items])
    expect("an item's text", 'constraint :: "open"\n  x >= 2', items[4].text)
    path = place.path("source.mzn")
    for name, wanted in (("x", (f"{path}:2", "var 0..9", "")), ("nix", None),
                         ("total", (f"{path}:8", "var int", "sum(many)")),
                         ("many", (f"{path}:4", "array [int] of var 0..500", "")),
                         ("Day", (f"{path}:9", "", "{Mon, Tue}"))):
        expect(f"declared: {name}", wanted, declared(items, name))
    found = {"explained": 1, "message": "domain of X_1_ fails in block 1", "notes": [],
             "variables": [{"name": "X_1_", "element": "x"}], "model": {"place": "source.mzn:2:11"}}
    for what, blocks, told, name in (
        ("by its own", {-1: {1: "x;"}}, [], None),
        ("by the first", {0: {1: "x;"}, 1: {1: "x;"}}, [f'from 0..9, by "low", {path}:5'], '"low"'),
        ("by another", {0: {1: "y;"}, 1: {1: "y;x;"}}, [f'from 0..9, by "open", {path}:6'], '"open"'),
        ("by one that fails", {1: {1: ""}}, [f'from 0..9, by "open", {path}:6'], '"open"'),
        ("by none", {0: {2: "x;"}}, ["from 0..9, by another constraint"], None),
    ):
        trial = Trial(None, None, items, "", lambda number: blocks.get(number, {}))
        got = trial.told(found)
        expect(f"narrowed {what}", ([f"narrowed by the compiler {text}" for text in told], name),
               (got["notes"], got.get("narrowed", {}).get("name")))
    other = {**found, "message": "constraint 3 int_le fails in block 1"}
    expect("of no domain", other, Trial(None, None, items, "", None).told(other))
    for printed, computed, wanted in ((1.5, 1.5, (True, True)), (2, 2.0, (True, True)),
                                      (1.33, 4 / 3, (False, True)), (1.34, 4 / 3, (False, False)),
                                      (3, 3, (True, False)), (True, 2.5, (False, False))):
        expect(f"{printed} for {computed}", wanted,
               (is_same(printed, computed), is_close(printed, computed)))


ENUM_ROWS = "[|     0:   1:\n |{}: true, true\n |{}: true, true\n |{}: true, true\n |]"
IN_LINES = """{
  "start": [0, 3,
    "5"],
  "first": {"e": "dgi"}
}
"""


def bad_inputs(place):
    for what, plan, told in (
        ("free text", "x is 3\n", "plan:1: 'is' isn't expected: print the plan with `minizinc --"),
        ("text in JSON", '{"type": "solution", "output": {"default": "x is 3"}}\n', "`minizinc --"),
        ("an unknown name", "first = dig;\nnix = 3;\n", "plan:2: nix: the model has no such name"),
        ("a name like it", "frist = dig;\n", "frist: the model has no such name: did you mean first?"),
        ("an unknown value", "first = rest;\n",
         "plan:1: first: rest is no value of Task: dig, pour, build"),
        ("a value like it", "first = puor;\n", "puor is no value of Task: did you mean pour?"),
        ("an unknown index", "start = [dig: 1, rest: 1, build: 1];\n", "rest is no value of Task"),
        ("other indices", "start = [pour: 1, dig: 1, build: 1];\n",
         "start: pour stands where the model has dig"),
        ("another length", "start = [1, 2];\n", "it has 2 elements here, and 3 in the model"),
        ("another shape", f"crew = array2d(1..2,1..3,[{'true,' * 6}]);\n",
         "crew: build is missing"),
        ("too few rows", "crew = [|true, true|true, true|];\n", "it has 2 rows here, and 3 in"),
        ("a missing row", "crew = [| 0: 1:\n| dig: true, true\n| build: true, true|];\n",
         "plan:1: crew: pour is missing"),
        ("a row twice", "crew = " + ENUM_ROWS.format("dig", "pour", "pour") + ";\n",
         "plan:4: crew: pour is there twice"),
        ("a short row", "crew = [|true, true\n|true|true, true|];\n",
         "plan:2: this row has 1 elements, and the first has 2"),
        ("a value in a row", "crew = [|true, true\n|true, 3|\n true, true|];\n",
         "plan:2: crew[pour,1]: 3 is no bool: true or false"),
        ("lines of JSON", IN_LINES, 'plan:3: start[build]: "5" is text: write number without quotes'),
        ("a key's line", IN_LINES.replace('"5"', "5"),
         "plan:4: first: dgi is no value of Task: did you mean dig?"),
        ("a fault of JSON", IN_LINES.replace('"5"', "5,"), "plan:3: ']' isn't expected, in JSON"),
        ("a name twice in JSON", '{"left": 1,\n"left": 2}\n', "plan:2: left comes twice"),
        ("rows of JSON", '{"crew": [[true, true],\n[true], [true, true]]}\n',
         "plan:2: crew: this row has 1 elements, and the first has 2"),
        ("other dimensions", "load = [1,2,3,4,5,6,7,8];\n", "it has 1 dimensions here, and 3"),
        ("no array", "start = 3;\n", "start: it is an array in the model, and not here"),
        ("an array", "first = [3];\n", "first: it is an array here, and not in the model"),
        ("no number", "left = true;\n", "plan:1: left: true is no number"),
        ("no set", "odd = 3;\n", "plan:1: odd: 3 is no set"),
        ("absent", "first = <>;\n", "isn't optional"),
        ("twice", "first = dig;\nfirst = dig;\n",
         "plan:2: first is printed twice: is a line of ten dashes missing before?"),
        ("a claim inside", "first = dig;\n==========\n",
         "plan:2: a line of ten dashes is missing behind first"),
        ("no dashes behind JSON", '{"first": {"e": "dig"}}\n{"first": {"e": "dig"}}\n',
         "plan:2: a line of ten dashes is missing before this"),
        ("a byte order mark", "\ufeff" + kept("plan.dzn"), "plan:1: a byte order mark is in front"),
    ):
        checked(place, what, plan + DASHES, 4, [], (told,))
    plan = kept("plan.dzn")
    for what, found in (
        ("a text for an enum's value", plan.replace("first = dig", 'first = "dig"')),
        ("the same in JSON", kept("plan.json").replace('{"e":"dig"},', '"dig",', 1)),
        ("warnings", "Warning: an included file\n  is old\n" + plan + "WARNING: too slow\n"),
    ):
        checked(place, what, found, 0, GOOD, ())
    with open(place.path("plan"), "wb") as file:
        file.write(b"\x1f\x8b\x08\x00")
    got = place.run(COMMAND, "model.mzn", "data.dzn", "-o", "plan")
    expect("gzip", (4, True), (got[0], "plan:1: this is a gzip file: unpack it first" in got[2]))
    expect("no such plan", 6, place.run(COMMAND, "model.mzn", "--output", "nix")[0])


def command_lines(place):
    place.file("plan", kept("plan.dzn"))
    for rest in (("--output=plan",), ("-o", "plan"), ("-oplan",), ("--output", "-"), ("-",), ()):
        words = COMMAND, "model.mzn", "data.dzn", *rest
        got = place.run("sh", "-c", '"$@" <plan', "sh", *words)
        expect(f"words {rest}", (0, GOOD), (got[0], got[1].splitlines()))
    for rest, told in (
        (("model.mzn", "--nix"), "--nix: there is no such option"),
        (("model.mzn", "--stirct"), "--stirct: there is no such option: did you mean --strict?"),
        (("data.dzn",), "there is no MODEL.mzn"),
        (("model.mzn", "--keep"), "--keep wants a word behind it"),
        (("model.mzn", "plan.txt"), "plan.txt: a model ends in .mzn, data in .dzn or .json"),
    ):
        got = place.run(COMMAND, *rest)
        expect(f"words {rest}", (5, True), (got[0], told in got[2]))
    for word in ("-h", "--help", "--version"):
        got = place.run(COMMAND, word)
        expect(word, (0, True, ""), (got[0], got[1].startswith(
            "fzcheck-mzn with fzcheck 0." if word == "--version" else "Checks what"), got[2]))


def known(place):
    """Another plan is translated as the plan is, and called by its own name."""
    plan = kept("plan.dzn")
    worse = plan.replace("build: 5", "build: 6").replace("_objective = 8", "_objective = 9")
    place.file("plan", worse)
    place.file("other", plan)
    got = place.run(COMMAND, "model.mzn", "data.dzn", "-o", "plan", "--claims", "--known", "other")
    expect("a known plan", (1, ["block 1: satisfied", "claim: ========== refuted by known block 1 of "
                                "other", "rejected: claim after block 1"]),
           (got[0], got[1].splitlines()))
    place.file("other", plan.replace("first = dig", "first = rest"))
    got = place.run(COMMAND, "model.mzn", "data.dzn", "-o", "plan", "--known", "other")
    expect("a known plan that is refused", (4, True), (got[0], "refused: other:14: first" in got[2]))


def compiler(place):
    """It is called once for a model, and heard where it fails."""
    plan = kept("plan.dzn")
    with open(place.path("calls")) as file:
        typed = [line for line in file if "--model-types-only" in line]
    expect("types by the data too", {True}, {"data.dzn" in line for line in typed})
    os.remove(place.path("calls"))
    checked(place, "compiled before", plan, 0, GOOD, (), "--keep", "here")
    expect("no compiler", False, os.path.exists(place.path("calls")))
    expect("left", ["model.fzn", "model.names", "stream"], sorted(os.listdir(place.path("here"))))
    place.file("data.dzn", "n = 2; ")
    checked(place, "other data", plan, 0, GOOD, ())
    expect("compiled anew", True, os.path.exists(place.path("calls")))
    place.file("data.dzn", "n = 2;  ")
    place.file("fault", "type error: undefined identifier `fzn_mine'\nmodel.mzn:3\n")
    checked(place, "the standard library", plan, 0, GOOD, ("with the standard library",))
    place.file("data.dzn", "n = 2;   ")
    place.file("both", "")
    checked(place, "it doesn't compile", plan, 4, [], ("`fzn_mine'\n", "model.mzn:3\n"))
    os.remove(place.path("bin/minizinc"))
    got = place.run(sys.executable, COMMAND, "model.mzn", "--output", "plan",
                    PATH=place.path("bin"))
    expect("no minizinc", (6, True), (got[0], "there is no minizinc" in got[2]))


def main():
    program = os.path.abspath(sys.argv[1])
    signal.signal(signal.SIGINT, signal.default_int_handler)
    with tempfile.TemporaryDirectory() as folder:
        place = Place(os.path.join(folder, "a place"), program)
        place.variables["XDG_CACHE_HOME"] = place.path("cache")
        place.script("bin/minizinc", MINIZINC)
        for name in ("model.mzn", "data.dzn"):
            shutil.copy(os.path.join(KEPT, name), place.path(name))
        values()
        endings(place)
        printed(place)
        narrowed(place)
        bad_inputs(place)
        command_lines(place)
        known(place)
        [entry] = os.listdir(place.path("cache/fzcheck"))
        model = model_module.load(place.path(f"cache/fzcheck/{entry}"))
        names_of_enums(place)
        rand = random.Random(1)
        random_values(rand)
        random_texts(rand, model)
        compiler(place)
    return end()


if __name__ == "__main__":
    sys.exit(main())
