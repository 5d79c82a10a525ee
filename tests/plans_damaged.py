#!/usr/bin/env python3
"""Checks good and damaged plans of twelve models with python/fzcheck-mzn, where MiniZinc is there.

    tests/plans_damaged.py PROGRAM [COUNT [SEED]]

The models are in tests/plans/damaged, each with a good plan and damages of it: what is replaced by
what, with the status (1 where none is given) and what has to be named. The good plan is tried in
three forms, and MiniZinc itself has to say of each plan that is read whether it is one: it solves
the model with the plan's values as data.

Then COUNT (100) single changes are made at random, of a number, a word, or a set. No plan of which
MiniZinc says that it is wrong may be accepted, and no other may be rejected."""
import collections
import glob
import os
import random
import re
import shutil
import subprocess
import sys
import tempfile
from concurrent.futures import ThreadPoolExecutor

from minizinc import ROOT
from plans import run

COMMAND = os.path.join(ROOT, "python", "fzcheck-mzn")
FOLDER = os.path.join(ROOT, "tests", "plans", "damaged")
FORMS = ("dzn", "json", "jsonl")
UNSATISFIABLE = "=====UNSATISFIABLE====="
VALUE = re.compile(r"(?<![\w.])-?\d+(?![\w.:])|\b[A-Za-z]\w*\b(?!\s*[=:(])|<>")
# MiniZinc can't evaluate `deopt` of what is absent in data.
OPTIONAL = """constraint let {{
  array [int] of opt int: given = array1d({1}); array [int] of var opt int: own = array1d({0})
}} in forall(i in index_set(given))(
  if absent(given[i]) then absent(own[i]) else occurs(own[i]) /\\ deopt(own[i]) = deopt(given[i]) endif);
"""
WORKERS = 2
passed = failed = 0


def expect(what, is_so, told):
    global passed, failed
    passed, failed = passed + is_so, failed + (not is_so)
    if not is_so:
        print(f"failed: {what}: {told}")


class Model:
    """A model, its good plan, and the damages of it."""

    def __init__(self, path):
        self.path, self.name = path, os.path.basename(path)[: -len(".mzn")]
        with open(path, encoding="utf-8") as file:
            self.text = file.read()
        with open(path[: -len(".mzn")] + ".txt", encoding="utf-8") as file:
            self.plan, *self.damages = file.read().split("\n== ")
        self.plan += "\n"

    def damaged(self, text):
        """What a damage is called, the plan with it, its status, and what is named."""
        what, *lines = text.rstrip("\n").split("\n")
        parts = {mark: [line[2:] for line in lines if line[0] == mark] for mark in "-+=>"}
        plan = self.plan
        for old, new in zip(parts["-"], parts["+"]):
            if plan.count(old) != 1:
                raise ValueError(f"{self.name}: {what}: {old!r} stands {plan.count(old)} times")
            plan = plan.replace(old, new)
        status = int(parts["="][0]) if parts["="] else 1
        return what, plan, status, parts[">"]


def given(folder, model, plan):
    """The files that give a model the plan's values: as data, or as constraints those of names that
    are defined, or optional."""
    texts = {"dzn": "", "mzn": ""}
    for item in plan.replace("----------\n", "").split(";\n"):
        name, _, value = map(str.strip, item.partition("="))
        if re.search(rf"array [^:]*var opt [^:]*: {name};", model.text):
            texts["mzn"] += OPTIONAL.format(name, value)
        elif re.search(rf": {name} = ", model.text):
            texts["mzn"] += f"constraint {item};\n"
        elif name:
            texts["dzn"] += f"{item};\n"
    for ending, text in texts.items():
        path = os.path.join(folder, f"given.{ending}")
        with open(path, "w", encoding="utf-8") as file:
            file.write(text)
        yield path


def solved(folder, model, plan, *words):
    return run(folder, "minizinc", "--solver", "gecode", "-G", "std", *words, model.path,
               *given(folder, model, plan))


def truth(folder, model, plan):
    """What MiniZinc says of a plan: whether it is right, or nothing where that can't be told."""
    ran = solved(folder, model, plan)
    if UNSATISFIABLE in ran.stdout:
        return False
    return True if "\n----------" in "\n" + ran.stdout and ran.returncode == 0 else None


def checked(folder, model, plan):
    path = os.path.join(folder, "plan")
    with open(path, "w", encoding="utf-8") as file:
        file.write(plan)
    return run(folder, COMMAND, model.path, "-o", path)


def forms(folder, model):
    """The good plan in each form: MiniZinc prints it anew, from its values."""
    yield "dzn", model.plan
    for form, words in (("json", ()), ("jsonl", ("--json-stream",))):
        yield form, solved(folder, model, model.plan, *words, "--output-mode", "json").stdout


def tried(folder, model):
    for form, plan in forms(folder, model):
        ran = checked(folder, model, plan)
        is_good = ran.returncode == 0 and "\naccepted: blocks 1\n" in "\n" + ran.stdout
        expect(f"{model.name}: good, as {form}", is_good, ran.stdout + ran.stderr)
    said = truth(folder, model, model.plan)
    expect(f"{model.name}: good, by MiniZinc", said is True, said)
    expect(f"{model.name}: damages", len(model.damages) >= 6, len(model.damages))
    for text in model.damages:
        what, plan, status, named = model.damaged(text)
        ran = checked(folder, model, plan)
        told = ran.stdout + ran.stderr
        left = [words for words in named if words not in told]
        expect(f"{model.name}: {what}", (ran.returncode, left) == (status, []),
               f"status {ran.returncode}, {left} not named in:\n{told}")
        if status == 1:
            said = truth(folder, model, plan)
            expect(f"{model.name}: {what}, by MiniZinc", said is not True, said)


def changed(plan, rand):
    """The plan with another value in one place: another value of the plan, or a near number."""
    found = list(VALUE.finditer(plan))
    place = rand.choice(found)
    old = place[0]
    if re.fullmatch(r"-?\d+", old):
        new = str(int(old) + rand.choice((-5, -2, -1, 1, 1, 2, 7)))
    else:
        new = rand.choice([one[0] for one in found if not one[0].lstrip("-").isdigit()])
    return plan[: place.start()] + new + plan[place.end() :], f"{old} became {new}"


def change(folder, model, seed):
    """Makes a change, and tells what came of it, with what is wrong with that, if anything."""
    plan, what = changed(model.plan, random.Random(seed))
    ran = checked(folder, model, plan)
    if ran.returncode == 4:  # refused, also where MiniZinc would take it, as true for a number
        return "refused", ""
    is_right = truth(folder, model, plan)
    fault = f"{model.name}, {what}: status {ran.returncode}, and MiniZinc says {is_right}"
    is_wrong = ran.returncode == 0 and is_right is not True or ran.returncode == 1 and is_right
    if is_wrong or ran.returncode not in (0, 1, 2):
        return "wrong", f"{fault}\n{plan}{ran.stdout}{ran.stderr}"
    return ("accepted", "rejected", "undecided")[ran.returncode], ""


def changes(folder, program, models, seeds):
    """The changes of these seeds, each in turn of another model."""
    prepared(folder, program)
    return [change(folder, models[seed % len(models)], seed) for seed in seeds]


def prepared(folder, program):
    os.mkdir(os.path.join(folder, "bin"))
    os.symlink(program, os.path.join(folder, "bin", "fzcheck"))


def main():
    program = os.path.abspath(sys.argv[1])
    count = int(sys.argv[2]) if len(sys.argv) > 2 else 100
    seed = int(sys.argv[3]) if len(sys.argv) > 3 else 1
    if not (shutil.which("minizinc") and shutil.which("fzn-gecode")):
        print("minizinc and fzn-gecode aren't both installed: no plans are checked")
        print("0 passed, 0 failed")
        return 0
    models = [Model(path) for path in sorted(glob.glob(os.path.join(FOLDER, "*.mzn")))]
    with tempfile.TemporaryDirectory() as folder:
        places = [os.path.join(folder, str(number)) for number in range(WORKERS)]
        for place in places:
            os.mkdir(place)
        prepared(places[0], program)
        for model in models:
            tried(places[0], model)
        seeds = [range(seed + number, seed + count, WORKERS) for number in range(WORKERS)]
        shutil.rmtree(places[0])
        os.mkdir(places[0])
        with ThreadPoolExecutor(WORKERS) as pool:
            found = pool.map(lambda place, seeds: changes(place, program, models, seeds),
                             places, seeds)
            came = [one for part in found for one in part]
    for word, fault in came:
        expect("a change", not fault, fault)
    counts = collections.Counter(word for word, _ in came)
    print(f"changes: {', '.join(f'{word} {number}' for word, number in sorted(counts.items()))}")
    print(f"{passed} passed, {failed} failed")
    return 1 if failed else 0


if __name__ == "__main__":
    sys.exit(main())
