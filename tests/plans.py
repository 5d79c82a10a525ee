#!/usr/bin/env python3
"""Checks plans of MiniZinc with python/fzcheck-mzn, where MiniZinc and `fzn-gecode` are there.

    tests/plans.py PROGRAM

The models are those of tests/plans/models.txt, tests/minizinc and tests/inside. Of each MiniZinc
prints two solutions and one with a value turned, in three forms. A solver of this script's stands
between MiniZinc and Gecode: it turns the value, and keeps the FlatZinc and the stream. The verdicts
on the plan must be those on this stream, and so must those on the stream itself, taken for a plan
where it prints no variables of the compiler's."""
import collections
import glob
import json
import os
import re
import shutil
import subprocess
import sys
import tempfile

from minizinc import MARKER, ROOT

COMMAND = os.path.join(ROOT, "python", "fzcheck-mzn")
FORMS = (("--output-mode", "dzn"), ("--output-mode", "json"),
         ("--json-stream", "--output-mode", "json"))
SEEDS = 8
TURNING = f"""#!{sys.executable}
import os, random, subprocess, sys
sys.path.insert(0, {os.path.join(ROOT, "tests")!r})
from minizinc import MARKER, turn
folder = os.path.dirname(os.path.abspath(__file__))
model = sys.argv[-1]
words = ("fzn-gecode", "-n", "2", "-a", model)
out = subprocess.run(words, stdout=subprocess.PIPE, text=True).stdout
*blocks, end = out.split(MARKER)
if blocks and int(os.environ["SEED"]):
    blocks.append(turn(blocks[-1], random.Random(int(os.environ["SEED"]))))
    end = ""
out = "".join(block + MARKER for block in blocks) + end
for name, text in (("raw", out), ("own.fzn", open(model).read())):
    with open(os.path.join(folder, name), "w") as file:
        file.write(text)
print(out, end="")
"""
counts = collections.Counter()  # of verdicts


def models(folder):
    """The names and paths of all models; those of the text are written out."""
    with open(os.path.join(ROOT, "tests", "plans", "models.txt")) as file:
        for text in file.read().split("=== ")[1:]:
            head, _, body = text.partition("\n")
            path = os.path.join(folder, head.split(":")[0] + ".mzn")
            with open(path, "w") as model:
                model.write(body)
            yield path
    for name in ("minizinc", "inside"):
        yield from sorted(glob.glob(os.path.join(ROOT, "tests", name, "*.mzn")))


def run(folder, *words, **variables):
    environment = {**os.environ, "XDG_CACHE_HOME": os.path.join(folder, "cache"), **variables}
    environment["PATH"] = os.path.join(folder, "bin") + os.pathsep + environment["PATH"]
    environment["FZCHECK"] = os.path.join(folder, "bin", "fzcheck")
    return subprocess.run(words, capture_output=True, text=True, env=environment, timeout=600)


def verdicts(ran):
    """The verdict on each block, in a word; of a check that is refused what is told."""
    found = re.findall(r"^block \d+: (\w+)", ran.stdout, re.M)
    return found if ran.returncode < 4 else [ran.stderr]


def printed(folder, model, form):
    """Lets MiniZinc print solutions, the last of which is wrong where that can be printed."""
    for seed in (*range(1, SEEDS), 0):
        ran = run(folder, "minizinc", "--solver", os.path.join(folder, "turning.msc"), *form, model,
                  SEED=str(seed))
        if ran.returncode == 0 and '"type": "error"' not in ran.stdout:
            return ran.stdout
    raise ValueError(ran.stderr)


def agree(own, found):
    """Whether the verdicts are the same; what the decompositions leave undecided may be decided."""
    return len(own) == len(found) and all(
        one == other or "undecided" in (one, other) for one, other in zip(own, found))


def faults(folder, program, model):
    raw, flat = (os.path.join(folder, name) for name in ("raw", "own.fzn"))
    for form in FORMS:
        plan = os.path.join(folder, "plan")
        with open(plan, "w") as file:
            file.write(printed(folder, model, form))
        own = verdicts(run(folder, program, "check", "--complete", "--cut", flat, raw))
        plans = [(" ".join(form), plan)]
        with open(raw) as file:
            if form == FORMS[0] and "X_INTRODUCED_" not in file.read():
                plans.append(("the stream itself", raw))
        for name, path in plans:
            found = verdicts(run(folder, COMMAND, model, "--output", path))
            counts.update(found)
            counts["other"] += found != own
            if not agree(own, found):
                yield f"{name}: {own} on the stream, {found} on the plan"


def main():
    program = os.path.abspath(sys.argv[1])
    if not (shutil.which("minizinc") and shutil.which("fzn-gecode")):
        print("minizinc and fzn-gecode aren't both installed: no plans are checked")
        return 0
    passed = failed = 0
    with tempfile.TemporaryDirectory() as folder:
        os.mkdir(os.path.join(folder, "bin"))
        os.symlink(program, os.path.join(folder, "bin", "fzcheck"))
        script = os.path.join(folder, "turning")
        with open(script, "w") as file:
            file.write(TURNING)
        os.chmod(script, 0o755)
        with open(script + ".msc", "w") as file:
            json.dump({"id": "org.turning", "name": "turning", "version": "1", "mznlib": "-Gstd",
                       "executable": script, "supportsFzn": True, "needsSolns2Out": True}, file)
        for model in models(folder):
            found = list(faults(folder, program, model))
            for fault in found:
                print(f"failed: {os.path.basename(model)}: {fault}")
            passed, failed = passed + (not found), failed + len(found)
    print(", ".join(f"{word} {count}" for word, count in sorted(counts.items())))
    print(f"{passed} passed, {failed} failed")
    return 1 if failed else 0


if __name__ == "__main__":
    sys.exit(main())
