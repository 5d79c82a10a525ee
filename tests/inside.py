#!/usr/bin/env python3
"""Runs checked solvers inside MiniZinc, where it and `fzn-gecode` are installed.

    tests/inside.py PROGRAM

What `fzcheck-configure` made of a solver must give what the solver itself gives, on the models of
tests/inside. A false solver turns a value of the first solution. Where no solution of the model has
these values, which Gecode says, that must be caught, and otherwise it must not. Then what may go
wrong while a model is solved. tests/solver.py tries more of that, and needs no MiniZinc."""
import glob
import os
import re
import shutil
import signal
import subprocess
import sys
import tempfile
from typing import Tuple

from expecting import end, expect
from solver import ROOT, SOLVER, Place, line_of

CONFIGURE = os.path.join(ROOT, "python", "fzcheck-configure")
MODELS = sorted(glob.glob(os.path.join(ROOT, "tests", "inside", "*.mzn")))
WAYS = ((), ("-a",), ("-s",), ("-t", "60000"), ("--json-stream",), ("--output-mode", "dzn"))
Answer = Tuple[int, str, str]  # the status, the output, and what is told
SEEDS = 4
VIOLATED, ACCEPTED = "\nfzcheck: VIOLATED\n", "accepted\n"
LONG = """include "alldifferent.mzn";
array [1..14] of var 0..200: mark;
constraint forall (i in 1..13) (mark[i] < mark[i + 1]);
constraint alldifferent([mark[j] - mark[i] | i, j in 1..14 where i < j]);
solve :: int_search(mark, input_order, indomain_min) minimize mark[14];
"""
FALSE = f"""#!{sys.executable}
import os, random, subprocess, sys
sys.path.insert(0, {os.path.join(ROOT, "tests")!r})
from minizinc import MARKER, turn
out = subprocess.run(["fzn-gecode", *sys.argv[1:]], stdout=subprocess.PIPE, text=True).stdout
print(turn(out.split(MARKER)[0], random.Random(int(os.environ["SEED"]))) + MARKER, end="")
"""
OTHERS = {
    "false": FALSE,
    "crash": '#!/bin/sh\nfzn-gecode "$@"\nkill -SEGV $$\n',
    "silent": "#!/bin/sh\n",
    "missing": "#!/bin/sh\n",
}


def add(place: Place, name: str, text: str, library: str = "-Ggecode") -> None:
    """A solver of that name, with that library, and checked ones."""
    path = place.path(name)
    place.file(name, text)
    os.chmod(path, 0o755)
    place.file(f"home/.minizinc/solvers/{name}.msc", f"""{{
        "id": "org.other.{name}", "name": "{name}", "version": "1", "mznlib": "{library}",
        "executable": "{path}", "stdFlags": ["-a", "-n", "-s", "-t"], "supportsFzn": true,
        "needsSolns2Out": true }}""")
    expect(f"configure {name}", 0, place.run(CONFIGURE, "--library", name)[0])


def minizinc(place: Place, *words: str, **variables: str) -> Answer:
    """Status, output and what is told: without MiniZinc's warnings, and the times it took."""
    status, out, told = place.run("minizinc", "--solver", *words, **variables)
    told = "".join(line + "\n" for line in told.splitlines() if line and "Warning: " not in line)
    # The compiler counts paths where it writes the table of names, and times differ.
    return status, re.sub(r'([tT]ime"?[=:] ?|paths=)[-\d.e]+', r"\1", out), told


def accepted(ran: Answer) -> Answer:
    """The same, with ACCEPTED in the place of what is told where that is the answer alone."""
    return *ran[:-1], re.sub(r"\Afzcheck: accepted: blocks \d+\n\Z", ACCEPTED, ran[-1])


def same(place: Place, model: str) -> None:
    """What a checked solver gives of a model is what the solver gives."""
    name = os.path.basename(model)
    for way in WAYS:
        status, out, told = minizinc(place, "gecode", *way, model)
        expect(f"{name} {way}", (status, out, told + ACCEPTED),
               accepted(minizinc(place, "gecode-checked", *way, model)))
    status, out, _ = minizinc(place, "gecode", model)
    held = accepted(minizinc(place, "gecode-checked", model, FZCHECK_HOLD="1"))
    expect(f"{name}, held", (status, out, ACCEPTED), held)
    library = accepted(minizinc(place, "gecode-checked-library", model))
    expect(f"{name}, our library", (status, out, ACCEPTED),
           (library[0], library[1][:-1], library[2]))


def has_solution(place: Place, model: str, values: str) -> bool:
    """Whether the model has a solution with these values; none has values that it can't name."""
    first = values.split("----------")[0]
    equations = "".join(f"constraint {line}\n" for line in first.splitlines())
    with open(model, encoding="utf-8") as file:
        place.file("fixed.mzn", file.read() + equations)
    status, out, _ = minizinc(place, "gecode", place.path("fixed.mzn"))
    return status == 0 and "----------" in out


def caught(place: Place, model: str) -> None:
    """A turned value is caught where it is no solution, and nowhere else."""
    wrong, short = 0, os.path.basename(model)
    for seed in range(SEEDS):
        name, words = f"{short}, seed {seed}", ("--output-mode", "dzn", model)
        printed, out, _ = minizinc(place, "false", *words, SEED=str(seed))
        is_wrong = printed != 0 or not has_solution(place, model, out)
        status, _, told = minizinc(place, "false-checked", *words, SEED=str(seed))
        expect(f"{name}, its status", is_wrong, status == 1)
        # What MiniZinc can't print ends all, before it is judged.
        expect(f"{name}, caught", is_wrong, VIOLATED in told or printed != 0)
        held = minizinc(place, "false-checked", *words, SEED=str(seed), FZCHECK_HOLD="1")
        expect(f"{name}, held", (is_wrong, is_wrong), (VIOLATED in held[2], " = " not in held[1]))
        wrong += is_wrong
    expect(f"{short}: a value is turned", True, wrong > 0)


def interrupted(place: Place) -> None:
    """Ctrl-C, the end of MiniZinc itself, and its time limit: no process stays, and no file."""
    place.file("long.mzn", LONG)
    long = place.path("long.mzn")
    for command in ("minizinc --solver gecode", "minizinc --solver gecode-checked", SOLVER):
        words = command.split(" ") if command != SOLVER else [SOLVER]
        status, out, _ = place.run(*words, "--time-limit", "10000", "-a", long,
                                   FZCHECK_LIBRARY="1", FZCHECK_SOLVER="gecode-checked")
        expect(f"{words}, a time limit", (0, True), (status, "----------" in out))
        expect(f"{words}, a time limit: no process stays", True, place.is_deserted())
    for name, *words in (("gecode", "-a", long), ("gecode-checked", "-a", long),
                         ("gecode-checked-library", "--mzn-flag", "-a", long)):
        for number in (signal.SIGINT, signal.SIGTERM, signal.SIGKILL):
            process = place.start(("minizinc", "--solver", name, *words))
            line_of(process.stdout)
            os.killpg(process.pid, number)
            process.communicate(timeout=60)
            expect(f"{name}, signal {number}", True, process.returncode in (-number, 128 + number))
            # Killed, or ended, MiniZinc leaves the solver itself behind, if that prints nothing.
            if name != "gecode" or number == signal.SIGINT:
                expect(f"{name}, signal {number}: no process stays", True, place.is_deserted())
        place.end_all()
    expect("no files stay", [], glob.glob(place.path("tmp/fzcheck*")))


def failures(place: Place, program: str) -> None:
    """What MiniZinc makes of a solver that fails, it makes of a checked one."""
    queens = os.path.join(ROOT, "tests", "inside", "queens.mzn")
    for name in ("crash", "silent", "missing"):
        wanted = minizinc(place, name, queens)[:2]
        expect(name, wanted, minizinc(place, f"{name}-checked", queens)[:2])
    status, out, _ = minizinc(place, "gecode", queens)
    place.script("bin/fzcheck", f'ulimit -v 2000; exec "{program}" "$@"')
    ran = minizinc(place, "gecode-checked", queens)
    expect("a checker without memory", (status, out), ran[:2])
    expect("a checker without memory, told", True, "nothing was checked" in ran[2])
    os.remove(place.path("bin/fzcheck"))
    os.symlink(program, place.path("bin/fzcheck"))


def lax(place: Place) -> None:
    """A solver whose library lets queens attack one another: only our library shows it. Against its
    own the queens are in no constraint, which is told."""
    queens = os.path.join(ROOT, "tests", "inside", "queens.mzn")
    os.mkdir(place.path("library"))
    place.file("library/fzn_all_different_int.mzn",
               "predicate fzn_all_different_int(array [int] of var int: x) = true;\n")
    add(place, "lax", '#!/bin/sh\nexec fzn-gecode "$@"\n', place.path("library"))
    status, _, told = minizinc(place, "lax-checked", queens)
    free = ", ".join(f"queen[{number}]" for number in range(1, 7))
    expect("against its own library", (0, f"fzcheck: printed, and in no constraint: {free}\n"
                                          "fzcheck: accepted: blocks 1\n"), (status, told))
    ours = minizinc(place, "lax-checked-library", queens)
    expect("against ours", (True, True), (VIOLATED in ours[1], VIOLATED in ours[2]))


def full(place: Place) -> None:
    """With a temporary folder that is full MiniZinc fails, and a checked solver as it does."""
    folder, queens = place.path("full"), os.path.join(ROOT, "tests", "inside", "queens.mzn")
    os.mkdir(folder)
    mount = ("mount", "-t", "tmpfs", "-o", "size=4k", "none", folder)
    if subprocess.run(mount, capture_output=True).returncode != 0:
        print("no folder can be mounted here: a full one isn't tried")
        return
    try:
        place.file("full/filler", "x" * 4096)
        wanted = minizinc(place, "gecode", queens, TMPDIR=folder)[:2]
        expect("full", wanted, minizinc(place, "gecode-checked", queens, TMPDIR=folder)[:2])
        ran = minizinc(place, "gecode-checked-library", queens, TMPDIR=folder)
        expect("full, our library", wanted[1], ran[1][:-1])
    finally:
        subprocess.run(("umount", folder), check=True)


def main() -> int:
    program = os.path.abspath(sys.argv[1])
    if not (shutil.which("minizinc") and shutil.which("fzn-gecode")):
        print("minizinc and fzn-gecode aren't both installed: checked solvers aren't tried in it")
        return 0
    with tempfile.TemporaryDirectory() as folder:
        place = Place(os.path.join(folder, "a place"), program)
        os.remove(place.path("bin/minizinc"))
        os.makedirs(place.path("home/.minizinc/solvers"))
        place.variables["HOME"] = place.path("home")
        expect("configure gecode", 0, place.run(CONFIGURE, "--library", "gecode")[0])
        for name, text in OTHERS.items():
            add(place, name, text)
        os.remove(place.path("missing"))
        for model in MODELS:
            same(place, model)
            caught(place, model)
        interrupted(place)
        failures(place, program)
        lax(place)
        full(place)
    return end()


if __name__ == "__main__":
    sys.exit(main())
