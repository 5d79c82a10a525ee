"""Adds a solver to MiniZinc that is checked while it runs.

    fzcheck-configure [--library] [--strict] SOLVER
    fzcheck-configure --remove SOLVER
    fzcheck-configure --help, fzcheck-configure --version

SOLVER is what `minizinc --solver` takes: for `gecode` the solver `gecode-checked` is added to the
user's own, and with --library also `gecode-checked-library`, which is checked against what our
library makes of a model. With --strict they end with status 1 if the output isn't accepted, as with
FZCHECK_STRICT. Only files of these names are written, and --remove removes only them.
"""
import json
import os
import shlex
import subprocess
import sys
from typing import Any, Dict, List, Set

from fzcheck import common
from fzcheck.calls import version_words

WRONG_WORDS = 5
OPTIONS = ("--library", "--remove", "--strict", "--help", "--version")
SCRIPT = common.companion("fzcheck-solver")
MARK = "checked by fzcheck while it runs"
KEPT = ("version", "mznlibVersion", "stdFlags", "extraFlags", "supportsFzn", "needsSolns2Out",
        "needsStdlibDir", "needsMznExecutable", "isGUIApplication")
# MiniZinc takes -a and -t away from a solver that gets the whole model, and knows few other words.
Solver = Dict[str, Any]  # as MiniZinc tells of it
LIBRARY_FLAGS = [["-D", "Data", "string", ""], ["-I", "A folder of included files", "string", ""],
                 ["--output-mode", "The form of the output", "opt:item:dzn:json", "item"]]


def minizinc(word: str) -> Any:
    return json.loads(subprocess.run(("minizinc", word), check=True, stdout=subprocess.PIPE).stdout)


def names(solver: Solver) -> Set[str]:
    return {solver["id"].lower(), solver["id"].split(".")[-1].lower(), solver["name"].lower()}


def found(name: str) -> Solver:
    """The solver of that name, which has to be a program that takes FlatZinc."""
    solvers = [solver for solver in minizinc("--solvers-json") if name.lower() in names(solver)]
    if not solvers:
        sys.exit(f"MiniZinc has no solver {name}: see minizinc --solvers")
    solver: Solver = solvers[0]
    if not solver["supportsFzn"] or "executable" not in solver["extraInfo"]:
        sys.exit(f"{name} is no program that takes FlatZinc, or isn't installed")
    return solver


def write(path: str, text: str, mode: int) -> None:
    with open(path, "w", encoding="utf-8") as file:
        file.write(text)
    os.chmod(path, mode)
    print(f"wrote {path}")


def configure(base: str, description: Solver, **variables: str) -> None:
    """Writes a solver's description, and the program that it names, which sets the variables."""
    program = os.path.abspath(base)
    settings = " ".join(f"{name}={shlex.quote(value)}" for name, value in variables.items())
    write(base + ".msc", json.dumps({**description, "executable": program}, indent=2) + "\n", 0o644)
    write(base, f'#!/bin/sh\n{settings} exec {shlex.quote(SCRIPT)} "$@"\n', 0o755)


def is_ours(base: str) -> bool:
    try:
        with open(f"{base}.msc", encoding="utf-8") as file:
            return MARK in file.read()
    except FileNotFoundError:
        return False


def remove(bases: List[str]) -> None:
    paths = [base + end for base in filter(is_ours, bases) for end in (".msc", "")]
    for path in filter(os.path.exists, paths):
        os.remove(path)
        print(f"removed {path}")
    if not paths:
        sys.exit(f"there is no {bases[0]}.msc of this program's")


def add(solver: Solver, bases: List[str], with_library: bool, is_strict: bool) -> None:
    for base in bases:
        if os.path.exists(base + ".msc") and not is_ours(base):
            sys.exit(f"{base}.msc is there, and isn't this program's")
    info = solver["extraInfo"]
    description = {
        "id": solver["id"] + "-checked",
        "name": solver["name"] + "-checked",
        "description": f"{solver['name']}, {MARK}",
        "mznlib": info.get("mznlib", solver.get("mznlib", "")),
        **{key: solver[key] for key in KEPT if key in solver},
        "needsPathsFile": True,
    }
    strict = {"FZCHECK_STRICT": "1"} if is_strict else {}
    configure(bases[0], description, FZCHECK_LIBRARY="0", FZCHECK_SOLVER=info["executable"],
              FZCHECK_PATHS=str(int(solver.get("needsPathsFile", False))), **strict)
    if with_library:
        # No mznlib: the model would be compiled with it both times.
        library = {
            **{key: value for key, value in description.items() if key != "mznlib"},
            "id": description["id"] + "-library",
            "name": description["name"] + "-library",
            "extraFlags": description.get("extraFlags", []) + LIBRARY_FLAGS,
            "supportsMzn": True, "supportsFzn": False,
            "needsSolns2Out": False, "needsMznExecutable": True, "needsPathsFile": False,
        }
        configure(bases[1], library, FZCHECK_LIBRARY="1", FZCHECK_SOLVER=bases[0] + ".msc",
                  **strict)


def solver_of(words: List[str], options: List[str]) -> str:
    """The one word that isn't an option."""
    others = [word for word in words if word not in options]
    wrong = next((word for word in others if word.startswith("-")), "")
    if len(others) == 1 and not wrong:
        return others[0]
    print(__doc__.split("\n\n")[1], file=sys.stderr)
    why = f"{wrong}: there is no such option{common.meant(wrong, OPTIONS)}"
    print(f"fzcheck-configure: {why if wrong else 'one SOLVER was expected'}", file=sys.stderr)
    sys.exit(WRONG_WORDS)


def main(words: List[str]) -> None:
    if {"--help", "-h", "--version"} & {*words}:
        print(version_words("fzcheck-configure") if "--version" in words else __doc__.strip())
        return
    options = [word for word in words if word in OPTIONS]
    name = solver_of(words, options)
    folder = minizinc("--config-dirs")["userSolverConfigDir"]
    short = name.split(".")[-1].lower()
    bases = [os.path.join(folder, short + end) for end in ("-checked", "-checked-library")]
    if "--remove" in options:
        return remove(bases)
    solver = found(name)
    os.makedirs(folder, exist_ok=True)
    add(solver, bases, "--library" in options, "--strict" in options)
    print(f"run: minizinc --solver {solver['id']}-checked model.mzn")


def program() -> None:
    try:
        main(sys.argv[1:])
    except (OSError, subprocess.CalledProcessError) as error:
        sys.exit(f"fzcheck-configure: {error}")
