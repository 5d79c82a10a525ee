#!/usr/bin/env python3
"""Compiles models with the library in minizinc/, and judges a solver's streams by what comes out.

    tests/minizinc.py PROGRAM

Each model of tests/minizinc names the rows that have to be kept. Where `fzn-gecode` is there too, it
solves what the standard library makes of the model, by decompositions: its solutions must be accepted
against both, and a solution with a value turned must not be satisfied against the one and violated
against the other. Then the commands of the pages below, of the README those that call MiniZinc, are
run as they are, on the model below. Where MiniZinc isn't installed it says so, and nothing is
tried."""
import glob
import os
import random
import re
import shutil
import subprocess
import sys
import tempfile
from typing import Callable, Iterator, List, Sequence, Tuple

ROOT = os.path.dirname(os.path.dirname(os.path.abspath(__file__)))
OURS = ("--solver", os.path.join(ROOT, "minizinc", "fzcheck.msc"))
STANDARD = ("-G", "std")
MARKER = "----------\n"
SOLUTIONS, TURNED = 200, 400
VALUE = re.compile(r"\b(?:\d+|true|false)\b(?![.(])")
# What a block that compiles wants.
GECODE = "/usr/include/gecode/flatzinc.hh"
# Of each page, what its commands print at least.
PAGES = {
    "README.md": "\naccepted: ",
    "docs/MINIZINC.md": "\naccepted: ",
    "docs/ORGANISERS.md": "\nno solver is wrong\n",
    "docs/SOLVER_AUTHORS.md": "== proved, " if os.path.exists(GECODE) else "column = ",
}
PREPARED = """mkdir -p models streams/gecode
minizinc -G std -c model.mzn data.dzn --fzn models/NAME.fzn --no-output-ozn
fzn-gecode models/NAME.fzn > streams/gecode/NAME.out
cp streams/gecode/NAME.out streams/NAME.other.out
"""
FILES = {
    "data.dzn": "n = 6;\n",
    "model.mzn": """include "alldifferent.mzn";
int: n;
array [1..n] of var 1..n: column;
constraint alldifferent(column);
constraint alldifferent(i in 1..n)(column[i] + i);
constraint alldifferent(i in 1..n)(column[i] - i);
solve minimize column[1];
""",
}


def run(*words: str) -> "subprocess.CompletedProcess[str]":
    return subprocess.run(words, capture_output=True, text=True)


def compiled(library: Sequence[str], model: str, folder: str) -> str:
    """The FlatZinc of a model, or what the compiler says."""
    path = os.path.join(folder, library[-1].replace("/", "_") + ".fzn")
    ran = run("minizinc", *library, "-c", model, "--fzn", path, "--no-output-ozn")
    if ran.returncode != 0:
        sys.exit(f"{model}: {ran.stderr}")
    return path


def kept(model: str) -> List[str]:
    """The names that a model says are kept."""
    with open(model, encoding="utf-8") as f:
        return " ".join(re.findall(r"^% keeps: (.*)$", f.read(), re.M)).split()


def solutions(flat: str) -> List[str]:
    """The blocks of solutions that the solver finds."""
    blocks = run("fzn-gecode", "-n", str(SOLUTIONS), "-a", flat).stdout.split(MARKER)
    return [block for block in blocks if block.strip() and not block.startswith("=")]


def turn(block: str, rand: random.Random) -> str:
    """The block with one value turned: in the array's elements, or a scalar's."""
    spots = [m for m in VALUE.finditer(block) if "array" not in last_line(block, m.start())]
    spots += [m for m in VALUE.finditer(block) if "[" in last_line(block, m.start())]
    spot = rand.choice(spots)
    other = {"true": "false", "false": "true"}.get(spot.group())
    other = other or str(max(0, int(spot.group()) + rand.choice((-1, 1, 2))))
    return block[: spot.start()] + other + block[spot.end() :]


def last_line(block: str, end: int) -> str:
    """The line of this place up to it."""
    return block[:end].rsplit("\n", 1)[-1]


def judged(program: str, flat: str, blocks: List[str], folder: str) -> List[str]:
    """The verdict on each block, in one word."""
    stream = os.path.join(folder, "stream")
    with open(stream, "w", encoding="utf-8") as f:
        f.write("".join(block + MARKER for block in blocks))
    ran = run(program, "check", "--complete", flat, stream)
    lines = [line.split(": ") for line in ran.stdout.splitlines()]
    return [line[1] for line in lines if line[0].startswith("block ")]


def faults(program: str, model: str, folder: str) -> Iterator[str]:
    """What isn't as it should be of a model."""
    ours = compiled(OURS, model, folder)
    with open(ours, encoding="utf-8") as f:
        names = set(re.findall(r"^constraint (\w+)\(", f.read(), re.M))
    yield from (f"{name} isn't kept" for name in kept(model) if name not in names)
    if run(program, "show", ours).returncode != 0:
        yield "it can't be read"
    if shutil.which("fzn-gecode"):
        yield from faults_of_streams(program, ours, compiled(STANDARD, model, folder), folder)


def faults_of_streams(program: str, ours: str, standard: str, folder: str) -> Iterator[str]:
    blocks = solutions(standard)
    if not blocks:
        yield "it has no solution"
        return
    for flat in (ours, standard):
        if set(judged(program, flat, blocks, folder)) != {"satisfied"}:
            yield f"a solution isn't accepted against {flat}"
    rand = random.Random(1)
    turned = [turn(rand.choice(blocks), rand) for _ in range(TURNED)]
    both = [judged(program, flat, turned, folder) for flat in (ours, standard)]
    if any(len(verdicts) != TURNED for verdicts in both):
        yield "a turned solution is refused"
    for block, *verdicts in zip(turned, *both):
        if set(verdicts) == {"satisfied", "violated"}:
            yield f"{verdicts[0]} against ours, {verdicts[1]} against the standard library's:\n{block}"


def blocks(page: str) -> List[str]:
    """A page's indented blocks; of the README, those that call MiniZinc."""
    with open(os.path.join(ROOT, page), encoding="utf-8") as f:
        found = re.findall(r"^\n((?:    .*\n)+)", f.read(), re.M)
    return [block for block in found if page != "README.md" or "    minizinc " in block
            if "    g++ " not in block or os.path.exists(GECODE)]


def faults_of_page(program: str, page: str, folder: str) -> Iterator[str]:
    """What goes wrong with a page's commands, in a folder that has what they name."""
    os.mkdir(os.path.join(folder, "bin"))
    os.symlink(program, os.path.join(folder, "bin", "fzcheck"))
    for name in ("fzcheck-solver", "fzcheck-configure", "fzcheck-batch", "fzcheck-mzn"):
        os.symlink(os.path.join(ROOT, "python", name), os.path.join(folder, "bin", name))
    for name in ("minizinc", "examples"):
        os.symlink(os.path.join(ROOT, name), os.path.join(folder, name))
    with open(os.path.join(ROOT, page), encoding="utf-8") as f:
        tree = "".join(re.findall(r"^```cpp\n(.*?)^```", f.read(), re.M | re.S))
    for name, text in {**FILES, "tree.cpp": tree}.items():
        with open(os.path.join(folder, name), "w", encoding="utf-8") as f:
            f.write(text)
    path = os.path.join(folder, "bin") + os.pathsep + os.environ["PATH"]
    told = ""
    for block in [PREPARED, *blocks(page)]:
        ran = subprocess.run(("bash", "-ec", block), cwd=folder, capture_output=True, text=True,
                             env={**os.environ, "PATH": path, "HOME": folder,
                                  "FZCHECK": os.path.join(folder, "bin", "fzcheck")})
        told += ran.stdout
        if ran.returncode != 0 or re.search("^fzcheck: (?!accepted: )", ran.stderr, re.M):
            yield f"{block}status {ran.returncode}: {ran.stdout}{ran.stderr}"
    if not re.search(PAGES[page], told):
        yield f"{PAGES[page]} isn't printed: {told}"


def main() -> int:
    program = os.path.abspath(sys.argv[1])
    if not shutil.which("minizinc"):
        print("minizinc isn't installed: minizinc/ isn't tried")
        return 0
    passed = failed = 0
    models = sorted(glob.glob(os.path.join(ROOT, "tests", "minizinc", "*.mzn")))
    tried: List[Tuple[Callable[[str, str, str], Iterator[str]], str]]
    tried = [(faults, model) for model in models]
    if shutil.which("fzn-gecode"):
        tried += [(faults_of_page, page) for page in PAGES]
    for faults_of, name in tried:
        with tempfile.TemporaryDirectory() as folder:
            found = list(faults_of(program, name, folder))
        for fault in found:
            print(f"failed: {os.path.basename(name)}: {fault}")
        passed, failed = passed + (not found), failed + len(found)
    print(f"{passed} passed, {failed} failed")
    return 1 if failed else 0


if __name__ == "__main__":
    sys.exit(main())
