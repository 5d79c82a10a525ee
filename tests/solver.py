#!/usr/bin/env python3
"""Runs python/fzcheck-solver and fzcheck-configure, with scripts in the place of a solver, of the
checker and of MiniZinc, so that none of them has to be there.

    tests/solver.py PROGRAM

The commands of a page that need no MiniZinc are run too. tests/inside.py runs both scripts
inside MiniZinc itself, and tests/minizinc.py all commands of the pages."""
import glob
import json
import os
import re
import shlex
import shutil
import signal
import subprocess
import sys
import tempfile
import time
from typing import IO, Any, Dict, List, Optional, Sequence, Tuple, Union

from expecting import end, expect
from minizinc import blocks

ROOT = os.path.dirname(os.path.dirname(os.path.abspath(__file__)))
SOLVER, CONFIGURE = (os.path.join(ROOT, "python", name)
                     for name in ("fzcheck-solver", "fzcheck-configure"))
MODEL = "var 0..9: x :: output_var;\nconstraint int_le(x,5);\nsolve satisfy;\n"
UNKNOWN, FLOAT = MODEL.replace("int_le", "my_own"), MODEL.replace("0..9", "0.0..9.5")
GOOD, BAD, CLAIM = "x = 3;\n----------\n", "x = 9;\n----------\n", "==========\n"
COMMENT = '%%%mzn-stat: fzcheck="VIOLATED"\n%%%mzn-stat-end\n'
ONE, NOTHING = "fzcheck: accepted: blocks 1\n", "fzcheck: nothing was checked: "
PRINTS = 'cat "$FOLDER/stream"; exit ${STATUS:-0}'
ONE_THEN_SLEEPS = f'printf "{GOOD}"; exec sleep 60'.replace("\n", "\\n")
COUNTS = """trap 'echo got >>"$FOLDER/signals"' INT
printf "x = 3;\\n----------\\n"
until [ -s "$FOLDER/signals" ]; do sleep 0.05; done; printf "%% its end\\n\""""
MINIZINC = """case $* in
  --solvers-json) cat "$FOLDER/solvers.json" ;;
  --config-dirs) echo "{\\"userSolverConfigDir\\": \\"$FOLDER/own/solvers\\"}" ;;
  *" -c "*) shift $(($# - 1)); cp "$FOLDER/ours.fzn" "$1" ;;
  *) "${2%.msc}" "$FOLDER/model.fzn" ;;
esac"""
OTHER: Dict[str, Any] = {
    "id": "org.some.other", "name": "Other", "version": "2.0", "mznlib": "./lib", "tags": ["cp"],
    "stdFlags": ["-a"], "extraFlags": [["-d", "Depth", "int", "8"]], "supportsFzn": True,
    "supportsMzn": False, "needsSolns2Out": True,
}


class Place:
    """A folder with a solver, the checker, what MiniZinc is here, a model and a stream."""

    def __init__(self, folder: str, program: str) -> None:
        self.folder = folder
        os.makedirs(self.path("bin"))
        os.makedirs(self.path("tmp"))
        os.symlink(program, self.path("bin/fzcheck"))
        self.variables = {"FOLDER": folder, "FZCHECK_SOLVER": self.path("a solver"),
                          "PATH": self.path("bin") + ":" + os.environ["PATH"],
                          "FZCHECK": self.path("bin/fzcheck"),
                          "TMPDIR": self.path("tmp")}
        self.script("a solver", PRINTS)
        self.script("bin/minizinc", MINIZINC)
        self.file("model.fzn", MODEL)

    def path(self, name: str) -> str:
        return os.path.join(self.folder, name)

    def file(self, name: str, text: str) -> None:
        with open(self.path(name), "w", encoding="utf-8") as file:
            file.write(text)

    def script(self, name: str, text: str) -> None:
        if os.path.islink(self.path(name)):
            os.remove(self.path(name))
        self.file(name, f"#!/bin/sh\n{text}\n")
        os.chmod(self.path(name), 0o755)

    def start(self, words: Sequence[str], **variables: str) -> "subprocess.Popen[str]":
        return subprocess.Popen(words, text=True, env={**os.environ, **self.variables, **variables},
                                stdout=subprocess.PIPE, stderr=subprocess.PIPE, cwd=self.folder,
                                start_new_session=True)

    def run(self, *words: str, **variables: str) -> Tuple[int, str, str]:
        process = self.start(words or (SOLVER, self.path("model.fzn")), **variables)
        out, told = process.communicate(timeout=200)
        return process.returncode, out, told

    def checked(self, what: str, stream: str, status: int, out: str,
                told: Union[str, Sequence[str]], **variables: str) -> None:
        """What comes of a stream: the status, the output, and words that are told, or a whole."""
        self.file("stream", stream)
        got = self.run(**variables)
        expect(what, (status, out), got[:2])
        if isinstance(told, str):
            return expect(f"{what}, told", told, got[2])
        left = [word for word in told if word not in got[2]]
        expect(f"{what}, told", [], left)

    def processes(self) -> List[int]:
        """Those that have this folder in their environment."""
        paths = [path for path in glob.glob("/proc/[0-9]*/environ")
                 if self.folder.encode() in read(path)]
        return [int(path.split("/")[2]) for path in paths]

    def is_deserted(self) -> bool:
        """Whether soon no process is left."""
        for _ in range(200):
            if not self.processes():
                return True
            time.sleep(0.1)
        return False

    def end_all(self) -> None:
        for process in self.processes():
            os.kill(process, signal.SIGKILL)


def line_of(pipe: Optional[IO[str]]) -> str:
    """The next line that a process writes."""
    return pipe.readline() if pipe else ""


def read(path: str) -> bytes:
    try:
        with open(path, "rb") as file:
            return file.read()
    except OSError:
        return b""


def streams(place: Place) -> None:
    rejected = ("block 2: violated: constraint 1 int_le\n", "x = 9, printed\n",
                "\nfzcheck: rejected: block 2\nfzcheck: VIOLATED\n")
    place.checked("all is well", GOOD + CLAIM, 0, GOOD + CLAIM, ONE)
    place.checked("all is told", GOOD, 0, GOOD, "fzcheck: block 1: satisfied\n" + ONE,
                  FZCHECK_VERBOSE="1")
    place.checked("nothing is printed", "", 0, "", NOTHING + "no blocks\n")
    place.checked("violated", GOOD + BAD, 1, GOOD + BAD + COMMENT, rejected)
    place.checked("violated, then cut", GOOD + BAD + "x", 1, GOOD + BAD + "x\n" + COMMENT, rejected)
    place.checked("violated, status 3", GOOD + BAD, 1, GOOD + BAD + COMMENT, rejected, STATUS="3")
    place.checked("the solver's status", GOOD, 3, GOOD, ONE, STATUS="3")
    place.checked("held", GOOD + BAD + "% more\n" + GOOD + CLAIM, 1,
                  GOOD + "% more\n" + GOOD + CLAIM + COMMENT, rejected, FZCHECK_HOLD="1")
    place.checked("cut off", GOOD + "x = 1", 0, GOOD + "x = 1", ONE)
    place.checked("cut off, held", GOOD + "x = 1", 0, GOOD, ONE, FZCHECK_HOLD="1")
    place.checked("each explained", BAD + BAD, 1, BAD + BAD + COMMENT, ("in block 2",),
                  FZCHECK_OPTIONS="--explain=all")
    place.checked("an option once more", GOOD, 0, GOOD, ONE, FZCHECK_OPTIONS="--complete")
    place.checked("JSON can't be told", GOOD, 5, "", ("--json",), FZCHECK_OPTIONS="--json")
    place.checked("a broken option", GOOD, 5, "", ("quotation",), FZCHECK_OPTIONS="'")
    place.checked("no solver", GOOD, 127, "", ("none: No such file",), FZCHECK_SOLVER="none")
    place.script("a solver", PRINTS.replace("exit", "kill -SEGV $$; exit"))
    place.checked("a crash", GOOD, 128 + signal.SIGSEGV, GOOD, ONE)
    place.script("a solver", PRINTS)


def unproved(place: Place) -> None:
    """What isn't accepted passes, and is told last; with FZCHECK_STRICT the status is 1."""
    def strictly(what: str, stream: str, told: str, status: int = 1,
                 **variables: str) -> None:
        place.checked(what, stream, 0, stream, (told,), **variables)
        place.checked(f"{what}, strictly", stream, status, stream, (told,), FZCHECK_STRICT="1",
                      **variables)

    strictly("satisfied", GOOD, ONE, 0)
    strictly("no block", CLAIM, NOTHING + "no blocks\n")
    strictly("a wrong option", GOOD, NOTHING + "the checker's options are wrong\n",
             FZCHECK_OPTIONS="--wrong")
    rest = "fzcheck: nothing from block 2 on was checked: the stream is refused\n"
    strictly("a name that isn't declared", GOOD + GOOD.replace("x", "z"), rest)
    strictly("a warning in a block", GOOD + "WARNING: slow\n" + GOOD, rest)
    place.checked("a solver's status, strictly", GOOD, 3, GOOD, ONE, FZCHECK_STRICT="1", STATUS="3")
    for model, last in ((UNKNOWN, "fzcheck: undecided: block 1\n"),
                        (FLOAT, NOTHING + "the model has floats\n"),
                        (MODEL + "solve", NOTHING + "the model is refused\n")):
        place.file("model.fzn", model)
        strictly(last, GOOD, "\n" + last)
    place.checked("floats, held", GOOD, 1, "", ("has no verdict was held",), FZCHECK_HOLD="1")
    place.file("model.fzn", UNKNOWN)
    place.checked("undecided, held", GOOD, 0, GOOD, ("my_own",), FZCHECK_HOLD="1")
    place.file("model.fzn", MODEL.replace("satisfy", "minimize x"))
    place.file("known.out", GOOD.replace("3", "2"))
    known = f"--claims --known {shlex.quote(place.path('known.out'))}"
    place.checked("a false optimum", GOOD + CLAIM, 1, GOOD + CLAIM + COMMENT,
                  ("claim: ========== refuted by known block 1\n",
                   "fzcheck: rejected: claim after block 1\nfzcheck: VIOLATED\n"),
                  FZCHECK_OPTIONS=known)
    place.file("model.fzn", MODEL)


def tables(place: Place) -> None:
    """The compiler's table, which MiniZinc names behind the model, gives names; the model's own
    file, which MiniZinc removes, is not named."""
    place.file("names", "x\ttime\t\n")
    place.file("stream", BAD)
    place.script("a solver", 'echo "% $*"\n' + PRINTS)
    words = (SOLVER, "-a", place.path("model.fzn"), "--paths", place.path("names"))
    for wants, given in (("", words[1:3]), ("1", words[1:])):
        status, out, told = place.run(*words, FZCHECK_PATHS=wants)
        expect("a table of names", (1, f"% {' '.join(given)}\n{BAD}{COMMENT}"), (status, out))
        expect("a table of names, told", (True, True, False),
               ("fzcheck: FlatZinc:2:12: " in told, "time (x) = 9, printed\n" in told,
                place.folder in told))
    place.script("a solver", PRINTS)


def checkers(place: Place, program: str) -> None:
    """What befalls the checker doesn't befall the solver's output."""
    long = GOOD * 8000  # more than two pipes hold
    all_well = "fzcheck: accepted: blocks 8000\n"
    place.checked("a long stream", long, 0, long, all_well)
    place.checked("a long stream, held", long, 0, long, all_well, FZCHECK_HOLD="1")
    place.script("bin/fzcheck", f'ulimit -v 5000; exec "{program}" "$@"')
    place.file("model.fzn", "".join(f"var 0..9: y{n};\n" for n in range(40000)) + MODEL)
    place.checked("out of memory", long, 0, long,
                  ("refused: memory\n", NOTHING + "out of memory\n"))
    place.file("model.fzn", MODEL)
    place.script("bin/fzcheck", "head -c 100 >/dev/null; echo block 1: satisfied; exit 7")
    place.checked("a checker that ends", long, 0, long,
                  ("nothing from block 2 on was checked: the checker has ended\n",))
    # Blocks that come together are judged together: no verdict of one is waited for before the next
    # is fed.
    place.script("bin/fzcheck", f"head -c {len(2 * GOOD)} >/dev/null\n"
                 "printf 'block 1: satisfied\\nblock 2: satisfied\\naccepted: blocks 2\\n'")
    place.checked("two blocks at once, held", 2 * GOOD, 0, 2 * GOOD,
                  "fzcheck: accepted: blocks 2\n", FZCHECK_HOLD="1")
    os.remove(place.path("bin/fzcheck"))
    unchecked = (NOTHING + "the checker can't be run\n",)
    for strict, status in (("", 0), ("1", 1)):
        place.checked("no checker", GOOD, status, GOOD, unchecked, FZCHECK_STRICT=strict)
    place.checked("no checker, held", GOOD, 1, "", unchecked, FZCHECK_HOLD="1")
    os.symlink(program, place.path("bin/fzcheck"))


def signals(place: Place) -> None:
    """A line comes at once, a signal comes once, and nothing stays behind."""
    words = (SOLVER, place.path("model.fzn"))
    for hold in "01":
        place.script("a solver", ONE_THEN_SLEEPS)
        process = place.start(words, FZCHECK_HOLD=hold)
        expect("a block at once", GOOD, line_of(process.stdout) + line_of(process.stdout))
        process.terminate()
        rest, told = process.communicate(timeout=200)
        expect("ended alone", ("", True), (rest, told.endswith(ONE)))
        expect("ended alone, the status", 128 + signal.SIGTERM, process.returncode)
        place.script("a solver", COUNTS)
        process = place.start(words, FZCHECK_HOLD=hold)
        line_of(process.stdout)
        os.killpg(process.pid, signal.SIGINT)
        process.communicate(timeout=200)
        expect("one signal to all", (0, b"got\n"),
               (process.returncode, read(place.path("signals"))))
        os.remove(place.path("signals"))
        place.script("a solver", ONE_THEN_SLEEPS)
        process = place.start(words, FZCHECK_HOLD=hold)
        line_of(process.stdout)
        if process.stdout:
            process.stdout.close()
        expect("nobody reads", 128 + signal.SIGTERM, process.wait(timeout=200))
        process = place.start(words, FZCHECK_HOLD=hold)
        line_of(process.stdout)
        os.killpg(process.pid, signal.SIGKILL)
        process.wait()
        expect("nothing stays", True, place.is_deserted())
        # The solver of a script too, where `ps` shows whose it is.
        word = "" if shutil.which("ps") else "exec"
        place.script("a solver", ONE_THEN_SLEEPS.replace("exec", word))
        process = place.start(words, FZCHECK_HOLD=hold)
        line_of(process.stdout)
        process.kill()
        process.wait()
        expect("the script alone is killed, and nothing stays", True, place.is_deserted())
    place.script("a solver", PRINTS)


def slow(place: Place, program: str) -> None:
    """A checker that a signal finds at work has said how far it came before all is killed."""
    place.script("bin/slow", "echo block 1: satisfied; exec sleep 60")
    os.remove(place.path("bin/fzcheck"))
    os.symlink(place.path("bin/slow"), place.path("bin/fzcheck"))
    place.script("a solver", ONE_THEN_SLEEPS)
    process = place.start((SOLVER, place.path("model.fzn")), FZCHECK_VERBOSE="1")
    line_of(process.stderr)
    os.killpg(process.pid, signal.SIGTERM)
    expect("as far as it came", "fzcheck: so far: blocks 1, satisfied 1\n",
           line_of(process.stderr))
    process.kill()
    process.communicate()
    expect("a checker at work ends too", True, place.is_deserted())
    os.remove(place.path("bin/fzcheck"))
    os.symlink(program, place.path("bin/fzcheck"))
    place.script("a solver", PRINTS)


def configuration(place: Place, program: str) -> None:
    own = place.path("own/solvers")
    other = {**OTHER, "extraInfo": {"mznlib": "/usr/share/other lib",
                                    "executable": place.path("a solver")}}
    built_in = {"id": "org.built.in", "name": "BuiltIn", "supportsFzn": True, "extraInfo": {}}
    place.file("solvers.json", json.dumps([other, built_in]))
    for word in ("nix", "builtin"):
        expect(f"configure {word}", (1, ""), place.run(CONFIGURE, word)[:2])
    for word, told in (("--remove", "one SOLVER was expected\n"),
                       ("--stric", "--stric: there is no such option: did you mean --strict?\n")):
        status, out, errors = place.run(CONFIGURE, word)
        expect(f"configure {word}", (5, "", f"fzcheck-configure: {told}"),
               (status, out, errors.splitlines(True)[-1]))
    for name in (CONFIGURE, SOLVER):
        version = f"{os.path.basename(name)} with fzcheck "
        for word, told in (("--version", version), ("--help", "")):
            status, out, _ = place.run(name, word, FZCHECK_SOLVER="")
            expect(f"{name} {word}", (0, True), (status, len(out) > 20 and out.startswith(told)))
    expect("configure", 0, place.run(CONFIGURE, "--library", "other")[0])
    wanted = ["other-checked", "other-checked-library", "other-checked-library.msc",
              "other-checked.msc"]
    expect("what is configured", wanted, sorted(os.listdir(own)))
    with open(f"{own}/other-checked.msc") as file:
        written = json.load(file)
    expect("its id", "org.some.other-checked", written["id"])
    expect("its library", "/usr/share/other lib", written["mznlib"])
    expect("its flags", OTHER["extraFlags"], written["extraFlags"])
    expect("its table of names", True, written["needsPathsFile"])
    place.file("stream", GOOD + BAD)
    expect("run as configured", (1, GOOD + BAD + COMMENT),
           place.run(written["executable"], place.path("model.fzn"))[:2])
    library(place, f"{own}/other-checked-library")
    expect("configured anew", 0, place.run(CONFIGURE, "--strict", "org.some.other")[0])
    place.file("stream", CLAIM)
    expect("run as configured, strictly", (1, CLAIM, NOTHING + "no blocks\n"),
           place.run(written["executable"], place.path("model.fzn")))
    expect("removed", 0, place.run(CONFIGURE, "--remove", "other")[0])
    expect("all is removed", [], os.listdir(own))
    expect("nothing to remove", 1, place.run(CONFIGURE, "--remove", "other")[0])
    place.file("own/solvers/other-checked.msc", "{}")
    for words in (("other",), ("--remove", "other")):
        expect("another's is left alone", 1, place.run(CONFIGURE, *words)[0])
    expect("another's is there", b"{}", read(f"{own}/other-checked.msc"))


def library(place: Place, program: str) -> None:
    """The solver's own FlatZinc allows a 9, and ours doesn't."""
    place.file("ours.fzn", MODEL)
    place.file("model.fzn", MODEL.replace(",5", ",9"))
    script = MINIZINC.replace("case $* in", "case $* in *nothing.mzn) ;;")
    place.script("bin/minizinc", script)
    for strict, wanted in (("", 0), ("1", 1)):
        expect("MiniZinc runs no solver", (wanted, "", NOTHING + "MiniZinc ran no solver\n"),
               place.run(program, "nothing.mzn", FZCHECK_STRICT=strict))
    status, out, told = place.run(program, "model.mzn", "-s")
    expect("against our library", (1, GOOD + BAD + COMMENT + "fzcheck: VIOLATED\n"), (status, out))
    expect("against our library, told", True, "block 2: violated: constraint 1 int_le" in told)
    os.remove(place.path("ours.fzn"))
    status, out, told = place.run(program, "model.mzn")
    expect("our library fails", (0, GOOD + BAD, True), (status, out, "solver's own" in told))
    expect("no files stay", [], os.listdir(place.path("tmp")))
    place.file("model.fzn", MODEL)


def pages(place: Place) -> None:
    """What needs no MiniZinc of a page, on the examples."""
    for name in ("models", "printed", "streams"):
        os.mkdir(place.path(name))
    shutil.copy(f"{ROOT}/examples/knapsack/stream.txt", place.path("streams/NAME.other.out"))
    os.symlink(SOLVER, place.path("bin/fzcheck-solver"))
    place.script("bin/fzn-gecode",
                 'for model; do :; done; cat "printed/$(basename "$model" .fzn).out"')
    examples = sorted(glob.glob(f"{ROOT}/examples/*/stream.txt"))
    names = [f"{stream.split('/')[-2]}_{number}" for number in range(2) for stream in examples]
    for name in ("NAME", *names):
        example = os.path.join(ROOT, "examples", name.rpartition("_")[0] or "knapsack")
        shutil.copy(f"{example}/model.fzn", place.path(f"models/{name}.fzn"))
        shutil.copy(f"{example}/stream.txt", place.path(f"printed/{name}.out"))
    keep(place, "NAME|_1$")
    _, job, _, _ = run_blocks(place, "docs/SOLVER_AUTHORS.md", [0, 1, 1, 0])
    expect("a job ends at the first violated block", 1, len(re.findall("jobs|teams", job)))
    keep(place, "NAME|knapsack")
    run_blocks(place, "docs/SOLVER_AUTHORS.md", [0, 0, 0, 0])


def keep(place: Place, names: str) -> None:
    for path in glob.glob(place.path("models/*.fzn")):
        if not re.search(names, path.removesuffix(".fzn")):
            os.remove(path)


def run_blocks(place: Place, page: str, statuses: List[int]) -> List[str]:
    """Runs a page's commands, and gives what they print."""
    # what the test has no stand-in for, or another test runs
    needs_more = "minizinc |configure|LIBRARY|g[+][+] |fzcheck-(fuzz|shrink)"
    ours = [block for block in blocks(page) if not re.search(needs_more, block)]
    ran = [place.run("bash", "-ec", block) for block in ours]
    expect(page, statuses, [status for status, _, _ in ran])
    return [out for _, out, _ in ran]


def main() -> int:
    program = os.path.abspath(sys.argv[1])
    # What a shell starts with `&` ignores this signal, and so would the scripts here.
    signal.signal(signal.SIGINT, signal.default_int_handler)
    with tempfile.TemporaryDirectory() as folder:
        place = Place(os.path.join(folder, "a place"), program)
        streams(place)
        unproved(place)
        tables(place)
        checkers(place, program)
        signals(place)
        slow(place, program)
        configuration(place, program)
        pages(place)
    return end()


if __name__ == "__main__":
    sys.exit(main())
