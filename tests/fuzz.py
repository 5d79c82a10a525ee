#!/usr/bin/env python3
"""Lets fzcheck-fuzz find the faults of a solver that has them, and fzcheck-shrink make them small.

    fuzz.py PROGRAM [FAULT..]

Each fault of fuzzed/solver.py, or these alone, has to be found as what it is, with at most three
constraints: those of one builtin with few names, the others with no options but a seed, within so
many models as stand here. Without a fault nothing may be found. Solvers that can't be worked with
have to be told in a line, with no process and no file left. Ends with 'N passed, M failed'."""
import concurrent.futures
import functools
import json
import os
import re
import subprocess
import sys
import tempfile
import threading
import xml.etree.ElementTree as tree
from typing import Any, Callable, Dict, Iterator, List, NamedTuple, Set, Tuple

HERE = os.path.dirname(os.path.abspath(__file__))
ROOT = os.path.dirname(HERE)
SOLVER = [sys.executable, "-S", os.path.join(HERE, "fuzzed", "run.py")]
SEED, MOST_CONSTRAINTS, LONG_TIME, LIMIT = "1", 3, "1800", "5"
AT_A_TIME = 3  # since other tests have processes too
SLEEP = f"sleep 1000.{os.getpid()}"  # that of this test, of several side by side
LAST = 'for it; do :; done; '  # the shell's way to the last word, the model
FILES = {"model.fzn", "before.fzn", "stream", "fault", "cause", "report", "show.sh"}
ANSWERS = ("wrong solution", "lost solutions", "wrong optimum")


class Expected(NamedTuple):
    """The kinds as which a fault may be seen first, the builtins that are left of the model, the
    names that are asked for, and within how many models it has to be found."""

    kinds: Tuple[str, ...]
    builtins: Tuple[str, ...]
    names: str
    models: int = 150


FEW = {
    "off-by-one": Expected(("wrong solution",), ("int_lin_le",), "int_lin_le,int_ne"),
    "half-reified": Expected(("wrong solution",), ("int_le_reif",), "int_le_reif,int_ne"),
    "index": Expected(ANSWERS, ("array_int_element",), "array_int_element,int_ne"),
    "maximum": Expected(ANSWERS, ("int_max",), "int_max,int_ne"),
    "lost": Expected(("lost solutions",), (), "int_le,int_ne"),
    "twice": Expected(("solution twice",), (), "int_le,int_ne"),
    "optimum": Expected(("wrong optimum",), (), "int_le,int_ne"),
    "worse": Expected(("no better solution",), (), "int_le,int_ne"),
    "early-claim": Expected(("wrong claim",), (), "int_le,int_ne"),
    "crash": Expected(("crash",), ("fzn_all_different_int",), "fzn_all_different_int,int_ne"),
    "endless": Expected(("time limit",), ("int_mod",), "int_mod,int_ne"),
    "sleeps": Expected(("time limit",), ("int_mod",), "int_mod,int_ne"),
}
# With no options but a seed: these were not found, or not in a minute.
DEFAULT = {
    "rounding": Expected(ANSWERS, ("int_div",), "", 200),
    "protocol": Expected(("wrong claim", *ANSWERS), ("int_div",), "", 200),
    "comes-and-goes": Expected(("lost solutions",), (), "", 200),
    "fifth": Expected(ANSWERS, (), "", 200),
    "pair": Expected(ANSWERS, ("int_max", "int_plus"), "", 200),
    "annotation": Expected(ANSWERS, (), "", 200),
    "wraps": Expected(ANSWERS, ("int_plus",), "", 200),
}
# Solvers that can't be worked with, and what is told of them.
BAD = {
    "prints without end": (["sh", "-c", "yes"], "output without end"),
    "never ends": (["sh", "-c", f"{SLEEP} & while :; do :; done"], "time limit"),
    "writes to its model": (["sh", "-c", LAST + 'echo "% x" >> "$it"; echo ----------', "sh"],
                            "model changed"),
    "prints what is no solution": (["sh", "-c", "echo x1 = 1"], "unreadable output"),
}


class Test:
    def __init__(self, program: str, folder: str) -> None:
        self.folder = folder
        self.environment = {**os.environ, "FZCHECK": os.path.abspath(program),
                            "TMPDIR": os.path.join(folder, "tmp"),
                            "PYTHONPYCACHEPREFIX": os.path.join(folder, "cache")}
        self.environment.pop("PYTHONDONTWRITEBYTECODE", None)  # it would compile at each start
        os.mkdir(self.environment["TMPDIR"])
        self.passed = self.failed = 0
        self.counting = threading.Lock()

    def check(self, what: str, holds: bool, told: Any = "") -> None:
        with self.counting:
            self.passed += holds
            self.failed += not holds
            if not holds:
                print(f"{what}: {told}")

    def run(self, name: str, *words: str) -> "subprocess.CompletedProcess[str]":
        """Runs a companion by the interpreter of this test, which needn't look for one."""
        command = [sys.executable, "-S", os.path.join(ROOT, "python", name), *words]
        return subprocess.run(command, env=self.environment, cwd=self.folder,
                              stdout=subprocess.PIPE, stderr=subprocess.PIPE,
                              universal_newlines=True, timeout=3600)

    def fuzz(self, solver: List[str], *options: str) -> Dict[str, Any]:
        ran = self.run("fzcheck-fuzz", "--json", "--seconds", LONG_TIME, "--seed", SEED,
                       *options, "--", *solver)
        self.check("fzcheck-fuzz says nothing else", ran.stderr == "", ran.stderr)
        told = json.loads(ran.stdout)
        assert isinstance(told, dict)
        self.check("the status says whether there is a fault",
                   ran.returncode == (1 if told["faults"] else 0), (ran.returncode, told))
        return told

    def fault(self, name: str, expected: Expected) -> None:
        solver = [*SOLVER, "--fault", name]
        if name == "comes-and-goes":
            solver += ["--counter", os.path.join(self.folder, "counter")]
        asked = ["--names", expected.names] if expected.names else []
        limit = "2" if name in ("endless", "sleeps") else LIMIT
        count = 2 if name == "protocol" else 1
        told = self.fuzz(solver, "--models", str(expected.models), "--faults", str(count),
                         "--output", name, "--limit", limit, *asked)
        found = told["faults"]
        self.check(f"{name} is found", len(found) == count, told)
        for it in found:
            self.check(f"{name} is {it['cause']}", it["kind"] in expected.kinds, it)
            if expected.builtins and it["kind"] != "wrong claim":
                self.check(f"{name} is made small", it["builtins"] == [*expected.builtins], it)
            self.folder_of(name, os.path.join(self.folder, it["folder"]))
        further = getattr(self, f"further_{name.replace('-', '_')}", None)
        if further and found:
            further(told, solver)

    def folder_of(self, name: str, folder: str) -> None:
        model = self.text(folder, "model.fzn")
        self.check(f"{name} is small", model.count("constraint ") <= MOST_CONSTRAINTS, model)
        self.check(f"{name} has its files", FILES <= set(os.listdir(folder)), os.listdir(folder))
        fault, report = self.text(folder, "fault"), self.text(folder, "report")
        self.check(f"{name} is told with its seed", f"fzcheck-fuzz --seed {SEED}, job 0" in fault,
                   fault)
        first = fault.splitlines()[0].partition(": ")[2]
        self.check(f"{name}'s report begins with what is wrong",
                   report.splitlines()[2] == first, report)
        self.check(f"{name}'s report tells the version", "fzcheck 0" in report, report)

    def text(self, folder: str, name: str) -> str:
        with open(os.path.join(self.folder, folder, name), encoding="utf-8") as file:
            return file.read()

    def shown(self, folder: str) -> str:
        """What the script of a fault says, which writes over nothing."""
        folder = os.path.join(self.folder, folder)
        before = {it: self.text(folder, it) for it in os.listdir(folder)}
        ran = subprocess.run([os.path.join(folder, "show.sh")], env=self.environment,
                             stdout=subprocess.PIPE, stderr=subprocess.PIPE,
                             universal_newlines=True)
        after = {it: self.text(folder, it) for it in os.listdir(folder)}
        self.check("the script leaves the evidence as it is", before == after, folder)
        return ran.stdout

    def further_off_by_one(self, told: Dict[str, Any], solver: List[str]) -> None:
        """A model is made small by itself, and a folder that is there isn't written over."""
        folder = told["faults"][0]["folder"]
        self.check("the script shows it", "violated" in self.shown(folder), folder)
        for number in ("", "-2"):
            ran = self.run("fzcheck-shrink", "--limit", LIMIT, "--output", "small",
                           os.path.join(folder, "before.fzn"), "--", *solver)
            self.check("a model is made small by itself", ran.returncode == 0
                       and ran.stdout.count("constraint ") == 1
                       and "seen in 5 of 5 runs" in ran.stderr, ran)
            self.check("its folder is new", self.text(f"small{number}", "model.fzn") == ran.stdout,
                       ran)

    def further_crash(self, told: Dict[str, Any], solver: List[str]) -> None:
        """Its model has sense: without the fault there would be a solution."""
        path = os.path.join(self.folder, told["faults"][0]["folder"], "model.fzn")
        ran = subprocess.run([*SOLVER, path], env=self.environment, stdout=subprocess.PIPE,
                             universal_newlines=True)
        self.check("a model that crashes has a solution", "----------" in ran.stdout, ran)

    def further_protocol(self, told: Dict[str, Any], solver: List[str]) -> None:
        """Both faults are known the next time; as JUnit has them."""
        causes = {it["cause"] for it in told["faults"]}
        claim = "wrong claim: ========== stands after no solution"
        self.check("the protocol's fault is one", claim in causes, causes)
        options = ["--names", "int_div,int_ne", "--models", "25", "--output", "again"]
        with open(os.path.join(self.folder, "known"), "w", encoding="utf-8") as file:
            file.write(f"# by hand\n{claim}\n")
        told = self.fuzz(solver, *options, "--known", "protocol", "--junit", "known.xml")
        known = set(told["known"])
        self.check("known faults are counted", {claim} <= known
                   and known <= {claim, "wrong solution: int_div"}, told)
        self.check("and no fault is told", told["faults"] == [], told)
        root = tree.parse(os.path.join(self.folder, "known.xml")).getroot()
        self.check("JUnit has no failure", root[0].get("failures") == "0", tree.tostring(root))
        told = self.fuzz(solver, *options, "--known", "known", "--junit", "one.xml")
        root = tree.parse(os.path.join(self.folder, "one.xml")).getroot()
        failing = [it.get("name") for it in root[0] if it.find("failure") is not None]
        self.check("JUnit has a case for each name", failing == ["int_div"]
                   and {"int_div", "int_ne", claim} == {it.get("name") for it in root[0]},
                   tree.tostring(root))

    def further_comes_and_goes(self, told: Dict[str, Any], solver: List[str]) -> None:
        it = told["faults"][0]
        self.check("it comes and goes", it["cause"] == "lost solutions, comes and goes"
                   and 0 < it["seen"] < it["of"] == 5, it)
        self.check("its fault says so", f"comes and goes: {it['seen']} of 5" in
                   self.text(it["folder"], "fault"), it)
        shown = self.shown(it["folder"])
        self.check("the script runs it until it is seen", shown.startswith("run "), shown)

    def bad(self, name: str, solver: List[str], kind: str) -> None:
        limit = "1" if kind == "time limit" else LIMIT
        told = self.fuzz(solver, "--models", "1", "--names", "int_ne", "--output",
                         kind.replace(" ", "-"), "--limit", limit)
        kinds = [it["kind"] for it in told["faults"]]
        self.check(f"a solver that {name}", kind in kinds, told)

    def faultless(self) -> None:
        told = self.fuzz(SOLVER, "--models", "20", "--names", "int_ne,int_le,int_mod,int_max")
        self.check("a solver without fault has none", told["faults"] == [], told)

    def own(self) -> None:
        """A planted fault is found in the examples, also where only another stream shows it."""
        told = self.fuzz([*SOLVER, "--fault", "index"], "--from", os.path.join(ROOT, "examples"),
                         "--models", "30", "--faults", "1", "--output", "own", "--limit", LIMIT)
        self.check("a fault is found in the examples", [it["builtins"] for it in told["faults"]]
                   == [["array_int_element"]], told)

    def known_stream(self) -> None:
        """A claim that only another solver's stream refutes, as the model has too many assignments
        and the better objective is far."""
        names = [f"x{it}" for it in range(8)]
        lines = ["var {0,50}: x0 :: output_var;"]
        lines += [f"var 0..9: {it} :: output_var;" for it in names[1:]]
        lines += [f"constraint int_ne({a},{b});" for a, b in zip(names, names[1:])]
        lines += ["solve maximize x0;"]
        best = "".join(f"{it} = {value};\n" for it, value in zip(names, (50, 0, 1, 0, 1, 0, 1, 0)))
        for name, text in ("wide.fzn", "\n".join(lines)), ("wide.other", f"{best}----------"):
            with open(os.path.join(self.folder, name), "w", encoding="utf-8") as file:
                file.write(f"{text}\n")
        for option, value in ("--known", "wide.other"), ("--reference", "sh -c 'cat wide.other'"):
            ran = self.run("fzcheck-shrink", option, value, "wide.fzn", "--", *SOLVER, "--fault",
                           "optimum")
            self.check(f"a claim that is refuted by {option}", ran.returncode == 0
                       and "wrong optimum" in ran.stderr and ran.stdout.count("\n") <= 3, ran)

    def words(self) -> None:
        """Faults of the command line, and of a solver that isn't there."""
        nothing = ["--", "sh", "-c", "echo no >&2; exit 1"]
        wrong: List[Tuple[List[str], int, str]] = [
            ([], 5, "after --"), (["--", "no_such_solver"], 6, "no_such_solver"),
            (["--names", "int_pluss", "--", *SOLVER], 5, "did you mean int_plus?"),
            (["--secconds", "3", "--", *SOLVER], 5, "did you mean --seconds?"),
            (["--numbers", "5..1", "--", *SOLVER], 5, "LOW..HIGH"),
            (["--from", "no_such_folder", "--", *SOLVER], 6, "no_such_folder"),
            (["--known", "no_such_file", "--", *SOLVER], 6, "no_such_file")]
        for words, status, told in wrong:
            ran = self.run("fzcheck-fuzz", *words)
            self.check(f"fzcheck-fuzz {words}", ran.returncode == status and told in ran.stderr
                       and len(ran.stderr.splitlines()) == 1, ran)
        for program in ("fzcheck-fuzz", "fzcheck-shrink"):
            self.completions(program)
            for word, begin in (("--help", "usage: "), ("--version", f"{program} with fzcheck 0")):
                ran = self.run(program, word)
                self.check(f"{program} {word}", ran.returncode == 0
                           and ran.stdout.startswith(begin), ran)
        ran = self.run("fzcheck-fuzz", "--seed", "1", "--names", "int_ne,int_le", *nothing)
        self.check("a solver that takes no name", ran.returncode == 3
                   and ran.stdout.startswith("0 of 2 names taken: "), ran)

    def completions(self, program: str) -> None:
        """What bash and zsh offer is what the program has; after -- come the solver's options."""
        own = set(re.findall(r"^  (?:-\w, )?(--[a-z-]+)", self.run(program, "--help").stdout, re.M))
        path = os.path.join(ROOT, "completions", program)
        function = f"_{program.replace('-', '_')}"
        ask = (f'source "{path}.bash"; COMP_WORDS=("$@"); COMP_CWORD=$(($# - 1)); {function}; '
               'echo "${COMPREPLY[@]}"')
        asked: List[Tuple[str, Set[str]]] = [("-", own | {"-h", "-V", "--"}), ("-- fzn -", set())]
        for last, wanted in asked:
            offered = subprocess.run(["bash", "-c", ask, "bash", program, *last.split()],
                                     stdout=subprocess.PIPE, universal_newlines=True).stdout
            self.check(f"bash after {program} {last}", set(offered.split()) == wanted, offered)
        with open(f"{path}.zsh", encoding="utf-8") as file:
            zsh = file.read().split("_arguments")[1]
        self.check(f"zsh after {program}", set(re.findall(r"(--[a-z][a-z-]+)", zsh)) == own, own)

    def left(self) -> None:
        there = os.listdir(self.environment["TMPDIR"])
        streams = [it for it in there if not it.startswith("stream.")]  # of show.sh
        self.check("no file is left", streams == [], there)
        own = subprocess.run(["ps", "-eo", "args"], stdout=subprocess.PIPE, universal_newlines=True)
        running = [it for it in own.stdout.splitlines() if self.folder in it or it == SLEEP]
        self.check("no process is left", running == [], running)


def jobs(test: Test, only: List[str]) -> Iterator[Callable[[], None]]:
    every = {**FEW, **DEFAULT}
    for name in only or every:
        yield functools.partial(test.fault, name, every[name])
    if not only:
        for name, (solver, kind) in BAD.items():
            yield functools.partial(test.bad, name, solver, kind)
        yield from (test.faultless, test.own, test.known_stream, test.words)


def main(program: str, only: List[str]) -> int:
    with tempfile.TemporaryDirectory(prefix="fzcheck-test-") as folder:
        test = Test(program, folder)
        with concurrent.futures.ThreadPoolExecutor(AT_A_TIME) as pool:
            for running in [pool.submit(job) for job in jobs(test, only)]:
                running.result()
        test.left()
    print(f"{test.passed} passed, {test.failed} failed")
    return 1 if test.failed else 0


if __name__ == "__main__":
    sys.exit(main(sys.argv[1], sys.argv[2:]))
