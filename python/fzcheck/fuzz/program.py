"""Looks for faults of a FlatZinc solver by small random models, or by models of one's own, and
makes small what it finds."""
import argparse
import json
import os
import re
import signal
import sys
import time
from typing import FrozenSet, List, NoReturn, Optional, Sequence

from fzcheck import common, junit
from fzcheck.fuzz import findings
from fzcheck.fuzz.checking import Setting
from fzcheck.fuzz.faults import cause_from
from fzcheck.fuzz.features import ALL_NAMES, Limits, Taken, families
from fzcheck.fuzz.jobs import FAILED, Asking, Looking, Message, Team
from fzcheck.fuzz.names import Names, names_of
from fzcheck.fuzz.own import Base, read_models
from fzcheck.fuzz.probe import Prober, in_folder
from fzcheck.fuzz.report import Summary, Told
from fzcheck.fuzz.search import Found, Plan, Tally
from fzcheck.words import Parser, add_common, checker, give_up, other_solver, parsed

PROGRAM = "fzcheck-fuzz"
LEAST_NUMBERS = 10  # between the ends of --numbers
NONE_TAKEN = 3  # the status where nothing could be tried
SHARE_OF_ASKING = 0.5  # of the time
MOST_SHRINKING = 120.0  # seconds for each fault


def parser() -> Parser:
    it = Parser(
        prog=PROGRAM, usage=f"{PROGRAM} [OPTION..] -- SOLVER [SOLVER'S OPTION..]",
        description="Tries what SOLVER takes, runs it on random models of that, judges what it "
        "prints, and makes the models with a fault small. Status 0: no fault except known ones; "
        "1: there are faults; 3: SOLVER takes none of the names; 5: the command line is wrong; "
        "6: a program or a file is missing.")
    add = it.add_argument
    add("--seconds", type=float, default=60, help="how long (60)")
    add("--models", type=int, help="end after so many models of each job")
    add("--faults", type=int, help="end after so many causes of faults")
    add("--seed", help="the same seed gives the same models (the time)")
    add("--names", help="the builtins to try, as int_plus,int_le or a file of names (all known ones)")
    add("--names-from", metavar="FILE.mzn", nargs="+", default=[],
        help="the builtins that these files, or those of a folder, declare without a body")
    add("--from", dest="folder", metavar="FOLDER",
        help="change the FlatZinc models in FOLDER instead of making random ones")
    add("--known", metavar="FOLDER", action="append", default=[],
        help="faults found before, an --output or a file of causes: counted, not reported")
    add("--jobs", type=int, default=1, help="solvers at once (1)")
    add("--numbers", help="LOW..HIGH: choose some numbers near these")
    add("--output", default="fzcheck-fuzz-found", help="the folder for what is found (fzcheck-fuzz-found)")
    add("--json", action="store_true", help="the report as a JSON object")
    add("--junit", metavar="FILE", help="also a report in JUnit's form, a case for each name")
    add_common(it)
    return it


def limits_of(given: Optional[str]) -> Optional[Limits]:
    if given is None:
        return None
    found = re.fullmatch(r"(-?\d+)\.\.(-?\d+)", given)
    if not found or int(found[2]) - int(found[1]) < LEAST_NUMBERS:
        give_up(PROGRAM, f"--numbers {given}: LOW..HIGH was expected, {LEAST_NUMBERS} apart or "
                "more", 5)
    return Limits(int(found[1]), int(found[2]))


def known_keys(paths: Sequence[str]) -> FrozenSet[str]:
    """The causes in folders of what was found, or in files with one in each line."""
    lines: List[str] = []
    for path in paths:
        try:
            for file_path in files_of_causes(path):
                with open(file_path, encoding="utf-8") as file:
                    lines += file.read().splitlines()
        except OSError as error:
            give_up(PROGRAM, f"--known {path}: {error.strerror}", 6)
    keys = set()
    for line in lines:
        text = line.partition("#")[0].strip()
        try:
            keys.update({cause_from(text).key} if text else set())
        except ValueError:
            give_up(PROGRAM, f"--known: {text}: a cause was expected, as `wrong solution: int_div`",
                    5)
    return frozenset(keys)


def files_of_causes(path: str) -> List[str]:
    if not os.path.isdir(path):
        return [path]
    there = sorted(os.listdir(path))
    own = [os.path.join(path, it, "cause") for it in there]
    return [it for it in [os.path.join(path, "known"), *own] if os.path.exists(it)]


class Run:
    """Asks and looks, by several jobs, and keeps what they tell."""

    def __init__(self, given: argparse.Namespace, setting: Setting, names: Names,
                 bases: List[Base]) -> None:
        self.given, self.setting, self.names, self.bases = given, setting, names, bases
        self.summary = Summary(given.seed or str(int(time.time())), names.known, names.unknown)
        self.limits, self.known = limits_of(given.numbers), known_keys(given.known)
        self.jobs = max(1, given.jobs)
        self.failed: List[str] = []
        self.steps = 0
        self.started = self.shown = time.monotonic()
        self.versions: Optional[findings.Versions] = None
        self.team: Optional[Team] = None

    def go(self) -> None:
        signal.signal(signal.SIGTERM, signal.default_int_handler)
        try:
            is_whole = self.ask()
        except KeyboardInterrupt:
            is_whole = False
        self.progress("")
        if not self.given.json:
            print(self.first_line(), flush=True)
        if is_whole and self.summary.taken.names and not self.failed:
            self.look()
        self.summary.seconds = time.monotonic() - self.started
        self.progress("")

    def ask(self) -> bool:
        """Whether the solver takes each name."""
        seed = self.summary.seed
        taken = in_folder(lambda folder: Prober(self.setting, seed, folder).declarations())
        parts = families(self.names.known)
        self.summary.taken = taken
        self.team = Team([Asking(self.setting, seed, taken, parts[job :: self.jobs])
                          for job in range(self.jobs)],
                         self.started + SHARE_OF_ASKING * self.given.seconds)
        is_whole = self.team.go(self.hear)
        for names in (taken.names, taken.refused, taken.unasked):
            names.sort()
        return is_whole

    def look(self) -> None:
        self.steps = 0
        plan = Plan(self.setting, self.summary.seed, self.given.models, self.summary.taken,
                    self.limits, self.given.faults, self.known, self.bases,
                    min(MOST_SHRINKING, self.given.seconds))
        faulty = sorted(plan.taken.faulty)
        self.team = Team([Looking(plan, f"{plan.seed}-{job}", faulty[job :: self.jobs])
                          for job in range(self.jobs)],
                         self.started + self.given.seconds)
        self.team.go(self.hear)

    def first_line(self) -> str:
        taken, every = self.summary.taken, len(self.names.known)
        text = f"{len(taken.names)} of {every} names taken"
        if not taken.names:
            return (f"{text}: nothing can be tried; {self.setting.solver[0]} is no FlatZinc "
                    "solver, or give --names")
        is_default = not (self.given.names or self.given.names_from or self.bases)
        if is_default and len(taken.names) < every:
            return f"{text}: give --names, or --names-from FILE.mzn.. to ask for these alone"
        return text

    def hear(self, message: Message) -> None:
        if isinstance(message, Found):
            self.keep(message)
        elif isinstance(message, Tally):
            self.summary.tally.add(message)
        elif isinstance(message, Taken):
            self.summary.taken.add(message)
        elif message.startswith(FAILED):
            self.failed.append(message)
        self.steps += message != ""
        what = "models" if self.summary.taken.names else "names asked for"
        self.progress(f"{self.steps} {what}, {len(self.summary.found)} causes of faults")

    def keep(self, found: Found) -> None:
        """Writes the folder of a cause that no other job found before."""
        if any(it.cause.key == found.cause.key for it in self.summary.found):
            return
        self.versions = self.versions or findings.versions_of(self.setting)
        origin = f"{PROGRAM} --seed {self.summary.seed}, {found.origin}"
        finding = findings.Finding(self.setting, found.cause, found.small, self.versions, origin)
        name = os.path.join(self.given.output, findings.folder_name(found.cause))
        folder = finding.write(name, found.before)
        self.summary.found.append(Told(found.cause, found.small, folder))
        most = self.given.faults
        if self.team and most is not None and len(self.summary.found) >= most:
            self.team.stop.set()

    def progress(self, text: str) -> None:
        if sys.stderr.isatty() and (not text or time.monotonic() - self.shown > 0.5):
            self.shown = time.monotonic()
            seconds = int(self.shown - self.started)
            print(f"\r\033[K{f'{seconds} s: {text}' if text else ''}", end="", file=sys.stderr)
            sys.stderr.flush()

    def status(self) -> int:
        if self.failed:
            return 6
        if self.summary.found:
            return 1
        is_nothing = self.bases and not self.summary.tally.used
        return NONE_TAKEN if is_nothing or not self.summary.taken.names else 0


def names_given(given: argparse.Namespace, bases: Sequence[Base]) -> Names:
    try:
        names = names_of(given.names, given.names_from, bases)
    except OSError as error:
        give_up(PROGRAM, f"{error.filename}: {error.strerror}", 6)
    if not names.known:
        word = next(iter(names.unknown), "")
        near = common.meant(word, ALL_NAMES)
        give_up(PROGRAM, f"none of the names is a builtin that is known: {word or 'no name'}{near}",
                5)
    return names


def bases_given(given: argparse.Namespace) -> List[Base]:
    if given.folder is None:
        return []
    if not os.path.exists(given.folder):
        give_up(PROGRAM, f"--from {given.folder}: there is no such folder", 6)
    bases, left_out = read_models(given.folder)
    for it in left_out:
        print(f"{PROGRAM}: left out: {it}", file=sys.stderr)
    if not bases:
        give_up(PROGRAM, f"--from {given.folder}: there is no FlatZinc model without floats", 6)
    return bases


def main(words: List[str]) -> int:
    given, solver = parsed(parser(), words)
    bases = bases_given(given)
    names = names_given(given, bases)
    setting = Setting(checker(PROGRAM), solver, given.all, given.limit,
                      other_solver(PROGRAM, given.reference))
    run = Run(given, setting, names, bases)
    run.go()
    print(json.dumps(run.summary.as_json()) if given.json else run.summary.as_text())
    if given.junit:
        junit.write(given.junit, PROGRAM, run.summary.cases())
    for it in run.failed:
        print(f"{PROGRAM}: {it}", file=sys.stderr)
    return run.status()


def program() -> NoReturn:
    sys.exit(main(sys.argv[1:]))
