"""Makes a FlatZinc model small on which a solver has a fault."""
import argparse
import sys
import tempfile
from typing import List, NoReturn, Optional, Tuple

from fzcheck.flatzinc import Model, Reader, stream_of
from fzcheck.fuzz import findings
from fzcheck.fuzz.checking import Setting, Values
from fzcheck.fuzz.faults import Fault, cause_of
from fzcheck.fuzz.judge import Case, values_of
from fzcheck.fuzz.shrink import Small, shrunk
from fzcheck.words import Parser, add_common, checker, give_up, other_solver, parsed

PROGRAM = "fzcheck-shrink"


def parser() -> Parser:
    it = Parser(
        prog=PROGRAM, usage=f"{PROGRAM} [OPTION..] MODEL.fzn -- SOLVER [SOLVER'S OPTION..]",
        description="Prints the smallest model that it finds on which SOLVER still has the fault "
        "that it has on MODEL. Status 0: a model is printed; 1: there is no fault; 4: MODEL is no "
        "FlatZinc; 5: the command line is wrong; 6: a program or a file is missing.")
    add = it.add_argument
    add("model", metavar="MODEL.fzn")
    add("--seconds", type=float, default=600, help="how long (600)")
    add("--known", metavar="STREAM", action="append", default=[],
        help="what another solver printed: compared with SOLVER's claims")
    add("--output", metavar="FOLDER", help="also a new folder with the stream, a report, a script")
    add_common(it)
    return it


def read(path: str) -> str:
    try:
        with open(path, encoding="latin-1") as file:
            return file.read()
    except OSError as error:
        give_up(PROGRAM, f"{path}: {error.strerror}", 6)


def read_model(path: str) -> Model:
    try:
        return Reader(read(path)).model()
    except ValueError as error:
        give_up(PROGRAM, f"{path}: {error}", 4)


def known_solutions(model: Model, paths: List[str]) -> List[Values]:
    """The last solutions of each stream. Each is judged where it is used."""
    found: List[Values] = []
    for path in paths:
        own = values_of(model, stream_of(read(path)))
        if not own:
            give_up(PROGRAM, f"--known {path}: there is no solution of the model", 4)
        found += own
    return found


def first_fault(case: Case) -> Tuple[Optional[Fault], Optional[str]]:
    """The first fault, or else why the solver refuses the model."""
    refused = None
    ways: List[List[str]] = [[], [case.setting.all_option]]
    for options in ways:
        try:
            outcome = case.outcome(options)
        except ValueError as error:
            give_up(PROGRAM, str(error), 4)
        if outcome.faults:
            return outcome.faults[0], None
        refused = refused or outcome.refused
    return None, refused


def told(given: argparse.Namespace, model: Model, small: Small) -> str:
    fault = small.fault
    asked = " ".join(["", "with", *fault.options]) if fault.options else ""
    return (f"{PROGRAM}: {fault.kind.value}{asked}: {fault.wrong.text}; {small.certainty}; "
            f"{len(small.model.constraints)} of {len(model.constraints)} constraints are left")


def keep(given: argparse.Namespace, setting: Setting, model: Model, small: Small) -> str:
    names = [it.name for it in small.model.constraints]
    cause = cause_of(small.fault, names, small.varies)
    finding = findings.Finding(setting, cause, small, findings.versions_of(setting),
                               f"{PROGRAM} from {given.model}")
    return finding.write(given.output, model)


def main(words: List[str]) -> int:
    given, solver = parsed(parser(), words)
    setting = Setting(checker(PROGRAM), solver, given.all, given.limit,
                      other_solver(PROGRAM, given.reference))
    model = read_model(given.model)
    with tempfile.TemporaryDirectory(prefix=f"{PROGRAM}-") as folder:
        case = Case(setting, model, folder, known_solutions(model, given.known))
        fault, refused = first_fault(case)
        if fault is None:
            why = f"the solver refuses the model: {refused}" if refused else (
                f"{solver[0]} has no fault on {given.model} that is seen here; --known and "
                "--reference show more")
            give_up(PROGRAM, why, 1)
        small = shrunk(setting, case, fault, folder, given.seconds)
    print(small.model.text(), end="")
    print(told(given, model, small), file=sys.stderr)
    if given.output:
        folder = keep(given, setting, model, small)
        print(f"{PROGRAM}: see {folder}", file=sys.stderr)
    return 0


def program() -> NoReturn:
    sys.exit(main(sys.argv[1:]))
