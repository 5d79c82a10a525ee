"""Takes the place of a FlatZinc solver: runs it, passes its output on, and checks it meanwhile.

    FZCHECK_SOLVER=PROGRAM fzcheck-solver [OPTION..] MODEL.fzn

All words are the solver's own. Without FZCHECK_SOLVER --help prints this page, and --version the
version. The output is passed on as it comes, and the status is the solver's, but 1 if a block is
violated; a comment in the output then says so. Standard error has what isn't satisfied, and at last
the answer, or what wasn't checked and why; with FZCHECK_STRICT the status is 1 for all but
`accepted`. docs/MINIZINC.md says what FZCHECK_OPTIONS, FZCHECK_VERBOSE, FZCHECK_HOLD and
FZCHECK_LIBRARY change. One run hands FZCHECK_FOLDER to the next: a folder with the model to check
against and its table of names, in which files `ran` and `violated` are left. With FZCHECK_PATHS the
solver needs the table of names that MiniZinc gives."""
import os
import signal
import subprocess
import sys
from typing import List, NoReturn, Optional, Tuple

from fzcheck.calls import version_words
from fzcheck.solver.checker import Checker
from fzcheck.solver.library import run_against_library
from fzcheck.solver.output import say, write
from fzcheck.solver.pieces import checked, chunks, judged
from fzcheck.solver.processes import SIGNALS, Process, guard, opened, watch
from fzcheck.solver.settings import HOLD, LIBRARY, PATHS

VIOLATED = b'%%%mzn-stat: fzcheck="VIOLATED"\n%%%mzn-stat-end\n'


def run_checked(solver: str, words: List[str]) -> int:
    """Runs the solver with the words, the last of which but for `--paths FILE` is the model."""
    folder = os.environ.get("FZCHECK_FOLDER")
    others, names = without_table(words)
    if folder:
        touch(folder, "ran")
        model, table = (os.path.join(folder, name) for name in ("model.fzn", "names"))
        checker = Checker(model, table, is_shown=False)
    else:
        checker = Checker(others[-1], names, is_shown=names is None)
    if not PATHS:
        words = others
    child = subprocess.Popen([solver, *words], stdout=subprocess.PIPE)
    watcher = None
    try:
        checker.start()
        watcher = watch(child, checker.process)
        guard(child, checker.tell_how_far, checker.kill)
        pass_output_on(child, checker)
        status = child.wait()
    finally:
        child.kill()  # where it hasn't ended
        if watcher:
            watcher.communicate(b"all has ended\n")
    if checker.violated and folder:
        touch(folder, "violated")
    return 1 if checker.fails() else status


def without_table(words: List[str]) -> Tuple[List[str], Optional[str]]:
    """The words without MiniZinc's own, `--paths FILE`, and that file: the compiler's table of
    names, which MiniZinc removes with the model once the solver has ended."""
    if "--paths" not in words[:-1]:
        return words, None
    at = words.index("--paths")
    return words[:at] + words[at + 2 :], words[at + 1]


def pass_output_on(child: Process, checker: Checker) -> None:
    checker.telling.start()
    end = b"\n"
    for piece in (judged if HOLD else checked)(chunks(child), checker):
        if not write(1, piece):
            child.terminate()
            break
        end = piece[-1:] or end
    opened(child.stdout).close()
    closing = checker.end()
    if checker.violated:
        write(1, (b"" if end == b"\n" else b"\n") + VIOLATED)
    say(closing)
    if checker.violated:
        say("VIOLATED")


def touch(folder: str, name: str) -> None:
    open(os.path.join(folder, name), "w", encoding="utf-8").close()


def main(words: List[str]) -> int:
    solver = os.environ.get("FZCHECK_SOLVER")
    if not solver and words in (["--help"], ["-h"], ["--version"]):
        print(version_words("fzcheck-solver") if words == ["--version"] else __doc__)
        return 0
    if not solver or not words:
        say("FZCHECK_SOLVER has to name the solver, and the last word its model")
        return 5
    for number in SIGNALS:  # until there is a solver to pass them on to
        signal.signal(number, lambda number, _: sys.exit(128 + number))
    try:
        return (run_against_library if LIBRARY else run_checked)(solver, words)
    except ValueError as error:
        say(str(error))
        return 5
    except OSError as error:
        say(f"{error.filename or solver}: {error.strerror}")
        return 127


def program() -> NoReturn:
    ended = main(sys.argv[1:])
    sys.exit(ended if ended >= 0 else 128 - ended)
