"""A solver that is checked against the FlatZinc that our library makes of a model."""
import os
import re
import subprocess
import tempfile
from typing import Dict, Iterator, List

from fzcheck import common
from fzcheck.solver.output import say, write
from fzcheck.solver.processes import guard, watch
from fzcheck.solver.settings import STRICT


def inputs(words: List[str]) -> Iterator[str]:
    """Those of MiniZinc's words that say what the model and its data are."""
    rest = iter(words)
    for word in rest:
        if word in ("-D", "--cmdline-data", "--cmdline-json-data", "-I", "--search-dir",
                    "-d", "--data", "-m", "--model"):
            yield from (word, next(rest, ""))
        elif re.match(r"-[DI]|.*\.(mzn|dzn|json)$", word):
            yield word


def run_against_library(solver: str, words: List[str]) -> int:
    """Runs MiniZinc's solver, a checked one, with the words, against what our library makes."""
    minizinc = "minizinc"
    if "--minizinc-exe" in words:
        minizinc = words.pop(words.index("--minizinc-exe") + 1)
        words.remove("--minizinc-exe")
    environment = {**os.environ, "FZCHECK_LIBRARY": "0"}
    with tempfile.TemporaryDirectory(prefix="fzcheck") as folder:
        compiled = subprocess.run(
            [minizinc, "--solver", common.library(), "-c", "--no-output-ozn",
             *inputs(words), "--output-paths-to-file", os.path.join(folder, "names"),
             "--fzn", os.path.join(folder, "model.fzn")], capture_output=True, text=True)
        if compiled.returncode == 0:
            environment["FZCHECK_FOLDER"] = folder
        else:
            say(f"{compiled.stderr.strip()}\nfzcheck: not compiled with our library, so it is "
                "checked against the solver's own FlatZinc")
        status = run_minizinc([minizinc, "--solver", solver, *words], environment)
        if os.path.exists(os.path.join(folder, "violated")):
            write(1, b"fzcheck: VIOLATED\n")
            status = 1
        if compiled.returncode == 0 and not os.path.exists(os.path.join(folder, "ran")):
            say("nothing was checked: MiniZinc ran no solver")
            status = status or int(STRICT)
    return status


def run_minizinc(words: List[str], environment: Dict[str, str]) -> int:
    child = subprocess.Popen(words, env=environment)
    watcher = watch(child)
    guard(child)
    status = child.wait()
    watcher.communicate(b"all has ended\n")
    return status
