"""The command lines of fzcheck-fuzz and fzcheck-shrink, behind whose `--` the solver stands."""
import argparse
import re
import shlex
import shutil
import sys
from typing import List, NoReturn, Optional, Tuple

from fzcheck import common
from fzcheck.calls import version_words

UNRECOGNISED = re.compile(r"unrecognized arguments: (\S+)")
BEFORE_DASHES = ("--all", "--numbers", "--reference")  # options whose value may begin with a dash


def give_up(program: str, text: str, status: int) -> NoReturn:
    print(f"{program}: {text}", file=sys.stderr)
    sys.exit(status)


class Parser(argparse.ArgumentParser):
    """Ends with status 5 where the words are wrong, as fzcheck does, and says what is near."""

    def error(self, message: str) -> NoReturn:
        found = UNRECOGNISED.search(message)
        word = found[1].partition("=")[0] if found else ""
        near = common.meant(word, self._option_string_actions) if word else ""
        give_up(self.prog, f"{message}{near} (--help tells more)", 5)


class Version(argparse.Action):
    """Prints the version of the program that judges."""

    def __call__(self, parser: argparse.ArgumentParser, *rest: object) -> None:
        print(version_words(parser.prog))
        parser.exit()


def add_common(parser: Parser) -> None:
    """The options that both programs have."""
    add = parser.add_argument
    add("--limit", type=int, default=10, help="seconds of a run, of the processor (10)")
    add("--all", default="-a", help="the solver's option for all solutions (-a)")
    add("--reference", metavar="SOLVER", help="another solver with its options, in quotes, whose "
        "satisfied solutions are compared with SOLVER's claims")
    add("-V", "--version", action=Version, nargs=0, help="print the version")


def joined(words: List[str], options: Tuple[str, ...]) -> List[str]:
    """The words, with `=` behind options whose value may begin with a dash."""
    found: List[str] = []
    for word in words:
        if found and found[-1] in options:
            found[-1] += f"={word}"
        else:
            found.append(word)
    return found


def parsed(parser: Parser, words: List[str]) -> Tuple[argparse.Namespace, List[str]]:
    """The program's own words, and the solver with its options, which has to be there."""
    at = words.index("--") if "--" in words else len(words)
    given, solver = parser.parse_args(joined(words[:at], BEFORE_DASHES)), words[at + 1 :]
    if not solver:
        give_up(parser.prog, "after -- a solver was expected (--help tells more)", 5)
    find(parser.prog, solver[0])
    return given, solver


def find(program: str, name: str) -> None:
    if not shutil.which(name):
        give_up(program, f"{name}: there is no such program", 6)


def other_solver(program: str, given: Optional[str]) -> List[str]:
    words = shlex.split(given or "")
    if words:
        find(program, words[0])
    return words


def checker(program: str) -> str:
    found = common.program()
    if not found:
        give_up(program, "fzcheck isn't on the path", 6)
    return found
