"""Judges a season: many models, and the streams of many solvers on them.

    fzcheck-batch run --models DIR --streams 'DIR/{solver}/{model}.out' --results DIR [OPTIONS]
    fzcheck-batch report --results DIR [--html FILE] [--csv FILE] [--scores FILE] [--junit FILE]
    fzcheck-batch merge --results DIR FOLDER..

docs/ORGANISERS.md shows how to use them, on one machine and on several.
"""
import argparse
import os
import signal
import sys
from typing import Dict, List, NoReturn, Tuple

from fzcheck import common
from fzcheck.batch.job import Limits, Setting, limits_of
from fzcheck.batch.results import Store, merge
from fzcheck.batch.run import check_words, run
from fzcheck.batch.season import Templates, season, shard_of, sum_of, tell
from fzcheck.batch.table import Files, report
from fzcheck.calls import Error, version, version_words

WRONG_WORDS, NOT_READ = 5, 6
ALWAYS = ("--claims", "--explain", "--json")  # options of check
RUN_TEXT = """Judges each stream against its model, and the claims. Other words are options of
`fzcheck check`, such as --complete, --cut or --claims=prove."""
RESULTS = ("--results", "DIR", "the folder of results")
REQUIRED = ("--results", "--models", "--streams")
# Of each command what it does, and its options, each with what it takes and what it is for.
COMMANDS: Dict[str, Tuple[str, Tuple[Tuple[str, str, str], ...]]] = {
    "run": (RUN_TEXT, (
        RESULTS,
        ("--models", "DIR", "the folder of the models NAME.fzn"),
        ("--streams", "TEMPLATE", "where the streams are, with {solver} and {model}"),
        ("--times", "TEMPLATE", "files with the times of blocks, as of `minizinc --output-time`"),
        ("--status", "TEMPLATE", "files with what `time -v` or `runsolver -v` said"),
        ("--names", "TEMPLATE", "tables of names, with {model}"),
        ("--limit", "cpu=SECONDS,memory=BYTES,time=SECONDS",
         "what one job may take; 4G is 4 GiB (no limit)"),
        ("--shard", "I/N", "the I-th of N shares"))),
    "report": ("Reports who is wrong where.", (
        RESULTS,
        ("--html", "FILE", "writes a page"),
        ("--title", "TEXT", "the page's title"),
        ("--csv", "FILE", "writes a table, a line for each pair"),
        ("--scores", "FILE", "writes the scores, a line for each solver"),
        ("--junit", "FILE", "writes JUnit's form, a case for each stream"))),
    "merge": ("Takes over the results of other folders.", (RESULTS,)),
}


class Parser(argparse.ArgumentParser):
    """Wrong words have the status that they have for fzcheck."""

    def error(self, message: str) -> NoReturn:
        self.print_usage(sys.stderr)
        raise ValueError(message)


def parser() -> argparse.ArgumentParser:
    """The words of the three commands."""
    whole = Parser(prog="fzcheck-batch", allow_abbrev=False,
                   description=(__doc__ or "").split("\n")[0])
    whole.add_argument("--version", action="store_true", help="print the version")
    commands = whole.add_subparsers(dest="command", metavar="|".join(COMMANDS))
    for name, (text, options) in COMMANDS.items():
        command = commands.add_parser(name, help=text.split(". ")[0].rstrip("."),
                                      description=text, allow_abbrev=False)
        for option, value, told in options:
            command.add_argument(option, metavar=value, help=told, required=option in REQUIRED)
        if name == "run":
            command.add_argument("-j", type=int, default=len(os.sched_getaffinity(0)), metavar="N",
                                 help="so many jobs side by side (all processors)")
        elif name == "merge":
            command.add_argument("folders", nargs="+", metavar="FOLDER")
    return whole


def near_option(command: str, word: str) -> str:
    """What is said of a word that is nearly an option of a command."""
    return common.meant(word.split("=")[0], (option for option, _, _ in COMMANDS[command][1]))


def options_of(words: List[str]) -> Tuple[str, ...]:
    """The options of check, with those that a batch always has."""
    for word in words:
        if word.split("=")[0] == "--known":
            raise ValueError("--known isn't told: the other solvers' streams are")
    return tuple(common.with_defaults(words, ALWAYS))


def setting_of(arguments: argparse.Namespace, words: List[str]) -> Setting:
    program = common.needed_program()
    limits = limits_of(arguments.limit) if arguments.limit else Limits()
    return Setting(program, sum_of(program), version(), options_of(words), limits,
                   arguments.limit or "", Store(arguments.results))


def run_season(arguments: argparse.Namespace, words: List[str]) -> int:
    setting = setting_of(arguments, words)
    wrong = check_words(setting)
    if wrong or arguments.j < 1:
        near = "".join(filter(None, (near_option("run", word) for word in words)))
        raise ValueError(f"{wrong}{near}" or "-j wants at least one")
    templates = Templates(arguments.streams, arguments.times, arguments.status)
    found = season(arguments.models, templates, shard_of(arguments.shard or "1/1"))
    for line in found.told:
        tell(line)
    if not found.pairs and not arguments.shard:
        tell("there is no stream with a model")
        return NOT_READ
    return 0 if run(setting, found, arguments.names, arguments.j) else NOT_READ


def report_season(arguments: argparse.Namespace) -> int:
    files = Files(arguments.html, arguments.csv, arguments.scores, junit=arguments.junit)
    if arguments.title:
        files = files._replace(title=arguments.title)
    return report(Store(arguments.results), files)


def merge_seasons(arguments: argparse.Namespace) -> int:
    count, differing = merge(Store(arguments.results), [Store(path) for path in arguments.folders])
    for line in differing:
        tell(line)
    print(f"{count} results, {len(differing)} of them differ from those before")
    return 1 if differing else 0


def main(words: List[str]) -> int:
    if words and not words[0].startswith("-") and words[0] not in COMMANDS:
        parser().error(f"{words[0]} is no command{common.meant(words[0], COMMANDS)}")
    arguments, others = parser().parse_known_args(words)
    if arguments.version:
        print(version_words("fzcheck-batch"))
        return 0
    if not arguments.command:
        near = common.meant(others[0], ("--help", "--version")) if others else ""
        parser().error(f"a command is missing: {', '.join(COMMANDS)}{near}")
    if arguments.command == "run":
        return run_season(arguments, others)
    if others:
        near = near_option(arguments.command, others[0])
        parser().error(f"unexpected {others[0]}{near}")
    return report_season(arguments) if arguments.command == "report" else merge_seasons(arguments)


def stop(number: int, _: object) -> None:
    sys.exit(128 + number)


def program() -> NoReturn:
    for stopping in (signal.SIGINT, signal.SIGTERM, signal.SIGHUP):
        if signal.getsignal(stopping) != signal.SIG_IGN:
            signal.signal(stopping, stop)
    try:
        sys.exit(main(sys.argv[1:]))
    except ValueError as error:
        tell(str(error))
        sys.exit(WRONG_WORDS)
    except (OSError, Error) as error:
        file, reason = getattr(error, "filename", None), getattr(error, "strerror", None)
        tell(f"{file}: {reason}" if file else str(reason or error))
        sys.exit(NOT_READ)
