"""The command line of fzcheck-mzn."""
from typing import Dict, Iterator, List, NamedTuple, Optional

from fzcheck.mzn.fitting import did_you_mean
from fzcheck.mzn.model import Inputs

OF_CHECK = ("--large", "--complete", "--cut", "--claims", "--claims=prove", "--explain",
            "--explain=all")
VALUED_OF_CHECK = ("--complete-steps", "--tree")
OWN = ("--strict", "--first", "--flatzinc", "--json")
VALUED = ("--output", "--keep", "--known", "--html")
WITH_DATA = ("-D", "--cmdline-data", "--cmdline-json-data")
WITH_FOLDER = ("-I", "--search-dir")
WITH_FILE = ("-d", "--data", "-m", "--model")
OPTIONS = (*OF_CHECK, *VALUED_OF_CHECK, *OWN, *VALUED, *WITH_DATA, *WITH_FOLDER, *WITH_FILE, "-o",
           "-h", "--help", "--version")
ENDINGS = (".mzn", ".dzn", ".json")


class Words(NamedTuple):
    inputs: Inputs
    plan: Optional[str]  # its file, or else standard input
    folder: Optional[str]  # where to keep what was made
    page: Optional[str]  # the file of the page
    known: List[str]  # the files of other plans
    own: List[str]  # the options of OWN that are given
    options: List[str]  # of `fzcheck check`

    def has(self, option: str) -> bool:
        return option in self.own


class Wrong(Exception):
    """Words of the command line that aren't known."""


def words_of(words: List[str]) -> Words:
    inputs = Inputs([], [], [])
    options: List[str] = []
    own: List[str] = []
    values: Dict[str, List[str]] = {name: [] for name in VALUED}
    rest = separated(words)
    for word in rest:
        if word in VALUED:
            values[word].append(argument(word, rest))
        elif word in VALUED_OF_CHECK:
            options += [word, argument(word, rest)]
        elif word in OF_CHECK:
            options.append(word)
        elif word in OWN:
            own.append(word)
        elif word == "-":
            values["--output"].append(word)
        else:
            add_input(inputs, word, rest)
    if not any(path.endswith(".mzn") for path in inputs.files):
        raise Wrong("there is no MODEL.mzn")
    plan = last(values["--output"])
    return Words(inputs, None if plan == "-" else plan, last(values["--keep"]),
                 last(values["--html"]), values["--known"], own, options)


def separated(words: List[str]) -> Iterator[str]:
    """The words, with an option and its value apart that stand in one, and `-o` written out."""
    for word in words:
        name, equals, value = word.partition("=")
        if word.startswith("-o"):
            name, equals, value = "--output", word[2:], word[2:].lstrip("=")
        if name in (*VALUED, *VALUED_OF_CHECK):
            yield from (name, value) if equals else (name,)
        else:
            yield word


def last(values: List[str]) -> Optional[str]:
    return values[-1] if values else None


def argument(word: str, rest: Iterator[str]) -> str:
    for following in rest:
        return following
    raise Wrong(f"{word} wants a word behind it")


def add_input(inputs: Inputs, word: str, rest: Iterator[str]) -> None:
    """Adds what tells the compiler what the model and its data are."""
    found = [word]
    if word in WITH_DATA + WITH_FOLDER + WITH_FILE:
        found.append(argument(word, rest))
    is_folder = word in WITH_FOLDER or word.startswith("-I")
    is_file = word in WITH_FILE or word.endswith(ENDINGS) and word[0] != "-"
    if not (is_file or is_folder or word.startswith("-D") or word in WITH_DATA):
        raise Wrong(unknown(word))
    inputs.words.extend(found)
    if is_folder:
        inputs.folders.append(found[1] if len(found) > 1 else word[2:])
    if is_file:
        inputs.files.append(found[-1])


def unknown(word: str) -> str:
    """What is wrong with a word that is no option and no file of MiniZinc."""
    if word.startswith("-"):
        return f"{word}: there is no such option{did_you_mean(word, OPTIONS)}"
    return f"{word}: a model ends in .mzn, data in .dzn or .json; a plan is named by --output FILE"
