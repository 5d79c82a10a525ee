"""Which builtins are to be tried: a list, a file of names, or what MiniZinc files declare."""
import os
import re
from typing import Iterable, List, NamedTuple, Optional, Sequence, Set

from fzcheck.fuzz.features import ALL_NAMES, STANDARD
from fzcheck.fuzz.own import Base

PREDICATE = re.compile(r"^\s*predicate\s+(\w+)\s*\(([^;]*?)\)\s*(=|;)", re.MULTILINE)
COMMENT = re.compile(r"%[^\n]*")


class Names(NamedTuple):
    """Those to try, and those that aren't known to fzcheck."""

    known: List[str]
    unknown: List[str]


def names_of(given: Optional[str], files: Sequence[str], bases: Sequence[Base]) -> Names:
    """OSError where a file can't be read."""
    if files:
        return of_library(files)
    if given is not None:
        words = given.split(",")
        if os.path.exists(given):
            with open(given, encoding="utf-8", errors="replace") as file:
                words = file.read().replace(",", " ").split()
        return sorted_out(words)
    if bases:
        return sorted_out({it.name for base in bases for it in base.model.constraints})
    return Names(ALL_NAMES, [])


def sorted_out(words: Iterable[str]) -> Names:
    every, known = list(words), set(ALL_NAMES)
    return Names(sorted(it for it in every if it in known),
                 sorted(it for it in every if it not in known))


def of_library(files: Sequence[str]) -> Names:
    """Those that MiniZinc files declare without a body, and the Handbook's that they give none."""
    declared: Set[str] = set()
    defined: Set[str] = set()
    for path in sorted(path for it in files for path in paths_of(it)):
        with open(path, encoding="utf-8", errors="replace") as file:
            text = COMMENT.sub("", file.read())
        for name, _, sign in PREDICATE.findall(text):
            (declared if sign == ";" else defined).add(name)
    standard = {it for it in ALL_NAMES if it.startswith(STANDARD)} - defined
    return sorted_out(declared | standard)


def paths_of(given: str) -> List[str]:
    if not os.path.isdir(given):
        return [given]
    return [os.path.join(given, it) for it in os.listdir(given) if it.endswith(".mzn")]
