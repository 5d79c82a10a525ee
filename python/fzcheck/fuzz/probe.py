"""Learns what a solver takes, by a plain model for each name, and a few for declarations."""
import random
import tempfile
from typing import Callable, Iterable, List, Optional

from fzcheck.flatzinc import Model, Reader
from fzcheck.fuzz.checking import Setting
from fzcheck.fuzz.features import (
    CHOICES, MOST_NUMBER, SATISFY, SELECTS, SOME_INTEGER, STANDARD, Feature, Taken, search_note)
from fzcheck.fuzz.faults import Kind, Outcome
from fzcheck.fuzz.judge import Case
from fzcheck.fuzz.make import Maker, Shape

LARGEST = (MOST_NUMBER // 2, 2**53, 2**31 - 3, 2**24, 2**15)
MOST_LIMIT, MOST_PRINTED = 2, 2**20  # seconds and bytes of a probe
MOST_MAKING = 5  # times that a model for a name is made
TOGETHER = "var bool: x0 :: output_var;\nvar set of 1..3: x1 :: output_var;\n" \
    "var {1,3,4}: x2 :: output_var :: is_defined_var;\nvar int: x3 :: output_var;\n" \
    "var 1..3: x4 :: output_var;\nvar 1..3: x5 :: output_var = x4;\nint: p = 1;\n" \
    "array [1..2] of int: a1 = [1,2];\narray [1..2] of var int: a2 = [x4,x4];\n" \
    "array [1..2] of var int: a3 :: output_array([1..2]) = [x4,x5];\n" \
    f"solve :: {search_note(SELECTS[0], CHOICES[0], '[x4]')} minimize x4;\n"  # all features


def in_folder(ask: Callable[[str], Taken]) -> Taken:
    with tempfile.TemporaryDirectory(prefix="fzcheck-fuzz-") as folder:
        return ask(folder)


class Prober:
    def __init__(self, setting: Setting, seed: str, folder: str) -> None:
        self.setting = setting._replace(limit=min(setting.limit, MOST_LIMIT), reference=[],
                                        most_printed=MOST_PRINTED)
        self.seed, self.folder = seed, folder

    def ask(self, model: Model, options: Optional[List[str]] = None) -> Outcome:
        return Case(self.setting, model, self.folder).outcome(options or [])

    def takes(self, text: str, options: Optional[List[str]] = None) -> bool:
        return self.ask(Reader(text).model(), options).refused is None

    def declarations(self) -> Taken:
        """All but names. What a solver takes together it takes alone."""
        found = Taken()
        plainest = self.ask(Reader(SOME_INTEGER + SATISFY).model())
        if any(it.kind in (Kind.SLOW, Kind.ENDLESS) for it in plainest.faults):
            found.is_stuck = True
            return found
        found.features = set(Feature) if self.takes(TOGETHER) else {
            it for it in Feature if self.takes(it.value)}
        found.takes_all = self.takes(SOME_INTEGER + SATISFY, [self.setting.all_option])
        found.largest = next((it for it in LARGEST if self.takes(
            f"var {it - 1}..{it}: x :: output_var;\n" + SATISFY)), 100)
        if Feature.SEARCH in found.features:
            found.selects = self.words(SELECTS, lambda it: search_note(it, CHOICES[0]))
            found.choices = self.words(CHOICES, lambda it: search_note(SELECTS[0], it))
        return found

    def words(self, words: Iterable[str], note: Callable[[str], str]) -> List[str]:
        def are_taken(notes: List[str]) -> bool:
            text = notes[0] if len(notes) == 1 else f"seq_search([{','.join(notes)}])"
            return self.takes(SOME_INTEGER + f"solve :: {text} satisfy;\n")

        every = list(words)
        if are_taken([note(it) for it in every]):
            return every
        return [it for it in every if are_taken([note(it)])]

    def family(self, names: List[str], found: Taken) -> None:
        """A name and its reified forms. Where a solver doesn't take a global constraint, it isn't
        asked for forms of it."""
        if found.is_stuck:
            found.names += names
            return
        for name in names:
            is_asked = name == names[0] or name.startswith(STANDARD) or names[0] in found.names
            outcome = self.name(name, found) if is_asked else None
            if outcome is None or outcome.refused is not None:
                found.refused.append(name)
                continue
            found.names.append(name)
            if outcome.faults:
                found.faulty.add(name)

    def name(self, name: str, found: Taken) -> Optional[Outcome]:
        """What the solver shows on a model of the name; none where there is none to be made of
        what the solver takes."""
        maker = made_for(name, self.seed, found)
        if maker is None:
            return None
        options = [self.setting.all_option] if found.takes_all else []
        return Case(self.setting, maker.model, self.folder, maker.known).outcome(options)


def made_for(name: str, seed: str, taken: Taken) -> Optional[Maker]:
    """The plain model by which it is asked whether a name is taken: each time the same."""
    rand = random.Random(f"{seed} {name}")
    for _ in range(MOST_MAKING):
        maker = Maker(rand, Shape.PLAIN, taken, None)
        if any(it.name == name for it in maker.make([name]).constraints):
            return maker
    return None
