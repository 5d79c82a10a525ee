"""What fzcheck-fuzz says at its end: in words, as JSON, and as JUnit's cases."""
from dataclasses import dataclass, field
from typing import Any, Dict, List

from fzcheck import junit
from fzcheck.fuzz.faults import Cause
from fzcheck.fuzz.features import Taken, base_of
from fzcheck.fuzz.search import Tally
from fzcheck.fuzz.shrink import Small

WIDTH = 100
MOST_MESSAGES = 12


@dataclass
class Told:
    """A cause, with the small model of it, and the folder that it is in."""

    cause: Cause
    small: Small
    folder: str


@dataclass
class Summary:
    """All that a run has to say."""

    seed: str
    given: List[str]  # the names that were to be asked for
    unknown: List[str]  # the names that fzcheck doesn't know
    taken: Taken = field(default_factory=Taken)
    tally: Tally = field(default_factory=Tally)
    found: List[Told] = field(default_factory=list)
    seconds: float = 0.0

    def times(self, cause: Cause) -> int:
        return sum(count for it, count in self.tally.causes.items() if it.key == cause.key)

    def as_json(self) -> Dict[str, Any]:
        tally = self.tally
        return {
            "seed": self.seed,
            "seconds": round(self.seconds, 1),
            "models": tally.models,
            "runs": tally.runs,
            "undecided": tally.undecided,
            "faults": [self.fault_as_json(it) for it in self.found],
            "known": dict(tally.known),
            "taken": {name: tally.used[name] for name in self.taken.names},
            "refused": self.taken.refused,
            "unasked": self.taken.unasked,
            "not_known": self.unknown,
            "messages": dict(tally.messages.most_common()),
        }

    def fault_as_json(self, it: Told) -> Dict[str, Any]:
        return {
            "cause": str(it.cause),
            "kind": it.cause.kind.value,
            "builtins": sorted({one.name for one in it.small.model.constraints}),
            "text": it.small.fault.wrong.text,
            "times": self.times(it.cause),
            "seen": it.small.seen,
            "of": it.small.times,
            "folder": it.folder,
        }

    def as_text(self) -> str:
        tally, taken = self.tally, self.taken
        lines = [f"seed {self.seed}: {tally.models} models, {tally.runs} runs in "
                 f"{self.seconds:.1f} seconds; {tally.undecided} runs undecided",
                 "taken by the solver, and in how many models:",
                 wrapped([f"{name} {tally.used[name]}" for name in taken.names])]
        bases = [it for it in taken.refused if base_of(it) == it]
        forms = [it for it in taken.refused if base_of(it) != it and base_of(it) not in bases]
        for title, words in (("refused, and their reified forms not asked for:", bases),
                             ("refused:", forms),
                             ("not asked for, for lack of time:", taken.unasked),
                             ("not known to fzcheck, and not tried:", self.unknown)):
            lines += [title, wrapped(words)] if words else []
        if tally.messages:
            lines.append("models that the solver refused, by its words:")
            lines += [f"  {count} {it}" for it, count in tally.messages.most_common(MOST_MESSAGES)]
        if tally.known:
            lines.append("known faults, and how often they were met:")
            lines += [f"  {it}; {count} times" for it, count in tally.known.most_common()]
        return "\n".join(lines + self.faults_as_text())

    def faults_as_text(self) -> List[str]:
        if not self.found:
            return ["no faults but the known ones" if self.tally.known else "no faults"]
        times = sum(self.times(it.cause) for it in self.found)
        lines = [f"faults: {len(self.found)} causes, {times} times"]
        for it in self.found:
            lines += [f"  {it.cause}; {self.times(it.cause)} times, {it.small.certainty}, see "
                      f"{it.folder}", f"    {it.small.fault.wrong.text}"]
        return lines

    def cases(self) -> List[junit.Case]:
        """A case for each name, and one for each cause that isn't of a name."""
        failures: Dict[str, str] = {}
        others: List[junit.Case] = []
        for it in self.found:
            text = f"{it.cause}\n{it.small.fault.wrong.text}\n{it.small.certainty}, see {it.folder}"
            failures.update(dict.fromkeys(it.cause.names, text))
            if not it.cause.names:
                others.append(junit.Case("fzcheck-fuzz", str(it.cause), failure=text))
        others += [junit.Case("fzcheck-fuzz", it, skipped=f"known, and met {count} times")
                   for it, count in self.tally.known.items()]
        skipped = [*((it, "the solver refuses it") for it in self.taken.refused),
                   *((it, "not asked for, for lack of time") for it in self.taken.unasked)]
        names = [junit.Case("builtins", it, failure=failures.get(it)) for it in self.taken.names]
        return [*others, *names, *(junit.Case("builtins", it, skipped=why) for it, why in skipped)]


def wrapped(words: List[str]) -> str:
    lines = [""]
    for word in words:
        if len(lines[-1]) + len(word) + 1 > WIDTH - 1:
            lines.append("")
        lines[-1] += f" {word}"
    return "\n".join(f" {line}" for line in lines)
