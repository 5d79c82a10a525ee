"""Failures by what fails: `"cover" fails 3 times: with d = 1, s = Early; d = 2, s = Early; ..`."""
from typing import Dict, Iterator, List, NamedTuple, Tuple

from fzcheck.mzn.failures import NAMELESS, Failure

MOST_LISTED = 12  # failures of a group in its head
MOST_SHOWN = 3  # failures of a group that are shown with their values
MOST_FACTS, LAST_FACTS = 12, 4  # values of a failure: of more the first ones and the last
MOST_COLUMNS = 120
TIMES = {1: "", 2: " twice"}


class Group(NamedTuple):
    """What fails in a block, as often as it does."""
    failures: List[Failure]

    @property
    def what(self) -> str:
        """What fails, and how often."""
        first, count = self.failures[0], len(self.failures)
        subject = "the constraint" if first.subject == NAMELESS else first.subject
        return f"{subject} {first.verb}{TIMES.get(count, f' {count} times')}"

    @property
    def head(self) -> str:
        """The same with its place, and the values of loop variables with which it fails."""
        place = self.failures[0].place
        listed = list(dict.fromkeys(", ".join(one.loops) for one in self.failures if one.loops))
        left = len(listed) - MOST_LISTED
        with_values = "; ".join(listed[:MOST_LISTED]) + (f"; and {left} more" if left > 0 else "")
        front = f"{place}: " if place else ""
        return f"{front}{self.what}" + (with_values and f": with {with_values}")

    def lines(self, with_flatzinc: bool) -> Iterator[str]:
        """The group with its line of the model, and the values of its first failures."""
        yield self.head
        yield from excerpt(self.failures[0])
        is_single = len(self.failures) == 1
        for failure in self.failures[:MOST_SHOWN]:
            if not is_single and failure.values:
                yield f"      {failure.values}:"
            for line in shown(failure):
                yield f"      = {line}"
            for line in failure.flatzinc if with_flatzinc else ():
                yield f"      | {line[:MOST_COLUMNS]}"
        if len(self.failures) > MOST_SHOWN:
            yield f"      ... and {len(self.failures) - MOST_SHOWN} more ..."


def grouped(failures: List[Failure]) -> List[Group]:
    groups: Dict[Tuple[object, ...], Group] = {}
    for failure in failures:
        place = failure.place if failure.subject == NAMELESS else None
        key = failure.block, failure.subject, place
        groups.setdefault(key, Group([])).failures.append(failure)
    return list(groups.values())


def excerpt(failure: Failure) -> Iterator[str]:
    """The line of the model, or the plan, with what is meant in it underlined."""
    if failure.place is None or not failure.source:
        return
    number, at = str(failure.place.line), failure.place.column - 1
    line = failure.source.replace("\t", " ")[:MOST_COLUMNS]
    length = max(1, min(failure.place.length, len(line) - at))
    yield f"   {number} | {line}"
    if at < len(line):
        yield f"   {' ' * len(number)} | {' ' * at}{'^' * length}"


def shown(failure: Failure) -> List[str]:
    """What is said of a failure, and of the variables behind it."""
    facts = [fact.text for fact in failure.facts]
    if len(facts) > MOST_FACTS:
        left = len(facts) - MOST_FACTS
        first = MOST_FACTS - LAST_FACTS
        facts[first:-LAST_FACTS] = [f"... and {left} more ..."]
    return [*failure.reasons, *facts]
