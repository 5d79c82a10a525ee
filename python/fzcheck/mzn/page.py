"""A page of a plan, as HTML: the verdict, what fails, tables of its values, and charts."""
import itertools
import os
from html import escape
from string import Template
from typing import Any, Dict, Iterator, List, Sequence

from fzcheck.mzn.chart import Task, charts
from fzcheck.mzn.failures import Failure
from fzcheck.mzn.groups import grouped, shown
from fzcheck.mzn.items import item_of
from fzcheck.mzn.sources import shown_path
from fzcheck.mzn.svg import drawn
from fzcheck.mzn.tables import Notes, Tables
from fzcheck.mzn.told import Told
from fzcheck.mzn.wording import printed_values

MOST_NAMED = 4  # constraints in the headline
TEMPLATE = os.path.join(os.path.dirname(__file__), "page.html")


def page(told: Told, files: Sequence[str]) -> str:
    """The text of the page. `files` are those of the model and its data."""
    body = Body(told, ", ".join(map(shown_path, files)))
    with open(TEMPLATE, encoding="utf-8") as file:
        template = Template(file.read())
    return template.substitute(
        title=escape(f"{body.files}: {body.verdict}"), body="\n".join(body.parts()))


class Body:
    """The parts of a page, which shows one solution: that of the answer, or the last."""

    def __init__(self, told: Told, files: str) -> None:
        self.told, self.files = told, files
        self.answer: Dict[str, Any] = next((it for it in told.objects if "answer" in it), {})
        solutions = told.source.solutions
        self.block = int(self.answer.get("block", len(solutions)))
        self.solution = solutions[self.block - 1] if self.block else None
        model = told.wording.model
        self.printed = printed_values(model, self.solution) if self.solution else {}
        self.groups = grouped([one for one in told.failures if one.block == self.block])
        failures = [failure for group in self.groups for failure in group.failures]
        self.notes = Notes({}, [failure.head for failure in failures])
        for number, failure in enumerate(failures, 1):
            same = (told.wording.same.get(one, [one]) for one in failure.clashing)
            for element in dict.fromkeys(itertools.chain.from_iterable(same)):
                self.notes.numbers.setdefault(element, []).append(number)
        self.tables = Tables(model, self.printed, self.notes)

    @property
    def verdict(self) -> str:
        return str(self.answer.get("answer", "refused"))

    def parts(self) -> Iterator[str]:
        yield from self.head()
        if self.groups:
            yield f"<h2>What {'fails' if self.verdict == 'rejected' else 'is open'}</h2>"
            yield from self.failing()
        if self.solution:
            yield "<h2>The plan</h2>"
            yield from self.tables.html(self.solution)
        found = charts(self.told, self.printed)
        if found:
            yield "<h2>Charts</h2>"
        for chart in found:
            yield f"<figure><h3>{escape(chart.title)}</h3>"
            left_out = sum(lane.left_out for lane in chart.lanes)
            if left_out:
                yield f"<p>Left out: {left_out} of which not every number is printed.</p>"
            yield f"{drawn(chart, self.note)}</figure>"
        if self.verdict == "accepted":
            yield from self.holding()

    def head(self) -> Iterator[str]:
        yield f'<header class="{self.verdict.replace(" ", "-")}">'
        yield f"<h1>{escape(self.headline())}</h1>"
        count = len(self.told.source.solutions)
        which = f", solution {self.block} of {count}" if count > 1 else ""
        yield f"<p>{escape(f'{self.files}; plan: {self.told.source.plan}{which}')}</p>"
        yield "</header>"
        yield "<pre>{}</pre>".format(escape("\n".join(self.told.report())))

    def headline(self) -> str:
        if self.verdict == "accepted":
            return "Accepted: every constraint holds"
        names = list(dict.fromkeys(group.failures[0].subject for group in self.groups))
        if self.verdict != "rejected" or not names:
            why = f": {self.answer['why']}" if "why" in self.answer else ""
            return f"{self.verdict.capitalize()}{why}"
        if len(names) == 1:
            return f"Rejected: {names[0]} fails"
        last = names[-1] if len(names) <= MOST_NAMED else f"{len(names) - MOST_NAMED + 1} more"
        return f"Rejected: {', '.join(names[:-1][:MOST_NAMED - 1])} and {last} fail"

    def failing(self) -> Iterator[str]:
        """What fails, by groups; the failures are numbered through."""
        number = 1
        for group in self.groups:
            first = group.failures[0]
            place = f' <span class="place">{escape(str(first.place))}</span>' if first.place else ""
            yield f"<section><h3>{escape(group.what)}{place}</h3>"
            yield source_line(first)
            yield f'<ol start="{number}">'
            for at, failure in enumerate(group.failures, number):
                yield f'<li id="f{at}">{described(failure)}</li>'
            number += len(group.failures)
            yield "</ol></section>"

    def note(self, task: Task) -> str:
        return self.notes.text(task.elements)

    def holding(self) -> Iterator[str]:
        """The constraints that have names in the model."""
        names: Dict[str, str] = {}
        for line in self.told.items.constraints:
            name, path = self.told.items.subject(line), self.told.items.row(line).path
            if name.startswith('"'):
                names.setdefault(name, "{0.path}:{0.line}".format(item_of(path)) if path else "")
        if names:
            yield "<h2>What holds</h2>\n<ul>"
            for name, place in names.items():
                yield f'<li>{escape(name)} <span class="place">{escape(place)}</span></li>'
            yield "</ul>"


def source_line(failure: Failure) -> str:
    """The line of the model, in which what fails is marked."""
    if failure.place is None or not failure.source:
        return ""
    at, end = failure.place.column - 1, failure.place.column - 1 + failure.place.length
    front, marked, back = (escape(text) for text in (
        failure.source[:at], failure.source[at:end], failure.source[end:]))
    return f"<pre>{failure.place.line} | {front}<mark>{marked}</mark>{back}</pre>"


def described(failure: Failure) -> str:
    """A failure, with what is behind it."""
    values = f"<b>{escape(failure.values)}</b>: " if failure.values else ""
    reasons = "".join(f"{escape(reason)}. " for reason in failure.reasons)
    facts: List[str] = shown(failure._replace(reasons=()))
    return f'{values}{reasons}<span class="facts">{escape("; ".join(facts))}</span>'
