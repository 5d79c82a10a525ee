"""Writes what was judged in the form that pytest gives its reports (`--junit-xml`), which servers
that run jobs read."""
import re
import time
from typing import Iterable, List, NamedTuple, Optional
from xml.sax.saxutils import escape, quoteattr

NOT_IN_XML = re.compile("[^\t\n\r\x20-\ud7ff\ue000-\ufffd\U00010000-\U0010ffff]")


class Case(NamedTuple):
    """What was judged: it passes, fails by the text `failure`, or wasn't judged, as `skipped`
    says. The first line of a text is its message."""

    group: str
    name: str
    seconds: float = 0.0
    failure: Optional[str] = None
    skipped: Optional[str] = None

    def text(self) -> str:
        head = (f"<testcase classname={quoted(self.group)} name={quoted(self.name)} "
                f'time="{self.seconds:.3f}"')
        if self.failure is not None:
            return f"{head}>{part('failure', self.failure)}</testcase>"
        if self.skipped is not None:
            return f"{head}>{part('skipped', self.skipped)}</testcase>"
        return f"{head} />"


def readable(text: str) -> str:
    return NOT_IN_XML.sub("?", text)


def quoted(text: str) -> str:
    return quoteattr(readable(text))


def part(name: str, text: str) -> str:
    message = (text.splitlines() or [""])[0]
    return f"<{name} message={quoted(message)}>{escape(readable(text))}</{name}>"


def write(path: str, suite: str, cases: Iterable[Case]) -> None:
    own: List[Case] = list(cases)
    seconds = sum(it.seconds for it in own)
    failures = sum(it.failure is not None for it in own)
    skipped = sum(it.failure is None and it.skipped is not None for it in own)
    head = (f'<testsuite name={quoted(suite)} errors="0" failures="{failures}" '
            f'skipped="{skipped}" tests="{len(own)}" time="{seconds:.3f}" '
            f'timestamp="{time.strftime("%Y-%m-%dT%H:%M:%S")}">')
    lines = ['<?xml version="1.0" encoding="utf-8"?>', "<testsuites>", head,
             *(it.text() for it in own), "</testsuite>", "</testsuites>"]
    with open(path, "w", encoding="utf-8") as file:
        file.write("\n".join(lines) + "\n")
