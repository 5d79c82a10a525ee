"""The items of a model's own files: constraints, and where its names are declared."""
import os
import re
from typing import Iterable, Iterator, List, NamedTuple, Optional

PART = re.compile(r'%[^\n]*|/\*.*?\*/|"(?:[^"\\\n]|\\.)*"|\'[^\'\n]*\'|[()\[\]{}]|;|[^%/"\'()\[\]{};]+|.',
                  re.S)
SPACES = re.compile(r"\s+")
NOT_DECLARED = re.compile(r"(?:constraint|solve|output|include|predicate|function|test|annotation)\b")
MOST_WORDS = 60  # characters of a definition in a message


class SourceItem(NamedTuple):
    """An item's text without comments, its place in the file, and the line where it begins."""
    text: str
    start: int
    end: int
    path: str
    line: int


class Declared(NamedTuple):
    """Where a name is declared, its type, and what it is defined by, if anything."""
    place: str
    kind: str
    value: str


def items_of(path: str) -> Iterator[SourceItem]:
    """The items of a file, as far as it can be read."""
    try:
        with open(path, encoding="utf-8", errors="surrogateescape") as file:
            source = file.read()
    except OSError:
        return
    pieces: List[str] = []
    start, depth, line = -1, 0, 1
    for found in PART.finditer(source):
        text = found[0]
        if text.startswith(("%", "/*")):
            continue
        depth += (text in "([{") - (text in ")]}")
        if text == ";" and depth <= 0:
            if start >= 0:
                yield SourceItem("".join(pieces).strip(), start, found.end(), path,
                                 1 + source.count("\n", 0, start))
            pieces, start = [], -1
        else:
            if start < 0 and text.strip():
                start = found.start() + len(text) - len(text.lstrip())
            pieces.append(text)
    if start >= 0:
        yield SourceItem("".join(pieces).strip(), start, len(source), path,
                         1 + source.count("\n", 0, start))


def declared(items: Iterable[SourceItem], name: str) -> Optional[Declared]:
    """Where a name is declared or defined: where it has a value, if it has one."""
    word = rf"'?{re.escape(name)}'?\s*"
    declaration = re.compile(rf"([^:]*?)\s*:\s*{word}(?:::[^=]*)?(?:=(?!=)(.*))?$", re.S)
    assignment = re.compile(rf"()(?:enum\s+)?{word}=(?!=)(.*)$", re.S)
    found: Optional[Declared] = None
    for item in items:
        match = declaration.match(item.text) or assignment.match(item.text)
        if match and not NOT_DECLARED.match(item.text):
            kind, value = match[1] or (found.kind if found else ""), match[2] or ""
            found = Declared(f"{shown_path(item.path)}:{item.line}", kind, abridged(value))
            if value:
                break
    return found


def shown_path(path: str) -> str:
    """The path from the working directory, where the file is below that."""
    below = os.path.relpath(path)
    return path if below.startswith(os.pardir) else below


def abridged(text: str) -> str:
    """A text in one line, and not too long for a message."""
    text = SPACES.sub(" ", text).strip()
    return text if len(text) <= MOST_WORDS else text[:MOST_WORDS] + " .."
