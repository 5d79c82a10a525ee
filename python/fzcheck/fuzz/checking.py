"""What `fzcheck check` says of a stream, and blocks as values."""
import re
from typing import Dict, Iterable, List, NamedTuple, Tuple

from fzcheck.calls import Refused, check
from fzcheck.flatzinc import Argument, Model, Name, Reader, Value, text_of
from fzcheck.fuzz.running import MOST_PRINTED
from fzcheck.lines import Object

MARKER = "-" * 10
STEPS = 200_000  # of the checker's searches: a fuzzer asks for many
MOST_SECONDS = 600
ITEM = re.compile(r"\s*(\w+)\s*=.*;\s*$")
OTHER_LINE = re.compile(r"\s*(%.*|-{10}|=====([A-Za-z]+)?=====)?\s*$")

Values = Dict[Name, Value]


class Setting(NamedTuple):
    """The programs, and what a run may take."""

    checker: str
    solver: List[str]
    all_option: str
    limit: int  # seconds of the processor
    reference: List[str] = []  # another solver, whose solutions are judged as well
    most_printed: int = MOST_PRINTED  # bytes of a run


def checked(model: str, stream: str, known: str = "", is_whole: bool = True) -> List[Object]:
    """What `fzcheck check` says of a stream for the model in a file, also where it refuses that."""
    try:
        return check(model, stream.encode(), complete=True, complete_steps=STEPS, claims="prove",
                     cut=not is_whole, known=[known.encode()] * bool(known),
                     timeout=MOST_SECONDS).json
    except Refused as refused:
        return refused.report.json


def are_solutions(told: List[Object]) -> bool:
    return all(it.get("verdict", "satisfied") == "satisfied" and "refused" not in it
               for it in told)


def violation(told: Object) -> str:
    if told["point"] == "objective":
        return f"objective {told['now']} after {told['before']}"
    number = f" {told['number']}" if "number" in told else ""
    return f"{told['point']}{number} {told['name']}"


def cleaned(text: str, model: Model) -> str:
    """The lines of a stream that can be read: others must not hide a solver's blocks."""
    declared = model.declared()
    lines = []
    for line in text.splitlines():
        item = ITEM.match(line)
        if OTHER_LINE.match(line) or (item and item[1] in declared):
            lines.append(line + "\n")
    return "".join(lines)


def printed_values(model: Model, block: str) -> Values:
    """The values of the variables that a block prints, or elements of arrays that it prints."""
    found: Values = {}
    declared = model.declared()
    for name, value in Reader(block).items():
        pairs: Iterable[Tuple[Argument, Argument]] = [(name, value)]
        if isinstance(value, list):
            whole = declared[name].value
            pairs = zip(whole if isinstance(whole, list) else [], value)
        for own, it in pairs:
            if isinstance(own, Name) and not isinstance(it, (list, Name)):
                found[own] = frozenset(it) if isinstance(it, range) else it
    return found


def block_of(values: Values) -> str:
    items = (f"{name} = {text_of(value)};\n" for name, value in values.items())
    return "".join(items) + MARKER + "\n"


def in_words(values: Values) -> str:
    words = ", ".join(f"{name} = {text_of(value)}" for name, value in values.items())
    return words or "the empty one, as there is no variable"
