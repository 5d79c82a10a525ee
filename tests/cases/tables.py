"""The tables of worked cases in this folder: of each case a command, a text, a stream and the
answer."""
import os
import re
from typing import Iterator, List, Tuple

HERE = os.path.dirname(os.path.abspath(__file__))
Case = Tuple[str, str, str, str]  # a command, a text, a stream and the answer
CHECK = "fzcheck check TEXT STREAM"
CONSTRAINT = "var int: x;\nvar bool: b;\nvar set of int: s;\nconstraint {}{};\nsolve satisfy;\n"
VALUES = "x = 3; b = true; s = {3,1};\n----------\n"
HOLDS = "block 1: satisfied\naccepted: blocks 1\n"
FAILS = "block 1: violated: constraint 1 {}\nrejected: block 1\n"
UNKNOWN = "block 1: undecided: constraint 1 {} not known\nundecided: block 1\n"


def lines_of(name: str) -> List[str]:
    """The lines of a table, without those that begin with `#`."""
    with open(os.path.join(HERE, name), encoding="latin-1", newline="\n") as f:
        return [line for line in f.read().split("\n") if line[:1] != "#"]


def constraints(name: str) -> Iterator[Case]:
    """The cases of a table of constraints."""
    for row in re.split(r"\n(?=\S)", "\n".join(lines_of(name)).strip()):
        name, holds, *fails = row.split()
        wanted = (HOLDS, FAILS) if fails else (UNKNOWN,)
        for arguments, want in zip([holds, *fails], wanted):
            yield CHECK, CONSTRAINT.format(name, arguments), VALUES, want.format(name)


def meant(lines: List[str]) -> str:
    """The text that lines of a case stand for."""
    text = "".join(line + "\n" for part in lines for line in part.split(" / "))
    return text.replace("\\\n", "").replace("\\r", "\r").replace("\\t", "\t")


def blocks(name: str) -> Iterator[Case]:
    """The cases of a table of texts."""
    command = ""
    for block in "\n".join(lines_of(name)).split("\n\n"):
        text: List[str] = []
        stream: List[str] = []
        want: List[str] = []
        answered = False
        for line in block.strip("\n").split("\n") + [">"]:
            sign, rest = line[:1], line[2:]
            if sign == ">" and want:
                yield command, meant(text), meant(stream), meant(want)
                stream, want, answered = [], [], True
            if sign == "$":
                command = rest
            elif sign in ("=", ">"):
                (want if sign == "=" else stream).append(rest)
            elif line:
                text.append(line)
        if text and not answered:
            raise ValueError(f"there is no answer: {block}")
