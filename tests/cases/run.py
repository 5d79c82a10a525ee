#!/usr/bin/env python3
"""Runs the worked cases of this folder: run.py PROGRAM [CALLS]

CALLS is the program over the public calls, `fz_hostile`; where it is missing, so are its cases. No
answer here is a program's own: each is from the definitions, by hand. Of sets each operation is
compared with Python's, on random sets. The last line is 'N passed, M failed'."""
import os
import random
import re
import subprocess
import sys
import tempfile
from concurrent.futures import ThreadPoolExecutor
from typing import Dict, Iterable, Iterator, Match, Optional, Set, Tuple

import tables

TEXTS = ("reports.txt", "claims.txt", "completed.txt", "explained.txt", "shown.txt", "calls.txt")
STATUSES = {"accepted": 0, "rejected": 1, "undecided": 2, "no blocks": 3, "refused": 4}
# Neighbours, gaps, the ends, and both sides of what a set stores as the bits of a word.
NUMBERS = [-(2**63), -3, -1, 0, 1, 2, 5, 62, 63, 64, 65, 70, 71, 100, 200, 2**63 - 1]
PAIRS_OF_SETS = 250
MOST_SECONDS = 60
Answer = Tuple[Optional[int], str, str]  # a status, standard output and standard error


def written(numbers: Set[int]) -> str:
    return "{" + ",".join(map(str, numbers)) + "}"


def ranges(numbers: Set[int]) -> str:
    """The ranges of a set, as they are told."""
    firsts = sorted(n for n in numbers if n - 1 not in numbers)
    lasts = sorted(n for n in numbers if n + 1 not in numbers)
    return "Ok([" + ", ".join(f"{a}..{b}" for a, b in zip(firsts, lasts)) + "])\n"


def told(answers: Iterable[object]) -> str:
    shown = (str(a).lower() if isinstance(a, bool) else str(a) for a in answers)
    return "(" + ", ".join(shown) + ")\n"


def sets() -> Iterator[tables.Case]:
    """Cases of pairs of random sets, and of all that is asked of them."""
    choice = random.Random(1)
    for _ in range(PAIRS_OF_SETS):
        a, b = (set(choice.sample(NUMBERS, choice.randrange(8))) for _ in "ab")
        b = choice.choice((a, a & b, a | b, b))
        text = f"a = {written(a)}; b = {written(b)};"
        combined = map(ranges, (a | b, a & b, a - b, a ^ b))
        yield "fz_hostile sets compare TEXT", text, "", "".join(combined)
        only = f"Some({min(a)})" if len(a) == 1 else "None"
        of_a = 3 in a, len(a), only, all(-9 <= n <= 9 for n in a)
        asked = of_a, (a <= b, a == b, b <= a, b <= a), (not a & b, not a), (a == b, False)
        yield "fz_hostile sets ask TEXT", text, "", "".join(map(told, asked))


def many() -> Iterator[tables.Case]:
    """Cases of 120 variables that are all different, of which a block has every other one. Any
    order of the other numbers will do, but not where there is one too few."""
    names = [f"x{n}" for n in range(120)]
    stream = "".join(f"x{n} = {n + 1};\n" for n in range(0, 120, 2)) + "-" * 10 + "\n"
    for greatest, answer in (
        (120, "block 1: satisfied\naccepted: blocks 1\n"),
        (119, "block 1: violated: constraint 1 fzn_all_different_int\nrejected: block 1\n"),
    ):
        text = "".join(f"var 1..{greatest}: {name};\n" for name in names)
        text += f"constraint fzn_all_different_int([{','.join(names)}]);\nsolve satisfy;\n"
        yield "fzcheck check --complete TEXT STREAM", text, stream, answer


def readable(out: str) -> str:
    """What CALLS prints, with byte ranges and ranges as `A..B`, and names as they are written."""
    out = re.sub(r"(?:Span|Range) \{ (?:start|lo): (-?\d+), (?:end|hi): (-?\d+) \}", r"\1..\2", out)
    return re.sub(r"\[(\d+(?:, \d+)*)\]", named, out)


def named(codes: Match[str]) -> str:
    text = "".join(chr(int(code)) for code in codes[1].split(", "))
    return text if text.isascii() and text.isidentifier() else codes[0]


def wanted(command: str, text: str) -> Answer:
    """The status, standard output and standard error, of which the last two are one text where a
    verdict is explained."""
    if command.startswith("fz_hostile"):
        return 0, text, ""
    lines = text.splitlines(True)
    heads = [line.rstrip("\n").split(":")[0] for line in lines]
    status = next((STATUSES[head] for head in reversed(heads) if head in STATUSES), 0)
    if "--explain" in command:
        return status, text, ""
    refused = [line for line in lines if line.startswith("refused: ")]
    return status, "".join(line for line in lines if line not in refused), "".join(refused)


def given(programs: Dict[str, str], command: str, text: str, stream: str) -> Answer:
    program, *words = command.split()
    with tempfile.TemporaryDirectory() as folder:
        for name, content in (("TEXT", text), ("STREAM", stream)):
            with open(os.path.join(folder, name), "wb") as f:
                f.write(content.encode("latin-1"))
        words = [programs[program], *words]
        to = subprocess.STDOUT if "--explain" in command else subprocess.PIPE
        try:
            ran = subprocess.run(
                words, cwd=folder, stdout=subprocess.PIPE, stderr=to, timeout=MOST_SECONDS
            )
        except subprocess.TimeoutExpired:
            return None, f"more than {MOST_SECONDS} seconds", ""
    out, err = (part.decode("latin-1") for part in (ran.stdout, ran.stderr or b""))
    return ran.returncode, readable(out) if program == "fz_hostile" else out, err


def cases() -> Iterator[Tuple[str, tables.Case]]:
    """The name of a table, and a case."""
    for case in tables.constraints("builtins.txt"):
        yield "builtins.txt", case
    for name in TEXTS:
        for command, text, stream, want in tables.blocks(name):
            yield name, (command, text, stream, want)
            if command.startswith("fzcheck show") and not want.startswith("refused"):
                yield name, (command, want, "", want)  # what is shown is shown as itself
    for case in sets():
        yield "sets", case
    for case in many():
        yield "many", case


def main() -> int:
    paths = [os.path.abspath(path) for path in sys.argv[1:3]]
    programs = dict(zip(("fzcheck", "fz_hostile"), paths))
    every = [case for case in cases() if case[1][0].split()[0] in programs]
    with ThreadPoolExecutor(os.cpu_count()) as pool:
        answers = list(pool.map(lambda case: given(programs, *case[1][:3]), every))
    failed = 0
    for (name, (command, text, stream, want)), got in zip(every, answers):
        if got != wanted(command, want):
            failed += 1
            print(f"failed: {name}: {command}\n{text}> {stream}\n  wanted {want!r}\n  gave {got}")
    print(f"{len(every) - failed} passed, {failed} failed")
    return 1 if failed else 0


sys.exit(main())
