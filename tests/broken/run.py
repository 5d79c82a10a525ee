#!/usr/bin/env python3
"""Runs each row of cases.txt and by_hand.txt through a built program: run.py PROGRAM. Ends with status 1
where one fails.

A model is checked against an empty stream, and shown; items are the one block of a stream. A refused row
wants its one line on standard error, nothing on standard output, and status 4; a row that parses wants no
refusal of the text (names and kinds, which aren't judged here, may be refused)."""
import json
import os
import subprocess
import sys
import tempfile
from concurrent.futures import ThreadPoolExecutor

HERE = os.path.dirname(os.path.abspath(__file__))
TEXT_FAULTS = {"TooLong", "BadByte", "TooLarge", "Float", "Syntax", "TooDeep", "TooMany"}


def fails(program, row):
    """What went wrong with a row, or none."""
    sort, name, place, _, text = row
    text, items = json.loads(text).encode("latin-1"), sort == "items"
    with tempfile.TemporaryDirectory() as folder:
        model, stream = os.path.join(folder, "model"), os.path.join(folder, "stream")
        with open(model, "wb") as f:
            f.write(b"solve satisfy;\n" if items else text)
        with open(stream, "wb") as f:
            f.write(text + b"----------\n" if items else b"")
        if items:
            return differs(name, place, "stream", [program, "check", model, stream])
        checked = differs(name, place, "model", [program, "check", model, stream])
        return checked or differs(name, place, "model", [program, "show", model])


def differs(name, place, what, words):
    ran = subprocess.run(words, capture_output=True)
    told = ran.stderr.decode("latin-1")
    if name == "parses":
        faults = TEXT_FAULTS & set(told.split())
        return f"gave {told!r}" if ran.returncode > 4 or faults else None
    want = f"refused: {what}: {name} at {place}\n"
    if told != want or ran.returncode != 4 or ran.stdout:
        return f"wanted {want!r}, gave {told!r}, status {ran.returncode}, {ran.stdout!r}"
    return None


def rows():
    for table in ("cases.txt", "by_hand.txt"):
        with open(os.path.join(HERE, table)) as f:
            yield from (line.rstrip("\n").split("\t") for line in f if not line.startswith("#"))


def main():
    program = os.path.abspath(sys.argv[1])
    every = list(rows())
    with ThreadPoolExecutor(os.cpu_count()) as pool:
        answers = list(pool.map(lambda row: fails(program, row), every))
    wrong = [(row, answer) for row, answer in zip(every, answers) if answer]
    for (*_, how, text), answer in wrong:
        print(f"{how}: {text}: {answer}")
    print(f"{len(every) - len(wrong)} passed, {len(wrong)} failed")
    return 1 if wrong else 0


sys.exit(main())
