#!/usr/bin/env python3
"""Checks models and streams by a built program and compares what it says with the stored reports.

    run.py PROGRAM [FOLDER..]

Each folder, this one where none is given, is searched for cases: model.fzn with any number of streams beside
it, WORDstream.txt, and their reports, WORDreport.txt. A report is standard output and then standard error,
whose one line begins with 'refused: '; the exit status is the one of the last line. Ends with status 1 where
a case fails."""
import os
import subprocess
import sys
from typing import Iterator, Optional, Tuple

HERE = os.path.dirname(os.path.abspath(__file__))
STATUSES = {"accepted": 0, "rejected": 1, "undecided": 2, "no blocks": 3, "refused": 4}
MOST_SECONDS = 60
Answer = Tuple[str, str, Optional[int]]  # standard output, standard error and the status


def cases_of(folder: str) -> Iterator[Tuple[str, str, str]]:
    """The model, the stream and the report of each case."""
    for place, _, names in sorted(os.walk(folder)):
        if "model.fzn" not in names:
            continue
        for name in sorted(n for n in names if n.endswith("stream.txt")):
            model, stream = os.path.join(place, "model.fzn"), os.path.join(place, name)
            yield model, stream, stream.removesuffix("stream.txt") + "report.txt"


def wanted(report: str) -> Answer:
    """Standard output, standard error and the exit status."""
    with open(report, encoding="latin-1") as f:
        lines = f.readlines()
    told = [line for line in lines if line.startswith("refused: ")]
    said = [line for line in lines if not line.startswith("refused: ")]
    last = lines[-1].rstrip("\n")
    return "".join(said), "".join(told), STATUSES[last.split(":")[0]]


def given(program: str, model: str, stream: str) -> Answer:
    try:
        ran = subprocess.run([program, "check", model, stream], capture_output=True, timeout=MOST_SECONDS)
    except subprocess.TimeoutExpired:
        return "", f"more than {MOST_SECONDS} seconds\n", None
    return ran.stdout.decode("latin-1"), ran.stderr.decode("latin-1"), ran.returncode


def show(words: str, result: Answer) -> None:
    out, err, status = result
    text = (out + err).rstrip("\n").split("\n")
    shown = text if len(text) <= 4 else text[:2] + ["..", text[-1]]
    print(f"  {words}: status {status}")
    print("".join(f"    {line}\n" for line in shown), end="")


def main() -> int:
    program = os.path.abspath(sys.argv[1])
    passed = failed = 0
    for folder in sys.argv[2:] or [HERE]:
        for model, stream, report in cases_of(folder):
            want, got = wanted(report), given(program, model, stream)
            if want == got:
                passed += 1
                continue
            failed += 1
            print(f"failed: {os.path.relpath(stream)}")
            show("wanted", want)
            show("gave", got)
    print(f"{passed} passed, {failed} failed")
    return 1 if failed else 0


sys.exit(main())
