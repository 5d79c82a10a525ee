#!/usr/bin/env python3
"""Checks correct streams of solvers that print too little, with and without --complete.

    left_out.py PROGRAM

left_out/streams.tar.xz has the models and streams, left_out/answers.txt the answer on each, without
the option and with it. All streams are correct, so none may be rejected. Ends with status 1 where
an answer is another one."""
import os
import subprocess
import sys
import tarfile
import tempfile
from typing import Iterator, List, Tuple

HERE = os.path.dirname(os.path.abspath(__file__))
FOLDER = os.path.join(HERE, "left_out")
MOST_SECONDS = 60


def answers() -> Iterator[Tuple[str, ...]]:
    """The name of each stream, with its answers."""
    with open(os.path.join(FOLDER, "answers.txt")) as f:
        for line in f:
            if not line.startswith("#"):
                yield tuple(line.split())


def answer(program: str, options: List[str], model: str, stream: str) -> str:
    """The first word of the answer, or of the refusal."""
    words = [program, "check", *options, model, stream]
    try:
        ran = subprocess.run(words, capture_output=True, text=True, timeout=MOST_SECONDS)
    except subprocess.TimeoutExpired:
        return f"more than {MOST_SECONDS} seconds"
    lines = (ran.stdout + ran.stderr).splitlines()
    return lines[-1].split(":")[0] if lines else ""


def main() -> int:
    program = os.path.abspath(sys.argv[1])
    passed = failed = 0
    with tempfile.TemporaryDirectory() as folder:
        with tarfile.open(os.path.join(FOLDER, "streams.tar.xz")) as packed:
            packed.extractall(folder)
        for name, *wanted in answers():
            stream = os.path.join(folder, "undecided", name + ".out")
            model = os.path.join(folder, "undecided", name.rsplit(".", 1)[0] + ".fzn")
            ways: List[List[str]] = [[], ["--complete"]]
            given = [answer(program, options, model, stream) for options in ways]
            if given == wanted:
                passed += 1
            else:
                failed += 1
                print(f"failed: {name}: gave {given}, wanted {wanted}")
    print(f"{passed} passed, {failed} failed")
    return 1 if failed else 0


sys.exit(main())
