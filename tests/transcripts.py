#!/usr/bin/env python3
"""Runs the transcripts of the documents, and compares what is printed with what the pages show.

    tests/transcripts.py PROGRAM

A transcript is an indented block that begins with `$ `. It is run in the folder that PAGES gives;
what it prints is standard output and then standard error. Those that call fzcheck-mzn want MiniZinc,
and are left out where that isn't installed.
"""
import os
import re
import shutil
import subprocess
import sys
import tempfile
from typing import Dict, Iterator, NamedTuple

ROOT = os.path.dirname(os.path.dirname(os.path.abspath(__file__)))
PAGES = {"README.md": "examples/plan", "docs/GUIDE.md": "examples/jobs",
         "docs/WORKED.md": "examples"}
BLOCK = re.compile(r"^    \$ (.*)\n((?:    (?!\$ ).*\n|\n(?=    (?!\$ )))*)", re.M)


class Transcript(NamedTuple):
    page: str
    command: str
    printed: str


def transcripts() -> Iterator[Transcript]:
    for page in PAGES:
        with open(os.path.join(ROOT, page), encoding="utf-8") as file:
            for command, printed in BLOCK.findall(file.read()):
                yield Transcript(page, command, re.sub("^    ", "", printed, flags=re.M))


def printed(it: Transcript, environment: Dict[str, str]) -> str:
    """What the command prints where the page's reader would run it."""
    ran = subprocess.run(("sh", "-c", it.command), cwd=os.path.join(ROOT, PAGES[it.page]),
                         env=environment, stdout=subprocess.PIPE, stderr=subprocess.PIPE,
                         encoding="utf-8", timeout=600)
    return ran.stdout + ran.stderr


def main(program: str) -> int:
    passed = failed = 0
    with tempfile.TemporaryDirectory() as folder:
        os.symlink(os.path.abspath(program), os.path.join(folder, "fzcheck"))
        path = os.pathsep.join((folder, os.path.join(ROOT, "python"), os.environ["PATH"]))
        environment = {**os.environ, "PATH": path, "FZCHECK": os.path.join(folder, "fzcheck"),
                       "XDG_CACHE_HOME": folder, "PYTHONDONTWRITEBYTECODE": "1"}
        for it in transcripts():
            if it.command.startswith("fzcheck-mzn") and not shutil.which("minizinc"):
                print(f"MiniZinc isn't installed: `{it.command}` isn't tried")
                continue
            got = printed(it, environment)
            passed, failed = passed + (got == it.printed), failed + (got != it.printed)
            if got != it.printed:
                print(f"failed: {it.page}: {it.command}\n{it.printed}-- wanted, but found:\n{got}")
    print(f"{passed} passed, {failed} failed")
    return int(failed > 0 or passed == 0)


if __name__ == "__main__":
    sys.exit(main(sys.argv[1]))
