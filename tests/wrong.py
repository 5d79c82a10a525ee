#!/usr/bin/env python3
"""Tries the wrong bodies of tests/wrong, which the gate doesn't try; the prover has to refuse each.

    tests/wrong.py [CRATE..]

`rt must-fail` looks for edits in crates/NAME/must-fail. So it runs in a tree of links below build/,
with what `make` kept of the crates, where the edits of tests/wrong/NAME are in that place."""
import os
import pathlib
import shutil
import subprocess
import sys
from typing import List

ROOT = pathlib.Path(os.path.abspath(__file__)).parent.parent
ROOM = ROOT / "build" / "wrong"
PARTS = ("src", "specs", "proofs", "out")


def link(source: pathlib.Path, target: pathlib.Path) -> None:
    """Links a folder's files. A proof replaces its files and never writes into old ones."""
    if source.is_dir():
        shutil.copytree(source, target, copy_function=os.link, symlinks=True)


def lay_out() -> None:
    for crate in ROOT.glob("crates/*"):
        for part in PARTS:
            link(crate / part, ROOM / "crates" / crate.name / part)
        link(ROOT / "tests" / "wrong" / crate.name, ROOM / "crates" / crate.name / "must-fail")
    shutil.copy(ROOT / "crates.txt", ROOM)
    (ROOM / ".git").mkdir()  # where the repository of this tree ends


def main(names: List[str]) -> int:
    crates = names or sorted(path.name for path in ROOT.glob("tests/wrong/*") if path.is_dir())
    for name in crates:
        if not (ROOT / "tests" / "wrong" / name).is_dir():
            sys.exit(f"tests/wrong has no edits of {name}")
        if not (ROOT / "crates" / name / "out" / "incremental").is_dir():
            sys.exit(f"nothing is kept of the proof of {name}: run make first")
    shutil.rmtree(ROOM, ignore_errors=True)
    try:
        lay_out()
        return subprocess.run(["rt", "must-fail", *crates], cwd=ROOM).returncode
    finally:
        shutil.rmtree(ROOM, ignore_errors=True)  # `rt ci` wants no other sources in the repository


sys.exit(main(sys.argv[1:]))
