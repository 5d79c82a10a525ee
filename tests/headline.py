#!/usr/bin/env python3
"""Adds up what a reader of the headline has to read: the definitions that docs/THEOREM.md lists
under "A yes is a yes".

The page tells how many files and lines they are, and how many of the lines are definitions, and not
comments, imports or empty. A file on the list may import definitions only from files on the list,
from the standard library and from declared types, which are the code's."""
import os
import pathlib
import re
import sys
from typing import Iterator, List, Optional, Tuple

ROOT = pathlib.Path(os.path.abspath(__file__)).parent.parent
IMPORT = re.compile(r"^(?:pub )?use Rattle\.(\w+)\.specs\.([\w.]+?)(?:\.\{.*\}| as \w+)?$", re.M)


def file_of(crate: str, path: str) -> Optional[pathlib.Path]:
    """The file of specs/ that has what an import names, through what crates pass on; none where
    that is a declared type of the code."""
    first, _, rest = path.partition(".")
    if first in ("declared", "contracts"):
        return None
    folder = ROOT / "crates" / crate / "specs"
    if (folder / f"{first}.antt").exists():
        return folder / f"{first}.antt"
    for source, alias in re.findall(r"^pub use (\S+)(?: as (\w+))?$", (folder / "Lib.antt").read_text(), re.M):
        _, below, _, *names = source.split(".")
        if (alias or names[-1]) == first:
            return file_of(below, ".".join([*names, *([rest] if rest else [])]))
    return None


def is_definition(line: str) -> bool:
    return not re.match(r"\s*$|\s*--|(pub )?use ", line)


def faults(files: List[pathlib.Path], told: Tuple[int, ...]) -> Iterator[str]:
    lines = [line for path in files for line in path.read_text().splitlines()]
    counted = (len(files), len(lines), sum(map(is_definition, lines)))
    if told != counted:
        yield f"THEOREM.md tells of {told} (files, lines, lines of definitions): {counted}"
    for path in files:
        for crate, name in IMPORT.findall(path.read_text()):
            if (ROOT / "crates" / crate).exists() and file_of(crate, name) not in (None, *files):
                yield f"{path.relative_to(ROOT)} cites {crate} {name}, which isn't listed"


text = (ROOT / "docs" / "THEOREM.md").read_text().split("\n## A yes is a yes\n")[1].split("\n## ")[0]
listed = [ROOT / path for path in dict.fromkeys(re.findall(r"`(crates/\w+/specs/\w+\.antt)`", text))]
(numbers,) = re.findall(
    r"([\d,]+)\s+files\s+with\s+([\d,]+)\s+lines,\s+([\d,]+)\s+of\s+them\s+definitions", text)
found = list(faults(listed, tuple(int(it.replace(",", "")) for it in numbers)))
for fault in found:
    print(f"failed: {fault}")
print(f"{len(listed)} passed, {len(found)} failed")
sys.exit(bool(found))
