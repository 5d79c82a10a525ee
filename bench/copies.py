#!/usr/bin/env python3
"""Writes a large model of copies of a real one, and a stream of one block for it.

    copies.py NAME MEGABYTES FOLDER

writes FOLDER/NAME-MEGABYTES.fzn and FOLDER/NAME-MEGABYTES.out. NAME is a model that real/unpack.py unpacks into
FOLDER, and a MB is 1,000,000 bytes. The copies share no name: the numbers of the names that the MiniZinc compiler
introduced go on from one copy to the next, and other names get the copy's number. Declarations of all copies come
before the constraints, as the grammar wants, and the goal is that of the real model. The block prints what the first
block of the real stream prints, once for each copy, so it is satisfied where that one is."""
import os
import re
import sys

DECLARED = re.compile(rb"^(?:var|array|bool|int|set)\b[^:]*: *(\w+)", re.MULTILINE)
INTRODUCED = re.compile(rb"X_INTRODUCED_(\d+)_")


class Pieces:
    """A text, cut at the names in it."""

    def __init__(self, text, names):
        """A name among these is told by its index, an introduced one by its number."""
        words = sorted(names, key=len, reverse=True)
        name = rb"X_INTRODUCED_\d+_" + b"".join(rb"|\b%s\b" % re.escape(word) for word in words)
        self.between = re.split(name, text)
        self.names = re.findall(name, text)

    def copy(self, number, stride):
        """The text of the copy with this number, from 0. The first is the text itself."""
        if number == 0:
            names = self.names
        else:
            renamed = {name: renamed_in(name, number, stride) for name in set(self.names)}
            names = [renamed[name] for name in self.names]
        parts = [b""] * (2 * len(names) + 1)
        parts[::2], parts[1::2] = self.between, names
        return b"".join(parts)


def renamed_in(name, number, stride):
    introduced = INTRODUCED.fullmatch(name)
    if introduced:
        return b"X_INTRODUCED_%d_" % (int(introduced[1]) + number * stride)
    return b"%s_%d" % (name, number)


def read(path):
    with open(path, "rb") as f:
        return f.read()


def main():
    name, megabytes, folder = sys.argv[1:4]
    base = os.path.join(folder, name)
    model, block = read(base + ".fzn"), read(base + "-first.out")
    goal = model[model.index(b"\nsolve ") + 1 :]
    first = model.index(b"\nconstraint ") + 1
    names = [found for found in DECLARED.findall(model[:first]) if not INTRODUCED.fullmatch(found)]
    texts = (model[:first], model[first : -len(goal)], block[: block.index(b"----------\n")])
    declared, posted, printed = (Pieces(text, names) for text in texts)
    stride = max(map(int, INTRODUCED.findall(model))) + 1
    copies = max(1, int(float(megabytes) * 1_000_000) // len(model))
    with open(f"{base}-{megabytes}.fzn", "wb") as f:
        for pieces in (declared, posted):
            for number in range(copies):
                f.write(pieces.copy(number, stride))
        f.write(goal)
    with open(f"{base}-{megabytes}.out", "wb") as f:
        for number in range(copies):
            f.write(printed.copy(number, stride))
        f.write(b"----------\n")


main()
