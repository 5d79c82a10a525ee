"""What a solver prints, piece by piece: fed to the checker, and passed on at once, or block by
block once that has told each one's verdict."""
import os
from typing import Iterator, List, Tuple

from fzcheck.solver.checker import Checker
from fzcheck.solver.processes import Process, opened

OUTSIDE = (b"%", b"=====")  # how a line that is no block's begins
MARKER = b"----------"


def chunks(solver: Process) -> Iterator[bytes]:
    """What the solver prints, as it comes."""
    while chunk := os.read(opened(solver.stdout).fileno(), 65536):
        yield chunk


def checked(pieces: Iterator[bytes], checker: Checker) -> Iterator[bytes]:
    """Feeds the checker each piece, and gives it on at once."""
    for piece in pieces:
        yield piece
        checker.feed(piece)


def whole_lines(pieces: Iterator[bytes]) -> Iterator[bytes]:
    """The pieces, and an end for the last line where it has none."""
    piece = b"\n"
    for piece in pieces:
        yield piece
    if not piece.endswith(b"\n"):
        yield b"\n"


def parts(pieces: Iterator[bytes], checker: Checker) -> Iterator[Tuple[bytes, bool]]:
    """Feeds the checker each piece, and gives its blocks, and the lines outside of blocks, each
    with whether it is a block; behind those of a piece there is an empty one."""
    part: List[bytes] = []
    rest = b""
    for piece in whole_lines(pieces):
        checker.feed(piece)
        *whole, rest = (rest + piece).split(b"\n")
        for line in whole:
            part.append(line + b"\n")
            word = line.strip()
            if word == MARKER or len(part) == 1 and (not word or word.startswith(OUTSIDE)):
                yield b"".join(part), word == MARKER
                part = []
        yield b"", False


def judged(pieces: Iterator[bytes], checker: Checker) -> Iterator[bytes]:
    """Gives each block on once it has its verdict, and one that is violated, or has none, not.

    What came together is fed together, and goes on together as far as the verdicts are there: to
    wait for each before the next is fed would take most of the time of short blocks."""
    passing: List[bytes] = []
    for part, is_block in parts(pieces, checker):
        if not part or is_block and checker.verdicts.empty():
            yield b"".join(passing)
            passing = []
        if not is_block or checker.lets_pass():
            passing.append(part)
