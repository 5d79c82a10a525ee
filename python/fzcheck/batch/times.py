"""When a solver printed its blocks, and what it took: by its stream and by files beside it."""
import contextlib
import mmap
import os
import re
from typing import Collection, Dict, Iterator, NamedTuple, Optional, Union

from fzcheck.batch.results import Solving

Bytes = Union[bytes, mmap.mmap]
# What MiniZinc prints with --output-time, and what solvers print themselves.
ELAPSED = rb"%[ \t]*time elapsed:[ \t]*(\d+(?:\.\d+)?)[ \t]*s\b"
STATISTIC = rb"%%%mzn-stat:?[ \t]*solveTime=(\d+(?:\.\d+)?)"
# A marker, a stamp, or the first byte of another line that belongs to a block.
LINES = rb"^[ \t]*(?:(-{10})[ \t\r]*$|%s|([^\s%%=]))"
BARE = re.compile(rb"^[ \t]*(\d+(?:\.\d+)?)[ \t]*(?:s[ \t]*)?\r?$", re.M)
SIZES = {"": 1, "k": 1 << 10, "m": 1 << 20, "g": 1 << 30}

# What `time -v`, `runsolver -v` and a line NAME=VALUE call it.
SECONDS = re.compile(r"^(?:WCTIME|seconds|time|real)[= \t]+(\d+(?:\.\d+)?)", re.M | re.I)
CLOCK = re.compile(r"^\s*Elapsed \(wall clock\) time .*?: ((?:\d+:)?\d+:\d+(?:\.\d+)?)\s*$", re.M)
KILOBYTES = re.compile(r"^\s*(?:Maximum resident set size \(kbytes\): |MAXMM=|MAXVM=)(\d+)", re.M)
MEMORY = re.compile(r"^memory[= \t]+(\d+)([kmg]?)", re.M | re.I)
STATUS = re.compile(r"^\s*(?:Exit status: |(?:EXITSTATUS|STATUS)=|status[= \t]+)(\S+)", re.M | re.I)
SIGNAL = re.compile(r"^\s*Command terminated by (signal \d+)", re.M)
LIMITS = ((re.compile(r"^TIMEOUT=true", re.M), "time limit"),
          (re.compile(r"^MEMOUT=true", re.M), "memory limit"))


class Stamps(NamedTuple):
    """The seconds of the blocks that were asked for, and of the end."""

    of_blocks: Dict[int, float]
    end: Optional[float]


NO_STAMPS = Stamps({}, None)


@contextlib.contextmanager
def mapped(path: str) -> Iterator[Bytes]:
    """A file's bytes, which needn't fit into memory."""
    with open(path, "rb") as file:
        if os.fstat(file.fileno()).st_size == 0:
            yield b""
        else:
            with mmap.mmap(file.fileno(), 0, access=mmap.ACCESS_READ) as found:
                yield found


def stamps_among(text: Bytes, blocks: Collection[int], form: bytes) -> Stamps:
    """The stamps of one form among the lines of a stream. One inside a block is that block's, and
    a time elapsed after a marker that of the block before, unless that has one: a statistic there
    may be of the whole search."""
    found: Dict[int, float] = {}
    ended, is_open, end = 0, False, None
    for match in re.finditer(LINES % form, text, re.M):
        if match[1]:
            ended, is_open = ended + 1, False
        elif match[3]:
            is_open = True
        else:
            end = float(match[2])
            block = ended + is_open
            if block in blocks and (is_open or form is ELAPSED):
                found.setdefault(block, end)
    return Stamps(found, end)


def stamps_in_stream(path: str, blocks: Collection[int]) -> Stamps:
    with mapped(path) as text:
        for form, word in ((ELAPSED, b"time elapsed:"), (STATISTIC, b"solveTime=")):
            if text.find(word) >= 0:
                found = stamps_among(text, blocks, form)
                if found.end is not None:
                    return found
    return NO_STAMPS


def stamps_beside(path: str, blocks: Collection[int]) -> Stamps:
    """Those of a file that has a stamp for each block, and maybe one for the end, by themselves or
    as `minizinc --output-time` prints them among the solutions."""
    with mapped(path) as text:
        if text.find(b"-" * 10) >= 0:
            return stamps_among(text, blocks, ELAPSED)
        found = re.findall(rb"^[ \t]*" + ELAPSED, text, re.M) or BARE.findall(text)
    seconds = [float(stamp) for stamp in found]
    of_blocks = {block: seconds[block - 1] for block in blocks if 0 < block <= len(seconds)}
    return Stamps(of_blocks, seconds[-1] if seconds else None)


def clock_seconds(text: str) -> float:
    seconds = 0.0
    for part in text.split(":"):
        seconds = 60 * seconds + float(part)
    return seconds


def told_beside(path: str) -> Solving:
    """What `time -v`, `runsolver -v`, or lines NAME=VALUE tell of the solver's run."""
    with open(path, encoding="utf-8", errors="replace") as file:
        text = file.read()
    solving = Solving()
    seconds, clock = SECONDS.search(text), CLOCK.search(text)
    if seconds or clock:
        solving.seconds = float(seconds[1]) if seconds else clock_seconds(clock[1] if clock else "")
    kilobytes, memory = KILOBYTES.search(text), MEMORY.search(text)
    if kilobytes:
        solving.memory = int(kilobytes[1]) << 10
    elif memory:
        solving.memory = int(memory[1]) * SIZES[memory[2].lower()]
    status = SIGNAL.search(text) or STATUS.search(text)
    reached = [words for pattern, words in LIMITS if pattern.search(text)]
    solving.status = ", ".join([*([status[1]] if status else []), *reached])
    return solving
