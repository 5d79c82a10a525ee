#!/usr/bin/env python3
"""Each public call, with each growth of memory refused in turn: calls.py PROGRAM

The program makes one call on what files hold, and makes it once more on the same operands where
it found no memory. So with one growth refused it tells that memory ran out at most once, and
around that what it tells with ample memory. The calls are made on worked cases of tests/cases and
tests/broken, on the examples and on pairs of sets.

A reader that gives single bytes or fails, a writer that fails and a splitter that is full follow.
The last line is 'N passed, M failed'."""
import json
import os
import re
import sys
import tempfile
from collections import Counter
from dataclasses import dataclass
from multiprocessing import Pool
from typing import Any, Callable, Dict, Iterable, Iterator, List, Optional, Tuple

import running
from beside import IMPROVING_MODEL, IMPROVING_REPORT, IMPROVING_STREAM, content, examples
from running import FOLDER, ROOT, Tally

TESTS = os.path.join(ROOT, "tests")
sys.path.insert(0, os.path.join(TESTS, "cases"))
import tables

Told = Tuple[Tally, "Counter[str]"]
NOT_MADE = 7, b"", b""  # the operands found no memory, or can't be had at all: the call wasn't made
MEMORY = re.compile(rb"^Err\((?:Memory|AllocError)\)\n", re.MULTILINE)
FAILED = b"Err(Failed)\nfalse\nErr(Failed)\nErr(Failed)\n"  # `feed`, `waiting`, `take`, `finish`
ANY = "1000000"  # as many bytes or reads as there are
FEW_STEPS = "1000"  # of a search, which is made anew for each growth that is refused
MOST_BYTES = 16_777_216  # that a splitter holds

SETS = (
    b"a = 1..3; b = {5,3,5};",
    b"a = 3..1; b = {};",
    b"a = 1..65537; b = {-9223372036854775808,9223372036854775807};",
    b"a = -9223372036854775808..9223372036854775807; b = {9223372036854775807};",
    b"a = {7,100,-5,300,9,63,64,900,2000}; b = {100,101,5000,-5,1,3,300,63,700,800,900};",
    b"b = {100,101,5000,-5,1,3,300,63,700,800,900}; a = {7,100,-5,300,9,63,64,900,2000};",
    b"a = 1..9; b = 4..6;",
    b"a = 1..3; b = 4..6;",
    b"a = 1..300; b = {40,40,90,2,301};",
)
LEXED = (
    b"x=-0x1F%c",
    b"1..5",
    b"9" * 100,
    b"0" * 100 + b"3",
    b"a \"b\" 1.5 :: [(x)] # y",
)
ARRAY = b"x = array2d(1..2,{1,2},[1,{3,1},true,1..4]); y = -1..2;"
ITEMS = (b"x = 3;", b"x = 3", b"x = 1.5;", ARRAY * 9)
NAMES = (
    "range list union intersect minus symdiff copy copy_value ranges lex parse to_text read_items "
    "load load_text new_partial state forced blocks feed take fill fill_with_steps judge "
    "check report_text show show_printing_all refusal_text check_stream check_stream_up_to"
).split()
SET_CALLS = "make union intersect minus symdiff copy copy_value ranges".split()
ENOUGH = "none"  # it was wanted once more, and given
IN_MODELS = ("load", "load_text", "new_partial", "points")
OVER_BLOCKS = ("fill", "fill_with_steps", "judge", "points")


@dataclass
class Call:
    """The words of a call, the texts of its operands, and more words."""

    kind: str
    name: str
    texts: Tuple[bytes, ...]
    more: Tuple[str, ...] = ()

    def refused(self, ample: bytes, given: bytes) -> Optional[str]:
        """The name of the call that found no memory, where this may be told with one growth
        refused and `ample` with ample memory. ENOUGH where all is told; none where it may not
        be."""
        parts = MEMORY.split(given)
        if len(parts) != 2:
            return ENOUGH if given == ample else None
        front, rest = parts
        behind = ample.removeprefix(front)
        if self.name == "split" and rest == FAILED and ample.startswith(front):
            return None if behind.startswith(b'"finished"') else "feed"
        if self.kind == "live":  # all is written again
            return self.name if rest == ample and ample.startswith(front) else None
        return self.name_before(rest) if front + rest == ample else None

    def name_before(self, rest: bytes) -> str:
        """The name of the call that gives the next line, where calls stand behind one name."""
        if self.name == "points":
            if rest.startswith((b"Ok(None)", b"Ok(Some(")):
                return "forced"
            return "state" if rest.startswith(b"Ok(") else "fill"
        if self.name == "text":
            return "refusal_text" if rest.startswith(b"refused: ") else "report_text"
        if self.name == "make":
            return "list" if b" = {" in self.texts[0].split(b";")[0] else "range"
        return "take" if self.name == "split" else self.name


def models() -> Iterable[Tuple[bytes, List[bytes]]]:
    """Each model of the worked cases with its streams, and those whose names have a fault."""
    streams: Dict[bytes, List[bytes]] = {}
    for name in ("reports.txt", "completed.txt", "shown.txt"):
        for command, text, stream, _ in tables.blocks(name):
            of_text = streams.setdefault(text.encode("latin-1"), [])
            if "STREAM" in command:
                of_text.append(stream.encode("latin-1"))
    with open(os.path.join(TESTS, "broken", "by_hand.txt")) as f:
        for line in f:
            if "\tnames\t" in line:
                streams[json.loads(line.split("\t")[4]).encode()] = []
    return streams.items()


def of_model(model: bytes) -> Iterator[Call]:
    yield Call("text", "lex", (model,))
    yield Call("text", "parse", (model,))
    yield Call("text", "to_text", (model,))
    yield Call("check", "show", (model,))
    yield Call("check", "show_printing_all", (model,))
    for name in IN_MODELS:
        yield Call("model", name, (model,))


def of_pair(model: bytes, stream: bytes) -> Iterator[Call]:
    yield Call("stream", "blocks", (stream,))
    for piece in ("1", "7", ANY):
        yield Call("stream", "split", (stream,), (piece,))
    for name in OVER_BLOCKS:
        yield Call("blocks", name, (model, stream))
    yield Call("check", "check", (model, stream))
    yield Call("check", "text", (model, stream))
    for piece in ("1", ANY):
        yield Call("live", "check_stream", (model, stream), (piece, ANY, ANY, "1"))
    for searching in ((), (FEW_STEPS,)):
        more = ANY, ANY, ANY, "1", ANY, *searching
        yield Call("live", "check_stream_up_to", (model, stream), more)


def calls() -> Iterator[Call]:
    for text in SETS:
        for name in SET_CALLS:
            yield Call("sets", name, (text,))
    for text in LEXED:
        yield Call("text", "lex", (text,))
    for text in ITEMS:
        yield Call("text", "read_items", (text,))
    for model, streams in models():
        yield from of_model(model)
        for stream in streams:
            yield from of_pair(model, stream)
    for _, *paths in examples():
        model, stream = map(content, paths)
        yield from of_model(model)
        yield from of_pair(model, stream)


def quiet_calls() -> Iterator[Call]:
    """Those that take no memory."""
    for text in SETS:
        yield Call("sets", "ask", (text,))
    for model, _ in models():
        yield Call("model", "ask", (model,))


def words_of(program: str, folder: str, call: Call) -> List[str]:
    words = [program, call.kind, call.name]
    for place, text in enumerate(call.texts):
        words.append(os.path.join(folder, str(place)))
        with open(words[-1], "wb") as f:
            f.write(text)
    return words + list(call.more)


def each_growth(program: str, call: Call) -> Told:
    """Refuses each growth of a call in turn, and at last none."""
    tally = Tally()
    names: "Counter[str]" = Counter()
    with tempfile.TemporaryDirectory(dir=FOLDER) as folder:
        words = words_of(program, folder, call)
        ample = running.run(words)
        if ample.answer == NOT_MADE:
            return tally, names
        told = f"{call.kind} {call.name} {call.texts}"
        tally.check(told, ample.status == 0 and not MEMORY.search(ample.out), ample)
        every, last = running.each_refused(words)
        for number, ran in enumerate(every, 1):
            if ran.answer == NOT_MADE:
                continue
            name = call.refused(ample.out, ran.out)
            fits = name is not None and ran.status == 0 and not ran.err
            tally.check(f"{told}, growth {number}", fits, (ran.answer, ample.out))
            names[str(name)] += 1
        tally.expect(f"{told}, no refusal", last.answer, ample.answer)
    return tally, names


def no_growth(program: str, call: Call) -> Told:
    """Refuses every growth once the operands are made: all is told as before."""
    tally = Tally()
    with tempfile.TemporaryDirectory(dir=FOLDER) as folder:
        words = words_of(program, folder, call)
        ample = running.run(words)
        if ample.answer == NOT_MADE:
            return tally, Counter()
        every, last = running.each_refused(words, onward=True)
        made = next((ran for ran in every if ran.answer != NOT_MADE), last)
        told = f"{call.kind} {call.name} {call.texts}, every growth"
        tally.expect(told, made.answer, ample.answer)
    return tally, Counter()


LINES = IMPROVING_REPORT.splitlines(True)
ENDS = 18, 36, 47  # behind the LF of each part of the improving stream
SIZE = len(IMPROVING_STREAM)


def written_of(taken: int) -> bytes:
    """The lines of the parts of the improving stream that end in its first bytes."""
    return b"".join(line for line, end in zip(LINES, ENDS) if end <= taken)


def devices() -> Iterator[Tuple[Call, bytes]]:
    """Calls over readers and writers that fail, each with what is told."""
    improving = IMPROVING_MODEL, IMPROVING_STREAM
    accepted, read, write = b"Ok(Accepted(2))\n", b"Err(Read)\n", b"Err(Write)\n"

    def live(texts: Tuple[bytes, ...], *more: object) -> Call:
        return Call("live", "check_stream_up_to", texts, tuple(map(str, more)))

    yield live(improving, 1, ANY, ANY, 1), IMPROVING_REPORT + accepted
    yield live(improving, 1, ANY, ANY, 1, SIZE + 1), IMPROVING_REPORT + accepted
    for most in range(SIZE + 1):
        yield live(improving, 1, ANY, ANY, 1, most), written_of(most) + read
    for reads in range(SIZE + 1):
        yield live(improving, 1, reads, ANY, 1), written_of(reads) + read
    for piece in range(1, SIZE + 1):
        yield live(improving, piece, 1, ANY, 1), written_of(piece) + read
    yield live((IMPROVING_MODEL, b"\n" * 9), 1, ANY, ANY, 1, 5), read
    broken = b"Err(Model(Syntax(Span { start: 13, end: 13 })))\n"
    yield live((b"solve satisfy", IMPROVING_STREAM), 1, ANY, ANY, 1, 0), broken
    for room in range(len(IMPROVING_REPORT)):
        for fails in (0, 1):
            yield live(improving, ANY, ANY, room, fails), IMPROVING_REPORT[:room] + write
    yield live(improving, ANY, ANY, len(IMPROVING_REPORT), 1), IMPROVING_REPORT + accepted
    full = Call("stream", "split", (b"x" * (MOST_BYTES + 1),), (str(MOST_BYTES),))
    yield full, b"%d\nfalse\nfalse\n()\nErr(TooLong)\n" % MOST_BYTES + FAILED


def device(program: str, call: Call, want: bytes) -> Told:
    tally = Tally()
    with tempfile.TemporaryDirectory(dir=FOLDER) as folder:
        ran = running.run(words_of(program, folder, call))
    tally.expect(f"{call.kind} {call.name} {call.more}", ran.answer, (0, want, b""))
    return tally, Counter()


def jobs(program: str) -> Iterator[Tuple[Callable[..., Told], Tuple[Any, ...]]]:
    yield from ((each_growth, (program, call)) for call in calls())
    yield from ((no_growth, (program, call)) for call in quiet_calls())
    yield from ((device, (program, *case)) for case in devices())


def job(test: Callable[..., Told], args: Tuple[Any, ...]) -> Told:
    return test(*args)


def run(program: str, shared: str = running.SHARED) -> Tally:
    """Runs all, and tells how many growths were refused to each call: to each was at least one."""
    tally = Tally()
    refusals: "Counter[str]" = Counter()
    tally.check("what is preloaded was built", os.path.isfile(shared))
    with Pool() as pool:
        for part, names in pool.starmap(job, list(jobs(program)), chunksize=4):
            tally.add(part)
            refusals += names
    for name in NAMES:
        tally.check(f"a growth is refused to {name}", refusals[name])
    told = ", ".join(f"{name} {count:,}" for name, count in refusals.items())
    print(f"calls: {refusals.total():,} growths refused: {told}")
    return tally


if __name__ == "__main__":
    running.build()
    sys.exit(run(os.path.abspath(sys.argv[1])).end())
