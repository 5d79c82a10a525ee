"""Reads and writes that fail, each in turn and after each number of bytes, and when lines are
written.

A failed read is `refused: read` and what the system says of the file, with the lines of all parts
that ended before it; a failed write, or one that takes nothing, is `refused: write`, with what was
taken before. Both end with status 6."""
import itertools
import os
import select
import subprocess
import tempfile
from typing import IO, Callable, Dict, List

from beside import (
    FIRST_MODEL,
    FIRST_STREAM,
    IMPROVING_MODEL,
    IMPROVING_REPORT,
    IMPROVING_STREAM,
    content,
    examples,
)
from running import FOLDER, MOST_SECONDS, READ_SIZE, Answer, Jobs, Tally, opened, run

WRITE = 6, b"refused: write\n"
INPUT = "(standard input)"
LINES = IMPROVING_REPORT.splitlines(True)
ENDS = (18, 36, 47)  # behind the LF of each part of the improving stream


def unread(name: str, written: bytes) -> Answer:
    """The answer where a read of this file fails after so much was written."""
    return 6, written, b"refused: read\n" + f"{name}: Input/output error\n".encode()


def written_of(taken: int) -> bytes:
    """The lines of the parts of the improving stream that end in its first bytes."""
    return b"".join(line for line, end in zip(LINES, ENDS) if end <= taken)


def improving(program: str, test: Callable[[List[str]], Tally]) -> Tally:
    with tempfile.NamedTemporaryFile(dir=FOLDER) as model:
        model.write(IMPROVING_MODEL)
        model.flush()
        return test([program, "check", model.name])


def failing_reads(words: List[str]) -> Tally:
    """One byte a read, and the kth read of the stream fails; then the same after k bytes in one
    read."""
    tally = Tally()
    before = len(IMPROVING_MODEL) + 1  # reads of the model, of which the last gives nothing
    pieces = {"REFUSE_PIECE": "1"}
    whole = run(words, IMPROVING_STREAM, pieces)
    tally.expect("one byte a read", whole.answer, (0, IMPROVING_REPORT, b""))
    for k in range(1, len(IMPROVING_STREAM) + 2):
        ran = run(words, IMPROVING_STREAM, pieces | {"REFUSE_READ": str(before + k)})
        tally.expect(f"read {k} of single bytes", ran.answer, unread(INPUT, written_of(k - 1)))
    for k in range(1, before + 1):
        ran = run(words, IMPROVING_STREAM, pieces | {"REFUSE_READ": str(k)})
        tally.expect(f"read {k} of the model", ran.answer, unread(words[2], b""))
    for k in range(len(IMPROVING_STREAM) + 1):
        ran = run(words, IMPROVING_STREAM, {"REFUSE_READ": "3", "REFUSE_BYTES": str(k)})
        tally.expect(f"a read after {k} bytes", ran.answer, unread(INPUT, written_of(k)))
    return tally


def failing_writes(words: List[str]) -> Tally:
    """The writer takes k bytes of the report and then fails, or takes nothing."""
    tally = Tally()
    report = run(words, IMPROVING_STREAM).out
    size = len(report)
    for k in range(size + 1):
        ways: List[Dict[str, str]] = [{}, {"REFUSE_NOTHING": "1"}, {"REFUSE_PIECE": "1"}]
        for more in ways:
            limits = {"REFUSE_WRITE": "1", "REFUSE_BYTES": str(k)} | more
            ran = run(words, IMPROVING_STREAM, limits)
            refused = WRITE[0], report[:k], WRITE[1]
            want = refused if k < size else (0, report, b"")
            tally.expect(f"a writer of {k} bytes, {more}", ran.answer, want)
    return tally


def known_lines(words: List[str]) -> Tally:
    """The lines on the parts that have ended are written before more is read, however the stream is
    cut, and the lines on one read at once."""
    tally = Tally()
    size = len(IMPROVING_STREAM)
    for piece in range(1, size + 1):
        with subprocess.Popen(words, 0, stdin=subprocess.PIPE, stdout=subprocess.PIPE) as process:
            to, out = opened(process.stdin), opened(process.stdout)
            for at in range(0, size, piece):
                to.write(IMPROVING_STREAM[at : at + piece])
                want = written_of(at + piece).removeprefix(written_of(at))
                got = soon(out) if want else b""
                if not tally.expect(f"pieces of {piece} bytes, {at} read", got, want):
                    process.kill()
                    return tally
            to.close()
            tally.expect(f"pieces of {piece} bytes, the answer", soon(out), LINES[-1])
    return tally


def soon(pipe: IO[bytes]) -> bytes:
    """What one read gives of what is written."""
    ready, _, _ = select.select([pipe], [], [], MOST_SECONDS)
    return os.read(pipe.fileno(), READ_SIZE) if ready else b"too late"


def number_of_writes(program: str) -> Tally:
    """The lines on one read are one write, with the answer's line where no read follows. Lines as
    long as names of so many bytes don't all wait for the next read."""
    tally = Tally()
    refused = IMPROVING_STREAM[:36] + b"d = 1;\n----------\n"
    cases = [(IMPROVING_MODEL, IMPROVING_STREAM, 2), (IMPROVING_MODEL, IMPROVING_STREAM[:17], 1)]
    cases.append((IMPROVING_MODEL, refused, 1))
    for length, writes in ((1_000, 2), (30_000, 3), (70_000, 5)):
        named = b"var 0..9: " + b"n" * length + b";\nsolve satisfy;\n"
        cases.append((named, b"----------\n" * 4, writes))
    for text, stream, writes in cases:
        with tempfile.NamedTemporaryFile(dir=FOLDER) as model:
            model.write(text)
            model.flush()
            words = [program, "check", model.name]
            met = [bool(run(words, stream, {"REFUSE_WRITE": str(n)}).met)
                   for n in (writes, writes + 1)]
        name = f"{writes} writes on {stream!r} and a model of {len(text)}"
        tally.expect(name, met, [True, False])
    return tally


def failing_writes_of_json(words: List[str]) -> Tally:
    return failing_writes([*words, "--json"])


def each_read(program: str, name: str, model: str, stream: str) -> Tally:
    """Each read of an example fails in turn: the model's first, and then the stream's."""
    tally = Tally()
    words = [program, "check", model, stream]
    ample = run(words).answer
    for number in itertools.count(1):
        ran = run(words, env={"REFUSE_READ": str(number)})
        if not ran.met:
            return tally
        lines = ample[1].splitlines(True)[:-1] if number == 4 else []
        read = model if number <= 2 else stream
        tally.expect(f"{name}: read {number}", ran.answer, unread(read, b"".join(lines)))
    return tally


def each_byte_shown(program: str, name: str, model: str) -> Tally:
    """A writer takes each number of bytes of what `show` prints, and then fails."""
    tally = Tally()
    shown = run([program, "show", model]).out
    for k in range(0, len(shown), max(1, len(shown) // 100)):
        ran = run([program, "show", model], env={"REFUSE_WRITE": "1", "REFUSE_BYTES": str(k)})
        tally.expect(f"{name}: {k} bytes shown", ran.answer, (WRITE[0], shown[:k], WRITE[1]))
    return tally


def jobs(program: str) -> Jobs:
    yield improving, (program, failing_reads)
    yield improving, (program, failing_writes)
    yield improving, (program, known_lines)
    yield number_of_writes, (program,)
    yield improving, (program, failing_writes_of_json)
    for name, model, stream in examples():
        yield each_read, (program, name, model, stream)
        yield each_byte_shown, (program, name, model)
