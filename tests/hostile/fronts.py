"""Every front of a stream and of a model: what a cut leaves is refused, or answered as it
stands."""
import os
import tempfile

from beside import (
    EXAMPLES,
    FIRST_MODEL,
    FIRST_STREAM,
    IMPROVING_MODEL,
    IMPROVING_REPORT,
    IMPROVING_STREAM,
    content,
    examples,
    second,
    second_cut,
    shown,
)
from running import FOLDER, Answer, Jobs, Tally, run

LINES = IMPROVING_REPORT.splitlines(True)
PIECE = 400  # fronts that one job runs

# What the first n bytes of the improving stream give: the last n of which it is true, the lines of
# parts that are written, where the open block begins, or how many blocks are accepted.
CUTS = (
    (0, 0, None, 0),
    (16, 0, 0, None),
    (18, 1, None, 1),
    (34, 1, 18, None),
    (36, 2, None, 2),
    (45, 2, 36, None),
    (47, 3, None, 2),
)


def of_improving(n: int, cuts: bool) -> Answer:
    """The status, standard output and standard error on the first n bytes of the improving stream,
    with --cut or without."""
    lines, opened, accepted = next(cut[1:] for cut in CUTS if n <= cut[0])
    written = b"".join(LINES[:lines])
    if opened is not None and not cuts:
        return 4, written, b"refused: stream: Unfinished at %d..%d\n" % (opened, n)
    if opened is not None:
        accepted = lines  # no claim is among them
        told = opened, n, shown(IMPROVING_STREAM[opened:n])
        written += b'cut: %d..%d, from "%b"\n' % told
    if not accepted:
        return 3, written + b"no blocks\n", b""
    return 0, written + b"accepted: blocks %d\n" % accepted, b""


def improving(program: str) -> Tally:
    tally = Tally()
    with tempfile.NamedTemporaryFile(dir=FOLDER) as model:
        model.write(IMPROVING_MODEL)
        model.flush()
        for n in range(len(IMPROVING_STREAM) + 1):
            for cuts, words in (False, ["check"]), (True, ["check", "--cut"]):
                ran = run([program, *words, model.name], IMPROVING_STREAM[:n])
                name = f"the first {n} bytes of the stream, by {words}"
                tally.expect(name, ran.answer, of_improving(n, cuts))
    return tally


def first_model(program: str) -> Tally:
    """The places of two cuts, and the statuses of all."""
    tally = Tally()
    model = content(FIRST_MODEL)
    places = {0: b"refused: model: Syntax at 0..0\n", 6: b"refused: model: BadByte at 5..6\n"}
    for n in range(len(model) + 1):
        ran = run([program, "check", "/dev/stdin", FIRST_STREAM], model[:n])
        name = f"the first {n} bytes of the model"
        if n >= 65:
            tally.expect(name, ran.answer, (0, b"block 1: satisfied\naccepted: blocks 1\n", b""))
            continue
        refused = ran.status == 4 and not ran.out and ran.err.startswith(b"refused: model: ")
        tally.check(name, refused and ran.err == places.get(n, ran.err), ran)
    return tally


def of_model(program: str, name: str, model: str, stream: str, first: int) -> Tally:
    tally = Tally()
    whole, judged = content(model), content(stream)
    for n in range(first, min(first + PIECE, len(whole) + 1)):
        got = run([program, "check", "/dev/stdin", stream], whole[:n]).answer
        tally.expect(f"{name}: the model's first {n} bytes", got, second(whole[:n], judged))
    return tally


def of_stream(program: str, name: str, model: str, stream: str) -> Tally:
    tally = Tally()
    against, whole = content(model), content(stream)
    for n in range(len(whole) + 1):
        got = run([program, "check", model], whole[:n]).answer
        tally.expect(f"{name}: the stream's first {n} bytes", got, second(against, whole[:n]))
        got = run([program, "check", "--cut", model], whole[:n]).answer
        tally.expect(f"{name}: the first {n} bytes, cut", got, second_cut(against, whole[:n]))
    return tally


def jobs(program: str) -> Jobs:
    yield improving, (program,)
    yield first_model, (program,)
    for name, model, stream in examples():
        yield of_stream, (program, name, model, stream)
        for first in range(0, os.path.getsize(model) + 1, PIECE):
            yield of_model, (program, name, model, stream, first)
