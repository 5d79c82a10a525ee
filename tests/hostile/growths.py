"""Each growth of the program's memory refused in turn, by itself and with all that follow.

Every run answers that memory ran out, or what it answers with ample memory; what it wrote before
is a front of what it writes then. What explains a refusal or a verdict may be left out."""
import os
from typing import Iterator, List, Tuple

from beside import BY_HAND, CORPUS, FIRST_MODEL, FIRST_STREAM, content, examples, pairs
from running import ROOT, Jobs, Tally, each_refused, run

MEMORY = 7
OUT_OF_MEMORY = b"refused: memory\n"
REFUSED = 4  # the least status of a refusal
MOST_BYTES = 4_000  # of a model: longer ones of the corpus have the same growths, more of them


def words_of_runs() -> Iterator[Tuple[str, List[str], bytes]]:
    """A name, the words behind the program's name, and standard input, of each run."""
    # by_hand is left out for the time that it would take
    real = [c for c in pairs(CORPUS) if not c[0].startswith(BY_HAND)]
    small = [c for c in real if len(content(c[1])) <= MOST_BYTES]
    cases = examples() + small
    for name, model, stream in cases:
        yield name, ["check", model, stream], b""
    for name, model in sorted({c[1]: c[0] for c in cases}.items()):
        yield f"{name} shown", ["show", model], b""
        yield f"{name} shown, all printed", ["show", "--print-all", model], b""
    yield "standard input", ["check", FIRST_MODEL], content(FIRST_STREAM)
    yield "a cut stream", ["check", FIRST_MODEL], content(FIRST_STREAM) + b"x = 4;\n"
    cuts = ["check", "--cut", "--explain=all", FIRST_MODEL]
    yield "a cut stream, cut off", cuts, b"x = 1;\n----------\nx = 4;\n"
    yield "a broken model", ["show", FIRST_STREAM], b""
    explain = ["check", "--explain", FIRST_MODEL]
    yield "a cut stream, explained", explain, content(FIRST_STREAM) + b"x = 4;\n"
    for name, model, stream in examples():
        yield f"{name} explained", ["check", "--explain", model, stream], b""
    page = os.path.join(ROOT, "tests", "explained", "undecided_then_violated")
    pair = [os.path.join(page, "model.fzn"), os.path.join(page, "stream.txt")]
    yield "undecided and then violated, explained", ["check", "--explain", *pair], b""
    page = os.path.join(ROOT, "tests", "explained", "names")
    names, *pair = [os.path.join(page, file) for file in ("model.names", "model.fzn", "stream.txt")]
    yield "a table of names", ["check", "--explain", "--names", names, *pair], b""
    yield "no table of names", ["check", "--explain", "--names", FIRST_STREAM, *pair], b""
    page = os.path.join(ROOT, "examples", "deliveries")
    files = "other_stream.txt", "model.fzn", "stream.txt"
    known = ["check", "--claims", "--known", *(os.path.join(page, name) for name in files)]
    yield "a claim that a known stream refutes", known, b""
    yield "a broken model, explained", ["check", "--explain", FIRST_STREAM, FIRST_STREAM], b""
    yield "no such file", ["check", FIRST_MODEL + ".none"], b""
    yield "wrong words", ["check", "--fast"], b""
    yield "no words", [], b""


def fronts(text: bytes, is_refusal: bool) -> List[bytes]:
    """Each front of the lines; of a refusal its own line stands in each."""
    lines = text.splitlines(True)
    return [b"".join(lines[:count]) for count in range(int(is_refusal), len(lines) + 1)]


def judged(name: str, words: List[str], stdin: bytes, onward: bool) -> Tally:
    """Refuses the first growth, the second and so on, and at last none."""
    tally = Tally()
    ample = run(words, stdin).answer
    # With `--explain=all` blocks are explained as they come.
    refused = [front + OUT_OF_MEMORY for front in fronts(ample[2], False)]
    every, last = each_refused(words, stdin, onward)
    for number, ran in enumerate(every, 1):
        wants = ran.status == MEMORY and ran.err in refused and ample[1].startswith(ran.out)
        is_refusal = ample[0] is not None and ample[0] >= REFUSED
        fewer = ran.answer[:2] == ample[:2] and ran.err in fronts(ample[2], is_refusal)
        tally.check(f"{name}: growth {number}", wants or fewer or ran.answer == ample, ran)
    tally.expect(f"{name}: no growth {len(every) + 1}", last.answer, ample)
    return tally


def jobs(program: str) -> Jobs:
    for name, words, stdin in words_of_runs():
        for onward in (False, True):
            yield judged, (name, [program, *words], stdin, onward)
