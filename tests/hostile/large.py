"""Texts of 40 MB that are read with `--large`: the answer, within some seconds and times the bytes,
and `TooLong` without. What is found behind 2^24 bytes of a model and behind 2^31 of a stream is
told in its place.

`large.py PROGRAM GIGABYTES` runs the texts by hand in another size, as 1.0737 for 2^30 bytes."""
import os
import subprocess
import sys
import tempfile
import threading
from typing import Iterator, Tuple

from beside import FIRST_MODEL
from running import FOLDER, Answer, Jobs, Tally, opened, run
from sizes import ACCEPTED, NOTHING, SOLVE, Filled, measured, refused, to_length

SIZE = 40_000_000
LIMIT = 1_073_741_824  # bytes of a text with `--large`
SECONDS_A_BYTE = 2e-7
TIMES = 5  # bytes of memory to each byte of the text
STANDARD = 1_048_576  # elements of a list without `--large`
FAR = 1 << 31  # bytes of a stream before its block
COMMENT = b"%" + b"x" * 65_534 + b"\n"
BLOCK = b"\n----------\n"
Large = Tuple[str, Filled, Answer]  # a name, a text, and what is given


def models(size: int) -> Iterator[Large]:
    """A name, a text, and what `check --large` gives on an empty stream."""

    def of(before: bytes, piece: bytes, behind: bytes) -> Filled:
        return to_length(before, piece, behind, size)

    yield "blanks", of(b"", b" ", SOLVE), NOTHING
    yield "one comment", of(b"%", b"x", b"\n" + SOLVE), NOTHING
    yield "one name", of(b"var int: ", b"x", b";\n" + SOLVE), NOTHING
    yield "one string", of(b'solve :: a("', b"x", b'") satisfy;\n'), NOTHING
    nines = of(b"int: a = ", b"9", b";\n")
    yield "nines", nines, refused("model", "TooLarge", 9, 9 + nines.count)
    yield "zeros", of(b"int: a = ", b"0", b"3;\n" + SOLVE), NOTHING
    deep = of(b"solve :: ", b"a(", b"")
    yield "open parentheses", deep, refused("model", "TooDeep", 73, 74)
    yield "bare parentheses", of(b"solve :: a", b"(", b""), refused("model", "Syntax", 11, 12)
    yield "commas", of(b"constraint p(1", b",", b");\n"), refused("model", "Syntax", 15, 16)
    yield "clauses", of(b"var bool: b;\n", b"constraint bool_clause([b],[b]);\n", SOLVE), NOTHING
    broken = of(b"var bool: b;\n", b"constraint bool_clause([b],[b]);\n", b"solve ;")
    at = broken.size - 1
    yield "a fault at the end", broken, refused("model", "Syntax", at, at + 1)
    unknown = of(b"var bool: b;\n", b"constraint bool_clause([b],[b]);\n", b"constraint p(c);" + SOLVE)
    at = unknown.size - len(b"c);" + SOLVE)
    yield "a name at the end", unknown, refused("model", "UnknownName", at, at + 1)


def streams(size: int) -> Iterator[Large]:
    """A name, a text, and what `check --large` gives on it against a model with one number x."""
    held = Filled(b"", b"x", size)
    yield "a line that is held", held, refused("stream", "Unfinished", 0, size)
    yield "blanks in a block", to_length(b"x = 3", b" ", b";" + BLOCK, size), ACCEPTED
    name = to_length(b"", b"y", b" = 3;" + BLOCK, size)
    yield "one name", name, refused("block 1", "UnknownName", 0, name.count)


def judged(program: str, sort: str, name: str, text: Filled, want: Answer) -> Tally:
    """One text is judged, in its time and its memory, and refused where it isn't to be large."""
    tally = Tally()
    name = f"{sort} of {text.size} bytes: {name}"
    with tempfile.TemporaryDirectory(dir=FOLDER) as folder:
        path = os.path.join(folder, "text")
        files = [path, os.devnull] if sort == "model" else [FIRST_MODEL, path]
        answer, seconds, taken = measured(program, ["check", "--large", *files], text, path)
        short = run([program, "check", *files]).answer
    tally.check(name, answer == want, [part[-200:] for part in answer if isinstance(part, bytes)])
    tally.check(f"{name}: seconds", seconds <= max(2, SECONDS_A_BYTE * text.size), f"{seconds:.2f}")
    tally.check(f"{name}: memory", taken <= TIMES * text.size, f"{taken / text.size:.1f} times")
    tally.expect(f"{name}, without --large", short, refused(sort, "TooLong"))
    return tally


def written(folder: str, name: str, *parts: bytes) -> str:
    path = os.path.join(folder, name)
    with open(path, "wb") as f:
        f.writelines(parts)
    return path


def explained(program: str) -> Tally:
    """What is found behind 2^24 bytes and a million constraints is told by its number and line."""
    tally = Tally()
    count = 1_500_000
    with tempfile.TemporaryDirectory(dir=FOLDER) as folder:
        posted = b"constraint int_le(x,9);\n" * (count - 1) + b"constraint int_le(9,x);\n"
        model = written(folder, "model", b"var 0..9: x :: output_var;\n", posted, SOLVE)
        stream = written(folder, "stream", b"x = 3;", BLOCK)
        ran = run([program, "check", "--large", "--explain", model, stream])
        report = b"block 1: violated: constraint %d int_le\nrejected: block 1\n" % count
        place = b"%s:%d:12: constraint %d int_le fails in block 1\n" % (model.encode(), count + 1, count)
        tally.expect("a constraint behind a million", (ran.status, ran.out), (1, report))
        tally.check("its place", ran.err.startswith(place), ran.err[:200])
        listed = written(folder, "list", b"constraint p([1", b",1" * STANDARD, b"]);\n", SOLVE)
        words = [program, "check", "--explain", listed, os.devnull]
        ran = run(words)
        tally.check("too many elements", ran.err.endswith(b"= try --large\n"), ran.err[-200:])
        tally.expect("the same, large", run([*words, "--large"]).answer, NOTHING)
        blanks = written(folder, "blanks", b" " * (1 << 24), SOLVE)
        told = b"refused: model: TooLong\n%s: the text is too long, try --large\n" % blanks.encode()
        ran = run([program, "check", "--explain", blanks, os.devnull])
        tally.expect("a model that is too long", ran.answer, (4, b"", told))
    return tally


def far(program: str) -> Tally:
    """A block that doesn't fit, behind 2^31 bytes of a stream."""
    tally = Tally()
    words = [program, "check", FIRST_MODEL]
    with subprocess.Popen(words, stdin=subprocess.PIPE, stderr=subprocess.PIPE) as process:
        for _ in range(FAR // len(COMMENT) + 1):
            opened(process.stdin).write(COMMENT)
        at = (FAR // len(COMMENT) + 1) * len(COMMENT)
        _, err = process.communicate(b"y = 3;" + BLOCK)
    want = refused("block 1", "UnknownName", at, at + 1)
    tally.expect("a block behind 2^31 bytes", (process.returncode, b"", err), want)
    return tally


def growing(program: str) -> Tally:
    """A model that grows, by comments, while it is read."""
    tally = Tally()
    stopped = threading.Event()
    with tempfile.TemporaryDirectory(dir=FOLDER) as folder:
        path = written(folder, "model", SOLVE, COMMENT * 100)

        def grow() -> None:
            with open(path, "ab", buffering=0) as f:
                while not stopped.is_set() and f.tell() < 4 * SIZE:
                    f.write(COMMENT)

        writer = threading.Thread(target=grow)
        writer.start()
        answer = run([program, "check", "--large", path, os.devnull]).answer
        stopped.set()
        writer.join()
        tally.expect("a model that grows while it is read", answer, NOTHING)
    return tally


def short_of_memory(program: str) -> Tally:
    """A large model, where memory ends at each tenth of ten times its bytes."""
    tally = Tally()
    with tempfile.TemporaryDirectory(dir=FOLDER) as folder:
        path = os.path.join(folder, "model")
        text = to_length(b"var bool: b;\n", b"constraint bool_clause([b],[b]);\n", SOLVE, SIZE)
        text.write(path)
        answers = []
        for tenth in range(1, 11):
            command = f'ulimit -v {tenth * SIZE // 1_000}; exec "$@"'
            words = ["sh", "-c", command, "", program, "check", "--large", path, os.devnull]
            answers.append(run(words).answer)
    for tenth, answer in enumerate(answers, 1):
        known = answer in ((7, b"", b"refused: memory\n"), NOTHING)
        tally.check(f"{tenth} tenths of a large model's memory", known, answer)
    kinds = {answer[0] for answer in answers}
    tally.expect("with and without enough of it", kinds, {7, 3})
    return tally


def texts(size: int) -> Iterator[Tuple[str, str, Filled, Answer]]:
    for sort, listed in (("model", models(size)), ("stream", streams(size))):
        for name, text, want in listed:
            yield sort, name, text, want


def jobs(program: str) -> Jobs:
    for text in texts(SIZE):
        yield judged, (program, *text)
    for test in (explained, far, growing, short_of_memory):
        yield test, (program,)


def main() -> int:
    program, gigabytes = os.path.abspath(sys.argv[1]), float(sys.argv[2])
    os.makedirs(FOLDER, exist_ok=True)
    tally = Tally()
    for text in texts(min(LIMIT, int(gigabytes * 1e9))):
        tally.add(judged(program, *text))
    return tally.end()


if __name__ == "__main__":
    sys.exit(main())
