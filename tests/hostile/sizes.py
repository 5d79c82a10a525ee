"""Texts at the limits and of the greatest length: the answer, within two seconds and ten times the
bytes.

The seconds are the processor's, so that what else the machine does doesn't count. Where every
second or third byte of a text is an element or a name of its own, more memory is taken, since an
element takes some 30 bytes in the tree and as many once more in the loaded model: such texts have
a bound of their own, a little above what was measured."""
import os
import resource
import subprocess
import tempfile
from dataclasses import dataclass
from typing import Any, Iterator, List, Optional, Tuple

from beside import FIRST_MODEL, content
from running import FOLDER, Answer, Jobs, Tally

MOST_SECONDS = 2
TRIES = 3  # of which the fastest counts, since another load on the machine only ever adds
GIVE_UP = 30  # seconds of the processor
TIMES = 10  # bytes of memory to each byte of the text
LEAST_BYTES = 48_000_000  # what any run may take: Python, which starts it, counts too
MOST_BYTES = 16_777_216  # of a text
MOST_ELEMENTS = 1_048_576
MANY = 100_000  # parts of a stream
PIECE = 1 << 16
SOLVE = b"solve satisfy;\n"
SATISFIED = b"block 1: satisfied\naccepted: blocks 1\n"


@dataclass
class Filled:
    """A text that is one piece many times over, between others."""

    before: bytes
    piece: bytes
    count: int
    behind: bytes = b""

    @property
    def size(self) -> int:
        return len(self.before) + len(self.piece) * self.count + len(self.behind)

    def write(self, path: str) -> None:
        at_once = max(1, PIECE // len(self.piece))
        with open(path, "wb") as f:
            f.write(self.before)
            for _ in range(self.count // at_once):
                f.write(self.piece * at_once)
            f.write(self.piece * (self.count % at_once) + self.behind)


def to_length(before: bytes, piece: bytes, behind: bytes, size: int = MOST_BYTES) -> Filled:
    """A text of a length, or of as few bytes below it as the piece has room for."""
    count = (size - len(before) - len(behind)) // len(piece)
    return Filled(before, piece, count, behind)


def refused(what: str, fault: str, start: Optional[int] = None, end: Optional[int] = None
            ) -> Answer:
    place = "" if start is None else f" at {start}..{end}"
    return 4, b"", f"refused: {what}: {fault}{place}\n".encode()


NOTHING = 3, b"no blocks\n", b""
ACCEPTED = 0, SATISFIED, b""


def models() -> Iterator[Tuple[Any, ...]]:
    """A name, a text, what `check` gives on an empty stream, and how many times the bytes it may
    take."""
    most, too_many = MOST_ELEMENTS, 2 * MOST_ELEMENTS
    yield "blanks", to_length(b"", b" ", SOLVE), NOTHING
    too_long = to_length(b"", b" ", SOLVE, MOST_BYTES + 1)
    yield "a byte too many", too_long, refused("model", "TooLong")
    yield "empty lines", to_length(b"", b"\n", SOLVE), NOTHING
    yield "one comment", to_length(b"%", b"x", b"\n" + SOLVE), NOTHING
    yield "many comments", to_length(b"", b"%\n", SOLVE), NOTHING
    yield "one name", to_length(b"var int: ", b"x", b";\n" + SOLVE), NOTHING
    yield "one string", to_length(b'solve :: a("', b"x", b'") satisfy;\n'), NOTHING
    open_string = to_length(b'solve :: a("', b"x", b"")
    yield "one open string", open_string, refused("model", "BadByte", 11, 12)
    yield "one constraint's name", to_length(b"constraint ", b"x", b"();\n" + SOLVE), NOTHING
    yield "colons", to_length(b"solve ", b"::", b""), refused("model", "Syntax", 8, 10)
    yield "annotations", to_length(b"solve ", b"::a", b" satisfy;\n"), NOTHING, 21
    at = 9 + 2 * 32
    deep = refused("model", "TooDeep", at, at + 1)
    yield "open parentheses", Filled(b"solve :: ", b"a(", 8_000_000), deep
    bare = to_length(b"solve :: a", b"(", b"")
    yield "bare parentheses", bare, refused("model", "Syntax", 11, 12)
    yield "brackets", to_length(b"", b"[", b""), refused("model", "Syntax", 0, 1)
    nines = to_length(b"int: a = ", b"9", b";\n")
    yield "nines", nines, refused("model", "TooLarge", 9, MOST_BYTES - 2)
    yield "zeros", to_length(b"int: a = ", b"0", b"3;\n" + SOLVE), NOTHING
    nines = Filled(b"int: a = ", b"9", 100, b";\n")
    yield "a hundred nines", nines, refused("model", "TooLarge", 9, 109)
    yield "points", to_length(b"", b".", b""), refused("model", "Syntax", 0, 2)
    listed = Filled(b"constraint p([", b"1,", most - 1, b"1]);\n" + SOLVE)
    yield "a list", listed, NOTHING, 35
    at = 14 + too_many
    one_more = refused("model", "TooMany", at, at + 1)
    listed = Filled(b"constraint p([", b"1,", most, b"1]);\n" + SOLVE)
    yield "an element too many", listed, one_more, 32
    yield "a number too many", Filled(b"constraint p({", b"1,", most, b"1});\n" + SOLVE), one_more
    yield "a set", Filled(b"constraint p({", b"1,", most - 1, b"1});\n" + SOLVE), NOTHING
    arguments = Filled(b"constraint p(", b"1,", most, b"1);\n" + SOLVE)
    yield "arguments without a limit", arguments, NOTHING, 45
    yield "lists", to_length(b"", b"constraint p([1,2,3,4,5,6,7,8,9]);\n", SOLVE), NOTHING
    yield "truths", to_length(b"", b"constraint p(true,false);\n", SOLVE), NOTHING
    yield "bytes of no text", to_length(b"", b"\0", b""), refused("model", "BadByte", 0, 1)
    yield "bytes past ASCII", to_length(b"%", b"\xff", b"\n" + SOLVE), NOTHING


def streams() -> Iterator[Tuple[Any, ...]]:
    """A name, a text, what `check` gives on it against a model with one number x from 1 to 5."""
    held = Filled(b"", b"x", MOST_BYTES)
    yield "a line that is held", held, refused("stream", "Unfinished", 0, MOST_BYTES)
    yield "a byte too many", Filled(b"", b"x", MOST_BYTES + 1), refused("stream", "TooLong")
    block = b"x = 3;\n----------\n"
    yield "a comment in a block", to_length(b"x = 3;%", b"x", b"\n----------\n"), ACCEPTED
    yield "blanks in a block", to_length(b"x = 3", b" ", b";\n----------\n"), ACCEPTED
    yield "a comment", to_length(b"%", b"x", b"\n", MOST_BYTES), NOTHING
    yield "behind a comment", to_length(b"%", b"x", b"\n" + block, MOST_BYTES), ACCEPTED
    yield "comments", to_length(b"", b"%" + b"x" * 99 + b"\n", block, 4 * MOST_BYTES), ACCEPTED
    yield "blank lines", to_length(b"", b" \r\n", block, MOST_BYTES), ACCEPTED
    name = to_length(b"", b"y", b" = 3;\n----------\n")
    yield "one name", name, refused("block 1", "UnknownName", 0, name.count)
    most, at = MOST_ELEMENTS, 18 + 2 * MOST_ELEMENTS
    one_more = refused("stream", "TooMany", at, at + 1)
    listed = Filled(b"x = array1d(1..9,[", b"1,", most, b"1]);\n----------\n")
    yield "an element too many", listed, one_more, 28
    listed = Filled(b"x =".ljust(17) + b"{", b"1,", most, b"1};\n----------\n")
    yield "a number too many", listed, one_more
    nines = Filled(b"x = ", b"9", 100, b";\n----------\n")
    yield "a hundred nines", nines, refused("stream", "TooLarge", 4, 104)
    yield "a hundred zeros", Filled(b"x = ", b"0", 100, b"3;\n----------\n"), ACCEPTED
    yield "zeros", to_length(b"x = ", b"0", b"3;\n----------\n"), ACCEPTED
    yield "a float", Filled(b"x = 1.5;\n", b"-", 10, b"\n"), refused("stream", "Float", 4, 7)
    claim = b"=====UNKNOWN====="
    lines = b"claim: " + claim + b" not judged\n"
    yield "claims", Filled(b"", claim + b"\n", MANY), (3, lines * MANY + b"no blocks\n", b"")
    lines = b"".join(b"block %d: satisfied\n" % n for n in range(1, MANY + 1))
    yield "blocks", Filled(b"", block, MANY), (0, lines + b"accepted: blocks %d\n" % MANY, b"")


def measured(program: str, words: List[str], text: Filled, path: str) -> Tuple[Answer, float, int]:
    """Runs the program; its status, standard output and standard error, its seconds and its
    bytes."""
    text.write(path)
    out, err = path + ".out", path + ".err"
    with open(out, "wb") as to, open(err, "wb") as told:
        child = subprocess.Popen([program, *words], stdout=to, stderr=told)
        resource.prlimit(child.pid, resource.RLIMIT_CPU, (GIVE_UP, GIVE_UP))
        _, status, used = os.wait4(child.pid, 0)
        child.returncode = os.waitstatus_to_exitcode(status)
    answer = child.returncode, content(out), content(err)
    return answer, used.ru_utime + used.ru_stime, used.ru_maxrss * 1024


def judged(program: str, sort: str, name: str, text: Filled, want: Optional[Answer],
           times: int = TIMES) -> Tally:
    """One text is judged or shown, in its time and its memory."""
    tally = Tally()
    with tempfile.TemporaryDirectory(dir=FOLDER) as folder:
        path = os.path.join(folder, "text")
        words = {
            "model": ["check", path, os.devnull],
            "stream": ["check", FIRST_MODEL, path],
            "show": ["show", path],
        }
        answer, seconds, taken = measured(program, words[sort], text, path)
        for _ in range(1, TRIES):
            if seconds > MOST_SECONDS:
                _, again, _ = measured(program, words[sort], text, path)
                seconds = min(seconds, again)
        if want is None:
            want = 0, content(path), b""
    name = f"{sort}: {name}"
    tally.check(name, answer == want, [part[-200:] for part in answer if isinstance(part, bytes)])
    tally.check(f"{name}: seconds", seconds <= MOST_SECONDS, f"{seconds:.2f}")
    small = taken <= max(times * text.size, LEAST_BYTES)
    said = f"{taken} bytes for {text.size}, {taken / text.size:.1f} times"
    tally.check(f"{name}: memory", small, said)
    return tally


def shown() -> Iterator[Tuple[str, Filled]]:
    """A name and a text that is shown as it stands."""
    yield "one name", to_length(b"var int: ", b"x", b";\n" + SOLVE)
    yield "one string", to_length(b'solve :: a("', b"x", b'") satisfy;\n')


def jobs(program: str) -> Jobs:
    for sort, texts in (("model", models()), ("stream", streams())):
        for name, *rest in texts:
            yield judged, (program, sort, name, *rest)
    for name, text in shown():
        yield judged, (program, "show", name, text, None)
