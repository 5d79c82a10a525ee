#!/usr/bin/env python3
"""Broken and mutated models and streams at random, beside the second checker and in pieces.

    fuzz.py PROGRAM SECONDS [SEED]

runs for so many seconds on all cores, prints each pair that differs and keeps its files. The same
seed gives the same pairs."""
import itertools
import json
import os
import random
import re
import sys
import tempfile
import time
from multiprocessing import Pool
from typing import Any, Callable, Dict, List, Optional, Tuple

from beside import CORPUS, content, examples, pairs, second, second_cut, slow
from running import FOLDER, ROOT, Jobs, Ran, Tally, run

Pair = Tuple[bytes, bytes]  # a model and a stream
Written = Tuple[str, Any]  # a text and its value

AT_ONCE = 200  # pairs of one job
MOST_SOURCE = 2_500  # bytes of a model that is mutated
MOST_PIECES = 15  # a pipe has room for 16 pieces before anyone reads
MOST_PIECE = 4_096
CASES = os.path.join(ROOT, "tests", "broken", "cases.txt")
SOLVE, MARKER = b"solve satisfy;\n", b"----------\n"
TOKEN = re.compile(rb"[A-Za-z_0-9]+|-?[0-9]+|::|\.\.|\s+|.", re.DOTALL)
SPICE = [
    b"0", b"-1", b"1", b"2", b"3", b"true", b"false", b"{}", b"{1,2}", b"1..2", b"2..1", b"[",
    b"]", b"(", b")",
    b"{", b"}", b",", b";", b":", b"::", b"..", b"=", b"-", b"%", b'"', b"\\", b"\0", b"\xff",
    b"\r", b"\n", b"\r\n",
    b"----------\n", b"==========\n", b"=====UNKNOWN=====\n", b"% c\n", b"1.5", b"1e3", b"0x1F",
    b"-0o7", b"007",
    b"9223372036854775807", b"-9223372036854775808", b"9223372036854775808",
    b"4611686018427387904", b"array1d(1..1,[1])",
    b"x0", b"x1", b"x2", b"var", b"int", b"float", b"array", b"[1..2]", b"of",
    b" :: defines_var(x1)",
]  # fmt: skip
SCALARS = {"I": "int", "B": "bool", "S": "set of int"}
WORTH: Dict[str, Dict[str, Any]] = {  # literals, with their values
    "I": {"0": 0, "1": 1, "2": 2, "3": 3, "-1": -1, "5": 5, "0x2": 2, "40": 40,
          "-9223372036854775808": -(2**63)},
    "B": {"true": True, "false": False},
    "S": {"{}": (), "{1}": (1,), "{1,3}": (1, 3), "1..3": (1, 2, 3), "2..1": (),
          "{2,2,1}": (1, 2), "60..66": range(60, 67)},
}  # fmt: skip
OFTEN = {"I": ["0", "1", "2", "3"], "B": ["true", "false"], "S": ["{1}", "{1,3}", "1..3"]}
DOMAINS = {
    "0..3": range(4), "0..5": range(6), "{1,2,3}": range(1, 4), "2..2": [2], "int": range(-9, 99)
}
TABLE = slow.RESULTS | slow.TESTS | slow.OTHER_TESTS | slow.EITHER
ROWS = {name: row[0].split() for name, row in TABLE.items()}


def sources() -> Tuple[List[Pair], List[Pair]]:
    """Small pairs of the repository: the examples and the corpus, and the broken texts."""
    whole = [(content(m), content(s)) for _, m, s in [*examples(), *pairs(CORPUS)]]
    whole = [pair for pair in whole if sum(map(len, pair)) <= MOST_SOURCE]
    broken: List[Pair] = []
    with open(CASES) as f:
        for line in f:
            if not line.startswith("#"):
                sort, *_, text = line.rstrip("\n").split("\t")
                source = json.loads(text).encode("latin-1")
                items = SOLVE, source + MARKER
                broken.append((source, b"") if sort == "model" else items)
    return whole, broken


class Small:
    """A small random model over the whole table, and blocks for it. A term is a text and its
    value; most constraints hold under the values of the names."""

    def __init__(self, rand: random.Random) -> None:
        self.rand = rand
        kinds = "I", "B", "S", "[I]", "[B]", "[S]"
        self.names: Dict[str, List[Written]] = {kind: [] for kind in kinds}
        self.items: List[str] = []
        for number in range(rand.randint(1, 7)):
            self.declare(f"x{number}")
        for _ in range(rand.randint(0, 8)):
            self.post()
        goal = "satisfy"
        if rand.random() < 0.4:
            goal = rand.choice(["minimize ", "maximize "]) + self.scalar("I")[0]
        self.items.append(f"solve {goal};")

    def literal(self, kind: str) -> Written:
        text = self.rand.choice(OFTEN[kind] if self.rand.random() < 0.8 else list(WORTH[kind]))
        value = WORTH[kind][text]
        return text, frozenset(value) if kind == "S" else value

    def scalar(self, kind: str) -> Written:
        names = self.names[kind]
        is_name = names and self.rand.random() < 0.75
        return self.rand.choice(names) if is_name else self.literal(kind)

    def list_of(self, one: Callable[[str], Written], kind: str, length: int) -> Written:
        terms = [one(kind) for _ in range(length)]
        return "[" + ",".join(text for text, _ in terms) + "]", [value for _, value in terms]

    def argument(self, kind: str) -> Written:
        if not kind.startswith("["):
            return self.scalar(kind)
        if self.names[kind] and self.rand.random() < 0.4:
            return self.rand.choice(self.names[kind])
        return self.list_of(self.scalar, kind.strip("[]"), self.rand.choice([2, 2, 2, 1, 3, 0]))

    def declare(self, name: str) -> None:
        rand = self.rand
        kind = rand.choice("IIIBBS")
        base = SCALARS[kind]
        if rand.random() < 0.2:
            length = rand.randint(1, 3)
            one, var = (self.scalar, "var ") if rand.random() < 0.7 else (self.literal, "")
            text, value = self.list_of(one, kind, length)
            self.items.append(f"array [1..{length}] of {var}{base}: {name} = {text};")
            self.names[f"[{kind}]"].append((name, value))
            return
        text, value = self.literal(kind)
        if rand.random() < 0.15:
            self.items.append(f"{base}: {name} = {text};")
        else:
            whole = value if kind == "S" else [value] if kind == "I" else []
            fitting = [d for d, numbers in DOMAINS.items() if set(whole) <= set(numbers)]
            base = base.replace("int", rand.choice(fitting or list(DOMAINS)))
            text = f" = {text}" if rand.random() < 0.15 else ""
            self.items.append(f"var {base}: {name}{rand.choice(['', ' :: output_var'])}{text};")
        self.names[kind].append((name, value))

    def post(self) -> None:
        rand = self.rand
        name = rand.choice(sorted(ROWS))
        kinds = ROWS[name]
        if name in slow.FORMS and rand.random() < 0.4:
            name, kinds = name + rand.choice(["_reif", "_imp"]), kinds + ["B"]
        args = [self.argument(kind) for kind in kinds]
        if rand.random() < 0.9 and not self.holds(name, [value for _, value in args]):
            return
        texts = ",".join(text for text, _ in args)
        targets = re.findall("x[0-9]", texts)
        defines = targets and rand.random() < 0.7
        notes = f" :: defines_var({rand.choice(targets)})" if defines else ""
        if rand.random() < 0.02:
            name = "other"
        self.items.append(f"constraint {name}({texts}){notes};")

    def holds(self, name: str, values: List[Any]) -> bool:
        try:
            return slow.Row(name).holds(values)
        except (slow.NotKnown, OverflowError):
            return False

    def block(self) -> str:
        rand, lines = self.rand, []
        some = rand.choice([0.3, 0.1, 0])  # are left out, or have another value
        for kind, names in self.names.items():
            for name, value in names:
                if rand.random() < some:
                    continue
                if kind.startswith("["):
                    texts = [self.printed(kind[1], v, some) for v in value]
                    lines.append(f"{name} = array1d(1..{len(value)},[{','.join(texts)}]);")
                else:
                    lines.append(f"{name} = {self.printed(kind, value, some)};")
        if rand.random() < 0.3:
            rand.shuffle(lines)
        return "\n".join(lines + ["----------", ""])

    def printed(self, kind: str, value: Any, others: float) -> str:
        if self.rand.random() < others / 2:
            return self.literal(kind)[0]
        if kind == "B":
            return "true" if value else "false"
        return str(value) if kind == "I" else "{" + ",".join(map(str, sorted(value))) + "}"

    def stream(self) -> str:
        claim = self.rand.choice(["", "", "==========\n", "=====UNKNOWN=====\n", "% done\n"])
        return "".join(self.block() for _ in range(self.rand.choice([0, 1, 1, 2, 3]))) + claim


def in_bytes(text: bytes) -> List[bytes]:
    return [text[at : at + 1] for at in range(len(text))]


def in_lines(text: bytes) -> List[bytes]:
    return text.splitlines(True)


def mutated(text: bytes, other: bytes, rand: random.Random) -> bytes:
    """The text with one change: bytes, tokens or lines dropped, doubled, exchanged, put in or cut
    off."""
    ways: List[Callable[[bytes], List[bytes]]] = [TOKEN.findall, TOKEN.findall, in_lines, in_bytes]
    parts = rand.choice(ways)(text)
    at = rand.randint(0, len(parts))
    to = min(len(parts), at + rand.choice([1, 1, 1, 2, 5]))
    which = rand.randrange(8)
    if which == 0:
        parts[at:to] = []
    elif which == 1:
        parts[at:at] = parts[at:to]
    elif which == 2:
        parts[at:to] = [rand.choice(SPICE)]
    elif which == 3:
        parts[at:at] = [rand.choice(SPICE)]
    elif which == 4 and parts:
        parts[at:to] = [rand.choice(parts)]
    elif which == 5 and at < len(parts):
        place = rand.randrange(len(parts))
        parts[at], parts[place] = parts[place], parts[at]
    elif which == 6:
        parts[at:] = [] if rand.random() < 0.5 else [other[rand.randint(0, len(other)) :]]
    else:
        parts[at:to] = [bytes([rand.randrange(256)])]
    return b"".join(parts)


def pair(rand: random.Random, whole: List[Pair], broken: List[Pair]) -> Pair:
    """A model and a stream, made or found, and in most cases changed in some places."""
    which = rand.random()
    if which < 0.7:
        small = Small(rand)
        model, stream = "\n".join([*small.items, ""]).encode(), small.stream().encode()
    else:
        model, stream = rand.choice(whole if which < 0.85 else broken)
    other = rand.choice(whole)[rand.randrange(2)]
    for _ in range(rand.choice([0, 0, 0, 1, 1, 2, 4])):
        if rand.random() < 0.4:
            model = mutated(model, other, rand)
        else:
            stream = mutated(stream, other, rand)
    if rand.random() < 0.05:
        stream = stream.replace(b"\n", b"\r\n")
    return model, stream


def in_pieces(words: List[str], stream: bytes, rand: random.Random) -> Ran:
    """Runs a program with a stream that comes in pieces of random sizes, each of which is one
    read."""
    cuts = sorted(rand.randint(0, len(stream)) for _ in range(rand.randint(0, MOST_PIECES - 1)))
    source, to = os.pipe2(os.O_DIRECT | os.O_CLOEXEC)  # what is written at once is read at once
    for start, end in itertools.pairwise([0, *cuts, len(stream)]):
        os.write(to, stream[start:end])
    os.close(to)
    ran = run(words, source)
    os.close(source)
    return ran


def differs(program: str, folder: str, model: bytes, stream: bytes, rand: random.Random
            ) -> Optional[str]:
    """What the program says otherwise than the second checker, or in pieces, or none."""
    paths = [os.path.join(folder, name) for name in ("model.fzn", "stream.txt")]
    for path, text in zip(paths, (model, stream)):
        with open(path, "wb") as f:
            f.write(text)
    want = second(model, stream)
    got = run([program, "check", *paths]).answer
    if want is not None and got != want:
        return f"gave {got}, the second checker {want}"
    if b"Unfinished" in got[2]:
        want, cut = second_cut(model, stream), run([program, "check", "--cut", *paths]).answer
        if want is not None and cut != want:
            return f"gave {cut} with --cut, the second checker {want}"
    pieces = in_pieces([program, "check", paths[0]], stream, rand).answer
    return None if pieces == got else f"gave {got}, in pieces {pieces}"


def batch(program: str, seed: str, first: int, count: int) -> Tally:
    tally, (whole, broken) = Tally(), sources()
    with tempfile.TemporaryDirectory(dir=FOLDER) as folder:
        for number in range(first, first + count):
            rand = random.Random(f"{seed} {number}")
            model, stream = pair(rand, whole, broken)
            said = differs(program, folder, model, stream, rand)
            if not tally.check(f"pair {number} of seed {seed}", said is None, said):
                os.rename(folder, f"{folder}-{seed}-{number}")
                os.mkdir(folder)
    return tally


def jobs(program: str, count: int, seed: str) -> Jobs:
    for first in range(0, count, AT_ONCE):
        yield batch, (program, seed, first, min(AT_ONCE, count - first))


def until(program: str, seed: str, at: int, step: int, end: float) -> Tally:
    """Runs each of so many batches, from one on, up to a time."""
    tally = Tally()
    for number in itertools.count(at, step):
        if time.monotonic() >= end:
            return tally
        tally.add(batch(program, seed, number * AT_ONCE, AT_ONCE))
    return tally


def main() -> int:
    program, seconds = os.path.abspath(sys.argv[1]), float(sys.argv[2])
    seed = sys.argv[3] if len(sys.argv) > 3 else "1"
    os.makedirs(FOLDER, exist_ok=True)
    print(f"seed {seed}", flush=True)
    end, cores, tally = time.monotonic() + seconds, os.cpu_count() or 1, Tally()
    with Pool(cores) as pool:
        for part in pool.starmap(until, [(program, seed, at, cores, end) for at in range(cores)]):
            tally.add(part)
    return tally.end()


if __name__ == "__main__":
    sys.exit(main())
