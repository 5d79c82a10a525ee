#!/usr/bin/env python3
"""Compares two checkers on small random models and streams, broken in random places.

    differ.py PROGRAM OTHER COUNT [SEED]

PROGRAM and OTHER are run as `PROGRAM check MODEL STREAM`; where OTHER is a dash, slow.py beside this file is
what PROGRAM is compared with, with --complete too: up to the first block that lacks a value under its second
filling, and but for which fault is told. The models are those of bench/generate.py, over the whole table of builtins,
and a stream of three blocks, each with a few places changed; in a part of them the model is changed too.
Standard output, standard error and status must be the same. Prints each pair that differs and keeps its
files, and ends with 'N passed, M failed'."""
import os
import random
import re
import subprocess
import sys
import tempfile
from typing import Callable, Dict, List, Optional, Tuple

HERE = os.path.dirname(os.path.abspath(__file__))
sys.path.insert(0, os.path.join(HERE, "..", "..", "bench"))
sys.path.insert(0, HERE)
import generate  # type: ignore[import]
import slow

STATUSES = {"accepted": 0, "rejected": 1, "undecided": 2, "no blocks": 3, "refused": 4}
Answer = Tuple[str, int]  # what is written, and the status
WORD = re.compile(r"-?[0-9]+|true|false|[A-Za-z_][A-Za-z0-9_]*")
LARGE = ["9223372036854775807", "-9223372036854775808", "9223372036854775808", "4611686018427387904"]


def other_word(word: str, words: List[str], may_be_large: bool, rand: random.Random) -> str:
    """Another word in its place, mostly of the same kind."""
    which = rand.random()
    if word in ("true", "false"):
        return "false" if word == "true" else "true"
    if re.fullmatch(r"[xX][0-9A-Z_]+", word) and which < 0.9:
        return rand.choice([w for w in words if re.fullmatch(r"[xX][0-9A-Z_]+", w)])
    if re.fullmatch(r"-?[0-9]+", word):
        if which < 0.03 and may_be_large:
            return rand.choice(LARGE)
        return str(int(word) + rand.choice([-1, 1, 1, 7])) if which < 0.97 else rand.choice(words)
    return rand.choice(words) if which < 0.9 else str(rand.randint(-5, 40))


def changed(text: str, places: int, rand: random.Random,
            may_change: Optional[Callable[[str, int], bool]] = None) -> str:
    """The text with a word changed in some places, anywhere or where a test of places allows it."""
    found = [m for m in WORD.finditer(text) if may_change is None or may_change(text, m.start())]
    words = [m[0] for m in found]
    for m in sorted(rand.sample(found, min(places, len(found))), key=lambda m: -m.start()):
        # a large number in a range makes a set that slow.py can't list
        in_range = ".." in text[max(0, m.start() - 2) : m.end() + 2]
        text = text[: m.start()] + other_word(m[0], words, not in_range, rand) + text[m.end() :]
    return text


def in_constraint(text: str, at: int) -> bool:
    """Whether a place stands in a constraint's arguments or annotations, not in its name."""
    start = text.rfind("\n", 0, at) + 1
    return text.startswith("constraint", start) and "(" in text[start:at]


def is_value(text: str, at: int) -> bool:
    """Whether a place stands among the printed values of a block, not in a name or an index set."""
    start = text.rfind("\n", 0, at) + 1
    return "[" in text[start:at] or ("=" in text[start:at] and "array" not in text[start : text.find("\n", at)])


def pair(rand: random.Random) -> Tuple[str, str]:
    rows = generate.ROWS + generate.POWERS
    model, block = generate.make_model(rand.choice([2_000, 4_000, 8_000]), rand, rows=rows)
    if rand.random() < 0.5:
        model = changed(model, rand.randint(1, 3), rand, in_constraint)
    elif rand.random() < 0.1:
        model = changed(model, 1, rand)
    if rand.random() < 0.3:
        model = re.sub(r" :: defines_var\(\w+\)", lambda m: m[0] if rand.random() < 0.9 else "", model)
    blocks = []
    for cost in (500, rand.choice([400, 400, 600]), 300):
        better = re.sub("cost = [0-9]+", f"cost = {cost}", block)
        blocks.append(changed(better, rand.choice([0, 0, 0, 0, 1, 2]), rand, is_value))
    if rand.random() < 0.05:
        blocks[-1] = changed(blocks[-1], 1, rand)
    if rand.random() < 0.3:
        items = blocks[-1].split("\n")
        items.pop(rand.randrange(len(items)))
        blocks[-1] = "\n".join(items)
    return model, "".join(blocks) + rand.choice(["", "==========\n"])


def run(program: str, model: str, stream: str, *options: str) -> Answer:
    """Standard output and standard error, and the status."""
    ran = subprocess.run([program, "check", *options, model, stream], capture_output=True, timeout=60)
    return (ran.stdout + ran.stderr).decode("latin-1"), ran.returncode


def run_slowly(model: str, stream: str, completes: bool = False) -> Answer:
    with open(model, "rb") as f, open(stream, "rb") as g:
        texts = f.read(), g.read()
    lines = []
    try:
        for line in slow.report(*texts, completes):
            lines.append(line)
    except slow.Refused as e:
        lines.append(str(e))
    return "".join(line + "\n" for line in lines), STATUSES[lines[-1].split(":")[0]]


def agree_completed(got: Answer, want: Answer) -> bool:
    """Whether two reports agree where nothing is looked for, but for which fault is told."""
    lines = [text.split("\n") for text, status in (got, want)]
    for here, there in zip(*lines):
        if "undecided: no value" in there:
            return True
        if here.split(" violated: ")[0] != there.split(" violated: ")[0]:
            return False
    return got[1] == want[1]


def main() -> int:
    program, other, count = sys.argv[1:4]
    seed = sys.argv[4] if len(sys.argv) > 4 else "1"
    passed = failed = 0
    answers: Dict[str, int] = {}
    with tempfile.TemporaryDirectory() as folder:
        for number in range(int(count)):
            model, stream = (os.path.join(folder, name) for name in ("model.fzn", "stream.txt"))
            for path, text in zip((model, stream), pair(random.Random(f"{seed} {number}"))):
                with open(path, "w") as f:
                    f.write(text)
            got = run(program, model, stream)
            want = run_slowly(model, stream) if other == "-" else run(other, model, stream)
            last = (got[0].rstrip("\n").split("\n")[-1] + ":").split(":")[0]
            answers[last] = answers.get(last, 0) + 1
            if got == want and other == "-":
                got = run(program, model, stream, "--complete")
                want = run_slowly(model, stream, True)
                agree = agree_completed(got, want)
            else:
                agree = got == want
            if agree:
                passed += 1
                continue
            failed += 1
            kept = tempfile.mkdtemp(prefix=f"differ-{seed}-{number}-")
            for path in (model, stream):
                os.rename(path, os.path.join(kept, os.path.basename(path)))
            print(f"{kept}: {got} here, {want} there")
    print(", ".join(f"{n} {word}" for word, n in sorted(answers.items())))
    print(f"{passed} passed, {failed} failed")
    return 1 if failed else 0


if __name__ == "__main__":
    sys.exit(main())
