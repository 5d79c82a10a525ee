"""The models and streams that the runs begin with, and what the second checker says of a pair."""
import os
import re
import sys
from typing import Iterator, List, Optional, Tuple

from running import ROOT, Answer

sys.path.insert(0, os.path.join(ROOT, "tests", "corpus"))
import slow
from short import is_short

__all__ = ["slow"]

EXAMPLES = os.path.join(ROOT, "examples")
CORPUS = os.path.join(ROOT, "tests", "corpus")
BY_HAND = "by_hand" + os.sep  # how the names of the corpus's small cases begin
FIRST_MODEL = os.path.join(EXAMPLES, "first.fzn")
FIRST_STREAM = os.path.join(EXAMPLES, "first.out")

# A model with an objective, and a stream of two blocks that get better and a claim: 47 bytes.
IMPROVING_MODEL = b"var 0..9: c :: output_var;\nsolve minimize c;\n"
IMPROVING_STREAM = b"c = 7;\n----------\nc = 5;\n----------\n==========\n"
IMPROVING_REPORT = (
    b"block 1: satisfied\nblock 2: satisfied\nclaim: ========== not judged\naccepted: blocks 2\n"
)

STATUSES = {"accepted": 0, "rejected": 1, "undecided": 2, "no blocks": 3}
REFUSED = 4


def content(path: str) -> bytes:
    with open(path, "rb") as f:
        return f.read()


def pairs(folder: str) -> Iterator[Tuple[str, str, str]]:
    """The name, the model's path and the stream's path of each case below a folder."""
    for place, _, names in sorted(os.walk(folder)):
        for name in sorted(n for n in names if n.endswith("stream.txt")):
            stream = os.path.join(place, name)
            yield os.path.relpath(stream, folder), os.path.join(place, "model.fzn"), stream


def examples() -> List[Tuple[str, str, str]]:
    return [("first", FIRST_MODEL, FIRST_STREAM), *pairs(EXAMPLES)]


def second(model: bytes, stream: bytes) -> Optional[Answer]:
    """The status, standard output and standard error that the second checker gives for two texts,
    or none where a set is too large for it."""
    lines = []
    try:
        for line in slow.report(model, stream):
            lines.append(line)
    except slow.Refused as refused:
        return REFUSED, text_of(lines), text_of([str(refused)])
    except slow.TooLargeToList:
        return None
    return STATUSES[lines[-1].split(":")[0]], text_of(lines), b""


def second_cut(model: bytes, stream: bytes) -> Optional[Answer]:
    """The same with --cut: where only the end of the last block is missing, what is said of the
    bytes before it."""
    want = second(model, stream)
    unfinished = rb"refused: stream: Unfinished at (\d+)\.\.(\d+)\n"
    opened = re.fullmatch(unfinished, want[2]) if want else None
    if not opened or b"\n" in stream[int(opened[2]) :]:
        return want  # behind the block is a claim's line, with its LF
    before, text = stream[: int(opened[1])], stream[int(opened[1]) :]
    if not is_short(slow.Model(model).names, text.decode("latin-1")):
        return want
    front = second(model, before)
    assert front
    status, out, err = front
    *lines, answer = out.splitlines(True)
    told = b'cut: %b..%b, from "%b"\n' % (*opened.groups(), shown(text))
    return status, b"".join([*lines, told, answer]), err


def shown(text: bytes) -> bytes:
    """What is shown of a text that is cut off."""
    return text[: len(text) - len(re.sub(rb"^[ -~]{0,60}", b"", text))]


def text_of(lines: List[str]) -> bytes:
    return "".join(line + "\n" for line in lines).encode("latin-1")
