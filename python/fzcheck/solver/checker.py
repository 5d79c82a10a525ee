"""The program `fzcheck` beside a solver: it is fed what that prints, and tells what it finds."""
import collections
import os
import queue
import re
import shlex
import signal
import subprocess
import threading
from typing import Counter, Optional

from fzcheck import common
from fzcheck.solver.output import say, write
from fzcheck.solver.processes import SIGNALS, Process, opened
from fzcheck.solver.settings import HOLD, STRICT, VERBOSE

VERDICT = re.compile(rb"block \d+: (\w+)")
QUIET = re.compile(rb"block \d+: satisfied|claim: .* not judged|cut: ")
ANSWER = re.compile(rb"(accepted|rejected|undecided): |no blocks$")  # told at the end
FAULT = re.compile(rb"refused: |usage: ")
CHECKED = (b"accepted: ", b"rejected: ", b"undecided: ")
# Why not all was checked, by how the line begins that the checker ended with.
CAUSES = (
    (b"no blocks", "no blocks"),
    (b"refused: model: Float", "the model has floats"),
    (b"refused: model", "the model is refused"),
    (b"refused: names", "the table of names is refused"),
    (b"refused: memory", "out of memory"),
    (b"refused: read", "a file can't be read"),
    (b"refused: ", "the stream is refused"),
    (b"usage: ", "the checker's options are wrong"),
    (b"CANNOT RUN", "the checker can't be run"),
    (b"", "the checker has ended"),
)


class Checker:
    """The program `fzcheck` over the stream that it is fed. Nothing that befalls it stops a run."""

    def __init__(self, model: str, names: Optional[str], is_shown: bool) -> None:
        told = shlex.split(os.environ.get("FZCHECK_OPTIONS", ""))
        if "--json" in told:
            raise ValueError("FZCHECK_OPTIONS can't have --json")
        given = [word.split("=")[0] for word in told]
        options = common.with_defaults(told)
        if names and os.path.exists(names) and "--names" not in given:
            options += ["--names", names]
        self.hidden = None if is_shown else model.encode() + b":"
        self.words = [common.program() or "fzcheck", "check", *options, model]
        self.process: Optional[Process] = None
        self.telling = threading.Thread(target=self.tell, daemon=True)
        self.verdicts: "queue.SimpleQueue[Optional[bytes]]" = queue.SimpleQueue()
        self.counts: Counter[bytes] = collections.Counter()
        self.ending, self.violated, self.unjudged = b"", False, False

    def start(self) -> None:
        try:
            self.process = subprocess.Popen(
                self.words, stdin=subprocess.PIPE, stdout=subprocess.PIPE, stderr=subprocess.STDOUT,
                # What ends the solver must not end the check of what it printed.
                preexec_fn=lambda: [signal.signal(number, signal.SIG_IGN) for number in SIGNALS])
        except OSError as error:
            say(f"{self.words[0]}: {error.strerror}")
            self.ending = b"CANNOT RUN"

    def tell(self) -> None:
        """Reads the report as it is written, and says what isn't satisfied."""
        for line in opened(self.process.stdout) if self.process else ():
            if self.hidden and line.startswith(self.hidden):
                line = b"FlatZinc:" + line[len(self.hidden) :]
            is_answer = ANSWER.match(line)
            if is_answer or FAULT.match(line):
                self.ending = line
            if not is_answer and (VERBOSE or not QUIET.match(line)):
                say(line.decode(errors="replace").rstrip("\n"))
            if verdict := VERDICT.match(line):
                self.counts[verdict[1]] += 1
                self.violated |= verdict[1] == b"violated"
                if HOLD:
                    self.verdicts.put(verdict[1])
        self.verdicts.put(None)

    def feed(self, data: bytes) -> None:
        stream = self.process and opened(self.process.stdin)
        if stream and not stream.closed and not write(stream.fileno(), data):
            stream.close()

    def lets_pass(self) -> bool:
        """Whether the next block's verdict, which is waited for, lets it pass."""
        verdict = self.verdicts.get()
        if verdict is None:
            self.unjudged = True
            self.verdicts.put(None)  # there will be no other
        return verdict in (b"satisfied", b"undecided")

    def end(self) -> str:
        """Waits for the rest of the report, and gives the last line that is to be told."""
        if self.process:
            opened(self.process.stdin).close()
            self.telling.join()
            self.violated |= self.process.wait() == 1
        if self.unjudged:
            say("what has no verdict was held back")
        if self.ending.startswith(CHECKED):
            return self.ending.decode(errors="replace").rstrip("\n")
        cause = next(cause for front, cause in CAUSES if self.ending.startswith(front))
        blocks = sum(self.counts.values())
        unchecked = f"nothing from block {blocks + 1} on" if blocks else "nothing"
        return f"{unchecked} was checked: {cause}"

    def fails(self) -> bool:
        """Whether the status has to tell that not all is well."""
        is_accepted = self.ending.startswith(b"accepted: ")
        return self.violated or self.unjudged or STRICT and not is_accepted

    def kill(self) -> None:
        if self.process:
            self.process.kill()

    def tell_how_far(self) -> None:
        """Says what was judged so far, where the checker is still at work."""
        if self.process and self.telling.is_alive():
            counts = dict(self.counts)
            told = (f", {verdict.decode()} {count}" for verdict, count in counts.items())
            say(f"so far: blocks {sum(counts.values())}{''.join(told)}")
