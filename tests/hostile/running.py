"""How the runs in this folder start a program, with memory, reads and writes refused or not, and
count."""
import os
import signal
import subprocess
import tempfile
from dataclasses import dataclass, field
from typing import IO, Any, Callable, Dict, Iterable, List, Optional, Tuple, Union

HERE = os.path.dirname(os.path.abspath(__file__))
ROOT = os.path.dirname(os.path.dirname(HERE))
FOLDER = os.path.join(ROOT, "build", "hostile")
SHARED = os.path.join(FOLDER, "refuse.so")
MOST_SECONDS = 600  # by the clock, on a machine that may have much else to do
READ_SIZE = 65_536
MOST_SECONDS_OF_ALL = 1_200  # of a run whose growths are refused in turn

Answer = Tuple[Optional[int], bytes, bytes]  # a status, standard output and standard error
Input = Union[bytes, int, IO[bytes]]  # a text, or what is read


def build() -> str:
    """Compiles what is preloaded, and gives its path."""
    os.makedirs(FOLDER, exist_ok=True)
    source = os.path.join(HERE, "refuse.c")
    words = ["cc", "-shared", "-fPIC", "-O1", "-Wall", "-Wextra", "-o", SHARED, source]
    subprocess.run(words, check=True)
    return SHARED


@dataclass
class Ran:
    """What a run gave: a status below 0 is a signal's number, None is a run that took too long."""

    status: Optional[int]
    out: bytes
    err: bytes
    met: int = 0  # how many refusals it met

    @property
    def answer(self) -> Answer:
        return self.status, self.out, self.err


def run(words: List[str], stdin: Input = b"", env: Optional[Dict[str, str]] = None,
        limit: float = MOST_SECONDS, shared: str = SHARED, **more: Any) -> Ran:
    """Runs a program. `env` has what refuse.c reads, and only where it has something is that
    preloaded. `stdin` is bytes, or a file or descriptor; `more` goes to subprocess."""
    if not env:
        return Ran(*given(words, stdin, None, limit, more))
    log, to = os.pipe()
    preload = {"LD_PRELOAD": shared, "REFUSE_LOG": str(to)}
    try:
        ran = given(words, stdin, os.environ | preload | env, limit, more | {"pass_fds": (to,)})
    finally:
        os.close(to)
    with os.fdopen(log, "rb") as file:
        return Ran(*ran, len(file.read(READ_SIZE)))


def each_refused(words: List[str], stdin: bytes = b"", onward: bool = False
                 ) -> Tuple[List[Ran], Ran]:
    """Runs a program in which each growth of memory is refused in turn: what it gives with each
    refused, and with none. With `onward` all that follow are refused too."""
    files = [tempfile.TemporaryFile(dir=FOLDER) for _ in range(4)]
    source, out, err, told = files
    source.write(stdin)
    source.seek(0)
    env = os.environ | {"LD_PRELOAD": SHARED, "REFUSE_EACH": str(told.fileno())}
    if onward:
        env["REFUSE_ONWARD"] = "1"
    process = subprocess.Popen(words, stdin=source, stdout=out, stderr=err, env=env,
                               pass_fds=(told.fileno(),))
    status = process.wait(MOST_SECONDS_OF_ALL)
    for file in files:
        file.seek(0)
    ran = Ran(status, out.read(), err.read())
    refused = []
    while line := told.readline():
        status, *sizes = map(int, line.split())
        refused.append(Ran(status, told.read(sizes[0]), told.read(sizes[1]), met=1))
    for file in files:
        file.close()
    return refused, ran


def opened(pipe: Optional[IO[bytes]]) -> IO[bytes]:
    """A pipe that a process was started with."""
    assert pipe
    return pipe


def given(words: List[str], stdin: Input, env: Optional[Dict[str, str]], limit: float,
          more: Dict[str, Any]) -> Answer:
    """The status, standard output and standard error."""
    more = {"stdout": subprocess.PIPE, "stderr": subprocess.PIPE} | more
    text = stdin if isinstance(stdin, bytes) and stdin else None
    source = (stdin if not isinstance(stdin, bytes) else
              subprocess.PIPE if stdin else subprocess.DEVNULL)
    process: "subprocess.Popen[bytes]" = subprocess.Popen(words, stdin=source, env=env, **more)
    with process:
        try:
            out, err = process.communicate(text, timeout=limit)
        except subprocess.TimeoutExpired:
            process.send_signal(signal.SIGKILL)
            out, err = process.communicate()
            return None, out or b"", err or b""
    return process.returncode, out or b"", err or b""


@dataclass
class Tally:
    """Counts passes and failures, and keeps what is to be told of failures."""

    passed: int = 0
    told: List[str] = field(default_factory=list)

    def check(self, name: str, holds: object, said: object = "") -> bool:
        if holds:
            self.passed += 1
        else:
            self.told.append(f"failed: {name}: {said}")
        return bool(holds)

    def expect(self, name: str, got: object, want: object) -> bool:
        return self.check(name, got == want, f"gave {got!r}, wanted {want!r}")

    def add(self, other: "Tally") -> None:
        self.passed += other.passed
        self.told += other.told

    def end(self) -> int:
        """Prints the failures and the count, and gives the status to end with."""
        print("".join(line + "\n" for line in self.told), end="")
        print(f"{self.passed} passed, {len(self.told)} failed")
        return 1 if self.told else 0


Test = Callable[..., Tally]
Jobs = Iterable[Tuple[Test, Tuple[Any, ...]]]  # each a test and its arguments
