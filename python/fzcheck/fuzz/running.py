"""Runs a solver within limits, and ends all that it started."""
import contextlib
import enum
import os
import resource
import select
import signal
import subprocess
import time
from typing import Dict, List, NamedTuple, Optional, Tuple

MOST_PRINTED = 32 * 2**20  # bytes of a run
MOST_WAITED = 10  # times as many seconds of the clock
MOST_TOLD = 4096  # bytes that are kept of standard error, and of output without end
BETWEEN_LOOKS = 0.25  # seconds
SIGNALS = range(129, 192)  # statuses by which a shell says that a signal ended a program
STATE, SESSION = 0, 3  # fields after a program's name in /proc/N/stat
RUNNING = "RD"  # states: it runs or could, or waits for a disk


class End(enum.Enum):
    EXIT, TIME, OUTPUT = range(3)


class Ran(NamedTuple):
    output: str
    errors: str
    status: int
    end: End
    model_changed: bool


class Allowance:
    """Seconds of the processor, for this program and what it runs, and by the clock ten times as
    many: on a busy machine as much is done as on another."""

    def __init__(self, seconds: float) -> None:
        self.end = self.used() + seconds
        self.latest = time.monotonic() + MOST_WAITED * seconds

    def used(self) -> float:
        return sum(os.times()[:4])

    def is_over(self) -> bool:
        return self.used() > self.end or time.monotonic() > self.latest


def is_running(session: int) -> Optional[bool]:
    """Whether a process of the session runs, or would if a processor were free; none where the
    system doesn't tell."""
    try:
        numbers = [it for it in os.listdir("/proc") if it.isdigit()]
    except OSError:
        return None
    for number in numbers:
        with contextlib.suppress(OSError, IndexError, ValueError):
            with open(f"/proc/{number}/stat", encoding="latin-1") as file:
                fields = file.read().rpartition(")")[2].split()
            if int(fields[SESSION]) == session and fields[STATE] in RUNNING:
                return True
    return False if numbers else None


class Watch:
    """Tells when a run has to end. A busy machine must not make a fault of a solver, so its time is
    that of the processor, and else the time that it was seen asleep."""

    def __init__(self, session: int, limit: int) -> None:
        self.session, self.limit = session, limit
        self.started = self.looked = time.monotonic()
        self.asleep = 0.0

    def is_over(self) -> bool:
        now = time.monotonic()
        passed = now - self.looked
        if passed < BETWEEN_LOOKS:
            return False
        self.looked = now
        runs = is_running(self.session)
        if runs is None:
            return now > self.started + MOST_WAITED * self.limit
        if not runs:
            self.asleep += min(passed, 2 * BETWEEN_LOOKS)  # this program may have waited, too
        return self.asleep > self.limit


def run(words: List[str], limit: int, most_printed: int = MOST_PRINTED
        ) -> Tuple[bytes, bytes, int, End]:
    """Runs a program in a session of its own, for so many seconds of the processor, and ends all
    of that session."""
    process = subprocess.Popen(
        words, stdin=subprocess.DEVNULL, stdout=subprocess.PIPE, stderr=subprocess.PIPE,
        start_new_session=True,
        preexec_fn=lambda: resource.setrlimit(resource.RLIMIT_CPU, (limit, limit + 1)))
    assert process.stdout and process.stderr
    parts = {it.fileno(): bytearray() for it in (process.stdout, process.stderr)}
    try:
        end = collect(process, parts, Watch(process.pid, limit), most_printed)
    finally:
        with contextlib.suppress(ProcessLookupError):
            os.killpg(process.pid, signal.SIGKILL)  # what it started, too
        process.wait()
        output, errors = (bytes(it) for it in parts.values())
        process.stdout.close()
        process.stderr.close()
    status = process.returncode
    if status in SIGNALS:
        status = 128 - status
    return output, errors, status, End.TIME if status == -signal.SIGXCPU else end


def collect(process: "subprocess.Popen[bytes]", parts: Dict[int, bytearray], watch: Watch,
            most_printed: int) -> End:
    """Takes what is printed, until the process ends, or the time, or it is too much."""
    is_open = set(parts)
    ended = False
    while is_open or not ended:
        ready = select.select(list(is_open), [], [], 0 if ended else 0.02)[0]
        if ended and not ready:
            break  # others of its session may hold the pipes open
        for descriptor in ready:
            piece = os.read(descriptor, 65536)
            parts[descriptor] += piece
            if not piece:
                is_open.remove(descriptor)
        if max(map(len, parts.values())) > most_printed:
            return End.OUTPUT
        ended = ended or process.poll() is not None
        if not ended and watch.is_over():
            return End.TIME
    return End.EXIT


def solve(words: List[str], path: str, limit: int, most_printed: int = MOST_PRINTED) -> Ran:
    """Runs a solver on the model at the path, which stays as it is."""
    with open(path, "rb") as file:
        before = file.read()
    output, errors, status, end = run([*words, path], limit, most_printed)
    try:
        with open(path, "rb") as file:
            changed = file.read() != before
    except OSError:
        changed = True
    if changed:
        with open(path, "wb") as file:
            file.write(before)
    told = errors[:MOST_TOLD].decode(errors="replace").strip()
    if end == End.OUTPUT:
        output = output[:MOST_TOLD]
    return Ran(output.decode(errors="replace"), told, status, end, changed)
