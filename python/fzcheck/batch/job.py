"""One job: `fzcheck check` on a pair, within limits."""
import contextlib
import os
import resource
import signal
import tempfile
import time
from dataclasses import replace
from typing import IO, List, NamedTuple, Optional, Tuple

from fzcheck.batch.packed import Broken, NoProgram, Plain
from fzcheck.batch.report import ROOM, SHARE, Reader, read_report
from fzcheck.batch.results import LIMITED, Key, Outcome, Result, Store, Usage
from fzcheck.batch.season import Facts, Pair, sum_of
from fzcheck.batch.times import stamps_beside, stamps_in_stream, told_beside

UNITS = {"": 1, "k": 1 << 10, "M": 1 << 20, "G": 1 << 30, "T": 1 << 40}
NOT_RUN = Usage(0.0, 0.0, 0.0, 0)
TOLD = 2000  # bytes of standard error that may be told
ENVIRONMENT = dict(os.environb)
GRACE = 5  # seconds from a signal to what follows
# Statuses of `fzcheck`, as docs/REPORT.md has them.
WITH_ANSWER, MEMORY = range(5), 7
ANSWERS = ({Outcome.ACCEPTED}, {Outcome.VIOLATED, Outcome.REFUTED}, {Outcome.UNDECIDED},
           {Outcome.NO_BLOCKS}, {Outcome.REFUSED, Outcome.MODEL})


class Limits(NamedTuple):
    """Seconds of the processor, bytes, and seconds by the clock, each or none."""

    cpu: Optional[int] = None
    memory: Optional[int] = None
    time: Optional[int] = None


def limits_of(text: str) -> Limits:
    """Reads `cpu=600,memory=4G`."""
    values = {}
    for part in text.split(","):
        name, _, value = part.partition("=")
        unit = value[-1:] if name == "memory" and value[-1:] in UNITS else ""
        digits = value[: len(value) - len(unit)]
        if name not in Limits._fields or not digits.isdecimal() or int(digits) == 0:
            raise ValueError(f"{part!r} is none of cpu=SECONDS, memory=BYTES, time=SECONDS")
        values[name] = int(digits) * UNITS[unit]
    return Limits(**values)


class Setting(NamedTuple):
    """What all jobs of a run have in common."""

    program: str
    program_sum: str
    version: str
    options: Tuple[str, ...]
    limits: Limits
    limits_text: str
    store: Store


class Job(NamedTuple):
    pair: Pair
    facts: Facts
    known: Optional[Tuple[Pair, ...]] = None  # None: whichever the stored result has


class Done(NamedTuple):
    """What came of a job. `replaced` is the version of a result by another program."""

    result: Result
    is_new: bool
    replaced: str = ""


class Ended(NamedTuple):
    """How a process ended."""

    status: int  # the exit status, or the signal with a minus
    is_late: bool
    usage: Usage
    told: str  # the first bytes of its standard error


def judge(setting: Setting, job: Job) -> Done:
    """The result of a job, from the store where nothing has changed."""
    model, solver, stream = job.pair[:3]
    key = Key(setting.program_sum, setting.options, job.facts.sum, job.facts.names_sum, "")
    result = Result(model, solver, key, setting.version, job.facts.sense)
    try:
        known = tuple((pair.solver, sum_of(pair.stream)) for pair in job.known or ())
        beside = tuple(sum_of(path) if path else "" for path in job.pair.beside)
        key = key._replace(stream=sum_of(stream), beside=beside, known=known)
    except OSError as error:
        result.words = f"{error.filename or stream}: {error.strerror}"
        setting.store.put(result, NOT_RUN._replace(at=round(time.time(), 3)), [])
        return Done(result, True)
    stored = setting.store.stored(model, solver)
    if stored and stored.result.is_of(key, setting.limits_text):
        if job.known is None or stored.result.key.known == known:
            return Done(without_details(stored.result), False)
    result.key = key
    usage, report = run(setting, job, result)
    setting.store.put(result, usage, report)
    is_other = stored is not None and stored.result.key.program != setting.program_sum
    replaced = stored.result.version if stored and is_other else ""
    return Done(without_details(result), True, replaced)


def without_details(result: Result) -> Result:
    """What a run needs to know of a result, which holds many."""
    return replace(result, points=[], explanation=[])


def run(setting: Setting, job: Job, result: Result) -> Tuple[Usage, List[str]]:
    """Runs the program on the streams as they are when unpacked, and fills in the result. What the
    job took, and what is kept of the report."""
    try:
        plain = Plain(job.pair.stream)
    except (Broken, NoProgram, OSError) as fault:
        is_broken = isinstance(fault, Broken)
        result.outcome = Outcome.REFUSED if is_broken else Outcome.FAILED
        result.words = f"refused: stream: {fault}" if is_broken else str(fault)
        return NOT_RUN._replace(at=round(time.time(), 3)), []
    others: List[Tuple[str, Plain]] = []
    try:
        for pair in job.known or ():
            with contextlib.suppress(Broken, NoProgram, OSError):  # told of that solver's own pair
                others.append((pair.solver, Plain(pair.stream)))
        return run_on(setting, job, result, plain, others)
    finally:
        for it in (plain, *(other for _, other in others)):
            it.close()


def run_on(setting: Setting, job: Job, result: Result, plain: Plain,
           others: List[Tuple[str, Plain]]) -> Tuple[Usage, List[str]]:
    words = [setting.program, "check", *setting.options]
    if job.facts.names:
        words += ["--names", job.facts.names]
    for _, other in others:
        words += ["--known", other.path]
    words += ["--", job.facts.path, plain.path]
    room = max(ROOM, os.path.getsize(job.pair.stream) // SHARE)
    reader = Reader(result, {other.path: solver for solver, other in others}, room)
    descriptors = [it.file.fileno() for it in (plain, *(it for _, it in others)) if it.file]
    ended = process(words, reader, setting.limits, descriptors)
    result.outcome, told = outcome(ended, reader.answer)
    result.words = "; ".join(filter(None, (told, result.words)))
    if result.outcome in LIMITED:
        result.limits = setting.limits_text
    add_times(result, reader, plain.path, job.pair)
    return ended.usage, reader.kept.end()


def add_times(result: Result, reader: Reader, stream: str, pair: Pair) -> None:
    """What is known of when blocks were printed, and of what the solver took."""
    try:
        if pair.status:
            result.solving = told_beside(pair.status)
        blocks = reader.timed_blocks()
        stamps = (stamps_beside(pair.times, blocks) if pair.times
                  else stamps_in_stream(stream, blocks))
    except OSError as error:
        told = f"{error.filename}: {error.strerror}"
        result.words = "; ".join(filter(None, (result.words, told)))
        return
    if result.solving.seconds is None:
        result.solving.seconds = stamps.end
    if result.best_block:
        result.solving.best_at = stamps.of_blocks.get(result.best_block)
    for point in result.points:
        point[3] = stamps.of_blocks.get(point[0])


def outcome(ended: Ended, answer: Optional[Outcome]) -> Tuple[Outcome, str]:
    """What the status and the report's answer come to, and words where these don't tell it."""
    if ended.is_late or ended.status == -signal.SIGXCPU:
        return Outcome.TIME_LIMIT, "the limit of time was reached"
    if ended.status == MEMORY:
        return Outcome.OUT_OF_MEMORY, "memory ran out"
    if ended.status == -signal.SIGKILL:
        return Outcome.OUT_OF_MEMORY, "killed, as the system does where memory runs out"
    if ended.status < 0:
        return Outcome.FAILED, f"fzcheck was ended by signal {-ended.status}"
    if answer and ended.status in WITH_ANSWER and answer in ANSWERS[ended.status]:
        return answer, ""
    last_line = (ended.told.strip().splitlines() or [""])[-1]
    return Outcome.FAILED, f"fzcheck ended with status {ended.status}: {last_line}"


def process(words: List[str], reader: Reader, limits: Limits, descriptors: List[int]) -> Ended:
    """Runs a program, whose standard output goes to the reader as it comes. It has the descriptors
    of files without a name."""
    is_late = False

    def give_up(*_: object) -> None:
        nonlocal is_late
        is_late = True
        kill(child)

    told = emptied()
    start = time.monotonic()
    ours, theirs = os.pipe()
    for descriptor in descriptors:
        os.set_inheritable(descriptor, True)
    # This begins a process without a copy of this one, which may take longer than a check. It leads
    # a group, so that what it began itself can be ended with it, and doesn't hold the pipe.
    child = os.posix_spawn(words[0], words, ENVIRONMENT, setpgroup=0, file_actions=[
        (os.POSIX_SPAWN_OPEN, 0, os.devnull, os.O_RDONLY, 0),
        (os.POSIX_SPAWN_DUP2, theirs, 1), (os.POSIX_SPAWN_DUP2, told, 2)])
    Running.child = child
    os.close(theirs)
    signal.signal(signal.SIGALRM, give_up)
    signal.alarm(limits.time or 0)
    limit(child, limits)
    with open(ours, "rb") as file:
        read_report(file, reader)
    _, status, used = os.wait4(child, 0)
    signal.alarm(0)
    Running.child = None
    status = -os.WTERMSIG(status) if os.WIFSIGNALED(status) else os.WEXITSTATUS(status)
    if status in (-signal.SIGINT, -signal.SIGTERM, -signal.SIGHUP):
        time.sleep(GRACE)  # a run that is being stopped, as by a queue, ends this process now
    usage = Usage(round(time.time(), 3), round(used.ru_utime + used.ru_stime, 3),
                  round(time.monotonic() - start, 3), used.ru_maxrss * 1024)
    return Ended(status, is_late, usage, os.pread(told, TOLD, 0).decode(errors="replace"))


def kill(child: int) -> None:
    """Ends a process with all that it began."""
    with contextlib.suppress(ProcessLookupError):
        os.killpg(child, signal.SIGKILL)


class Running:
    """The process that this one waits for, and the file for its standard error."""

    child: Optional[int] = None
    told: Optional[IO[bytes]] = None


def emptied() -> int:
    """That file, without what was in it."""
    if not Running.told:
        Running.told = tempfile.TemporaryFile(buffering=0)
    descriptor = Running.told.fileno()
    os.ftruncate(descriptor, 0)
    os.lseek(descriptor, 0, os.SEEK_SET)
    return descriptor


def limit(child: int, limits: Limits) -> None:
    try:
        if limits.cpu:
            resource.prlimit(child, resource.RLIMIT_CPU, (limits.cpu, limits.cpu + GRACE))
        if limits.memory:
            resource.prlimit(child, resource.RLIMIT_AS, (limits.memory, limits.memory))
    except ProcessLookupError:
        pass  # it has ended already
