"""Runs a season's jobs on the processors that there are, and tells how far it is."""
import functools
import multiprocessing
import multiprocessing.connection
import os
import shutil
import signal
import sys
import tempfile
import time
from collections import Counter
from multiprocessing.connection import Connection
from typing import Any, Callable, Dict, Iterator, List, NamedTuple, Optional, Sequence, Tuple

from fzcheck.batch.job import Done, Job, Running, Setting, judge, kill
from fzcheck.batch.results import COMPLETE, UNSATISFIABLE, Finish, Outcome, Result, finish_of
from fzcheck.batch.season import Facts, Pair, Season, facts_of, tell
from fzcheck.calls import reported
from fzcheck.report import Status

MOST_KNOWN = 64
NUMBER = 8  # bytes of the number of an item
ON_TERMINAL, ELSEWHERE = 0.2, 60.0  # seconds between two lines


def work(function: Callable[[Any], Any], items: Sequence[Any], numbers: int,
         end: Connection, others: List[Connection]) -> None:
    """A worker: sends what the function makes of each item whose number it draws, and then nothing.
    All workers draw from one file, whose place they share, so that none waits for the run."""
    def stop(*_: object) -> None:
        try:
            if Running.child:
                kill(Running.child)
        finally:
            os._exit(1)

    signal.signal(signal.SIGINT, signal.SIG_IGN)  # a terminal sends it to all; the run passes it on
    signal.signal(signal.SIGTERM, stop)
    if signal.getsignal(signal.SIGHUP) != signal.SIG_IGN:  # as below `nohup`
        signal.signal(signal.SIGHUP, stop)
    for other in others:  # so that the end of the run is seen here
        other.close()
    try:
        for number in iter(lambda: os.read(numbers, NUMBER), b""):
            end.send(function(items[int.from_bytes(number, "big")]))
        end.send(None)
    except ConnectionError:  # there is no run any more
        os._exit(1)
    except OSError as error:
        tell(f"{error.filename or 'the results'}: {error.strerror}")
        os._exit(1)


def spread(function: Callable[[Any], Any], items: Sequence[Any], workers: int) -> Iterator[Any]:
    """What the function makes of the items, as it comes, by so many processes."""
    context = multiprocessing.get_context("fork")
    ends: Dict[Connection, Any] = {}
    with tempfile.TemporaryFile(buffering=0) as numbers:
        numbers.write(b"".join(number.to_bytes(NUMBER, "big") for number in range(len(items))))
        numbers.seek(0)
        try:
            for _ in range(min(workers, len(items))):
                ours, theirs = context.Pipe(duplex=False)
                words = (function, items, numbers.fileno(), theirs, [*ends, ours])
                process = context.Process(target=work, args=words, daemon=True)
                process.start()
                theirs.close()
                ends[ours] = process
            yield from received(ends)
        except EOFError:
            raise ChildProcessError("a job was ended from outside: what was judged is stored")
        finally:
            for end, process in ends.items():
                end.close()
                process.terminate()
                process.join()


def received(ends: Dict[Connection, Any]) -> Iterator[Any]:
    """What the workers send, until each has sent that there is no more."""
    waiting = list(ends)
    while waiting:
        for end in [end for end in multiprocessing.connection.wait(waiting)
                    if isinstance(end, Connection)]:
            sent = end.recv()
            if sent is None:
                waiting.remove(end)
            else:
                yield sent


class Progress:
    """A line on what was found so far: on a terminal one that changes."""

    def __init__(self, total: int) -> None:
        self.total, self.done, self.new = total, 0, 0
        self.start = self.last = time.monotonic()
        self.is_terminal = sys.stderr.isatty()
        self.found: Dict[str, Outcome] = {}
        self.replaced: "Counter[str]" = Counter()

    def add(self, done: Done) -> None:
        self.done += 1
        self.new += done.is_new
        self.found[f"{done.result.model}\0{done.result.solver}"] = done.result.outcome
        self.replaced.update([done.replaced] if done.replaced else [])
        now = time.monotonic()
        if now - self.last > (ON_TERMINAL if self.is_terminal else ELSEWHERE):
            self.last = now
            self.show()

    def counts(self) -> str:
        found = Counter(self.found.values())
        return ", ".join(f"{kind.value} {found[kind]}" for kind in Outcome if found[kind]) or "none"

    def show(self) -> None:
        took = time.monotonic() - self.start
        left = took / self.done * (self.total - self.done)
        line = f"{self.done} of {self.total}, about {left:.0f} s left: {self.counts()}"
        if self.is_terminal:
            width = shutil.get_terminal_size().columns - 1
            sys.stderr.write(f"\r\x1b[K{line[:width]}")
            sys.stderr.flush()
        else:
            tell(line)

    def end(self) -> None:
        if self.is_terminal:
            sys.stderr.write("\r\x1b[K")
        for version, count in self.replaced.items():
            tell(f"{count} results by another program, {version}, were judged again")
        print(f"{len(self.found)} pairs, {self.new} jobs run: {self.counts()}")


class Claimant(NamedTuple):
    """A pair with claims that its own stream doesn't refute."""

    pair: Pair
    result: Result


def refutable(claimant: Result, other: Result) -> bool:
    """Whether a block of the other stream might refute one of the claims."""
    for claim in claimant.claims:
        if claim.refuted_by and not claim.by_known or finish_of(claim) is Finish.PROVED:
            continue
        if claim.claim == UNSATISFIABLE and other.might_be_solved:
            return True
        if claim.claim == COMPLETE and claim.objective is not None:
            if other.better(other.reach, claim.objective):
                return True
    return False


def known_for(claimant: Result, others: List[Claimant]) -> Tuple[Pair, ...]:
    """The streams to judge the claims by. Of those whose first reports show that they may refute
    one, a single one with the best satisfied block does; only where none has a block that was
    satisfied all of them are taken, as their blocks may be by themselves."""
    able = [other for other in others
            if other.result.solver != claimant.solver and refutable(claimant, other.result)]
    sure = [other for other in able
            if other.result.satisfied and other.result.best == other.result.reach]
    if not sure:
        return tuple(other.pair for other in able[:MOST_KNOWN])
    best = sure[0]
    for other in sure[1:]:
        if other.result.better(other.result.best, best.result.best):
            best = other
    return (best.pair,)


def claim_jobs(facts: Dict[str, Facts], found: Dict[Pair, Result]) -> Iterator[Job]:
    """The jobs of the second pass: those whose claims are to be judged by other streams, or were
    once and now aren't."""
    of_model: Dict[str, List[Claimant]] = {}
    for pair in sorted(found):
        of_model.setdefault(pair.model, []).append(Claimant(pair, found[pair]))
    for model, claimants in of_model.items():
        for pair, result in claimants:
            known = known_for(result, claimants) if result.claims else ()
            if known or result.key.known:
                yield Job(pair, facts[model], known)


def check_words(setting: Setting) -> str:
    """What is wrong with the options of check, if anything, by a run on no model."""
    report = reported(os.devnull, os.devnull, setting.options)
    if report.status != Status.WRONG_WORDS:
        return ""
    return report.messages.strip() or "fzcheck doesn't take these options"


def known_facts(season: Season, names: Optional[str], workers: int) -> Dict[str, Facts]:
    """What is known of each model, without those that can't be read, which are told."""
    known = {}
    function = functools.partial(facts_of, season.models, names)
    for facts, fault in spread(function, sorted({pair.model for pair in season.pairs}), workers):
        if facts:
            known[facts.model] = facts
        else:
            tell(fault)
    return known


def run(setting: Setting, season: Season, names: Optional[str], workers: int) -> bool:
    """Judges all pairs, and then the claims. Whether each pair has a result."""
    facts = known_facts(season, names, workers)
    setting.store.prepare(facts)
    jobs = [Job(pair, facts[pair.model]) for pair in season.pairs if pair.model in facts]
    progress = Progress(len(jobs))
    pairs = {(pair.model, pair.solver): pair for pair in season.pairs}
    found: Dict[Pair, Result] = {}
    for is_second in (False, True):
        if is_second:
            jobs = list(claim_jobs(facts, found))
            progress.total += len(jobs)
        for done in spread(functools.partial(judge, setting), jobs, workers):
            progress.add(done)
            found[pairs[(done.result.model, done.result.solver)]] = done.result
    progress.end()
    return len(found) == len(season.pairs)
