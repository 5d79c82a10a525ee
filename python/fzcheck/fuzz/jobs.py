"""Processes that work side by side: first they ask what a solver takes, then they look for faults.
Each tells its finds, and at the end what it counted."""
import multiprocessing
import queue
import signal
import sys
import tempfile
import time
from multiprocessing.synchronize import Event
from typing import Callable, List, NamedTuple, Sequence, Union

from fzcheck.calls import Error
from fzcheck.fuzz.checking import Setting
from fzcheck.fuzz.features import Taken
from fzcheck.fuzz.probe import Prober
from fzcheck.fuzz.search import Found, Fuzzer, Plan, Tally

FAILED = "failed: "
PREFIX = "fzcheck-fuzz-"
Message = Union[Found, Tally, Taken, str]  # a text that isn't of a failure counts as a step
Tell = Callable[[Message], None]
IsOver = Callable[[], bool]


class Asking(NamedTuple):
    """A job's share of the names, by families, and what is known of declarations."""

    setting: Setting
    seed: str
    declarations: Taken
    families: Sequence[List[str]]

    def run(self, folder: str, tell: Tell, is_over: IsOver) -> None:
        prober = Prober(self.setting, self.seed, folder)
        own = self.declarations
        found = Taken(features=own.features, largest=own.largest, takes_all=own.takes_all,
                      is_stuck=own.is_stuck)
        for names in self.families:
            if is_over():
                found.unasked += names
            else:
                prober.family(names, found)
                tell("asked")
        tell(found)


class Looking(NamedTuple):
    """A job's search for faults."""

    plan: Plan
    seed: str
    faulty: Sequence[str]  # names that showed a fault when they were asked for

    def run(self, folder: str, tell: Tell, is_over: IsOver) -> None:
        fuzzer = Fuzzer(self.plan, self.seed, folder, self.faulty)
        try:
            while not is_over() and not self.is_done(fuzzer.tally) and not fuzzer.has_nothing:
                tell(fuzzer.step() or "made")
        finally:
            tell(fuzzer.tally)

    def is_done(self, tally: Tally) -> bool:
        plan = self.plan
        return (plan.models is not None and tally.models >= plan.models) or (
            plan.faults is not None and len(tally.causes) >= plan.faults)


Work = Union[Asking, Looking]


def end_once(number: int, frame: object) -> None:
    """Ends a job; a second signal doesn't disturb that."""
    signal.signal(signal.SIGTERM, signal.SIG_IGN)
    sys.exit(0)


def work(part: Work, deadline: float, messages: "multiprocessing.Queue[Message]", stop: Event
         ) -> None:
    """What a process does until its time is over."""
    signal.signal(signal.SIGINT, signal.SIG_IGN)
    signal.signal(signal.SIGTERM, end_once)
    try:
        with tempfile.TemporaryDirectory(prefix=PREFIX) as folder:
            part.run(folder, messages.put, lambda: stop.is_set() or time.monotonic() > deadline)
    except (Error, OSError, AssertionError, ValueError) as error:
        messages.put(f"{FAILED}{error}")
    finally:
        messages.put("")


class Team:
    """Runs the parts, and hands on what they tell. An interruption ends them, and what they have
    counted is still told."""

    def __init__(self, parts: Sequence[Work], deadline: float) -> None:
        self.messages: "multiprocessing.Queue[Message]" = multiprocessing.Queue()
        self.stop = multiprocessing.Event()
        self.workers = [multiprocessing.Process(target=work, args=(
            part, deadline, self.messages, self.stop)) for part in parts]
        self.left = len(self.workers)

    def go(self, hear: Callable[[Message], None]) -> bool:
        """Whether it came to its end without an interruption."""
        for it in self.workers:
            it.start()
        is_whole = True
        try:
            self.listen(hear)
        except KeyboardInterrupt:
            is_whole = False
            for it in self.workers:
                it.terminate()
            self.listen(hear)
        for it in self.workers:
            it.join()
        return is_whole

    def listen(self, hear: Callable[[Message], None]) -> None:
        while self.left:
            try:
                message = self.messages.get(timeout=1)
            except queue.Empty:
                if not any(it.is_alive() for it in self.workers):
                    break
                continue
            self.left -= message == ""
            hear(message)
