"""Processes that end when they are to end, whoever is killed, and in which order."""
import os
import select
import signal
import subprocess
import threading
import time
from typing import IO, TYPE_CHECKING, Callable, Optional

if TYPE_CHECKING:
    Process = subprocess.Popen[bytes]
else:
    Process = subprocess.Popen

SIGNALS = [number for number in (signal.SIGHUP, signal.SIGINT, signal.SIGQUIT, signal.SIGTERM)
           if signal.getsignal(number) != signal.SIG_IGN]
SOON, GRACE, PATIENCE = 0.1, 0.3, 5  # seconds
# Where its input ends with no line, ends the processes of these numbers, and all they started.
WATCHER = """end() {
  set -- "$1" $(ps -A -o pid= -o ppid= | awk "\\$2 == $1 { print \\$1 }")
  kill -9 "$1"
  shift
  for below; do end "$below"; done
}
read -r _ || for number; do end "$number"; done"""


def opened(pipe: Optional[IO[bytes]]) -> IO[bytes]:
    """A pipe that a process was started with."""
    if pipe is None:
        raise ValueError("there is no pipe")
    return pipe


def watch(*processes: Optional[Process]) -> Process:
    """Starts what ends the processes where this one is killed before it told that they ended."""
    numbers = [str(process.pid) for process in processes if process]
    return subprocess.Popen(["/bin/sh", "-c", WATCHER, "sh", *numbers], stdin=subprocess.PIPE,
                            stdout=subprocess.DEVNULL, stderr=subprocess.DEVNULL,
                            start_new_session=True)


def nothing() -> None:
    pass


def guard(child: Process, soon: Callable[[], None] = nothing,
          at_last: Callable[[], None] = nothing) -> None:
    """Sees to it that the child ends where it is to end.

    MiniZinc and a terminal send a signal to the whole group, so the child has it too. One that
    still runs a moment later was left out, and gets it from here. What is to be told is told soon,
    since MiniZinc may kill all after 0.2 seconds. Once the child has ended, a checker has a while
    for the blocks that are left, before what is done at last. Where nobody reads the output any
    more, the child is ended, also if it prints nothing by which it would notice."""

    def wind_down(number: int) -> None:
        time.sleep(SOON)
        soon()
        time.sleep(GRACE - SOON)
        child.send_signal(number)
        child.wait()
        time.sleep(PATIENCE)
        at_last()

    def pass_signals_on() -> None:
        while True:
            number = signal.sigwait(SIGNALS)
            threading.Thread(target=wind_down, args=(number,), daemon=True).start()

    def watch_reader() -> None:
        poll = select.poll()
        poll.register(1, 0)
        poll.poll()
        child.terminate()

    signal.pthread_sigmask(signal.SIG_BLOCK, SIGNALS)
    for target in (pass_signals_on, watch_reader):
        threading.Thread(target=target, daemon=True).start()
