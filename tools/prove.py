#!/usr/bin/env python3
"""Proves a crate and those that it stands on, side by side, and builds it:

    tools/prove.py CRATE LOG JOBS

A run of `rt` locks its crate and those below it, so that no two of them could work side by side in
crates/. So each crate is proved in a tree of its own below build/prove, of links to files."""
import ctypes
import glob
import os
import re
import shutil
import signal
import subprocess
import sys
import time
from typing import Callable, Dict, List, TextIO

from sources import PARTS, ROOT, crate_lines, sum_of_sources, text_of, toolchain

ROOM = f"{ROOT}/build/prove"
MEMORY = 4_000_000  # kilobytes for each crate at a time
NEARLY = 0.7  # a crate with this share of the most behind it is waited for as well
USAGE_STATUS = {"fzcheck": 5, "fz_hostile": 7}  # `rt run` runs a program, here on no words
VERDICT = re.compile(r"^logic=proved ", re.M)


def link(source: str, target: str) -> None:
    """Links a folder's files. A proof replaces its files and never writes into old ones."""
    if os.path.isdir(source):
        shutil.copytree(source, target, copy_function=os.link)


def die_with_parent() -> None:
    ctypes.CDLL(None).prctl(1, signal.SIGKILL)


def stand_back() -> None:
    """Leaves the processors to the crates that all others wait for, wherever those can use them."""
    die_with_parent()
    os.nice(10)


class Crate:
    """A crate, the line of crates.txt that names it, and the crates that it stands on."""

    def __init__(self, name: str, line: str, deps: "List[Crate]") -> None:
        self.name, self.line, self.deps = name, line, deps
        self.below: List[Crate] = [*dict.fromkeys(it for dep in deps for it in (*dep.below, dep))]
        self.folder = f"{ROOT}/crates/{name}"
        self.tree = f"{ROOM}/{name}"
        self.room = f"{self.tree}/crates/{name}"
        self.is_program = os.path.exists(f"{self.folder}/src/main.rt")
        files = glob.glob(f"{self.folder}/src/**/*.rt", recursive=True)
        source = "".join(map(text_of, files))
        self.functions, self.lines = len(re.findall(r"\bfn \w", source)), source.count("\n")

    def start(self, jobs: int, begin: Callable[[], None]) -> None:
        """Starts the proof. What earlier runs kept of the crate is moved into its tree."""
        shutil.rmtree(self.tree, ignore_errors=True)
        for it in (*self.below, self):
            for part in (*PARTS, *(["out/rlib"] if it is not self else [])):
                link(f"{it.folder}/{part}", f"{self.tree}/crates/{it.name}/{part}")
        with open(f"{self.tree}/crates.txt", "w", encoding="utf-8") as file:
            file.writelines(f"{it.line}\n" for it in (*self.below, self))
        self.jobs, self.sources = jobs, sum_of_sources(self.room)
        os.makedirs(f"{self.tree}/.git")  # where the repository of this tree ends
        os.makedirs(f"{self.folder}/out", exist_ok=True)
        os.rename(f"{self.folder}/out", f"{self.room}/out")
        self.began, self.log = time.monotonic(), f"{self.tree}/log"
        words = ["rt", "run" if self.is_program else "lib", "--jobs", str(jobs)]
        with open(self.log, "w", encoding="utf-8") as log:
            self.process = subprocess.Popen(
                words, cwd=self.room, stdin=subprocess.DEVNULL, stdout=log,
                stderr=subprocess.STDOUT, preexec_fn=begin)

    def put_back(self) -> None:
        if os.path.isdir(f"{self.room}/out"):
            shutil.rmtree(f"{self.folder}/out", ignore_errors=True)
            os.rename(f"{self.room}/out", f"{self.folder}/out")

    def said(self, prover: str) -> str:
        """What `rt` said, or where it had nothing to prove any more, what it said as it proved the
        same sources: that is kept beside what it built."""
        said, kept = text_of(self.log), f"{self.folder}/out/said"
        head = "".join(f"sources {it.name} {it.sources}\n" for it in (*self.below, self))
        head = f"toolchain {prover}\n{head}"
        if VERDICT.search(said):
            with open(kept, "w", encoding="utf-8") as file:
                file.write(head + said)
        elif os.path.exists(kept) and text_of(kept).startswith(head):
            said += text_of(kept)[len(head):]
        return said

    def is_proved(self) -> bool:
        return self.process.returncode == USAGE_STATUS.get(self.name, 0)

    def share(self) -> float:
        """About which share of the functions is checked so far, as the prover tells."""
        told = re.findall(r"so far: (\d+) of (\d+) functions", text_of(self.log))
        checked, among = map(int, told[-1] if told else (0, 1))
        return checked / max(among, 1)


def crates_of(top: str) -> List[Crate]:
    """A crate with all that it stands on, the lowest first."""
    lines = crate_lines()
    made: Dict[str, Crate] = {}

    def make(name: str) -> Crate:
        if name not in made:
            words = lines[name].split(":")[1].split()
            made[name] = Crate(name, lines[name], [make(it) for it in words if it in lines])
        return made[name]

    return [*make(top).below, make(top)]


class Build:
    def __init__(self, crates: List[Crate], jobs: int) -> None:
        self.crates, self.jobs, self.toolchain = crates, jobs, toolchain()
        self.running: List[Crate] = []
        self.proved: List[Crate] = []
        self.began = time.monotonic()
        # The lines of the longest chain of crates that begins with a crate.
        self.behind: Dict[Crate, int] = {}
        for it in reversed(crates):
            above = (self.behind[other] for other in self.behind if it in other.deps)
            self.behind[it] = it.lines + max(above, default=0)

    def start(self, lanes: int) -> None:
        """Starts what is ready. The crate with the most behind it gets all the processes, since
        the longest chain of crates is waited for. Each beside it gets what is left over, one at
        least, since several take a third more of the processor in all. Those with far less behind
        them stand back."""
        waiting = [it for it in self.crates if it not in (*self.proved, *self.running)]
        ready = [it for it in waiting if {*it.deps} <= {*self.proved}]
        ready.sort(key=lambda it: self.behind[it], reverse=True)
        for crate in ready[: lanes - len(self.running)]:
            others = (self.behind[it] - it.lines * it.share() for it in self.running)
            most = max(others, default=0)
            begin = die_with_parent if self.behind[crate] > NEARLY * most else stand_back
            left = max(self.jobs - sum(it.jobs for it in self.running), 1)
            crate.start(self.jobs if self.behind[crate] > most else left, begin)
            self.running.append(crate)

    def end(self, crate: Crate, log: TextIO) -> None:
        self.running.remove(crate)
        crate.put_back()
        said = crate.said(self.toolchain) if crate.is_proved() else text_of(crate.log)
        head = f"== {crate.name}\nsources {crate.name} {crate.sources}\n"
        print(f"{head}{said}", end="", file=log, flush=True)
        if not crate.is_proved():
            sys.exit(f"\n{said}{crate.name} isn't proved")
        shutil.rmtree(crate.tree)
        self.proved.append(crate)
        if not sys.stderr.isatty():
            told = f"{crate.functions} functions, {time.monotonic() - crate.began:.0f} s"
            print(f"{crate.name} proved ({told}): {self.count()}", flush=True)

    def stop(self) -> None:
        for crate in self.running:
            crate.process.kill()
            crate.process.wait()
            crate.put_back()
        shutil.rmtree(ROOM, ignore_errors=True)  # `rt ci` wants no other sources in the repository

    def count(self) -> str:
        return f"{len(self.proved)} of {len(self.crates)} crates"

    def show(self, what: str, ending: str = "") -> None:
        """Rewrites the terminal's line."""
        if sys.stderr.isatty():
            checked = sum(it.functions for it in self.proved)
            checked += sum(int(it.functions * it.share()) for it in self.running)
            among = sum(it.functions for it in self.crates)
            minutes = (time.monotonic() - self.began) / 60
            line = f"{what}: {self.count()}, {checked:,} of {among:,} functions, {minutes:.0f} min"
            columns = shutil.get_terminal_size().columns - 1
            print(f"\r{line[:columns]}\x1b[K", end=ending, file=sys.stderr, flush=True)

    def run(self, log: TextIO) -> None:
        print(f"toolchain {self.toolchain}", file=log, flush=True)
        (memory,) = re.findall(r"MemAvailable: +(\d+)", text_of("/proc/meminfo"))
        lanes = max(min(self.jobs, int(memory) // MEMORY), 1)
        while len(self.proved) < len(self.crates):
            self.start(lanes)
            self.show("proving " + ", ".join(it.name for it in self.running))
            time.sleep(0.2)
            for crate in [it for it in self.running if it.process.poll() is not None]:
                self.end(crate, log)
        print("proved by tools/prove.py, with rt lib and rt run", file=log)
        self.show("proved", "\n")


def main(top: str, log: str, jobs: str) -> None:
    if top not in crate_lines():
        sys.exit(f"{top} isn't a crate of crates.txt")
    crates = crates_of(top)
    for it in crates:
        it.put_back()  # where the last run was stopped at once
    build = Build(crates, int(jobs))
    signal.signal(signal.SIGTERM, lambda *_: sys.exit(1))
    try:
        with open(log, "w", encoding="utf-8") as file:
            build.run(file)
    except KeyboardInterrupt:
        sys.exit(1)
    finally:
        build.stop()


main(*sys.argv[1:])
