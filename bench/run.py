#!/usr/bin/env python3
"""Measures whole runs of the built fzcheck beside the plain program, and prints one table.

    run.py FZCHECK PLAIN FOLDER [MEGABYTES..]
    run.py FZCHECK PLAIN FOLDER --size MEGABYTES

FZCHECK is the built program, PLAIN the plain program of plain/, FOLDER where the files are
made and unpacked, MEGABYTES the sizes of the made files, 1 4 16 where none is given. With --size the
rows are the real models, and copies of them that make one model of that size. Both programs
are run in turn, all rows one after another, and all of that five times over, so that rows can be
compared where the machine changes its speed. The least processor time of a row counts, as another
load on the machine only ever adds to it, and the most memory. Where a program doesn't give the
status that a row wants, or the two don't print the same, the bench stops and says so."""
import os
import platform
import re
import subprocess
import sys
import time

HERE = os.path.dirname(os.path.abspath(__file__))
TURNS = 5
SORTS = ["model", "stream", "chain", "lines"]
REAL = ["clauses", "queens", "reified", "recurrence"]
GLOBALS = ["lists", "tasks"]
LONG = "90"  # megabytes of the stream that comes through a pipe
BROKEN = "3"  # megabytes of the chain that is explained, of 20,000 steps
REJECTED = 1
NO_BLOCKS = 3


class Row:
    """A line of the table: what both programs are run on, and the best that each of them did."""

    def __init__(self, name, word, model, stream=None, piped=False, alone=False, options=()):
        self.name = name
        self.alone = alone  # the plain program can't judge it, or has no such option
        self.words = [word, *options, model]
        if stream and not piped:
            self.words.append(stream)
        self.input = stream if piped else os.devnull
        self.status = NO_BLOCKS if stream == os.devnull else REJECTED if "--explain" in options else 0
        self.size = sum(os.path.getsize(path) for path in (model, stream) if path)
        self.seconds = [float("inf")] * 2
        self.kilobytes = [0] * 2

    def turn(self, programs, reports):
        """One run of each program, or of fzcheck alone."""
        for which, program in enumerate(programs[:1] if self.alone else programs):
            used, status = run([program, *self.words], self.input, reports[which])
            if status != self.status:
                sys.exit(f"{self.name}: {program} ends with status {status}, not {self.status}")
            seconds = used.ru_utime + used.ru_stime
            self.seconds[which] = min(self.seconds[which], seconds)
            self.kilobytes[which] = max(self.kilobytes[which], used.ru_maxrss)
        if not self.alone and subprocess.run(["cmp", *reports]).returncode != 0:
            sys.exit(f"{self.name}: the programs don't print the same")

    def text(self, floor):
        """The line, where no less memory than the floor can be told."""
        cells = [self.name, f"{self.size / 1e6:.1f}"]
        if self.alone:
            memory = number(max(self.kilobytes[0], floor) / 1e3)
            cells += [number(self.seconds[0] * 1e3), "", "", memory, ""]
            return "| " + " | ".join(cells) + " |"
        cells += [number(seconds * 1e3) for seconds in self.seconds]
        cells.append(f"{self.seconds[1] / self.seconds[0]:.2f}")
        for kilobytes in self.kilobytes:
            below = "under " if kilobytes <= floor else ""
            cells.append(below + number(max(kilobytes, floor) / 1e3))
        return "| " + " | ".join(cells) + " |"


def run(command, given, report):
    """Runs a command on what `cat` reads from a file: what it used, and its status."""
    with subprocess.Popen(["cat", given], stdout=subprocess.PIPE) as source:
        with open(report, "wb") as output:
            child = subprocess.Popen(command, stdin=source.stdout, stdout=output)
        source.stdout.close()  # so that `cat` ends where the command reads no further
        _, status, used = os.wait4(child.pid, 0)
        child.returncode = os.waitstatus_to_exitcode(status)
    return used, child.returncode


def number(x):
    """Three digits are enough."""
    return f"{x:,.0f}" if x >= 100 else f"{x:.1f}" if x >= 10 else f"{x:.2f}"


def made(folder, sort, size):
    """The model and the stream that bench/generate.py makes. They are kept for the next run."""
    model, stream = (os.path.join(folder, f"{sort}-{size}{ending}") for ending in (".fzn", ".out"))
    if not os.path.exists(stream):
        subprocess.run([os.path.join(HERE, "generate.py"), sort, size, folder], check=True)
    return model, stream


def real(folder, name):
    """Rows for a real model: the first block of its stream, as JSON too, and all of it."""
    base = os.path.join(folder, name)
    first = (base + ".fzn", base + "-first.out")
    yield Row(f"`check` {name}, one block", "check", *first)
    yield Row(f"`check --json` {name}, one block", "check", *first, alone=True, options=["--json"])
    yield Row(f"`check` {name}, all blocks", "check", base + ".fzn", base + ".out")


def with_options(folder, size):
    """Rows for options that the plain program hasn't."""
    complete = ["--complete"]
    for options in (complete, [*complete, "--claims"]):
        files = made(folder, "stream", size)
        yield Row(f"`check {' '.join(options)}` stream", "check", *files, alone=True, options=options)
    files = made(folder, "broken", BROKEN)
    yield Row("`check --explain` broken", "check", *files, alone=True, options=["--explain"])


def large_rows(folder, size):
    """Two rows for each real model: itself, and a model of so many megabytes of copies of it."""
    subprocess.run([os.path.join(HERE, "real", "unpack.py"), folder], check=True)
    for name in REAL:
        base = os.path.join(folder, name)
        yield Row(f"`check` {name}, one block", "check", base + ".fzn", base + "-first.out")
        if not os.path.exists(f"{base}-{size}.out"):
            subprocess.run([os.path.join(HERE, "copies.py"), name, size, folder], check=True)
        files = (f"{base}-{size}.fzn", f"{base}-{size}.out")
        yield Row(f"`check --large` copies of {name}", "check", *files, options=["--large"])


def rows_of(folder, sizes):
    models = [made(folder, "model", size)[0] for size in sizes]
    rows = [Row("`show` model", "show", model) for model in models]
    rows += [Row("`check` model, no block", "check", model, os.devnull) for model in models]
    rows += [
        Row(f"`check` globals, {name}", "check", *made(folder, "globals", name), alone=True)
        for name in GLOBALS
    ]
    for sort in SORTS:
        rows += [Row(f"`check` {sort}", "check", *made(folder, sort, size)) for size in sizes]
    rows += with_options(folder, sizes[0])
    # By a program of its own, since what this one once held counts as its children's memory.
    subprocess.run([os.path.join(HERE, "real", "unpack.py"), folder], check=True)
    for name in REAL:
        rows += real(folder, name)
    return rows + [Row("`check` long, piped", "check", *made(folder, "long", LONG), piped=True)]


def machine():
    with open("/proc/cpuinfo") as f:
        found = re.search(r"model name\s*: (.*)", f.read())
    words = ["rustc", "--version"]
    compiler = subprocess.run(words, capture_output=True, text=True).stdout.strip()
    cpu = found[1] if found else platform.machine()
    load = f"load {os.getloadavg()[0]:.1f} at the start"
    where = f"{cpu}, {os.cpu_count()} cores, {load}, {platform.system()}"
    return f"{where}; {compiler}; {time.strftime('%Y-%m-%d')}"


def main():
    fzcheck, plain, folder = map(os.path.abspath, sys.argv[1:4])
    sizes = sys.argv[4:] or ["1", "4", "16"]
    rows = list(large_rows(folder, sizes[1])) if sizes[0] == "--size" else rows_of(folder, sizes)
    reports = [os.path.join(folder, f"{name}.txt") for name in ("fzcheck", "plain")]
    print(machine(), flush=True)
    for _ in range(TURNS):
        for row in rows:
            row.turn((fzcheck, plain), reports)
    # A process is counted with what this program holds, which it has until its own program starts.
    floor = run(["true"], os.devnull, os.devnull)[0].ru_maxrss
    print()
    print("| row | MB | fzcheck ms | plain ms | ratio | fzcheck's memory, MB | plain's, MB |")
    print("|---|---|---|---|---|---|---|")
    for row in rows:
        print(row.text(floor))


main()
