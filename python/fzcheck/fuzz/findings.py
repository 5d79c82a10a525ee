"""What fzcheck-fuzz and fzcheck-shrink leave of a fault: a folder, as its author would file it."""
import os
import re
import shlex
import subprocess
from typing import List, NamedTuple, Optional

from fzcheck.flatzinc import Model
from fzcheck.fuzz.checking import Setting
from fzcheck.fuzz.faults import Cause, Fault, Kind
from fzcheck.fuzz.running import End, run
from fzcheck.fuzz.shrink import Small

MOST_IN_NAME = 80
MOST_RUNS = 50  # of what comes and goes, until it is seen
MOST_QUOTED = 60  # lines of a file in the report
VERSION_SECONDS = 2
NUMBERED = re.compile(r"\d+\.\d+")
# How the shell sees that a run shows the fault; else by a stream as long as the one that is there.
BY_ANSWER = {Kind.WRONG: 1, Kind.NOT_BETTER: 1, Kind.OPTIMUM: 1, Kind.UNREADABLE: 4}
BY_STATUS = {Kind.CRASH: "-gt 128", Kind.STATUS: "-ne 0"}


class Versions(NamedTuple):
    checker: str
    solver: str

    def __str__(self) -> str:
        return f"{self.checker}; solver: {self.solver}"


def versions_of(setting: Setting) -> Versions:
    solver = version_of(setting.solver)
    return Versions(version_of([setting.checker]) or "fzcheck",
                    solver or f"{setting.solver[0]}, which doesn't tell its version")


def version_of(words: List[str]) -> Optional[str]:
    """The first line of what `--version` prints, where it is one."""
    output, _, status, end = run([*words, "--version"], VERSION_SECONDS)
    lines = output.decode(errors="replace").splitlines()
    if end != End.EXIT or status != 0 or not lines or not NUMBERED.search(lines[0]):
        return None
    return lines[0].strip()


def folder_name(cause: Cause) -> str:
    return re.sub(r"\W+", "-", str(cause))[:MOST_IN_NAME].strip("-")


def new_folder(path: str) -> str:
    """A folder that wasn't there: what was found before is never written over."""
    number, found = 1, path
    while os.path.exists(found):
        number += 1
        found = f"{path}-{number}"
    os.makedirs(found)
    return found


class Finding:
    """A fault with all that is told of it, and the folder that it goes to."""

    def __init__(self, setting: Setting, cause: Cause, small: Small, versions: Versions,
                 origin: str) -> None:
        self.setting, self.cause, self.small = setting, cause, small
        self.versions, self.origin = versions, origin
        self.wrong = small.fault.wrong

    def write(self, folder: str, before: Model) -> str:
        """Fills a new folder, and tells which."""
        self.folder = new_folder(folder)
        ran = self.small.fault.ran
        self.put("model.fzn", self.small.model.text())
        self.put("before.fzn", before.text())
        self.put("stream", ran.output)
        if ran.errors:
            self.put("errors", ran.errors + "\n")
        if self.wrong.missing:
            self.put("missing", "".join(self.wrong.missing))
        self.put("cause", f"{self.cause}\n")
        self.put("fault", "\n".join(self.told()) + "\n")
        os.chmod(self.put("show.sh", show(self.setting, self.small)), 0o755)
        self.put("report", self.report())
        return self.folder

    def put(self, name: str, text: str) -> str:
        path = os.path.join(self.folder, name)
        with open(path, "w", encoding="utf-8") as file:
            file.write(text)
        return path

    def told(self) -> List[str]:
        return [f"{self.wrong.kind.value}: {self.wrong.text}", self.small.certainty,
                f"found by {self.origin}", str(self.versions)]

    def report(self) -> str:
        """What is wrong first, then how to see it, the model, the stream, what is behind it."""
        status = self.small.fault.ran.status
        lines = [f"# {self.cause}", "", self.wrong.text, "", f"{self.small.certainty}:", "",
                 f"    {command(self.setting, self.small.fault)} model.fzn"]
        for title, name in (("The model", "model.fzn"),
                            (f"What the solver prints, with status {status}", "stream"),
                            ("What it prints on standard error", "errors"),
                            ("What it lacks", "missing")):
            lines += self.quoted(title, name)
        lines += ["", "## What fzcheck says", "", *indented(self.judged()), "",
                  f"{self.versions}. Found by {self.origin}."]
        return "\n".join(lines) + "\n"

    def quoted(self, title: str, name: str) -> List[str]:
        path = os.path.join(self.folder, name)
        if not os.path.exists(path):
            return []
        with open(path, encoding="utf-8") as file:
            return ["", f"## {title}", "", *indented(file.read())]

    def judged(self) -> str:
        """What `fzcheck` says of the stream, with what is behind it."""
        ran = self.small.fault.ran
        is_whole = ran.end == End.EXIT and ran.status == 0
        words = [self.setting.checker, *check_words(self.small.fault, "missing"),
                 *([] if is_whole else ["--cut"]), "model.fzn", "stream"]
        told = subprocess.run(words, stdout=subprocess.PIPE, stderr=subprocess.STDOUT,
                              cwd=self.folder)
        return told.stdout.decode(errors="replace")


def indented(text: str) -> List[str]:
    lines = text.splitlines()
    more = [f"    .. {len(lines) - MOST_QUOTED} lines more"] if len(lines) > MOST_QUOTED else []
    return [f"    {it}".rstrip() for it in lines[:MOST_QUOTED]] + more


def command(setting: Setting, fault: Fault) -> str:
    return " ".join(map(shlex.quote, [*setting.solver, *fault.options]))


def check_words(fault: Fault, missing: str) -> List[str]:
    known = ["--known", missing] if fault.wrong.missing else []
    return ["check", "--complete", "--claims=prove", *known, "--explain"]


def show(setting: Setting, small: Small) -> str:
    """A script that shows the fault again. What is there of it stays."""
    fault = small.fault
    check = " ".join([shlex.quote(setting.checker), *check_words(fault, '"$here/missing"'),
                      '"$here/model.fzn"', '"$again"'])
    solve = f'{command(setting, fault)} "$here/model.fzn" > "$again"'
    lines = ["#!/bin/sh", f"# {fault.kind.value}: {fault.wrong.text}",
             f"# {small.certainty}. The file `stream` has the run that was seen.",
             'here=$(dirname "$0")', 'again=$(mktemp "${TMPDIR:-/tmp}/stream.XXXXXX")']
    if small.varies:
        lines += ["run=0", f"while [ $run -lt {MOST_RUNS} ]; do", "  run=$((run + 1))",
                  f"  {solve}", "  status=$?", f"  {check} > \"$again.report\" 2>&1",
                  f"  answer=$?\n  {condition(fault.kind)} && break", "done",
                  'echo "run $run; the solver\'s status: $status; what it printed: $again"',
                  'cat "$again.report"']
    else:
        lines += [solve, 'echo "the solver\'s status: $?; what it printed: $again"', check]
    if fault.wrong.missing:
        lines += ["# The solver lacks this, and it is a solution:", 'cat "$here/missing"',
                  f"{shlex.quote(setting.checker)} check --complete \"$here/model.fzn\" "
                  '"$here/missing"']
    return "\n".join(lines) + "\n"


def condition(kind: Kind) -> str:
    if kind in BY_ANSWER:
        return f"[ $answer -eq {BY_ANSWER[kind]} ]"
    if kind in BY_STATUS:
        return f"[ $status {BY_STATUS[kind]} ]"
    return '[ "$(wc -l < "$again")" -eq "$(wc -l < "$here/stream")" ]'
