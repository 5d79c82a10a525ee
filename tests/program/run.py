#!/usr/bin/env python3
"""Runs the tables of this folder, of what no contract speaks of: words, files, exit statuses and
standard error; and the pages of tests/explained. What a report says of a model and a stream is
tested by tests/corpus.

    tests/program/run.py PROGRAM

The last line is 'N passed, M failed'. Lines of a table begin with a sign and a blank:

    #   what is not read, like empty lines
    ==  the name of a group, which has a folder of its own, beside the checkout's files
    <   the name of a file in that folder, whose lines follow
    |   a line of that file; *N is one that stands there N times
    &   a command that is run once, before the cases of the group
    $   a case: a command for bash, which finds fzcheck and at-terminal
    $$  the command of all cases of the group that begin with -
    -   a case: what this command gets as $1, or with ' | ' between, as $1 and $2
    =   a line of standard output; =< is the file with all of it
    !   a line of standard error
    ?   the exit status, where it isn't 0

What a group expects before its first case goes in front of what each of its cases expects. In lines
of files and of what is expected ' / ' ends a line, and \\s is a blank; a \\ at a line's end joins it
to the next."""
import glob
import os
import re
import subprocess
import sys
import tempfile
from concurrent.futures import ThreadPoolExecutor
from typing import Dict, Iterator, List, NamedTuple, Tuple

HERE = os.path.dirname(os.path.abspath(__file__))
ROOT = os.path.dirname(os.path.dirname(HERE))
MODELS = "examples/*.fzn", "examples/*/model.fzn", "tests/corpus/*/model.fzn"
MOST_SECONDS = 120
JOBS = 2  # at a time, since some of them wait
LINE = re.compile(r"(==|=<|\$\$|\*\d+|[<|&$\-=!?#])(?: (.*))?")
Answer = Tuple[int, str, str]  # the status, standard output and standard error


class Case:
    """A command with its words, and the parts of what it has to give, by their signs."""

    def __init__(self, place: str, command: str, words: List[str], front: Dict[str, List[str]]):
        self.place, self.command, self.words = place, command, words
        self.parts = {sign: [*lines] for sign, lines in front.items()}

    def wanted(self, folder: str) -> Answer:
        out = meant(self.parts["="])
        for name in self.parts["=<"]:
            out = read(f"{folder}/{name}")
        return int((["0"] + self.parts["?"])[-1]), out, meant(self.parts["!"])


class Group:
    """The files and commands of a group, and its cases."""

    def __init__(self, name: str):
        self.name, self.command = name, ""
        self.files: Dict[str, List[str]] = {}
        self.commands: List[str] = []
        self.cases: List[Case] = []
        self.front: Dict[str, List[str]] = {sign: [] for sign in ("=", "=<", "!", "?")}

    def add(self, place: str, sign: str, rest: str) -> None:
        if sign == "<":
            self.files[rest] = []
        elif sign[0] in "|*":
            self.files[[*self.files][-1]] += [rest] * int(sign[1:] or 1)
        elif sign == "&":
            self.commands.append(rest)
        elif sign == "$$":
            self.command = rest
        elif sign in ("$", "-"):
            words = rest.split(" | ", 1) if "$2" in self.command else [rest]
            command, words = (rest, []) if sign == "$" else (self.command, words)
            self.cases.append(Case(place, command, words, self.front))
        else:
            (self.cases[-1].parts if self.cases else self.front)[sign].append(rest)


class Ran(NamedTuple):
    """What was run, and what it gave."""

    name: str
    wanted: Answer
    given: Answer


def read(path: str) -> str:
    with open(path, encoding="utf-8") as file:
        return file.read()


def meant(lines: List[str]) -> str:
    """The text that lines stand for."""
    text = "".join(line.replace(" / ", "\n") + "\n" for line in lines)
    return text.replace("\\\n", "").replace("\\s", " ")


def lines_of(table: str) -> Iterator[Tuple[str, str, str]]:
    """The place, the sign and the rest of each line of a table. A command is one line."""
    begun = ""
    for number, line in enumerate(read(table).splitlines(), 1):
        found = LINE.fullmatch(line or "#")
        if not found:
            raise ValueError(f"{table}:{number}: {line}")
        sign, rest = found[1], found[2] or ""
        if sign[0] in "&$" and rest.endswith("\\"):
            begun += rest[:-1]
        elif sign != "#":
            yield f"{os.path.relpath(table, ROOT)}:{number}", sign, begun + rest
            begun = ""


def groups_of(table: str) -> List[Group]:
    groups: List[Group] = []
    for place, sign, rest in lines_of(table):
        if sign == "==":
            groups.append(Group(rest))
        else:
            groups[-1].add(place, sign, rest)
    return groups


def given(words: List[str], folder: str, path: str = "") -> Answer:
    """What a command gives in a folder, where more programs may be found on a path."""
    environment = {**os.environ, "PATH": f"{path}:{os.environ['PATH']}"} if path else None
    try:
        ran = subprocess.run(words, cwd=folder, env=environment, stdin=subprocess.DEVNULL,
                             stdout=subprocess.PIPE, stderr=subprocess.PIPE, timeout=MOST_SECONDS)
    except subprocess.TimeoutExpired:
        return -1, "", f"more than {MOST_SECONDS} seconds\n"
    return ran.returncode, ran.stdout.decode(errors="replace"), ran.stderr.decode(errors="replace")


def make_folder(folder: str, files: Dict[str, List[str]]) -> None:
    """Puts into a folder what is in the checkout, and files."""
    for name in os.listdir(ROOT):
        os.symlink(f"{ROOT}/{name}", f"{folder}/{name}")
    for name, lines in files.items():
        with open(f"{folder}/{name}", "w", encoding="utf-8") as file:
            file.write(meant(lines))


def run_group(group: Group, program: str) -> Iterator[Ran]:
    with tempfile.TemporaryDirectory() as folder, tempfile.TemporaryDirectory() as programs:
        os.symlink(program, f"{programs}/fzcheck")
        make_folder(folder, group.files)

        def bash(command: str, words: List[str]) -> Answer:
            return given(["bash", "-c", command, "bash", *words], folder, f"{programs}:{HERE}")

        for command in group.commands:
            answer = bash(command, [])
            if answer[0]:
                yield Ran(command, (0, "", ""), answer)
        for case in group.cases:
            name = f"{case.place}, {' '.join([case.command, *case.words])}"
            yield Ran(name, case.wanted(folder), bash(case.command, case.words))


def run_page(folder: str, program: str) -> Iterator[Ran]:
    """The position of a refusal, or what is behind a verdict. A page has its own options in a file
    beside its model, if it has any; those from `--names` on go with `--explain`."""
    told, page = read(f"{folder}/told.txt"), os.path.relpath(folder, ROOT)
    has_options = os.path.exists(f"{folder}/options.txt")
    options = read(f"{folder}/options.txt").split() if has_options else []
    alone = options[: options.index("--names")] if "--names" in options else options

    def check(*words: str) -> Answer:
        return given([program, "check", *words, "model.fzn", "stream.txt"], folder)

    status, report, refused = check(*alone)
    explained = check("--explain", *options)
    refusal = "".join(line for line in told.splitlines(True) if line.startswith("refused:"))
    yield Ran(f"{page}: the report", (status, report, ""), (*explained[:2], ""))
    yield Ran(f"{page}: explained", (status, "", told), (status, "", explained[2]))
    yield Ran(f"{page}: the refusal alone", (status, "", refusal), (status, "", refused))


def run_shown(model: str, program: str) -> Iterator[Ran]:
    """What `show` prints of a model is shown as itself."""
    name, shown = os.path.relpath(model, ROOT), given([program, "show", model], ROOT)
    if shown[0]:  # one of floats is refused
        return
    yield Ran(f"{name}: shown", (0, shown[1], ""), shown)
    with tempfile.NamedTemporaryFile("w", suffix=".fzn", encoding="utf-8") as file:
        file.write(shown[1])
        file.flush()
        yield Ran(f"{name}: shown twice", shown, given([program, "show", file.name], ROOT))


def tell(ran: Ran) -> None:
    print(f"failed: {ran.name}")
    for what, (status, out, err) in (("wanted", ran.wanted), ("gave", ran.given)):
        print(f"  {what}: status {status}")
        for sign, text in (("=", out), ("!", err)):
            print("".join(f"    {sign} {line}\n" for line in text.splitlines()), end="")


def main() -> int:
    program = os.path.abspath(sys.argv[1])
    tables = sorted(glob.glob(f"{HERE}/*.txt"))
    groups = [group for table in tables for group in groups_of(table)]
    pages = sorted(glob.glob(f"{ROOT}/tests/explained/*/"))
    models = [path for place in MODELS for path in sorted(glob.glob(f"{ROOT}/{place}"))]
    jobs = [*((run_group, it) for it in groups), *((run_page, it) for it in pages),
            *((run_shown, it) for it in models)]
    with ThreadPoolExecutor(JOBS) as pool:
        every = [ran for part in pool.map(lambda job: list(job[0](job[1], program)), jobs)
                 for ran in part]
    failed = [ran for ran in every if ran.wanted != ran.given]
    for ran in failed:
        tell(ran)
    print(f"{len(every) - len(failed)} passed, {len(failed)} failed")
    return 1 if failed else 0


if __name__ == "__main__":
    sys.exit(main())
