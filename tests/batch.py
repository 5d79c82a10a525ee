#!/usr/bin/env python3
"""Runs python/fzcheck-batch over a season that is made from tests/corpus and examples: twenty
models, each with the streams of six solvers, of which four are wrong in their own ways.

    tests/batch.py PROGRAM

What each stream has to come to follows from how it was made, and from the stored report on the
stream that it was made of. Bad inputs are tried with a script in the place of the program. What
needs GNU parallel, Chromium, or ssh and leave to make network namespaces is tried where they are,
and told where they aren't."""
import csv
import html.parser
import os
import pathlib
import re
import shutil
import signal
import subprocess
import sys
import tempfile
import time
from typing import Dict, Iterator, List, NamedTuple, Optional, Set, Tuple

import hosts
import minizinc

ROOT = pathlib.Path(os.path.abspath(__file__)).parent.parent
COMMAND = (sys.executable, str(ROOT / "python" / "fzcheck-batch"))
MARKER, COMPLETE, UNSATISFIABLE = "----------\n", "==========\n", "=====UNSATISFIABLE=====\n"
SOURCES = [f"tests/corpus/{name}" for name in (
    "bool_mix_std/one", "dims_out_std/one", "divmod_std/n20", "golomb6_alld/all",
    "golomb6_allout/all", "golomb6_std/all", "jobshop_allout/all", "jobshop_std/all",
    "lex_words_std/one", "nurse_allout/one", "queens8_gecode/one", "queens8_std/n20",
    "set_partition_allout/one", "tsp_circuit_allout/all", "tsp_circuit_std/all")]
SOURCES += ["examples/deliveries/other_", "examples/knapsack/", "examples/machines/",
            "examples/magic_square/", "examples/tour/"]
NUMBER = re.compile(r"(?<=[\[ ,])\d+\b(?![.(])")
STAND_IN = f"#!{sys.executable}" + """
import os, signal, sys, time
if sys.argv[1:] == ["--version"]:
    sys.exit(print(os.environ.get("VERSION", "stand-in 1")))
if sys.argv[-1] == os.devnull:
    sys.exit(5 if "--nonsense" in sys.argv else 4)
what = open(sys.argv[-1]).read().strip()
if what == "spin":
    while True: pass
if what == "sleep":
    time.sleep(60)
if what == "memory":
    try: bytearray(1 << 33)
    except MemoryError: sys.exit(7)
if what == "crash":
    os.kill(os.getpid(), signal.SIGSEGV)
if what == "garbage":
    sys.exit(print("{nothing of the kind"))
time.sleep(float(os.environ.get("SLOWLY", "0")))
print('{"block":1,"verdict":"satisfied"}')
print('{"answer":"accepted","blocks":1,"satisfied":1,"violated":0,"undecided":0}')
"""
FEW = 5
passed = failed = 0


def expect(what: str, wanted: object, got: object) -> None:
    global passed, failed
    passed, failed = passed + (wanted == got), failed + (wanted != got)
    if wanted != got:
        print(f"failed: {what}: {wanted!r:.600} wanted, {got!r:.600} found")


class Source(NamedTuple):
    """A model with a right stream, and the report on it."""

    name: str
    model: pathlib.Path
    stream: str
    answer: str  # the first word of the report's last line

    @property
    def optimises(self) -> bool:
        return not self.model.read_text().rstrip().endswith("satisfy;")

    @property
    def blocks(self) -> List[str]:
        return [block + MARKER for block in self.stream.split(MARKER)[:-1]]


def sources() -> Iterator[Source]:
    for place in SOURCES:
        path = ROOT / place
        folder, word = (path.parent, path.name + ".") if "corpus" in place else (path, "")
        if place.endswith("_"):
            folder, word = path.parent, path.name
        stream, told = (folder / f"{word}{kind}.txt" for kind in ("stream", "report"))
        answer = told.read_text().splitlines()[-1].split(":")[0]
        yield Source(folder.name, folder / "model.fzn", stream.read_text(), answer)


class Made(NamedTuple):
    """A stream, its outcome, and what the words on it begin with."""

    stream: str
    outcome: str
    words: str = ""


def solvers(source: Source) -> Dict[str, Made]:
    """What six solvers print. `correct` is the first by name, and so the one that refutes."""
    blocks, count = source.blocks, len(source.blocks)
    last = blocks[-1][: -len(MARKER)]
    is_accepted = source.answer == "accepted"
    double = Made("".join([*blocks, blocks[-1]]), source.answer)
    if source.optimises:  # which comes before what leaves a block undecided
        double = Made(double.stream, "violated", f"block {count + 1}: violated: objective ")
    liar = Made(UNSATISFIABLE, "no blocks")
    if is_accepted and source.optimises and count > 1:
        words = f"claim after block 1: ========== refuted by block {count} of correct"
        liar = Made(blocks[0] + COMPLETE, "refuted claim", words)
    elif is_accepted:
        words = "claim after block 0: =====UNSATISFIABLE===== refuted by block 1 of correct"
        liar = Made(UNSATISFIABLE, "refuted claim", words)
    return {
        "correct": Made(source.stream, source.answer),
        "cut": Made("".join(blocks[:-1]) + last[:-2], source.answer if count > 1 else "no blocks"),
        "double": double,
        "liar": liar,
        "stranger": Made(f"no_such_name = 1;\n{MARKER}", "refused",
                         "refused: block 1: UnknownName"),
        "wild": Made(NUMBER.sub("99999", blocks[0], 1), "violated", "block 1: violated: "),
    }


class Place:
    """A folder with a season, and with what its commands are run with."""

    def __init__(self, folder: str, program: str) -> None:
        self.folder = pathlib.Path(folder)
        for name in ("bin", "models", "streams"):
            (self.folder / name).mkdir()
        self.program = program
        (self.folder / "bin" / "fzcheck").symlink_to(program)
        self.variables = {"PATH": f"{self.folder}/bin:{os.environ['PATH']}",
                          "FZCHECK": f"{self.folder}/bin/fzcheck"}

    def model(self, name: str, text: str) -> None:
        path = self.folder / "models" / f"{name}.fzn"
        path.parent.mkdir(exist_ok=True)
        path.write_text(text)

    def stream(self, solver: str, model: str, text: str) -> None:
        path = self.folder / "streams" / solver / f"{model}.out"
        path.parent.mkdir(parents=True, exist_ok=True)
        path.write_text(text)

    def words(self, results: str, *options: str) -> List[str]:
        return [*COMMAND, "run", "--models", "models", "--streams",
                "streams/{solver}/{model}.out", "--results", results, *options]

    def start(self, *words: str, **variables: str) -> "subprocess.Popen[str]":
        return subprocess.Popen(words, cwd=self.folder, text=True, start_new_session=True,
                                env={**os.environ, **self.variables, **variables},
                                stdout=subprocess.PIPE, stderr=subprocess.PIPE)

    def run(self, *words: str, **variables: str) -> Tuple[int, str, str]:
        process = self.start(*words, **variables)
        out, told = process.communicate(timeout=1000)
        told = "".join(line for line in told.splitlines(True) if " s left: " not in line)
        return process.returncode, out, told  # without the lines on how far it is

    def outcomes(self, results: str, one: str = "outcome", other: str = "words"
                 ) -> Dict[Tuple[str, str], Tuple[str, str]]:
        """By the table for other programs: outcome and words by model and solver, or two others."""
        return {pair: (row[one], row[other]) for pair, row in self.table(results).items()}

    def table(self, results: str) -> Dict[Tuple[str, str], Dict[str, str]]:
        """The lines of the table for other programs, by model and solver."""
        path = self.folder / "table.csv"
        path.unlink(missing_ok=True)  # which may be of other results
        self.run(*COMMAND, "report", "--results", results, "--csv", path.name)
        if not path.exists():
            return {}
        with open(path, encoding="utf-8", newline="") as file:
            return {(row["model"], row["solver"]): row for row in csv.DictReader(file)}


class Table(html.parser.HTMLParser):
    """Reads the table of models of a page: the titles of each row's cells."""

    def __init__(self) -> None:
        super().__init__()
        self.rows: List[List[str]] = []
        self.is_inside = False

    def handle_starttag(self, tag: str, pairs: List[Tuple[str, Optional[str]]]) -> None:
        attributes = dict(pairs)
        if tag == "table":
            self.is_inside = attributes.get("id") == "models"
        elif self.is_inside and tag == "tr":
            self.rows.append([])
        elif self.is_inside and "title" in attributes:
            self.rows[-1].append(str(attributes["title"]))


def shown(page: pathlib.Path) -> List[List[str]]:
    """What a browser makes of the page, row by row, without its head."""
    with tempfile.TemporaryDirectory() as folder:
        ran = subprocess.run(("chromium", "--headless", "--no-sandbox", "--disable-gpu",
                              "--dump-dom", f"--user-data-dir={folder}", page.as_uri()),
                             stdout=subprocess.PIPE, stderr=subprocess.DEVNULL, timeout=1000)
    table = Table()
    table.feed(ran.stdout.decode())
    return table.rows[1:]


def lacks(program: str, what: str) -> bool:
    if not shutil.which(program):
        print(f"{program} isn't installed: {what} isn't tried")
    return not shutil.which(program)


def try_season(place: Place) -> None:
    """Each wrong solver is told for the right reason, and nothing is judged twice."""
    wanted = {}
    for source in sources():
        shutil.copy(source.model, place.folder / "models" / f"{source.name}.fzn")
        for solver, made in solvers(source).items():
            place.stream(solver, source.name, made.stream)
            wanted[source.name, solver] = made
    status, out, told = place.run(*place.words("one", "-j", "2", "--cut"))
    expect("a season's status", (0, ""), (status, told))
    expect("all pairs are judged", "120 pairs", out[:9])
    found = place.outcomes("one")
    for pair, made in wanted.items():
        outcome, words = found.get(pair, ("", ""))
        expect(f"{pair}", (made.outcome, made.words), (outcome, words[: len(made.words)]))
    again = place.run(*place.words("one", "--cut"))
    expect("unchanged", (0, re.sub(r", \d+ jobs", ", 0 jobs", out), ""), again)
    text = place.run(*COMMAND, "report", "--results", "one", "--html", "page.html")[1]
    expect("who is wrong", True, "wild on golomb6_std: block 1: violated: " in text)
    if not lacks("chromium", "the page"):
        rows = {row[0]: row[2:] for row in shown(place.folder / "page.html")}
        titles = {pair: ": ".join(filter(None, found[pair])) for pair in found}
        got = {name: [title.split("; ")[0] for title in row] for name, row in rows.items()}
        expect("the page", {name: [titles[name, solver] for solver in sorted(solvers(source))]
                            for name, source in ((it.name, it) for it in sources())}, got)


def few(place: Place) -> Set[str]:
    """The models in the folder `few`, where some of the season's are."""
    folder = place.folder / "few"
    if not folder.exists():
        folder.mkdir()
        for path in sorted((place.folder / "models").iterdir())[:FEW]:
            shutil.copy(path, folder)
    return {path.stem for path in folder.iterdir()}


def same_results(place: Place, one: str, other: str, models: Set[str]) -> List[str]:
    """The files of the models that differ between two folders, but for what the jobs took, which
    is their second line."""
    def lines(folder: str, model: str) -> Dict[str, List[str]]:
        paths = (place.folder / folder / "pairs" / model).glob("*")
        found = {path.name: path.read_text().splitlines() for path in paths}
        return {name: text[:1] + text[2:] for name, text in found.items()}

    both = {model: (lines(one, model), lines(other, model)) for model in sorted(models)}
    return [model for model, (ours, theirs) in both.items() if ours != theirs or not ours]


def try_shards(place: Place) -> None:
    """Shards in one folder each, which are merged."""
    few(place)
    for part in ("1", "2"):
        place.run(*place.words(f"part{part}", "--models", "few", "--cut", "--shard", f"{part}/2"))
    merged = place.run(*COMMAND, "merge", "--results", "both", "part1", "part2")
    expect("merged", (0, f"{6 * FEW} results, 0 of them differ from those before\n", ""), merged)
    expect("merged results", [], same_results(place, "both", "one", few(place)))


def script_with(word: str) -> str:
    """The block of the page between lines of three backquotes that has a word."""
    page = (ROOT / "docs" / "ORGANISERS.md").read_text(encoding="utf-8")
    blocks: List[str] = re.findall(r"^```\n(.*?)^```", page, re.M | re.S)
    return next(text for text in blocks if word in text)


def season_of_few(place: Place, folder: str) -> Place:
    """A season like the other one, of some of its models, in a folder that the page's commands
    may have to themselves."""
    path = place.folder / folder
    path.mkdir()
    other = Place(str(path), place.program)
    for model in few(place):
        shutil.copy(place.folder / "few" / f"{model}.fzn", path / "models")
        for stream in (place.folder / "streams").glob(f"*/{model}.out"):
            other.stream(stream.parent.name, model, stream.read_text())
    (path / "bin" / "fzcheck-batch").symlink_to(COMMAND[1])
    other.run(*other.words("alone", "--complete", "--cut", "--claims=prove"))
    return other


def try_parallel(place: Place) -> None:
    """The page's command for GNU parallel as it stands: on hosts of the test's own by ssh where
    these can be had, and else on this machine."""
    if lacks("parallel", "the command for GNU parallel"):
        return
    other = season_of_few(place, "by_parallel")
    (other.folder / ".parallel").mkdir()
    (other.folder / ".parallel" / "will-cite").touch()
    hosts_file = other.folder / "hosts"
    # GNU parallel wants a shell and a home.
    variables = {"SHELL": "/bin/sh", "HOME": str(other.folder)}
    words = ("bash", "-ec", script_with("parallel -j 1"))
    reason = hosts.lacking()
    if reason:
        print(f"{reason}: shards over ssh aren't tried")
        hosts_file.write_text(":\n")
        status, _, told = other.run(*words, **variables)
    else:
        with hosts.Hosts(other.folder, other.variables) as made:
            hosts_file.write_text("".join(f"{address}\n" for address in made.addresses))
            status, _, told = other.run(*words, **variables, PARALLEL_SSH=made.ssh)
            expect("both hosts took some", True, made.both_were_used())
    expect("the command for GNU parallel", (0, ""), (status, told))
    expect("its results", [], same_results(other, "alone", "results", few(place)))


def try_slurm(place: Place) -> None:
    """The page's script for Slurm as it stands: by Slurm where it runs, and else with what Slurm
    sets."""
    other = season_of_few(place, "by_slurm")
    script = other.folder / "season.sh"
    script.write_text(script_with("#SBATCH"))
    script.chmod(0o755)
    if shutil.which("sinfo") and subprocess.run("sinfo", stdout=subprocess.DEVNULL).returncode == 0:
        words = ("sbatch", "--wait", "--array=1-4", "season.sh")
        expect("the script by Slurm", 0, other.run(*words)[0])
    else:
        print("Slurm isn't running: its script is run with the variables that it sets")
        for number in range(1, 5):
            variables = {"SLURM_ARRAY_TASK_ID": str(number), "SLURM_ARRAY_TASK_COUNT": "4"}
            status, _, told = other.run("./season.sh", **variables)
            expect("the script for Slurm", (0, ""), (status, told))
    expect("its results", [], same_results(other, "alone", "results", few(place)))


def try_page(place: Place) -> None:
    """The commands of the page that need no MiniZinc, with a script in the place of the solver."""
    example = ROOT / "examples" / "knapsack"
    place.model("NAME", (example / "model.fzn").read_text())
    place.stream("gecode", "NAME", (example / "stream.txt").read_text())
    gecode = place.folder / "bin" / "fzn-gecode"
    gecode.write_text(f"#!/bin/sh\ncat '{example}/stream.txt'\n")
    gecode.chmod(0o755)
    (place.folder / "bin" / "fzcheck-batch").symlink_to(COMMAND[1])
    for block in minizinc.blocks("docs/ORGANISERS.md"):
        if "minizinc " not in block:
            status, _, told = place.run("bash", "-ec", block)
            expect(f"{block}", (0, ""), (status, told))
    results = {kind: place.outcomes(kind) for kind in ("results", "merged")}
    expect("the page's results", {("NAME", "gecode"): ("accepted", "")}, results["results"])
    expect("the page's merged results", results["results"], results["merged"])
    seconds = re.fullmatch(r"seconds=\d+\.\d+\n",
                           (place.folder / "streams" / "gecode" / "NAME.status").read_text())
    expect("the page's status of a solver", True, bool(seconds))


def try_found(place: Place) -> None:
    """An objective that the solver left out, and `--complete` found, isn't the solver's."""
    place.model("left_out", "var 1..9: y;\nvar 1..9: z;\nconstraint int_le(y,z);\n"
                "solve minimize z;\n")
    place.stream("quiet", "left_out", f"y = 3;\n{MARKER}{COMPLETE}")
    place.stream("whole", "left_out", f"y = 4;\nz = 5;\n{MARKER}")
    _, out, _ = place.run(*place.words("found", "--complete"))
    expect("both are accepted", True, out.endswith("accepted 2\n"))
    expect("what is found", {("left_out", "quiet"): ("", "5"), ("left_out", "whole"): ("5", "5")},
           place.outcomes("found", "objective", "best_known"))


def try_bad_inputs(folder: str) -> None:
    """Faults of one pair are that pair's, with a script in the place of the program."""
    script = os.path.join(folder, "stand-in")
    pathlib.Path(script).write_text(STAND_IN)
    os.chmod(script, 0o755)
    place = Place(os.path.join(folder), script)
    odd, script_end = "it's \"odd\" <b>", "<" + "/script>"
    for name in ("plain", odd, script_end, "alone"):
        place.model(name, "solve satisfy;\n")
    behaviours = {"spins": "spin", "sleeps": "sleep", "takes": "memory", "dies": "crash",
                  "babbles": "garbage", "fine": ""}
    for solver, text in behaviours.items():
        place.stream(solver, "plain", text)
    place.stream(odd, odd, "")
    place.stream(odd, script_end, "")
    place.stream("fine", "nobody's", "")
    limits = ("--limit", "cpu=1,memory=2G,time=9", "-j", "3")
    status, _, told = place.run(*place.words("results", *limits))
    expect("bad inputs", 0, status)
    expect("a stream without model", True, "the stream streams/fine/nobody's.out" in told)
    expect("a model without stream", True, "no stream for the model models/alone.fzn" in told)
    found = {pair: it[0] for pair, it in place.outcomes("results").items()}
    expect("of each its own", {
        ("plain", "spins"): "time limit", ("plain", "sleeps"): "time limit",
        ("plain", "takes"): "out of memory", ("plain", "dies"): "failed",
        ("plain", "babbles"): "failed", ("plain", "fine"): "accepted",
        (odd, odd): "accepted", (script_end, odd): "accepted"}, found)
    place.run(*COMMAND, "report", "--results", "results", "--html", "page.html")
    if not lacks("chromium", "the page with odd names"):
        names = {row[0] for row in shown(place.folder / "page.html")}
        expect("odd names on the page", {"plain", odd, script_end}, names)
    try_words(place)
    try_again(place, script, odd)


def try_words(place: Place) -> None:
    for words, status in ((("--nonsense",), 5), (("--shard", "5/4"), 5), (("--limit", "cpu=x"), 5),
                          (("--known", "x"), 5), (("-j", "0"), 5), (("--models", "none"), 6)):
        got = place.run(*place.words("nothing", *words))
        expect(f"{words}", (status, "", True), (got[0], got[1], "fzcheck-batch: " in got[2]))
    expect("no results", 6, place.run(*COMMAND, "report", "--results", "nothing")[0])


def try_again(place: Place, script: str, odd: str) -> None:
    """What is run again: failures always, limits where they are others, all by another program."""
    def judged(*options: str) -> Tuple[int, str]:
        words = place.words("results", "--limit", "cpu=1,memory=2G,time=9", *options)
        _, out, told = place.run(*words)
        return int(re.findall(r"(\d+) jobs run", out)[0]), told

    expect("failures are judged again", 2, judged()[0])
    place.stream(odd, odd, "other")
    expect("so is a changed stream", 3, judged()[0])
    expect("and limits that are others", 5, judged("--limit", "cpu=1,memory=3G,time=8")[0])
    with open(script, "a") as file:
        file.write("# another\n")
    count, told = judged()
    told_of = "8 results by another program, stand-in 1" in told
    expect("another program", (8, True), (count, told_of))


def try_stop(place: Place) -> None:
    """A run that is killed goes on where it was."""
    for number in range(12):
        place.stream(f"solver{number}", "plain", "")
    for ending in (signal.SIGKILL, signal.SIGTERM):
        results = f"stopped{int(ending)}"
        process = place.start(*place.words(results, "-j", "2"), SLOWLY="0.3")
        stored = place.folder / results / "pairs" / "plain"
        while not stored.exists() or len(os.listdir(stored)) < 4:
            time.sleep(0.05)
        process.send_signal(ending)
        process.communicate(timeout=1000)  # until its workers have ended, which have its output
        kept = sum(len(path.read_text().splitlines()) > 2 for path in stored.iterdir())
        _, out, _ = place.run(*place.words(results))
        wanted = f"12 pairs, {12 - kept} jobs run: accepted 12\n"
        expect(f"after signal {int(ending)}", wanted, out)


def main() -> int:
    program = os.path.abspath(sys.argv[1])
    with tempfile.TemporaryDirectory() as folder:
        place = Place(folder, program)
        try_season(place)
        try_shards(place)
        try_parallel(place)
        try_slurm(place)
    with tempfile.TemporaryDirectory() as folder:
        try_page(Place(folder, program))
    with tempfile.TemporaryDirectory() as folder:
        try_found(Place(folder, program))
    with tempfile.TemporaryDirectory() as folder:
        try_bad_inputs(folder)
    with tempfile.TemporaryDirectory() as folder:
        script = os.path.join(folder, "stand-in")
        pathlib.Path(script).write_text(STAND_IN)
        os.chmod(script, 0o755)
        place = Place(folder, script)
        place.model("plain", "solve satisfy;\n")
        try_stop(place)
    print(f"{passed} passed, {failed} failed")
    return 1 if failed else 0


if __name__ == "__main__":
    sys.exit(main())
