#!/usr/bin/env python3
"""Compares what the Python module `fzcheck` gives with what the program writes.

    tests/module.py PROGRAM

On all models and streams of tests/corpus and examples, from files and from memory, the text, the
objects and the status have to be the program's. Then each error, threads, and the programs of
docs/PYTHON.md, which are run as they stand."""
import concurrent.futures
import glob
import json
import os
import pathlib
import re
import signal
import stat
import subprocess
import sys
import tempfile
from typing import Dict, Iterator, List, NamedTuple, Tuple, Type

from expecting import end, expect

ROOT = os.path.dirname(os.path.dirname(os.path.abspath(__file__)))
sys.path.insert(0, os.path.join(ROOT, "python"))
import fzcheck

MODEL = b"var 1..9: x :: output_var;\nconstraint int_le(x,7);\nsolve minimize x;\n"
STREAM = b"x = 5;\n----------\nx = 8;\n----------\n==========\n"
PAGE = "docs/PYTHON.md"
PROGRAMS = re.compile(r"```python\n(.*?)```\n(?:\nprints\n\n```\n(.*?)```\n)?", re.S)
WAYS: Tuple[Tuple[List[str], Dict[str, object]], ...] = (
    ([], {}),
    (["--complete", "--cut"], {"complete": True, "cut": True}),
    (["--claims=prove", "--complete-steps", "1000", "--explain"],
     {"claims": "prove", "complete_steps": 1000, "explain": True}),
    (["--claims", "--explain=every"], {"claims": True, "explain": "every"}),
)


class Case(NamedTuple):
    model: str
    stream: str


def cases() -> Iterator[Case]:
    yield Case(f"{ROOT}/examples/first.fzn", f"{ROOT}/examples/first.out")
    for folder in ("tests/corpus/*", "tests/corpus/by_hand/*", "examples/*"):
        for stream in sorted(glob.glob(f"{ROOT}/{folder}/*stream.txt")):
            yield Case(os.path.join(os.path.dirname(stream), "model.fzn"), stream)


def read(path: str) -> bytes:
    with open(path, "rb") as file:
        return file.read()


def ran(program: str, *words: str) -> Tuple[int, bytes]:
    it = subprocess.run([program, *words], stdout=subprocess.PIPE, stderr=subprocess.PIPE)
    return it.returncode, it.stdout


def checked(model: fzcheck.Source, stream: fzcheck.Source, words: Dict[str, object]
            ) -> fzcheck.Report:
    """The report, also of a stream that is refused."""
    try:
        return fzcheck.check(model, stream, **words)  # type: ignore[arg-type]
    except fzcheck.Refused as refused:
        return refused.report


def compare(program: str, case: Case) -> None:
    """The text and the objects are the program's, by paths and by bytes."""
    for options, words in WAYS:
        status, text = ran(program, "check", *options, case.model, case.stream)
        _, objects = ran(program, "check", "--json", *options, case.model, case.stream)
        wanted = status, text, [json.loads(line) for line in objects.splitlines()]
        ways: List[Tuple[fzcheck.Source, fzcheck.Source]] = [
            (case.model, pathlib.Path(case.stream)), (read(case.model), read(case.stream))]
        for model, stream in ways:
            report = checked(model, stream, words)
            expect(f"{case.stream} {options}", wanted,
                   (report.status, report.text.encode(), report.json))
    status, text = ran(program, "show", "--print-all", case.model)
    if status == 0:
        expect(f"show {case.model}", text, fzcheck.show(read(case.model), print_all=True))


def values() -> None:
    """The members of a report."""
    report = fzcheck.check(MODEL, STREAM, claims="prove", explain=True)
    expect("status", (fzcheck.Status.REJECTED, False), (report.status, report.accepted))
    expect("verdicts", [(1, "satisfied", "", 5), (2, "violated", "constraint 1 int_le", 8)],
           [(it.number, it.verdict, it.point, it.objective) for it in report.blocks])
    found = report.blocks[1].explanation
    expect("an explanation", ("x = 8, not ≤ 7", 2, 12, None),
           (found and found.reason, found and found.line, found and found.column,
            report.blocks[0].explanation))
    expect("a claim", [("==========", 2, False, False)],
           [(it.claim, it.after, it.is_proved, it.is_refuted) for it in report.claims])
    proved = fzcheck.check(MODEL, b"x = 1;\n----------\n==========\n", claims="prove")
    expect("a proved claim", (True, True), (proved.accepted, proved.claims[0].is_proved))
    known = [b"x = 9;\n----------\n", b"x = 2;\n----------\n"]
    refuted = fzcheck.check(MODEL, b"x = 5;\n----------\n==========\n", claims=True, known=known)
    expect("a refuted claim", fzcheck.Refuter(1, "<known 2>"), refuted.claims[0].refuted_by)
    expect("its text", "block 1: satisfied\nclaim: ========== refuted by known block 1 of <known 2>"
           "\nrejected: claim after block 1\n", refuted.text)
    expect("what is wrong with a known stream", True, "<known 1>" in refuted.messages)
    expect("a version", True, fzcheck.version().startswith("fzcheck "))


def fails(what: str, kind: Type[Exception], parts: str, model: fzcheck.Source,
          stream: fzcheck.Source, **words: object) -> None:
    try:
        found: object = fzcheck.check(model, stream, **words)  # type: ignore[arg-type]
    except Exception as error:
        expect(f"{what}: {error!r}", (kind, True), (type(error), parts in str(error)))
    else:
        expect(what, kind, found)


def errors(folder: str) -> None:
    missing = os.path.join(folder, "missing.fzn")
    fails("a model's fault", fzcheck.Refused, "refused: model: Syntax at 8..9: 1:9: expected",
          b"var 1..9;", b"")
    fails("a stream's fault", fzcheck.Refused, "refused: stream: Unfinished at 0..7: 1:1: no line",
          MODEL, b"x = 5;\n")
    fails("a block's fault", fzcheck.Refused, "refused: block 1: UnknownName at 0..1: 1:1: ",
          MODEL, b"y = 5;\n----------\n")
    fails("a file that isn't there", fzcheck.NotRead, missing, missing, b"")
    fails("a wrong option", fzcheck.WrongOptions, "--compleet", MODEL, STREAM,
          options=["--compleet"])
    fails("options that don't go together", fzcheck.WrongOptions, "", MODEL, STREAM, tree=b"")
    fails("a text as str", TypeError, "as bytes", MODEL.decode(), STREAM)
    try:
        fzcheck.check(MODEL, STREAM + b"x = 1;\n")
    except fzcheck.Refused as refused:
        expect("blocks before a fault", ["satisfied", "violated"],
               [it.verdict for it in refused.report.blocks])
        expect("its place", ("stream", "Unfinished", 6),
               (refused.what, refused.fault, refused.line))
    try:
        fzcheck.show(b"var 1..9;")
    except fzcheck.Refused as refused:
        expect("what isn't shown", ("model", 1, 8), (refused.what, refused.line, refused.start))


def other_programs(folder: str) -> None:
    """What a program that ends in another way comes to."""
    path = os.path.join(folder, "program")
    told = '{"block":1,"verdict":"satisfied"}'
    for script, kind in ((f"printf '{told}\\n{told[:9]}'; kill -9 $$", fzcheck.Ended),
                         ("exit 7", fzcheck.OutOfMemory), ("exit 99", fzcheck.Error),
                         ("echo what", fzcheck.Error), ("sleep 60", fzcheck.OutOfTime)):
        with open(path, "w", encoding="utf-8") as file:
            file.write(f"#!/bin/sh\nexec 3>&-\n{script.replace('sleep', 'exec sleep')}\n")
        os.chmod(path, stat.S_IRWXU)
        fails(script, kind, "", MODEL, STREAM, timeout=3)
    os.environ["FZCHECK"] = os.path.join(folder, "none")
    fails("no program", fzcheck.NotInstalled, "", MODEL, STREAM)


def threads() -> None:
    """Many calls at a time give what one gives, and leave no file open."""
    before = len(os.listdir("/proc/self/fd"))
    wanted = fzcheck.check(MODEL, STREAM).text
    with concurrent.futures.ThreadPoolExecutor(8) as pool:
        found = {*pool.map(lambda _: fzcheck.check(MODEL, STREAM).text, range(64))}
    expect("threads", {wanted}, found)
    expect("open files", before, len(os.listdir("/proc/self/fd")))


def of_page(folder: str) -> None:
    """The programs of the page. A script that prints a stream stands for the solver."""
    first, test = PROGRAMS.findall(read(os.path.join(ROOT, PAGE)).decode())
    environment = {**os.environ, "PYTHONPATH": os.path.join(ROOT, "python")}
    run = subprocess.run([sys.executable, "-c", first[0]], env=environment, stdout=subprocess.PIPE,
                         stderr=subprocess.STDOUT, encoding="utf-8")
    expect("the first program", first[1], run.stdout)
    models = os.path.join(folder, "models")
    os.mkdir(models)
    for name, text in (("model.fzn", MODEL), ("test.py", test[0].encode()),
                       ("solver", b'#!/bin/sh\ncat "$PRINTED"\nexec sleep "$WAITS"\n')):
        with open(os.path.join(models, name), "wb") as file:
            file.write(text)
    solver = os.path.join(models, "solver")
    os.chmod(solver, stat.S_IRWXU)
    best = b"x = 5;\n----------\nx = 1;\n----------\n==========\n"
    for what, printed, waits, parts in (
            ("a right solver", best, "0", "OK"),
            ("a wrong solution", STREAM, "600", "x = 8, not ≤ 7"),
            ("no better", best.replace(b"1", b"6"), "600", "objective 6 not better than 5"),
            ("a false claim", b"x = 5;\n----------\n=====UNSATISFIABLE=====\n", "0", "refuted by")):
        with open(os.path.join(models, "printed"), "wb") as file:
            file.write(printed)
        run = subprocess.run([sys.executable, os.path.join(models, "test.py")], env={
            **environment, "SOLVER": f"'{solver}'", "MODELS": models, "WAITS": waits,
            "PRINTED": os.path.join(models, "printed"), "PYTHONIOENCODING": "utf-8"},
            stdout=subprocess.PIPE, stderr=subprocess.STDOUT, encoding="utf-8", timeout=60)
        expect(f"{what}: {run.stdout}", (parts != "OK", True),
               (run.returncode != 0, parts in run.stdout))


def main(program: str) -> int:
    os.environ["FZCHECK"] = os.path.abspath(program)
    for case in cases():
        compare(os.environ["FZCHECK"], case)
    with tempfile.TemporaryDirectory() as folder:
        values()
        errors(folder)
        threads()
        of_page(folder)
        os.environ["FZCHECK"] = os.path.join(folder, "program")
        other_programs(folder)
    return end()


if __name__ == "__main__":
    sys.exit(main(sys.argv[1]))
