#!/usr/bin/env python3
"""Runs python/fzcheck-batch over small seasons of four solvers in which every state occurs, and
compares what it publishes with what was worked out by hand: claims, scores, times, the page.

    tests/season.py PROGRAM

What needs Chromium, GNU parallel, Slurm or a program that unpacks is tried where that is installed,
and told where it isn't."""
import bz2
import csv
import gzip
import json
import lzma
import os
import pathlib
import re
import subprocess
import sys
import tempfile
from typing import Any, Dict, List, Tuple
from xml.etree import ElementTree

import batch
from batch import COMMAND, COMPLETE, MARKER, UNSATISFIABLE, Place, expect, lacks, shown

UNKNOWN = "=====UNKNOWN=====\n"
SOLVERS = ("apex", "brook", "cedar", "dune")
LEAST = "var 1..9: x :: output_var;\nconstraint int_le(3,x);\nsolve minimize x;\n"
MOST = "var 1..9: x :: output_var;\nsolve maximize x;\n"
ANY = "var 1..9: x :: output_var;\nsolve satisfy;\n"
NONE = "var 1..3: x :: output_var;\nconstraint int_le(5,x);\nsolve satisfy;\n"
FLOATS = "var 0.0..1.0: x :: output_var;\nsolve satisfy;\n"
LACKS = "predicate my_own(var int: x);\nvar 1..9: x :: output_var;\nconstraint my_own(x);\n" \
        "solve satisfy;\n"
PIGEONS = "".join(f"var 1..9: x{i} :: output_var;\n" for i in range(10)) + "".join(
    f"constraint int_ne(x{i},x{j});\n" for i in range(10) for j in range(i)) + "solve satisfy;\n"
# A program that fails in its own ways where the stream says so, and else is the real one.
FAILING = """#!/bin/sh
for last; do :; done
case "$last" in
  */apex/slow.*) while :; do :; done ;;
  */apex/large.*) exit 7 ;;
  */apex/crash.*) exit 99 ;;
esac
exec '{program}' "$@"
"""


def block(value: int, *comments: str) -> str:
    return f"x = {value};\n" + "".join(f"{comment}\n" for comment in comments) + MARKER


def elapsed(seconds: float) -> str:
    return f"% time elapsed: {seconds:.2f} s"


def every_state(place: Place) -> None:
    """Twelve models by four solvers."""
    many = "".join(map(block, (9, 7, 5, 4)))
    streams: Dict[str, Tuple[str, Tuple[str, ...]]] = {
        "least": (LEAST, (block(5) + block(3) + COMPLETE, block(6) + block(3), block(4) + COMPLETE,
                          block(3) + block(3))),
        "many": (LEAST, (many, many + block(3) + COMPLETE, block(9) + block(8),
                         block(9) + UNKNOWN)),
        "only_wrong": (MOST, (block(5), block(6), block(4) + COMPLETE, block(7) + block(6))),
        "none": (NONE, (UNSATISFIABLE, "", UNKNOWN, block(5))),
        "any": (ANY, (block(1) + COMPLETE, UNSATISFIABLE, block(2), block(3) + block(11))),
        "floats": (FLOATS, ("x = 0.5;\n" + MARKER, "x = 0.25;\n" + MARKER, UNKNOWN, "")),
        "lacks": (LACKS, (block(1), block(2) + COMPLETE, UNKNOWN, UNSATISFIABLE)),
        "pigeons": (PIGEONS, (UNSATISFIABLE, UNKNOWN, "", UNSATISFIABLE)),
        "names": (ANY, ("y = 1;\n" + MARKER, block(1), "=====ERROR=====\n", block(4) + "x = ")),
        "slow": (ANY, (block(1), block(2), "", block(3))),
        "large": (ANY, (block(1), "", block(2), block(3))),
        "crash": (ANY, (block(1), block(5), block(2), "")),
    }
    for model, (text, printed) in streams.items():
        place.model(model, text)
        for solver, stream in zip(SOLVERS, printed):
            if (model, solver) != ("crash", "dune"):
                place.stream(solver, model, stream)


def data_of(page: pathlib.Path) -> Dict[str, Any]:
    """What the page shows, before a browser made tables of it."""
    text = page.read_text(encoding="utf-8")
    found = re.search(r'<script type="application/json" id="data">(.*?)</script>', text, re.S)
    data: Dict[str, Any] = json.loads(found[1]) if found else {}
    return data


def cells_of(data: Dict[str, Any]) -> Dict[Tuple[str, str], Dict[str, Any]]:
    return {(model["name"], data["solvers"][cell["solver"]]): cell
            for model in data["models"] for cell in model["cells"]}


def page_of(place: Place, *options: str) -> Dict[str, Any]:
    path = place.folder / "page.html"
    path.unlink(missing_ok=True)
    place.run(*COMMAND, "report", "--results", "results", "--html", path.name, *options)
    return data_of(path) if path.exists() else {}


STATES = {
    ("least", "apex"): "accepted; best objective claimed and proved; objective 3, none is better",
    ("least", "brook"): "accepted; unfinished; objective 3, none is better",
    ("many", "dune"): "accepted; the solver doesn't know; objective 9",
    ("none", "apex"): "no blocks; no solution claimed and proved",
    ("none", "brook"): "no blocks; no claim",
    ("none", "cedar"): "no blocks; the solver doesn't know",
    ("any", "apex"): "accepted; all solutions claimed only",
    ("pigeons", "apex"): "no blocks; no solution claimed only",
    ("floats", "apex"): "the model can't be judged by",
    ("names", "cedar"): "no blocks; the solver reports an error",
}
WORDS = {  # how the states begin of those that are wrong, or not judged
    ("least", "cedar"): "refuted claim: claim after block 1: ========== refuted by block 2 of ",
    ("least", "dune"): "violated: block 2: violated: objective 3 not better than 3",
    ("any", "brook"): "refuted claim: claim after block 0: =====UNSATISFIABLE===== refuted by ",
    ("lacks", "apex"): "undecided: block 1: undecided: constraint 1 my_own not known; unfinished",
    ("names", "apex"): "refused: refused: block 1: UnknownName at 0..1",
    ("slow", "apex"): "time limit: ",
    ("large", "apex"): "out of memory: ",
    ("crash", "apex"): "failed: ",
}


def try_states(place: Place) -> None:
    """Each state is told apart, in the table and on the page."""
    every_state(place)
    words = place.words("results", "--complete", "--complete-steps", "1000", "--claims=prove",
                        "--cut", "--limit", "cpu=1", "-j", "2")
    expect("a season of every state", 0, place.run(*words)[0])
    data = page_of(place, "--title", "Four & <more>")
    cells = cells_of(data)
    for pair, state in STATES.items():
        expect(f"state of {pair}", state, cells[pair]["state"])
    for pair, state in WORDS.items():
        expect(f"state of {pair}", state, cells[pair]["state"][: len(state)])
    try_claims(place, cells)
    try_blame(place, data)
    options = "--claims=prove --explain --json --complete --complete-steps 1000 --cut"
    made = " ".join(data["made"])
    version = subprocess.run([place.program, "--version"], stdout=subprocess.PIPE, check=True)
    expect("date, program and options", [True] * 3, [
        bool(re.search(r"Judged \d{4}-\d\d-\d\d", made)), version.stdout.decode().strip() in made,
        all(word in made for word in options.split())])
    page = (place.folder / "page.html").read_text(encoding="utf-8")
    expect("title", 2, page.count("Four &amp; &lt;more&gt;"))
    expect("what was trusted", True, "The proof\ntrusts the Rattle toolchain" in page)
    if not lacks("chromium", "the page of every state"):
        try_browser(place)


def try_claims(place: Place, cells: Dict[Tuple[str, str], Dict[str, Any]]) -> None:
    """A proved claim isn't denied, and a refuted one is told once."""
    table = place.table("results")
    proved = [table[pair] for pair in (("least", "apex"), ("none", "apex"), ("many", "brook"))]
    expect("proved claims in the table", [("proved", "1", "0")] * 3, [
        (row["finish"], row["proved_claims"], row["unjudged_claims"]) for row in proved])
    expect("their nodes", [True] * 3, [int(row["nodes"]) > 0 for row in proved])
    expect("a refuted one in the table", ("refuted", "0", "1"), tuple(
        table["least", "cedar"][name] for name in ("finish", "proved_claims", "refuted_claims")))
    expect("one that is claimed only", ("claimed only", "1"), tuple(
        table["pigeons", "apex"][name] for name in ("finish", "unjudged_claims")))
    lines = cells["least", "apex"]["lines"]
    expect("a proved one in the dialog", 1, sum(bool(re.fullmatch(
        r"claim after block 2: ========== proved, \d+ nodes?", line)) for line in lines))
    refuted = [line for line in cells["least", "cedar"]["lines"] if "refuted by" in line]
    expect("a refuted one in the dialog", 1, len(refuted))
    out = place.run(*COMMAND, "report", "--results", "results")[1]
    head, apex = (re.split(r"\s{2,}", line.strip()) for line in out.splitlines()[:2])
    counts = dict(zip(head, apex))
    expect("claims in the text", ("2", "0", "2"), tuple(
        counts[f"claims {kind}"] for kind in ("proved", "refuted", "not judged")))


def try_blame(place: Place, data: Dict[str, Any]) -> None:
    """What a solver is blamed for, and what it is praised for."""
    models = {model["name"]: model for model in data["models"]}
    expect("a wrong stream holds nothing", ("3", ["apex", "brook"]),
           (models["least"]["best"], models["least"]["holders"]))
    expect("nor alone", ("7", []), (models["only_wrong"]["best"], models["only_wrong"]["holders"]))
    expect("nor does its cell", False, "objective" in cells_of(data)["least", "dune"])
    expect("a model's fault is the model's", True,
           models["floats"]["fault"].startswith("refused: model: Float at "))
    out = place.run(*COMMAND, "report", "--results", "results")[1]
    expect("it is told once", 1, out.count("refused: model: Float"))
    expect("of no solver", False, bool(re.search("^[a-d].* on floats", out, re.M)))


def try_browser(place: Place) -> None:
    """What a browser makes of the page, and of an address with a model and a solver."""
    path = place.folder / "page.html"
    rows = {row[0]: row[1:] for row in shown(path) if row}
    expect("the rows of the page", 12, len(rows))
    expect("a fault has a row without cells", [], rows["floats"])
    dialog = dump(path, "#model=least&solver=cedar")
    expect("a dialog by its address", 1, dialog.count("<div>claim after block 1: ========== "))
    labels = re.findall(r'aria-label="(\w+) on (\w+): ([^"]*)"', dialog)
    states = {(model, solver): state for solver, model, state in labels}
    expect("words for screen readers", STATES["none", "apex"], states.get(("none", "apex")))
    expect("one set for each cell", 12 * 4 - 4 - 1, len(states))
    signs = dict(re.findall(r'aria-label="(\w+ on \w+): [^"]*">([^< ]*)', dialog))
    wanted = {"apex on least": "✓■", "brook on least": "✓…", "apex on any": "✓□",
              "apex on none": "∅■", "brook on none": "–", "apex on pigeons": "∅□",
              "cedar on none": "–~", "cedar on least": "✗!", "dune on least": "✗"}
    expect("signs", wanted, {name: signs.get(name) for name in wanted})


def dump(path: pathlib.Path, place: str) -> str:
    """The page as the browser has it, at an address."""
    with tempfile.TemporaryDirectory() as folder:
        words = ("chromium", "--headless", "--no-sandbox", "--disable-gpu", "--dump-dom",
                 f"--user-data-dir={folder}", path.as_uri() + place)
        ran = subprocess.run(words, stdout=subprocess.PIPE, stderr=subprocess.DEVNULL,
                             timeout=1000)
    return ran.stdout.decode()


# Seconds in all forms: stamps in the stream, a file of stamps, statistics, what `time -v` prints.
TIME_V = "\tCommand being timed: \"solver\"\n\tElapsed (wall clock) time (h:mm:ss or m:ss): " \
         "{clock}\n\tMaximum resident set size (kbytes): 2048\n\tExit status: {status}\n"


def scored_season(place: Place) -> None:
    """Four models that are scored, and one that can't be."""
    for name, text in (("A", LEAST), ("B", MOST), ("C", ANY), ("D", NONE), ("E", FLOATS)):
        place.model(name, text)
    print_stream(place, "apex", "A", block(5, elapsed(1)) + block(3, elapsed(5)) + COMPLETE
                 + elapsed(10))
    print_stream(place, "brook", "A", block(4) + block(3) + COMPLETE,
                 times=f"{elapsed(2)}\n{elapsed(15)}\n{elapsed(30)}\n")
    print_stream(place, "cedar", "A", block(3, elapsed(20)), status=TIME_V.format(
        clock="1:40.00", status=124))
    print_stream(place, "dune", "A", block(5) + "%%%mzn-stat: solveTime=100.0\n")
    print_stream(place, "apex", "B", block(7), status="WCTIME=100\nMAXVM=4096\nTIMEOUT=true\n")
    print_stream(place, "brook", "B", block(8) + block(9), times="10\n40\n100\n")
    print_stream(place, "cedar", "B", block(9), times="60 s\n100 s\n")
    print_stream(place, "dune", "B", block(9) + block(12))
    print_stream(place, "apex", "C", block(1) + elapsed(10))
    print_stream(place, "brook", "C", block(2), status="seconds=40\nmemory=3M\nstatus=0\n")
    print_stream(place, "cedar", "C", UNKNOWN)
    print_stream(place, "dune", "C", UNSATISFIABLE)
    print_stream(place, "apex", "D", UNSATISFIABLE + elapsed(20))
    print_stream(place, "brook", "D", UNSATISFIABLE + elapsed(60))
    print_stream(place, "cedar", "D", "")
    print_stream(place, "apex", "E", UNKNOWN)


def print_stream(place: Place, solver: str, model: str, text: str, **beside: str) -> None:
    place.stream(solver, model, text)
    for kind, told in beside.items():
        path = place.folder / "streams" / solver / f"{model}.{kind}"
        path.write_text(told, encoding="utf-8")


# By hand, from the definitions of docs/ORGANISERS.md. On A, for `complete`: apex and brook prove 3,
# and share a point by 10 and 30 s; cedar has 3 without a claim, and dune 5. So apex has
# .75 + 1 + 1, brook .25 + 1 + 1, cedar 1. For `incomplete` 3 is shared by the seconds of that
# solution, 5, 15 and 20: apex has 15/20 + 20/25 + 1, brook 5/20 + 20/35 + 1, cedar
# 5/25 + 15/35 + 1. On B brook and cedar have 9 in the same 100 s, found after 40 and 60 s; apex has
# 7, and dune's second block is no solution, so it has none: `complete` is 1, 2.5, 2.5, 0, and
# `incomplete` 1, 1 + .6 + 1, 1 + .4 + 1, 0. On C, where dune's claim is false and cedar knows
# nothing, apex and brook share by 10 and 40 s: .8 + 2 and .2 + 2. On D both claim that there is no
# solution, after 20 and 60 s: .75 + 2 and .25 + 2, and nothing for `incomplete`. E isn't scored.
SCORES = {
    "apex": ("4", "0", "9.3", "6.35", "2", "30", "1", "10"),
    "brook": ("4", "0", "9.2", "6.6214", "2", "100", "2", "130"),
    "cedar": ("4", "0", "3.5", "4.0286", "0", "0", "1.5", "200"),
    "dune": ("4", "2", "0", "0", "", "", "", ""),
}
TIMES = {  # seconds, those of the best solution, memory, status
    ("A", "apex"): ("10", "5", "", ""), ("A", "brook"): ("30", "15", "", ""),
    ("A", "cedar"): ("100", "20", "2097152", "124"), ("A", "dune"): ("100", "", "", ""),
    ("B", "apex"): ("100", "", "4194304", "time limit"), ("B", "brook"): ("100", "40", "", ""),
    ("C", "brook"): ("40", "", "3145728", "0"), ("C", "cedar"): ("", "", "", ""),
}


def try_scores(place: Place) -> None:
    scored_season(place)
    beside = [word for kind in ("times", "status")
              for word in (f"--{kind}", "streams/{solver}/{model}." + kind)]
    place.run(*place.words("results", *beside))
    report = (*COMMAND, "report", "--results", "results", "--scores", "scores.csv")
    status, out, _ = place.run(*report, "--html", "page.html", "--junit", "junit.xml")
    suite = ElementTree.parse(place.folder / "junit.xml").getroot()[0]
    table = place.table("results")
    wrong = {pair for pair, row in table.items()
             if row["outcome"] in ("violated", "refuted claim", "refused")}
    expect("JUnit's cases", set(table), {(it.get("name"), it.get("classname")) for it in suite})
    expect("JUnit's failures", wrong, {(it.get("name"), it.get("classname")) for it in suite
                                       if it.find("failure") is not None})
    with open(place.folder / "scores.csv", encoding="utf-8", newline="") as file:
        head, *lines = list(csv.reader(file))
    expect("the scores' head", ["solver", "models", "wrong", "complete", "incomplete", "csp",
                                "csp_seconds", "cop", "cop_seconds"], head)
    expect("scores", SCORES, {line[0]: tuple(line[1:]) for line in lines})
    expect("what isn't scored", (0, 1), (status, out.count("the model E can't be judged by: ")))
    for pair, wanted in TIMES.items():
        got = [table[pair][name] for name in ("solver_seconds", "best_at", "solver_memory",
                                              "solver_status")]
        expect(f"times of {pair}", wanted, tuple(got))
    expect("scores of a pair", ("2.25", "1.8214", "1"), tuple(
        table["A", "brook"][name] for name in ("complete", "incomplete", "xcsp3")))
    cells = cells_of(data_of(place.folder / "page.html"))
    expect("points by time", [[1, 5, 1, 1.0], [2, 3, 1, 5.0]], cells["A", "apex"]["points"])
    expect("points by a file of stamps", [[1, 8, 1, 10.0], [2, 9, 1, 40.0]],
           cells["B", "brook"]["points"])
    if not lacks("chromium", "a chart by time"):
        chart = dump(place.folder / "page.html", "#model=A")
        looks = re.findall(r'<path fill="none" stroke="(.*?)" stroke-width="(.*?)" '
                           r'stroke-dasharray="(.*?)"', chart)
        expect("a chart by time", True, "objective by time" in chart and ">20 s<" in chart)
        expect("distinct lines", [3, 3], [len({look[:1] + look[2:] for look in looks}),
                                          len({look[1] for look in looks})])
    place.stream("apex", "C", block(1) + elapsed(11))
    print_stream(place, "brook", "C", block(2), status="seconds=44\n")
    place.run(*place.words("results", *beside))
    table = place.table("results")
    expect("changed times", ["11", "44"],
           [table["C", solver]["solver_seconds"] for solver in ("apex", "brook")])


def try_size(place: Place) -> None:
    """Results take at most a twentieth of long streams, whatever their blocks come to."""
    place.model("long", "var 0..100000: x :: output_var;\nvar 1..9: y :: output_var;\n"
                "solve minimize x;\n")
    note = "% " + 60 * "-" + "\n"
    falling = (f"x = {10_000 - i};\ny = 1;\n{note}{MARKER}" for i in range(10_000))
    place.stream("falls", "long", "".join(falling))
    place.stream("jumps", "long", "".join(
        f"x = {10_000 - i if i % 2 else 20_000};\ny = 1;\n{note}{MARKER}" for i in range(5_000)))
    place.stream("wrong", "long", f"x = 1;\ny = 10;\n{note}{MARKER}" * 5_000)
    place.run(*place.words("results"))
    folder = place.folder / "results"
    taken = sum(path.stat().st_size for path in folder.rglob("*") if path.is_file())
    given = sum(path.stat().st_size for path in (place.folder / "streams").rglob("*.out"))
    expect("a twentieth", True, 20 * taken <= given)
    lines = (folder / "pairs" / "long" / "falls.json").read_text().splitlines()
    report = [json.loads(line) for line in lines[2:]]
    expect("a range", ([1, 10_000], "satisfied"), (report[0]["blocks"], report[0]["verdict"]))
    objectives = report[0]["objectives"]
    expect("objectives", [True] * 3, [len(objectives) <= 251, objectives[-1] == [10_000, 1],
                                      all(10_001 - n == value for n, value in objectives)])
    expect("the answer", "accepted", report[-1]["answer"])
    wrong = (folder / "pairs" / "long" / "wrong.json").read_text()
    expect("what is left out", True, '{"left_out":[' in wrong and '"violated":5000' in wrong)
    # Of jumps, which has 20,000 in each second block from the first on, those are no better than
    # the block before, but for the first.
    counts = {solver: (row["satisfied"], row["violated"], row["objective"])
              for (_, solver), row in place.table("results").items()}
    expect("counts", {"falls": ("10000", "0", "1"), "jumps": ("2501", "2499", "5001"),
                      "wrong": ("0", "5000", "")}, counts)


def try_packed(place: Place) -> None:
    """Packed streams are judged as what is in them, by their bytes and not by their names."""
    place.model("least", LEAST)
    text = (block(4) + block(3) + COMPLETE).encode()
    folder = place.folder / "streams" / "all"
    folder.mkdir(parents=True)
    kinds = {"gz": gzip.compress(text), "bz2": bz2.compress(text), "xz": lzma.compress(text)}
    if not lacks("zstd", "a zstd file"):
        kinds["zst"] = subprocess.run(("zstd", "-qc"), input=text, stdout=subprocess.PIPE,
                                      check=True).stdout
    for kind, packed in kinds.items():
        place.stream(f"by_{kind}", "least", "")
        path = place.folder / "streams" / f"by_{kind}" / "least.out"
        path.rename(path.with_suffix(f".out.{kind}"))
        path.with_suffix(f".out.{kind}").write_bytes(packed)
    for solver, packed in (("plainly", kinds["gz"]), ("broken", kinds["gz"][:-9]),
                           ("rotten", kinds["xz"][:20] + b"\0" * 20)):
        place.stream(solver, "least", "")
        (place.folder / "streams" / solver / "least.out").write_bytes(packed)
    place.stream("liar", "least", block(5) + COMPLETE)
    place.run(*place.words("results"))
    found = {solver: it for (_, solver), it in place.outcomes("results").items()}
    for solver in (*(f"by_{kind}" for kind in kinds), "plainly"):
        expect(f"{solver}", ("accepted", ""), found.get(solver))
    expect("a packed one refutes", "refuted claim", found["liar"][0])
    expect("and is told by name", True,
           bool(re.search("refuted by block [12] of by_", found["liar"][1])))
    if sys.version_info < (3, 14):  # which unpacks zstd itself
        place.stream("packed", "least", "")
        (place.folder / "streams" / "packed" / "least.out").write_bytes(b"\x28\xb5\x2f\xfd")
        place.run(*place.words("without"), PATH=f"{place.folder}/bin")
        wanted = ("failed", "this is a zstd file: install zstd, or unpack it")
        expect("without a program", wanted, place.outcomes("without").get(("least", "packed")))
    for solver, kind in (("broken", "gzip"), ("rotten", "xz")):
        words = f"refused: stream: this {kind} file is broken: "
        expect(solver, ("refused", words), (found[solver][0], found[solver][1][: len(words)]))


def try_rubbish(place: Place) -> None:
    """What isn't the front of a stream is refused with --cut too, and the front of one isn't."""
    place.model("least", LEAST)
    uploads = {
        "noise": bytes(range(128, 256)) * 1000, "stranger": b"queens = 5;\nqueens = ",
        "trace": b"at java.base/java.util.ArrayList.get(ArrayList.java:427)\n" * 1000,
        "crash": block(4).encode() + b"Segmentation fault (core dumped)\n",
    }
    for solver, upload in {**uploads, "cut": block(4).encode() + b"x = ", "empty": b""}.items():
        place.stream(solver, "least", "")
        (place.folder / "streams" / solver / "least.out").write_bytes(upload)
    place.run(*place.words("results", "--cut"))
    found = {solver: it[0] for (_, solver), it in place.outcomes("results").items()}
    expect("rubbish with --cut", {**dict.fromkeys(uploads, "refused"), "cut": "accepted",
                                  "empty": "no blocks"}, found)
    expect("what was cut", '18..22, from "x = "', place.table("results")["least", "cut"]["cut"])


def try_words(place: Place) -> None:
    """Help and the version are no fault, and a wrong word is told the nearest right one."""
    for words, told in ((("--help",), "run|report|merge"),
                        (("run", "--help"), "--streams TEMPLATE"),
                        (("--version",), "fzcheck-batch with fzcheck ")):
        status, out, _ = place.run(*COMMAND, *words)
        expect(f"{words}", (0, True), (status, told in out))
    report = ["report", "--results", "results"]
    for wrong, near in ((["rnu"], "run"), ([*report, "--htlm", "x"], "--html"),
                        (place.words("results", "--limits", "cpu=1")[2:], "--limit"),
                        (place.words("results", "--compelte")[2:], "--complete")):
        status, _, told = place.run(*COMMAND, *wrong)
        expect(f"{wrong[:1]}: {near}", (5, True), (status, f"did you mean {near}" in told))
    expect("no command", 5, place.run(*COMMAND)[0])


def try_together(place: Place) -> None:
    """Two runs write the same folder at the same time, and each file is whole."""
    runs = [place.start(*place.words("together", "--complete", "-j", "2")) for _ in range(2)]
    for process in runs:
        process.communicate(timeout=1000)
        expect("a run beside another", 0, process.returncode)
    place.run(*place.words("alone", "--complete"))
    models = {path.name for path in (place.folder / "alone" / "pairs").iterdir()}
    expect("they agree with one alone", [], batch.same_results(place, "alone", "together", models))
    expect("nothing is left", [], list((place.folder / "together" / "new").iterdir()))


def main() -> int:
    program = os.path.abspath(sys.argv[1])
    with tempfile.TemporaryDirectory() as folder:
        failing = pathlib.Path(folder) / "failing"
        failing.write_text(FAILING.format(program=program), encoding="utf-8")
        failing.chmod(0o755)
        (pathlib.Path(folder) / "season").mkdir()
        try_states(Place(f"{folder}/season", str(failing)))
    for trial in (try_scores, try_size, try_packed, try_rubbish, try_words):
        with tempfile.TemporaryDirectory() as folder:
            trial(Place(folder, program))
    with tempfile.TemporaryDirectory() as folder:
        place = Place(folder, program)
        scored_season(place)
        try_together(place)
    print(f"{batch.passed} passed, {batch.failed} failed")
    return 1 if batch.failed else 0


if __name__ == "__main__":
    sys.exit(main())
