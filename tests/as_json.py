#!/usr/bin/env python3
"""Compares the report as JSON with the report as text: as_json.py PROGRAM

Runs a built program on the models and streams of examples/, tests/explained and
tests/corpus/by_hand, with and without --complete, --cut, --claims and --explain. From the objects
the lines of the text are made, as python/fzcheck/lines.py makes them, those of refusals and
explanations too, and compared with what the program writes without --json. The last line is 'N
passed, M failed'."""
import glob
import json
import os
import re
import subprocess
import sys
from typing import Dict, Iterator, List, Optional, Sequence, Set, Tuple

TOP = os.path.dirname(os.path.dirname(os.path.abspath(__file__)))
sys.path.insert(0, os.path.join(TOP, "python"))
from fzcheck import lines
from fzcheck.lines import Object

FOLDERS = "examples", "tests/explained", "tests/corpus/by_hand"
NAMES = "model.names"  # where a folder has it, it goes with what explains
OPTIONS = "", "--complete", "--cut", "--claims", "--claims=prove"
EXPLAINING = "", "--explain", "--explain=all", "--explain=every"
VERDICTS = "satisfied", "violated", "undecided"
OWNED = "variable", "value"  # the parts of a text that are someone's
KINDS = "words", "number", "place", *OWNED


def cases() -> Iterator[Tuple[str, str, str]]:
    """A folder with the names of a model and a stream in it."""
    yield "examples", "first.fzn", "first.out"
    for folder in FOLDERS:
        for path in sorted(glob.glob(f"{TOP}/{folder}/*/*stream.txt")):
            yield os.path.relpath(os.path.dirname(path), TOP), "model.fzn", os.path.basename(path)


def run(program: str, folder: str, words: Sequence[str]) -> Tuple[str, str, int]:
    ran = subprocess.run([program, "check", *filter(None, words)], cwd=os.path.join(TOP, folder),
                         capture_output=True, timeout=60)
    return ran.stdout.decode(), ran.stderr.decode(), ran.returncode


def wrong_parts(it: Object) -> List[str]:
    """What is wrong with the parts of texts in an object and in what it holds."""
    wrong: List[str] = []
    for key, value in it.items():
        if key + "_parts" in it:
            texts = value if isinstance(value, list) else [value]
            lists = it[key + "_parts"] if isinstance(value, list) else [it[key + "_parts"]]
            joined = ["".join(part["text"] for part in parts) for parts in lists]
            if joined != texts:
                wrong.append(f"parts of {key}: {joined}, wanted {texts}")
            wrong += [fault for parts in lists for part in parts for fault in wrong_part(part)]
        elif isinstance(value, list) and key != "loops":
            wrong += [fault for each in value if isinstance(each, dict) and "kind" not in each
                      for fault in wrong_parts(each)]
    for key in ("reason", "notes", "behind"):
        if key in it and key + "_parts" not in it:
            wrong.append(f"no parts of {key}")
    return wrong


def wrong_part(part: Object) -> Iterator[str]:
    """What is wrong with a part of a text."""
    members = {"kind", "text"} | ({"variable"} if part["kind"] in OWNED else set())
    if not part["text"] or part["kind"] not in KINDS or not members <= set(part):
        yield f"a part: {part}"
    if part["kind"] == "number" and not re.fullmatch("-?[0-9]+", part["text"]):
        yield f"a number: {part}"
    if part["kind"] == "value" and not re.fullmatch("-?[0-9]+|true|false", part["text"]):
        yield f"a value: {part}"
    if set(part) - members - ({"element"} if part["kind"] in OWNED else set()):
        yield f"members of a part: {part}"


def message_lines(it: Object, model: str, stream: str) -> List[str]:
    """The lines of a message but for the excerpt of the source."""
    return [lines.message_line(it, model, stream), *lines.note_lines(it)]


def told_lines(text: str) -> List[str]:
    """Those of what was written to standard error, but for the excerpts."""
    found = [re.sub("^ +    = ", "", line) for line in text.splitlines()]
    return [line for line in found if not re.match(" +([0-9]+ )?[|] ", line)]


class Report:
    """The objects of a report, made into the lines of its text."""

    def __init__(self, text: str, model: str, stream: str) -> None:
        self.out: List[str] = []
        self.told: List[str] = []
        self.places: Dict[int, Tuple[Optional[int], Optional[int]]] = {}
        self.explained: Set[int] = set()
        self.objects = [json.loads(line) for line in text.splitlines()]
        self.wrong = [] if text.endswith("\n") else ["the last line doesn't end"]
        for it in self.objects:
            if "verdict" in it:
                self.out.append(lines.block_line(it))
                self.places[it["block"]] = it.get("line"), it.get("column")
            elif "claim" in it:
                self.out.append(lines.claim_line(it))
                if not self.out[-1].startswith("claim after"):
                    self.expect(it["after"], len(self.places), "after")
            elif "cut" in it:
                self.out.append(f"cut: {lines.cut_words(it)}")
            elif "answer" in it:
                self.out.append(lines.answer_line(it))
                self.expect([it["blocks"], *map(it.get, VERDICTS)], self.counts(), "counts")
                if "unconstrained" in it:
                    self.told.append(lines.unconstrained_line(it))
            elif "refused" in it:
                self.told.append(lines.refusal_line(it))
                if "line" in it:
                    self.told += message_lines(it, model, stream)
            else:
                self.told += message_lines(it, model, stream)
                self.wrong += wrong_parts(it)
                if it["explained"] not in self.explained:
                    place = it["line"], it["column"]
                    self.expect(self.places[it["explained"]], place, "the place of a block")
                self.explained.add(it["explained"])
        if not self.objects or not {"answer", "refused"} & set(self.objects[-1]):
            self.wrong.append("neither an answer nor a refusal is last")

    def counts(self) -> List[int]:
        given = [it["verdict"] for it in self.objects if "verdict" in it]
        return [len(given), *map(given.count, VERDICTS)]

    def expect(self, got: object, want: object, name: str) -> None:
        if got != want:
            self.wrong.append(f"{name}: {got}, wanted {want}")


def found_faults(report: Report, objects: Dict[int, Object]) -> None:
    """An objective is found where the block is satisfied, and so is one that the next block isn't
    shown to be better than."""
    for number, it in objects.items():
        if "found" in it and "reason" not in it:
            told = it["found"], it["verdict"], "objective" in it
            report.expect(told, (True, "satisfied", True), f"what is found, {number}")
        if it.get("reason") == "not shown better":
            before = objects[number - 1]
            found = before.get("objective"), before.get("found")
            report.expect(found, (it["found"], True), f"what was found before {number}")


def read(folder: str, name: str) -> bytes:
    with open(os.path.join(TOP, folder, name), "rb") as file:
        return file.read()


def printed_objectives(model: bytes, stream: bytes) -> Iterator[Tuple[int, int]]:
    """Of each block that prints the objective, its number and that value."""
    goal = re.search(rb"\bm(?:in|ax)imize\s+(\w+)\s*;", model)
    if not goal:
        return
    for number, block in enumerate(re.split(rb"\n----------\s*\n", b"\n" + stream)[:-1], 1):
        value = re.search(rb"^%s = (-?\d+);" % goal[1], block, re.M)
        if value:
            yield number, int(value[1])


def faults(program: str, folder: str, model: str, stream: str, options: Tuple[str, str]
           ) -> List[str]:
    """What is wrong with the report as JSON, of a run with these options."""
    has_names = options[1] and os.path.exists(os.path.join(TOP, folder, NAMES))
    names = ["--names", NAMES] if has_names else []
    claims = ["--claims"] * options[0].startswith("--known")
    files = *claims, *filter(None, options), *names, model, stream
    out, err, status = run(program, folder, files)
    try:
        text, json_err, json_status = run(program, folder, ("--json", *files))
        report = Report(text, model, stream)
    except (ValueError, KeyError) as error:
        return [repr(error)]
    report.expect(json_status, status, "status")
    report.expect(report.out, out.splitlines(), "lines")
    refusals = [line for line in err.splitlines() if line.startswith("refused: ")]
    report.expect(json_err.splitlines(), refusals, "standard error")
    if "--explain" not in str(options):  # the place of a refusal is in JSON all the same
        report.told = [line for line in report.told if line.startswith("refused: ")]
    report.expect(report.told, told_lines(err), "what is told")
    objects = {it["block"]: it for it in report.objects if "verdict" in it}
    for number, value in printed_objectives(read(folder, model), read(folder, stream)):
        if number in objects:
            report.expect(objects[number].get("objective"), value, f"objective {number}")
            report.expect(objects[number].get("found") is True, False, f"printed {number}")
    found_faults(report, objects)
    if not any("explained" in it for it in report.objects) and "--explain=all" in options:
        report.expect(report.counts()[0], report.counts()[1], "blocks without explanation")
    return report.wrong


def main() -> int:
    program = os.path.abspath(sys.argv[1])
    passed = failed = 0
    for folder, model, stream in cases():
        known = os.path.exists(os.path.join(TOP, folder, "other_stream.txt"))
        for option in (*OPTIONS, *["--known=other_stream.txt"] * known):
            for explaining in EXPLAINING:
                wrong = faults(program, folder, model, stream, (option, explaining))
                passed, failed = passed + (not wrong), failed + bool(wrong)
                for line in wrong:
                    print(f"failed: {folder}/{stream} {option} {explaining}: {line}")
    print(f"{passed} passed, {failed} failed")
    return 1 if failed else 0


if __name__ == "__main__":
    sys.exit(main())
