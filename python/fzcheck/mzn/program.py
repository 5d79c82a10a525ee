"""Checks what `minizinc` printed for a model.

    fzcheck-mzn MODEL.mzn [DATA.dzn|DATA.json ..] [-D TEXT] [-I FOLDER] [-o|--output PLAN]
                [--known PLAN ..] [--strict] [--first] [--flatzinc] [--html FILE] [--keep FOLDER]
                [OPTION of fzcheck check ..]
    fzcheck-mzn --help, fzcheck-mzn --version

PLAN, or standard input, is what `minizinc` prints: by the default output of a model without an
output item, with --output-mode dzn or json, or with --json-stream; or a FlatZinc stream. The model
is compiled, and the plan becomes a stream, which `fzcheck check` judges with --complete, --cut and
--explain=every. The report is in the words of the model, and the exit status is that of the check.

  -o, --output PLAN   the plan's file, or - for standard input
  --known PLAN        another plan, which may show that a claim of this one is wrong
  --strict            status 2 if a solution doesn't print all names that the model prints
  --first             stops at the first constraint that fails
  --flatzinc          shows the FlatZinc of each constraint that fails
  --html FILE         writes a page of the plan, with the clashing values marked
  --keep FOLDER       leaves the model, the stream and the table of names in FOLDER

An example: minizinc roster.mzn roster.dzn | fzcheck-mzn roster.mzn roster.dzn
"""
import json
import os
import shutil
import sys
import tempfile
from typing import Dict, List, NamedTuple, NoReturn, Optional

from fzcheck import Report, common
from fzcheck.calls import reported, version_words
from fzcheck.mzn.command import Words, Wrong, words_of
from fzcheck.mzn.computed import OutputModel
from fzcheck.mzn.model import MODEL, TABLE, Failed, Model, compiled
from fzcheck.mzn.narrowed import Narrowing, narrowed_name
from fzcheck.mzn.notes import Notes
from fzcheck.mzn.page import page
from fzcheck.mzn.plan import Plan, Refused, Solution
from fzcheck.mzn.sources import SourceItem, declared, items_of
from fzcheck.mzn.stream import Writer
from fzcheck.mzn.told import Source, Told

DONE, REFUSED, WRONG_WORDS, UNREAD, INTERRUPTED = 0, 4, 5, 6, 130
STREAM = "stream"


def say(text: str) -> None:
    for line in text.splitlines():
        print(f"fzcheck-mzn: {line}", file=sys.stderr)


def doing(text: str) -> None:
    """Tells on a terminal what is being done, or takes that away."""
    if sys.stderr.isatty():
        print(f"\r\033[K{text}", end="", file=sys.stderr, flush=True)


def text_of(path: Optional[str]) -> str:
    if path is None:
        if sys.stdin.isatty():
            say("the plan is read from standard input; -o FILE reads one from a file")
        return sys.stdin.buffer.read().decode(errors="surrogateescape")
    with open(path, "rb") as file:
        return file.read().decode(errors="surrogateescape")


def encoded(text: str) -> bytes:
    return text.encode(errors="surrogateescape")


class Translated(NamedTuple):
    """A plan, and the stream that it is turned into."""
    name: str
    text: str
    plan: Plan
    solutions: List[Solution]
    writer: Writer
    path: str  # of the stream


class Translation:
    """Turns plans into streams for a model."""

    def __init__(self, model: Model, words: Words, scratch: str) -> None:
        self.model, self.scratch = model, scratch
        self.sources: List[SourceItem] = [
            item for path in words.inputs.files for item in items_of(path)]

    def translated(self, name: str, text: str, path: str) -> Translated:
        try:
            plan = Plan(text)
            writer = Writer(self.model, OutputModel(self.model, self.scratch), self.sources)
            parts = list(plan.parts())
            stream = writer.stream(iter(parts))
        except Refused as error:
            error.plan = name
            raise
        with open(path, "w", encoding="utf-8", errors="surrogateescape") as file:
            file.write(stream)
        solutions = [part for part in parts if isinstance(part, Solution)]
        return Translated(name, text, plan, solutions, writer, path)

    def violated(self, model: Model, words: Words, text: str) -> Dict[int, str]:
        """The blocks of a plan that violate another model with the same names, and of each, where a
        domain fails, the name that this is of."""
        other = Translation(model, words, model.folder)
        path = os.path.join(model.folder, STREAM)
        try:
            other.translated("", text, path)
        except Refused:
            return {}
        found: Dict[int, str] = {}
        for one in checked(words, model, path, []).json:
            if one.get("verdict") == "violated":
                found[one["block"]] = ""
            elif "explained" in one:
                name = narrowed_name(one)
                found[one["explained"]] = f"{found.get(one['explained'], '')}{name};"
        return found

    def refuse_floats(self) -> None:
        """A model with variables of floats is named by them and by their lines."""
        found = []
        for name in self.model.floats:
            place = declared(self.sources, name)
            if name in self.model.names or place:
                found.append(f"{name}, {place.place}" if place else name)
        if self.model.floats:
            of = f": {'; '.join(found)}" if found else ""
            raise Failed(f"the model has variables of floats, which fzcheck can't check{of}")


def checked(words: Words, model: Model, stream: str, known: List[str]) -> Report:
    """Runs the program on the stream, which stands in this file."""
    explain = "--explain" if words.has("--first") else "--explain=every"
    options = common.with_defaults(words.options, ("--complete", "--cut", explain))
    others = [word for path in known for word in ("--known", path)]
    return reported(os.path.join(model.folder, MODEL), stream,
                    [*options, *others, "--names", os.path.join(model.folder, TABLE)])


def judge(words: Words, scratch: str) -> int:
    name, text = words.plan or "(standard input)", text_of(words.plan)
    doing(f"compiling {words.inputs.files[0]}")
    model = compiled(words.inputs, scratch)
    doing("")
    say(model.told)
    translation = Translation(model, words, scratch)
    translation.refuse_floats()
    stream = os.path.join(words.folder or scratch, STREAM)
    if words.folder:
        model = copied(model, words.folder)
    plan = translation.translated(name, text, stream)
    known = [translation.translated(path, text_of(path), os.path.join(scratch, f"known {number}"))
             for number, path in enumerate(words.known)]
    doing("checking")
    report = checked(words, model, stream, [one.path for one in known])
    doing("")
    narrowing = Narrowing(model, words.inputs, translation.sources, scratch,
                          lambda alone: translation.violated(alone, words, text))
    return tell(words, model, plan, known, narrowing, report)


def copied(model: Model, folder: str) -> Model:
    """The model, copied into this folder for a look."""
    os.makedirs(folder, exist_ok=True)
    for file in (MODEL, TABLE):
        shutil.copyfile(os.path.join(model.folder, file), os.path.join(folder, file))
    return model._replace(folder=folder)


def tell(words: Words, model: Model, plan: Translated, known: List[Translated],
         narrowing: Narrowing, report: Report) -> int:
    """Reports what the program found, in the words of the model, and what isn't checked."""
    writer, text = plan.writer, plan.text
    cut = None if writer.cut is None else (len(encoded(text[: writer.cut])), len(encoded(text)))
    source = Source(model, plan.name, text.split("\n"), plan.solutions, writer.lines, cut)
    notes = Notes(writer, {one.path: one.name for one in known}, words.has("--strict"))
    objects, status = notes.added(report.json, report.status)
    write(words, Told(source, list(map(narrowing.told, objects))))
    sys.stderr.write(report.messages)
    for message in plan.plan.messages:
        say(f"the plan tells of an error: {message}")
    if writer.cut is not None and not writer.blocks:
        say("no line of ten dashes ends a solution: if the plan is whole, put one at its end")
    return status


def write(words: Words, told: Told) -> None:
    """Writes the report, what fails, and the page."""
    in_json = words.has("--json")
    for line in told.in_json() if in_json else told.report():
        sys.stdout.buffer.write(encoded(f"{line}\n"))
    sys.stdout.flush()
    for line in () if in_json else told.explanation(words.has("--flatzinc")):
        print(line, file=sys.stderr)
    if words.page:
        with open(words.page, "w", encoding="utf-8", errors="replace") as file:
            file.write(page(told, words.inputs.files))


def main(words: List[str]) -> int:
    usage = __doc__ or ""
    if "-h" in words or "--help" in words:
        print(usage, end="")
        return DONE
    if "--version" in words:
        print(version_words("fzcheck-mzn"))
        return DONE
    try:
        with tempfile.TemporaryDirectory(prefix="fzcheck") as scratch:
            return judge(words_of(words), scratch)
    except Wrong as error:
        print(usage.split("\n\n")[1], file=sys.stderr)
        say(f"{error} (--help says more)")
        return WRONG_WORDS
    except Refused as error:
        say(f"refused: {error.plan}:{error.line}: {error}")
        if "--json" in words:
            print(json.dumps({"refused": "plan", "file": error.plan, "line": error.line,
                              "message": str(error)}))
        return REFUSED
    except Failed as error:
        say(str(error))
        if "--json" in words and error.status == REFUSED:
            print(json.dumps({"refused": "model", "message": str(error)}))
        return error.status
    except KeyboardInterrupt:
        return INTERRUPTED
    except OSError as error:
        say(f"{error.filename or 'a file'}: {error.strerror}")
        return UNREAD


def program() -> NoReturn:
    sys.exit(main(sys.argv[1:]))
