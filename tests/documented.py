#!/usr/bin/env python3
"""Compares names, counts, options and limits in the documents with the tree.

    tests/documented.py [--mend]

Each name in back quotes of PAGES has to stand somewhere outside the documents, and each number that
COUNTS describes has to be what is counted. With --mend the numbers are written into the documents.
Each function that docs/WORKED.md names has to be in the file beside it, and each definition that it
quotes in the file named before it. The help page and the manual page have to have each option, and
each limit of LIMITS. Each link of a document leads to a file, and to a heading of it.
"""
import os
import pathlib
import re
import sys
from typing import Callable, Iterator, List, NamedTuple, Set, Tuple, Union

ROOT = pathlib.Path(os.path.abspath(__file__)).parent.parent
PAGES = ("docs/PROOFS.md", "docs/ARCHITECTURE.md", "docs/THEOREM.md", "docs/WORKED.md",
         "docs/DECISIONS.md", "docs/TESTING.md", "docs/GUIDE.md", "docs/FILLING.md",
         "docs/LIMITATIONS.md", "docs/PERFORMANCE.md", "CONTRIBUTING.md")
QUOTED = re.compile(r"`([^`\n]+)`")
WORD = re.compile(r"[^\W\d]\w*")
LINK = re.compile(r"\]\(([\w./-]*)(?:#([\w-]*))?\)")
TITLED = re.compile(r"`([^`]+\.md)`,\s+\"([^\"]+)\"")
STEP = re.compile(r"^\| .* \| `(\w+/src/[\w/]+\.rt)` \| (.*) \|$", re.M)
DEFINITION = re.compile(r"`(crates/[\w/]+\.antt)`(?:(?!\n\n)[^$])*:\n\n((?:    .*\n)+)")
SOURCES = ("crates", "tests", "tools", "python", "examples", "bench", "minizinc", "completions",
           "plain", "Makefile", "crates.txt", ".ci")
BUILT = {"out", "build", "target", "__pycache__"}
# Words of the toolchain and of the system, which the tree needn't have.
OUTSIDE = set("""antt apt cc debootstrap git rlib sshd subst strace ttt trace tidy plant
fz_x of_x""".split())
# What a reader puts a word of his own in place of, and the documents themselves.
PLACEHOLDER = re.compile(r"[A-Z]+(_imp|_reif)?")
SPELLED = """zero one two three four five six seven eight nine ten eleven twelve thirteen fourteen
fifteen sixteen seventeen eighteen nineteen twenty""".split()
WORDS = "crates/fz_command/src/words.rt"
OPTION_PAGES = (("crates/fz_command/src/pages.rt", "--"), ("docs/fzcheck.1", "Fl -"))
# A limit: the file of the number in a crate, and what is before it there.
LIMITS = (("limits.rt", "bytes: "), ("limits.rt", "elements: "), ("judge.rt", "STEPS: usize = "),
          ("words.rt", "MOST_KNOWN: usize = "), ("teller.rt", "MOST_POINTS: usize = "))


class Count(NamedTuple):
    """A number in a document, in digits or as a word: where it stands, and how it is counted."""
    page: str
    pattern: str  # around one group, the number
    counted: Callable[[], int]


def text(path: Union[str, pathlib.Path]) -> str:
    return (ROOT / path).read_text(encoding="utf-8")


def names() -> List[str]:
    """The names of THE TABLE, as data."""
    return re.findall(r'b"(\w+)",\s*Builtin::', text("crates/fz_meaning/src/builtin.rt"))


def forms() -> int:
    """How many names have the suffix of a reified or a half-reified form."""
    sys.path.insert(0, str(ROOT / "python"))
    from fzcheck.fuzz.rows import FORMS
    return 2 * len(FORMS)


def lines(path: str, pattern: str = "") -> int:
    """How many lines of a file have this, and are no comments."""
    return sum(bool(re.search(pattern, line)) for line in text(path).splitlines()
               if line and not line.startswith("#"))


def files(pattern: str) -> int:
    return len(list(ROOT.glob(pattern)))


def planted() -> int:
    """The faults that tests/fuzz.py plants."""
    return len(re.findall(r"^    \"[\w-]+\": Expected", re.findall(
        r"^FEW = \{.*?^DEFAULT = \{.*?^\}", text("tests/fuzz.py"), re.M | re.S)[0], re.M))


def plans() -> int:
    """The models of tests/plans.py."""
    return (lines("tests/plans/models.txt", "^=== ") + files("tests/minizinc/*.mzn")
            + files("tests/inside/*.mzn"))


def edits() -> int:
    return files("crates/*/must-fail/*.edit")


MODELS, STREAMS = "tests/corpus/*/model.fzn", "tests/corpus/*/*stream.txt"
TABLE = r"\| `%s` \|.*?\| .*?"
COUNTS = (
    Count("README.md", r"the (\d+) builtins", lambda: len(names())),
    Count("README.md", r"the (\d+)\s+reified and\s+half-reified forms", forms),
    Count("docs/SOLVER_AUTHORS.md", r"of (\d+) names taken", lambda: len(names()) + forms()),
    Count("docs/ARCHITECTURE.md", r"Of the (\d+) crates", lambda: lines("crates.txt")),
    Count("docs/ARCHITECTURE.md", r"crates (\d+) have edits", lambda: files("crates/*/must-fail")),
    Count("docs/ARCHITECTURE.md", r"(\w+) crates have some", lambda: files("crates/*/must-fail")),
    Count("docs/ARCHITECTURE.md", r"have edits, (\d+) in all", edits),
    Count("docs/LIMITATIONS.md", r"The gate tries (\d+) wrong bodies", edits),
    Count("docs/TESTING.md", TABLE % "tests/broken" + r"([\d,]+) texts", lambda:
          lines("tests/broken/cases.txt") + lines("tests/broken/by_hand.txt")),
    Count("docs/TESTING.md", r"recogniser over the\s+grammar,\s+and (\d+) by hand", lambda:
          lines("tests/broken/by_hand.txt")),
    Count("docs/TESTING.md", r"Of its\s+streams\s+(\d+)\s+have a planted fault", lambda:
          files("tests/corpus/*/bad*stream.txt")),
    Count("docs/TESTING.md", TABLE % "tests/corpus" + r"(\d+) models", lambda: files(MODELS)),
    Count("docs/TESTING.md", TABLE % "tests/corpus" + r"models, (\d+)", lambda: files(STREAMS)),
    Count("docs/PERFORMANCE.md", r"the (\d+) streams of `tests/corpus`", lambda: files(STREAMS)),
    Count("docs/TESTING.md", TABLE % "examples" + r"(\d+) examples", lambda:
          files("examples/*/model.fzn")),
    Count("docs/TESTING.md", TABLE % "examples" + r"examples, (\d+)", lambda:
          files("examples/*/*stream.txt")),
    Count("docs/TESTING.md", TABLE % "tests/corpus/left_out.py" + r"(\d+) streams", lambda:
          lines("tests/corpus/left_out/answers.txt")),
    Count("docs/TESTING.md", r"plans of (\d+) models", plans),
    Count("docs/MINIZINC.md", r"`tests/plans.py`\s+on (\d+)\s+models", plans),
    Count("docs/TESTING.md", r"(\w+) faults of a solver, found", planted),
    Count("docs/TESTING.md", r"each of (\w+) faults", planted),
)


def files_of_tree() -> Iterator[pathlib.Path]:
    """The files that are no documents, and that nothing has built."""
    for name in SOURCES:
        place = ROOT / name
        for path in sorted(place.rglob("*")) if place.is_dir() else [place]:
            if path.is_file() and not BUILT & {*path.relative_to(ROOT).parts}:
                yield path


def words_of_tree() -> Set[str]:
    """All words of these files, and of their paths."""
    found: Set[str] = set()
    for path in files_of_tree():
        found.update(WORD.findall(str(path.relative_to(ROOT))))
        found.update(WORD.findall(path.read_bytes().decode(errors="replace")))
    return found


def unknown_names(page: str, known: Set[str]) -> Iterator[str]:
    for quoted in sorted(set(QUOTED.findall(text(page)))):
        missing = sorted(word for word in set(WORD.findall(quoted)) - known - OUTSIDE
                         if not PLACEHOLDER.fullmatch(word))
        if missing:
            yield f"{page}: `{quoted}`: {', '.join(missing)} isn't in the tree"


def as_written(number: int, before: str) -> str:
    """The number, in digits or as a word as what is there."""
    if before.lower() in SPELLED and number < len(SPELLED):
        return SPELLED[number]
    return f"{number:,}" if number > 999 else str(number)


def wrong_counts(mends: bool) -> Iterator[str]:
    for count in COUNTS:
        page = text(count.page)
        found = list(re.finditer(count.pattern, page))
        if not found:
            yield f"{count.page}: nothing there is {count.pattern!r}"
        for it in found:
            wanted = as_written(count.counted(), it[1])
            if it[1].lower() != wanted:
                yield f"{count.page}: {it[0]!r}: it is {wanted}"
                page = page.replace(it[0], it[0].replace(it[1], wanted))
        if mends:
            (ROOT / count.page).write_text(page, encoding="utf-8")


def wanted_on_pages() -> Iterator[Tuple[str, str]]:
    """What the help page and the manual page have to have: the page, and the option or limit."""
    for path, sign in OPTION_PAGES:
        for option in re.findall(r'\("([a-z-]+)", Kind::(?!File \{)', text(WORDS)):
            yield path, sign + option
        for name, before in LIMITS:
            sources = "".join(map(text, ROOT.glob(f"crates/*/src/{name}")))
            for number in re.findall(before + r"([\d_]+)", sources):
                yield path, f"{int(number.replace('_', '')):,}"


def wrong_pages() -> Iterator[str]:
    for path, wanted in wanted_on_pages():
        if not re.search(rf"{re.escape(wanted)}(?![\w-])", text(path)):
            yield f"{path}: {wanted} is wanted"


def wrong_steps(page: str) -> Iterator[str]:
    for path, functions in STEP.findall(text(page)):
        for name in QUOTED.findall(functions):
            if not re.search(rf"\bfn {name}\b", text(f"crates/{path}")):
                yield f"{page}: {path} has no function {name}"
    for path, quoted in DEFINITION.findall(text(page)):
        if re.sub("^    ", "", quoted, flags=re.M) not in text(path):
            yield f"{page}: {path} hasn't the definition that is quoted"


def headings(page: str) -> Set[str]:
    return set(re.findall(r"^#+ (.*)$", text(page), re.M))


def anchor(heading: str) -> str:
    return re.sub(r"[^\w -]", "", heading.lower()).replace(" ", "-")


def wrong_links() -> Iterator[str]:
    """Links, and sections that are named by their titles."""
    for place in sorted({*ROOT.glob("*.md"), *ROOT.glob("docs/*.md"), *ROOT.glob("examples/*.md")}):
        page, folder = str(place.relative_to(ROOT)), place.parent.relative_to(ROOT)
        for path, part in LINK.findall(text(page)):
            target = os.path.normpath(folder / path) if path else page
            if not (ROOT / target).exists():
                yield f"{page}: there is no {target}"
            elif part and part not in map(anchor, headings(target)):
                yield f"{page}: {target} has no heading #{part}"
        for path, title in TITLED.findall(text(page)):
            found = [name for name in (path, f"docs/{path}") if (ROOT / name).exists()]
            if not found or " ".join(title.split()) not in headings(found[0]):
                yield f"{page}: {path} has no section {title!r}"


def main(words: List[str]) -> int:
    known = words_of_tree()
    faults = [*wrong_counts("--mend" in words), *wrong_steps("docs/WORKED.md"), *wrong_pages(),
              *wrong_links()]
    faults += [fault for page in PAGES for fault in unknown_names(page, known)]
    for fault in faults:
        print(f"failed: {fault}")
    quoted = sum(len(set(QUOTED.findall(text(page)))) for page in PAGES)
    checked = quoted + len(COUNTS) + len(list(wanted_on_pages()))
    print(f"{checked - len(faults)} passed, {len(faults)} failed")
    return int(bool(faults))


if __name__ == "__main__":
    sys.exit(main(sys.argv[1:]))
