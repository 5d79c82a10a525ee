"""Counts what a test script expects, and tells what isn't so."""
import re

passed = failed = 0


def expect(what: str, wanted: object, got: object) -> None:
    global passed, failed
    passed, failed = passed + (wanted == got), failed + (wanted != got)
    if wanted != got:
        print(f"failed: {what}: {wanted!r:.900} wanted, {got!r:.900} found")


def end() -> int:
    """Prints the count, and gives the status that the script ends with."""
    print(f"{passed} passed, {failed} failed")
    return 1 if failed else 0


def first(pattern: str, text: str) -> str:
    """The first group of a pattern that has to be in the text."""
    found = re.search(pattern, text, re.M | re.S)
    if found is None:
        raise ValueError(f"{pattern} isn't there: {text:.900}")
    return str(found[1])
