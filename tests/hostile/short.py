"""Which texts are the front of a block's items, by expressions that match a front too. The program
asks its parser instead, with endings put behind the text."""
import re
from typing import Collection, NamedTuple, Optional

SIGNS = ("----------", "==========", *(f"====={it}=====" for it in (
    "UNSATISFIABLE", "UNKNOWN", "UNBOUNDED", "UNSATorUNBOUNDED", "ERROR")))
LEAST, MOST = -(2**63), 2**63 - 1


class Part(NamedTuple):
    """Expressions for a whole part of a text, and for a front of one."""

    whole: str
    front: str


def word(text: str) -> Part:
    fronts = "|".join(re.escape(text[:n]) for n in range(len(text), -1, -1))
    return Part(re.escape(text), f"(?:{fronts})")


def one(*parts: Part) -> Part:
    return Part(f"(?:{'|'.join(it.whole for it in parts)})",
                f"(?:{'|'.join(it.front for it in parts)})")


def row(*parts: Part) -> Part:
    """One behind the other, with blanks and comments between them."""
    whole, fronts = "", []
    for part in parts:
        fronts.append(whole + part.front)
        whole += part.whole + BLANK.whole
        fronts.append(whole.removesuffix(BLANK.whole) + BLANK.front)
    return Part(whole, f"(?:{'|'.join(fronts)})")


def many(part: Part) -> Part:
    return Part(f"(?:{part.whole})*", f"(?:{part.whole})*{part.front}")


def listed(part: Part) -> Part:
    """None, or some with commas between them."""
    some = row(part, many(row(word(","), part)))
    return Part(f"(?:{some.whole})?", some.front)


BLANK = Part(r"(?:[ \t\r\n]|%[^\n]*\n)*", r"(?:[ \t\r\n]|%[^\n]*\n)*(?:%[^\n]*)?")
INTEGER = Part(r"(?:-?(?:0x[0-9A-Fa-f]+|0o[0-7]+|[0-9]+))",
               r"(?:-?(?:0x[0-9A-Fa-f]*|0o[0-7]*|[0-9]*))")
BOUNDS = one(row(INTEGER, word(".."), INTEGER), row(word("{"), listed(INTEGER), word("}")))
LITERAL = one(word("true"), word("false"), BOUNDS, INTEGER)
ARRAYS = [row(word(f"array{count}d"), word("("), *[BOUNDS, word(",")] * count, word("["),
              listed(LITERAL), word("]"), word(")")) for count in range(1, 7)]


NAME = Part("[A-Za-z_][A-Za-z0-9_]*", "(?:[A-Za-z_][A-Za-z0-9_]*)?")
ITEM = row(Part("", ""), NAME, word("="), one(*ARRAYS, LITERAL), word(";"))
WHOLE, FRONT = re.compile(ITEM.whole), re.compile(ITEM.front)
BLANKS = re.compile(BLANK.whole)
NAMED = re.compile(f"{BLANK.whole}({NAME.whole})?")


def behind_items(names: Collection[str], text: str) -> Optional[str]:
    """What comes behind the items that a text begins with; none if a name isn't declared."""
    at = 0
    while True:
        item, named = WHOLE.match(text, at), NAMED.match(text, at)
        if not item or not named:
            return text[at:]
        if named[1] not in names:
            return None
        at = item.end()


def is_front(names: Collection[str], text: str) -> bool:
    """Whether a text is the front of an item, or of a blank before one."""
    named = NAMED.match(text)
    if not named or not FRONT.fullmatch(text):
        return False
    if named[1] and named.end() == len(text):
        return any(name.startswith(named[1]) for name in names)
    return not named[1] or named[1] in names


def are_numbers(text: str) -> bool:
    """Whether each number has 64 bits."""
    found = re.findall(r"-?\b(?:0x[0-9A-Fa-f]+|0o[0-7]+|[0-9]+)", re.sub("%.*", "", text))
    bases = {"0x": 16, "0o": 8}
    return all(LEAST <= int(it, bases.get(it.lstrip("-")[:2], 10)) <= MOST for it in found)


def is_short(names: Collection[str], text: str) -> bool:
    """Whether only the end of the text of an open block is missing."""
    if not names or not are_numbers(text):
        return False
    rest = behind_items(names, text)
    if rest is not None and is_front(names, rest):
        return True
    lines, feed, last = text.rpartition("\n")
    rest = behind_items(names, lines + feed)
    ends = rest is not None and bool(BLANKS.fullmatch(rest))
    return ends and any(it.startswith(last) for it in SIGNS)
