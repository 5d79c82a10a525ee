"""What `fzcheck check` can't know of a plan: how a name differs that isn't in the FlatZinc, what
isn't checked and what isn't printed. These become parts of its report, and may change its answer."""
from typing import Dict, List, NamedTuple, Optional, Tuple

from fzcheck import Status
from fzcheck.lines import Object
from fzcheck.mzn.stream import Writer


class Notes(NamedTuple):
    writer: Writer
    known: Dict[str, str]  # what known streams are called, by their paths
    is_strict: bool  # whether all names have to be printed

    def added(self, objects: List[Object], status: int) -> Tuple[List[Object], int]:
        """The objects of a report with these, and the status."""
        found = [self.told(one) for one in objects]
        if not found or "answer" not in found[-1]:
            return found, status
        is_accepted = status == Status.ACCEPTED
        answer = found.pop()
        if self.writer.unchecked:
            found.append({"not_checked": list(self.writer.unchecked)})
        if self.writer.missing:
            found.append({"not_printed": list(self.writer.missing), "found": is_accepted})
        why = self.reason()
        if is_accepted and why:
            status = Status.UNDECIDED
            answer = {**answer, "answer": "undecided", "why": why}
        return [*found, answer], status

    def reason(self) -> Optional[str]:
        """Why a plan whose blocks are all satisfied isn't accepted."""
        if self.writer.unchecked:
            return "not all that is printed is checked"
        if self.writer.bare:
            return "a solution prints nothing that is checked"
        return "not all is printed" if self.writer.missing and self.is_strict else None

    def told(self, found: Object) -> Object:
        """An object of the report, with what it can't tell."""
        refuted = found.get("refuted_by", {})
        if "file" in refuted:
            path = refuted["file"]
            return {**found, "refuted_by": {**refuted, "file": self.known.get(path, path)}}
        text = self.writer.differing.get(found.get("line", 0), "")
        if "explained" in found and found["message"].startswith("printed ") and text:
            parts = [{"kind": "words", "text": text}]
            return {**found, "reason": text, "reason_parts": parts}
        return found
