"""Checks what a FlatZinc solver printed against the model, by the program `fzcheck`:

    import fzcheck

    report = fzcheck.check("model.fzn", b"x = 4;\n----------\n", complete=True, explain=True)
    if not report.accepted:
        print(report.text, report.explanation)

docs/PYTHON.md has more. The companions `fzcheck-*` are in the modules below."""
from fzcheck.calls import (
    Ended, Error, NotRead, OutOfMemory, OutOfTime, Refused, Source, WrongOptions, check, show,
    version)
from fzcheck.common import NotInstalled
from fzcheck.report import Block, Claim, Explanation, Refuter, Report, Status

__all__ = ["Block", "Claim", "Ended", "Error", "Explanation", "NotInstalled", "NotRead",
           "OutOfMemory", "OutOfTime", "Refused", "Refuter", "Report", "Source", "Status",
           "WrongOptions", "check", "show", "version"]
