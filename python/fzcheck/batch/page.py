"""The page of a season: one file, which has all that it shows and needs no network."""
import html
import json
import os
import time
from collections import Counter
from typing import Any, Dict, List, Optional

from fzcheck.batch.report import claim_words
from fzcheck.batch.results import (COMPLETE, ERROR, UNJUDGED, UNKNOWN, Finish, Outcome, Result, Row,
                                   Solving, Stored, Usage)
from fzcheck.batch.scores import Score, shown

TEMPLATE = os.path.join(os.path.dirname(os.path.realpath(__file__)), "page.html")
DATA, TITLE = "/* the data */", "<!-- the title -->"
# Bytes that all charts and all explanations may take together, and those of each at least and most.
CHARTS, CHART_LEAST, CHART_MOST = 2_000_000, 100, 2_000
REASONS, REASON_LEAST, REASON_MOST = 1_200_000, 250, 4_000
MOST_CLAIMS = 20
NUMBERS = {kind: number for number, kind in enumerate(Outcome)}
FINISHES = {kind: number for number, kind in enumerate(Finish)}
JUDGED = {Finish.PROVED: "claimed and proved", Finish.CLAIMED: "claimed only",
          Finish.REFUTED: "claimed, and refuted"}
GIVEN_UP = {UNKNOWN: "the solver doesn't know", ERROR: "the solver reports an error"}


def compact(value: Any) -> str:
    return json.dumps(value, separators=(",", ":"))


def within(least: int, value: int, most: int) -> int:
    return max(least, min(value, most))


def finish_words(result: Result) -> str:
    """What the solver says of its whole search, and what is known of that."""
    claim = result.last_claim
    if claim is None:
        return "unfinished" if result.blocks else "no claim"
    if claim.claim in GIVEN_UP:
        return GIVEN_UP[claim.claim]
    what = {COMPLETE: "best objective"}.get(claim.claim, claim.claim.strip("="))
    if claim.claim == COMPLETE and result.sense == "satisfy":
        what = "all solutions"
    if result.says_unsatisfiable:
        what = "no solution"
    return f"{what} {JUDGED[result.finish]}"


def state_words(result: Result, is_best: bool) -> str:
    """What a cell says, for those who hear it."""
    if result.outcome is Outcome.MODEL:
        return "the model can't be judged by"
    words = [": ".join(filter(None, (result.outcome.value, result.words)))]
    if result.is_wrong or result.outcome in UNJUDGED:
        return words[0]
    words.append(finish_words(result))
    if result.best is not None:
        words.append(f"objective {result.best}" + (", none is better" if is_best else ""))
    return "; ".join(words)


def usage_text(usage: Usage) -> str:
    return f"judged in {usage.seconds:.2f} s of the processor, {usage.memory / 1e6:.0f} MB"


def solving_text(solving: Solving) -> str:
    """What the solver took, as far as that is known."""
    told = []
    if solving.seconds is not None:
        told.append(f"{shown(solving.seconds)} s")
    if solving.best_at is not None:
        told.append(f"its best solution after {shown(solving.best_at)} s")
    if solving.memory is not None:
        told.append(f"{solving.memory / 1e6:.0f} MB")
    if solving.status:
        told.append(f"status {solving.status}")
    return f"the solver: {', '.join(told)}" if told else ""


def score_text(score: Optional[Score]) -> str:
    if not score:
        return ""
    return (f"scores: complete {shown(score.complete)}, incomplete {shown(score.incomplete)}, "
            f"XCSP3 {shown(score.xcsp3)}")


def lines_of(result: Result, usage: Usage, score: Optional[Score]) -> List[str]:
    """What the dialog tells of a pair. A refuted claim may be what the words tell already."""
    claims = [claim_words(claim) for claim in result.claims[:MOST_CLAIMS]]
    blocks = (f"blocks: {result.blocks}, satisfied {result.satisfied}, violated {result.violated}, "
              f"undecided {result.undecided}")
    best = f"best objective of a satisfied block: {result.best}" if result.best is not None else ""
    lines = [blocks, "" if result.words in claims else result.words, best, *claims,
             f"cut: {result.cut}" if result.cut else "", solving_text(result.solving),
             score_text(score), usage_text(usage)]
    return [line for line in lines if line]


class Page:
    """Gathers the models, with as much of each chart as fits."""

    def __init__(self, cells: int, title: str) -> None:
        self.title = title
        self.chart = within(CHART_LEAST, CHARTS // max(cells, 1), CHART_MOST)
        self.models: List[Dict[str, Any]] = []
        self.explained = 0
        self.days: List[float] = []
        self.programs: "Counter[str]" = Counter()
        self.options: "Counter[str]" = Counter()

    def points(self, result: Result) -> List[List[Any]]:
        """The points that fit, evenly chosen, with the last one."""
        points = result.points
        if not points:
            return []
        size = len(compact(points[-1])) + 1
        every = max(-(-len(points) * size // self.chart), 1)
        return points[: len(points) - 1 : every] + points[-1:]

    def cell(self, stored: Stored, is_best: bool, score: Optional[Score]) -> Dict[str, Any]:
        result, usage = stored
        cell: Dict[str, Any] = {
            "solver": result.solver,
            "outcome": NUMBERS[result.outcome],
            "finish": FINISHES[result.finish],
            "none": result.says_unsatisfiable or None,
            "state": state_words(result, is_best),
            "objective": None if result.best is None or result.is_wrong else str(result.best),
            "best": is_best or None,
            "wrong": result.is_wrong or None,
            "lines": lines_of(result, usage, score),
            "points": self.points(result),
            "why": "\n".join(result.explanation)[:REASON_MOST],
        }
        if cell["why"]:
            self.explained += 1
        return {name: value for name, value in cell.items() if value not in ("", None, [])}

    def add(self, row: Row, scores: Dict[str, Score]) -> None:
        for result, usage in row.pairs:
            self.days.append(usage.at)
            self.programs[f"{result.version} ({result.key.program[:8]})"] += 1
            self.options[" ".join(result.key.options)] += 1
        self.models.append({
            "name": row.model,
            "sense": row.pairs[0].result.sense if row.pairs else "",
            "best": None if row.best is None else str(row.best),
            "holders": row.holders,
            "fault": row.fault,
            "cells": [self.cell(stored, stored.result.solver in row.holders,
                                scores.get(stored.result.solver)) for stored in row.pairs],
        })

    def made_of(self) -> List[str]:
        """When the season was judged, by what, and with which options."""
        days = [time.strftime("%Y-%m-%d", time.gmtime(at)) for at in sorted(self.days)]
        told = [f"Judged {' to '.join(sorted({days[0], days[-1]}))}"] if days else []
        told += [f"Program: {name}" for name in sorted(self.programs)]
        return told + [f"Options: {options}" for options in sorted(self.options)]

    def text(self, counts: List[List[str]]) -> str:
        """The page, with a table of counts by solver, whose first line is its head."""
        most = within(REASON_LEAST, REASONS // max(self.explained, 1), REASON_MOST)
        cells = [cell for model in self.models for cell in model["cells"]]
        names = sorted({cell["solver"] for cell in cells})
        numbers = {name: number for number, name in enumerate(names)}
        for cell in cells:
            cell["solver"] = numbers[cell["solver"]]
            if len(cell.get("why", "")) > most:
                cell["why"] = cell["why"][:most] + " ..."
        data = {"solvers": names, "models": self.models, "counts": counts, "made": self.made_of(),
                "outcomes": [kind.value for kind in Outcome],
                "finishes": [kind.value for kind in Finish]}
        with open(TEMPLATE, encoding="utf-8") as file:
            page = file.read().replace(TITLE, html.escape(self.title))
            # No name may end the element that holds the data.
            return page.replace(DATA, compact(data).replace("<", "\\u003c"))
