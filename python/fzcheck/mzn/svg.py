"""Draws the charts of a plan as SVG."""
from html import escape
from typing import Callable, Dict, Iterator, List, Tuple

from fzcheck.mzn.chart import BOXES, RESOURCE, Chart, Lane, Task

WIDTH, LEFT, RIGHT = 900, 150, 14
HIGHEST, LARGEST, LEFT_OF_BOXES = 420, 60, 40
TOP, ROW, GAP, PROFILE, AXIS = 2, 24, 10, 56, 24  # heights
MOST_TICKS = 12
MOST_LETTERS = 20  # of a name in front of a row
LETTER = 7  # the width of a letter
COLOURS = ("#bcd7ef", "#f8dca6", "#cfc5ea", "#c3e2c4", "#f3c4d8", "#bfe3e1", "#e3d6b4", "#d3d9e0",
           "#e9c8b4", "#c9dcf7")
Notes = Callable[[Task], str]  # what is told of a task that clashes


class Scale:
    """Puts numbers from `low` to `high` on a line from `start` that is `length` long."""

    def __init__(self, low: int, high: int, start: float, length: float) -> None:
        self.low, self.high, self.start = low, max(high, low + 1), start
        self.step = length / (self.high - low)

    def __call__(self, number: float) -> float:
        return round(self.start + (number - self.low) * self.step, 1)

    def ticks(self) -> Iterator[int]:
        step, factor = 1, 0
        while (self.high - self.low) // step > MOST_TICKS:
            step = (1, 2, 5)[factor % 3] * 10 ** (factor // 3)
            factor += 1
        yield from range(-(-self.low // step) * step, self.high + 1, step)


class Drawing:
    def __init__(self, notes: Notes) -> None:
        self.notes = notes
        self.parts: List[str] = []
        self.colours: Dict[str, str] = {}  # by the names of tasks
        self.height = float(TOP)

    def add(self, name: str, text: str = "", **values: object) -> None:
        written = " ".join(f'{key.replace("_", "-")}="{escape(str(value))}"'
                           for key, value in values.items())
        self.parts.append(f"<{name} {written}>{text}</{name}>")

    def text(self, x: float, y: float, text: str, anchor: str = "start", kind: str = "") -> None:
        self.add("text", escape(text), x=round(x, 1), y=round(y, 1), text_anchor=anchor,
                 **{"class": kind})

    def bar(self, task: Task, x: float, y: float, width: float, height: float) -> None:
        """A task, with its name where there is room, and all of it where the pointer is."""
        colour = self.colours.setdefault(task.name, COLOURS[len(self.colours) % len(COLOURS)])
        note = self.notes(task)
        told = f"{task.name}: {task.start} to {task.end}" + (note and f"\n{note}")
        self.add("rect", f"<title>{escape(told)}</title>", x=x, y=y, width=max(width, 2),
                 height=height, fill=colour, **{"class": "bar clash" if note else "bar"})
        if len(task.name) * LETTER <= width:
            self.text(x + width / 2, y + height / 2 + 4, task.name, "middle")

    def axis(self, scale: Scale, top: float) -> None:
        """The numbers below, and the lines behind the bars."""
        lines = [f'<line class="grid" x1="{scale(tick)}" x2="{scale(tick)}" y1="{top}" '
                 f'y2="{self.height}"></line>' for tick in scale.ticks()]
        self.parts[:0] = lines
        for tick in scale.ticks():
            self.text(scale(tick), self.height + 15, str(tick), "middle", "tick")
        self.height += AXIS

    def svg(self) -> str:
        inner = "\n".join(self.parts)
        return f'<svg viewBox="0 0 {WIDTH} {self.height:.0f}" role="img">\n{inner}\n</svg>'


def drawn(chart: Chart, notes: Notes) -> str:
    drawing = Drawing(notes)
    if chart.constraint in BOXES:
        for lane in chart.lanes:
            boxes(drawing, lane)
        return drawing.svg()
    tasks = [task for lane in chart.lanes for task in lane.tasks]
    low = min(0, *(task.start for task in tasks)) if tasks else 0
    scale = Scale(low, max(task.end for task in tasks), LEFT, WIDTH - LEFT - RIGHT)
    for lane in chart.lanes:
        (resource if chart.constraint == RESOURCE else line)(drawing, lane, scale)
        drawing.height += GAP
    drawing.axis(scale, 0)
    return drawing.svg()


def line(drawing: Drawing, lane: Lane, scale: Scale) -> None:
    """The tasks of a lane behind one another; those that overlap are below one another."""
    rows: List[int] = []  # where the tasks of each row end
    drawing.text(0, drawing.height + 16, lane.label[:MOST_LETTERS])
    for task in sorted(lane.tasks, key=lambda task: task.start):
        fitting = [row for row, end in enumerate(rows) if end <= task.start]
        row = fitting[0] if fitting else len(rows)
        rows[row : row + 1] = [task.end]
        drawing.bar(task, scale(task.start), drawing.height + row * ROW,
                    scale(task.end) - scale(task.start), ROW - 4)
    drawing.height += ROW * max(len(rows), 1)


def resource(drawing: Drawing, lane: Lane, scale: Scale) -> None:
    """The tasks of a lane in rows of their own, and how much they take at each time."""
    if lane.label:
        drawing.text(0, drawing.height + 16, lane.label[:MOST_LETTERS])
        drawing.height += ROW
    for task in sorted(lane.tasks, key=lambda task: task.start):
        drawing.text(LEFT - 8, drawing.height + 16, f"{task.name[:MOST_LETTERS]} · {task.height}",
                     "end")
        drawing.bar(task, scale(task.start), drawing.height, scale(task.end) - scale(task.start),
                    ROW - 4)
        drawing.height += ROW
    profile(drawing, lane, scale)


def usage(tasks: List[Task]) -> Iterator[Tuple[int, int, int]]:
    """From when to when how much is taken."""
    times = sorted({time for task in tasks for time in (task.start, task.end)})
    for start, end in zip(times, times[1:]):
        yield start, end, sum(task.height for task in tasks if task.start <= start < task.end)


def profile(drawing: Drawing, lane: Lane, scale: Scale) -> None:
    spans = list(usage(lane.tasks))
    limit = lane.limit or 0
    most = max([limit, 1, *(used for _, _, used in spans)])
    bottom = drawing.height + GAP + PROFILE
    high = Scale(0, most, 0, PROFILE)
    for start, end, used in spans:
        told = f"<title>{start} to {end}: {used}</title>"
        drawing.add("rect", told, x=scale(start), y=round(bottom - high(used), 1),
                    width=round(scale(end) - scale(start), 1), height=high(used),
                    **{"class": "over" if lane.limit is not None and used > limit else "usage"})
    if lane.limit is not None:
        y = round(bottom - high(limit), 1)
        drawing.add("line", x1=LEFT, x2=WIDTH - RIGHT, y1=y, y2=y, **{"class": "limit"})
        drawing.text(LEFT - 8, y + 4, f"at most {limit}", "end", "tick")
    drawing.height = bottom


def boxes(drawing: Drawing, lane: Lane) -> None:
    """The boxes of a lane, in both directions by the same scale where they are much alike."""
    if not lane.tasks:
        return
    across = min(0, *(box.start for box in lane.tasks)), max(box.end for box in lane.tasks)
    ends = [box.low + box.height for box in lane.tasks]
    along = min(0, *(box.low for box in lane.tasks)), max(ends)
    wide, high = max(across[1] - across[0], 1), max(along[1] - along[0], 1)
    left = LEFT if lane.label else LEFT_OF_BOXES
    steps = [min((WIDTH - left - RIGHT) / wide, LARGEST), min(HIGHEST / high, LARGEST)]
    if wide <= 4 * high and high <= 4 * wide:
        steps = [min(steps)] * 2
    top = drawing.height + GAP
    x, y = Scale(*across, left, wide * steps[0]), Scale(*along, top, high * steps[1])
    drawing.text(0, top + 16, lane.label[:MOST_LETTERS])
    for box in lane.tasks:
        drawing.bar(box, x(box.start), top + y(along[1]) - y(box.low + box.height),
                    x(box.end) - x(box.start), round(box.height * steps[1], 1))
    for tick in y.ticks():
        drawing.text(left - 8, top + y(along[1]) - y(tick) + 4, str(tick), "end", "tick")
    drawing.height = y(along[1])
    drawing.axis(x, top)
