"""A season: its models, and the streams of its solvers on them. Each file is known by its sum."""
import hashlib
import os
import re
import sys
from typing import Dict, Iterator, List, NamedTuple, Optional, Pattern, Tuple

from fzcheck.batch.packed import ENDINGS

ENDING = ".fzn"
FIELD = re.compile(r"(\{solver\}|\{model\})")
PIECE = 1 << 20
# What may hold the solve item's last word without being it.
TEXTS = re.compile(rb'"(?:\\.|[^"\\\n])*"|%[^\n]*')
SENSE = re.compile(rb".*\b(satisfy|minimize|maximize)\b", re.S)


class Pair(NamedTuple):
    """A solver's stream on a model, and the files beside it, where there are such."""

    model: str
    solver: str
    stream: str
    times: str = ""  # when its blocks were printed
    status: str = ""  # how the solver ended, and what it took

    @property
    def beside(self) -> Tuple[str, str]:
        return self.times, self.status


class Facts(NamedTuple):
    """What all pairs of a model have in common."""

    model: str
    path: str
    sum: str
    sense: str  # satisfy, minimize, maximize, or nothing where the model has no solve item
    names: str  # its table of names, where it has one
    names_sum: str


class Season(NamedTuple):
    models: Dict[str, str]  # the path of each
    pairs: List[Pair]
    told: List[str]  # what has no counterpart


class Templates(NamedTuple):
    """Where the streams are, and the files beside them, with {solver} and {model}."""

    streams: str
    times: Optional[str] = None
    status: Optional[str] = None


class Shard(NamedTuple):
    """One of several shares. It takes whole models, as claims need all streams on a model."""

    number: int = 1
    of: int = 1

    def has(self, model: str) -> bool:
        digest = hashlib.sha1(os.fsencode(model)).digest()
        return int.from_bytes(digest, "big") % self.of == self.number - 1


def shard_of(text: str) -> Shard:
    """Reads `I/N`."""
    match = re.fullmatch(r"(\d+)/(\d+)", text)
    if not match or not 1 <= int(match[1]) <= int(match[2]):
        raise ValueError(f"{text} is no I/N with I from 1 to N")
    return Shard(int(match[1]), int(match[2]))


def pattern_of(template: str, solver: str) -> Pattern[str]:
    """What the template's paths look like, where a solver's name matches the pattern given."""
    seen = set()
    parts = []
    for part in FIELD.split(template):
        name = part.strip("{}")
        if not FIELD.fullmatch(part):
            parts.append(re.escape(part))
        elif name in seen:
            parts.append(f"(?P={name})")
        else:
            parts.append(f"(?P<{name}>{solver if name == 'solver' else '.+'})")
            seen.add(name)
    if len(seen) < 2:
        raise ValueError(f"{template} has to have {{solver}} and {{model}}")
    packed = "|".join(map(re.escape, ENDINGS))
    return re.compile(f"{''.join(parts)}(?:{packed})?", re.S)


def files_below(folder: str) -> Iterator[str]:
    def fail(error: OSError) -> None:
        raise error

    for place, _, names in os.walk(folder, onerror=fail, followlinks=True):
        yield from (os.path.join(place, name) for name in names)


def models_in(folder: str) -> Dict[str, str]:
    """The models in the folder and below, by their paths from there without the ending."""
    paths = (path for path in files_below(folder) if path.endswith(ENDING))
    return {os.path.relpath(path, folder)[: -len(ENDING)]: path for path in sorted(paths)}


def streams_of(template: str, models: Dict[str, str]) -> Iterator[Pair]:
    """All streams; where a path can be parted in two ways, that with a known model is right."""
    template = os.path.normpath(template)
    patterns = [pattern_of(template, solver) for solver in ("[^/]+", "[^/]+?")]
    for path in files_below(os.path.dirname(FIELD.split(template)[0]) or "."):
        matches = [pattern.fullmatch(os.path.normpath(path)) for pattern in patterns]
        ways = [match.groupdict() for match in matches if match]
        if ways:
            way = next((way for way in ways if way["model"] in models), ways[0])
            yield Pair(way["model"], way["solver"], path)


def beside(template: Optional[str], pair: Pair) -> str:
    """The file of a pair that the template names, where there is one."""
    if not template:
        return ""
    path = template.replace("{model}", pair.model).replace("{solver}", pair.solver)
    return path if os.path.exists(path) else ""


def season(folder: str, templates: Templates, shard: Shard) -> Season:
    """The shard's part of the models in the folder and of the template's streams."""
    models = {name: path for name, path in models_in(folder).items() if shard.has(name)}
    found = sorted(pair for pair in streams_of(templates.streams, models)
                   if shard.has(pair.model))
    told: List[str] = []
    taken: Dict[Tuple[str, str], Pair] = {}
    for pair in found:
        if pair.model not in models:
            told.append(f"no model for the stream {pair.stream}")
        elif not os.path.isfile(pair.stream):
            told.append(f"no file: {pair.stream}")
        elif (pair.model, pair.solver) in taken:
            other = taken[pair.model, pair.solver].stream
            told.append(f"{pair.stream} isn't judged: {other} is of the same pair")
        else:
            taken[pair.model, pair.solver] = pair._replace(
                times=beside(templates.times, pair), status=beside(templates.status, pair))
    pairs = list(taken.values())
    return Season(models, pairs, told + lacking(models, pairs))


def lacking(models: Dict[str, str], pairs: List[Pair]) -> List[str]:
    """Which streams aren't there."""
    told: List[str] = []
    solvers = {pair.solver for pair in pairs}
    has_stream = {pair[:2] for pair in pairs}
    for name in models:
        without = sorted(solver for solver in solvers if (name, solver) not in has_stream)
        if len(without) == len(solvers):
            told.append(f"no stream for the model {models[name]}")
        else:
            told.extend(f"no stream of {solver} for the model {models[name]}" for solver in without)
    return told


def sum_of(path: str) -> str:
    """The sum by which a file's bytes are known again."""
    summed = hashlib.sha1()
    with open(path, "rb", buffering=0) as file:
        while True:
            piece = file.read(PIECE)
            if not piece:
                return summed.hexdigest()
            summed.update(piece)


def sense_of(path: str) -> str:
    """The last word of the solve item, which is a model's last one. A string holds no line end, so
    it can be read from the beginning of any line on."""
    with open(path, "rb") as file:
        size = file.seek(0, os.SEEK_END)
        for start in (max(0, size - PIECE), 0):
            file.seek(start)
            if start:
                file.readline()
            match = SENSE.match(TEXTS.sub(b"", file.read()))
            if match:
                return match[1].decode()
    return ""


def facts_of(models: Dict[str, str], names: Optional[str],
             model: str) -> Tuple[Optional[Facts], str]:
    """What is known of a model; or nothing, and why it can't be read."""
    path = models[model]
    table = names.replace("{model}", model) if names else ""
    table = table if os.path.exists(table) else ""
    try:
        table_sum = sum_of(table) if table else ""
        return Facts(model, path, sum_of(path), sense_of(path), table, table_sum), ""
    except OSError as error:
        return None, f"{error.filename or path}: {error.strerror}"


def tell(text: str) -> None:
    """Names may hold bytes that are no text."""
    shown = f"fzcheck-batch: {text}\n".encode(errors="surrogateescape")
    sys.stderr.flush()
    os.write(2, shown)
