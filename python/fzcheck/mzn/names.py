"""What each name of a MiniZinc model is in the FlatZinc that the compiler makes of it."""
import itertools
import re
from typing import Any, Dict, Iterator, List, NamedTuple, Optional, Tuple

from fzcheck.mzn.values import Array, Range, Reader, SetOf, Term, Unreadable, listing

DECLARED = re.compile(
    r"(?:array \[1\.\.(\d+)\] of )?(?:var )?([^:]+): (\w+)([^=]*)(?:= \[([^\]]*)\])?")
INDEX_SETS = re.compile(r"output_array\(\[([^\]]*)\]\)")
DEFINED = re.compile(r"(?:array \[([^\]]*)\] of )?([^:]+): ('[^']+'|\w+)(?: = (.*))?;$")
IDENTIFIER = re.compile(r"[A-Za-z]\w*", re.ASCII)
FLOAT = re.compile(r"float|-?\d+\.\d")
# In the output item: the names that are printed, and what prints those of `fzcheck_names.mzn`.
HEAD = re.compile(r'[\[,]"(\w+|\'[^\']+\') = ')
EXPRESSION = re.compile(r'"fzcheck:(\d+):",(.*?),(?="fzcheck:)', re.S)
MOST_FIXED = 1000  # elements of a parameter; larger ones are left to the output model
MOST_TEXT = 200_000  # characters of a definition that is read


class Name(NamedTuple):
    """What a name of the model is in its FlatZinc.

    `how` it is given: `own`, it is declared there; `single`, by an array of one element;
    `optional`, by variables of the compiler's; `computed`, by the output model alone, so that the
    FlatZinc has a 0 in its place; or nothing is, and it can't be checked."""
    how: str = ""
    flat: str = ""  # what it is called there
    kind: str = "int"  # or bool, float, string
    is_set: bool = False
    is_array: bool = False
    dimensions: Optional[List[List[int]]] = None  # the index sets, where they are known
    size: int = 1
    enum: str = ""
    index_enums: Tuple[str, ...] = ()
    is_wanted: bool = False  # whether a plan prints it
    is_optional: bool = False
    # Of an optional one what says of each element whether it is there, and its value; of another
    # the variables or literals that are its elements, where it isn't simply declared.
    variables: Tuple[Any, ...] = ()
    expression: str = ""  # what the output model prints it by, in JSON


def element_names(name: str, found: Name, enums: Dict[str, List[str]]) -> Iterator[str]:
    """What the elements of a name are called in the model, of another than an array the name."""
    return elements_of(name, index_sets(found, enums))


def elements_of(name: str, indices: List[List[str]]) -> Iterator[str]:
    if not indices:
        yield name
    for index in itertools.product(*indices) if indices else ():
        yield f"{name}[{','.join(index)}]"


def index_sets(found: Name, enums: Dict[str, List[str]]) -> List[List[str]]:
    """What an array's indices are called in each dimension; of another name there are none."""
    if not found.is_array:
        return []
    sets = found.dimensions or [[1, found.size]]
    kinds = found.index_enums if len(found.index_enums) == len(sets) else ("",) * len(sets)
    return [[index_name(enums.get(kind, []), index) for index in range(low, high + 1)]
            for kind, (low, high) in zip(kinds, sets)]


def index_name(enum: List[str], index: int) -> str:
    """The name of an enum's value, or the number where it is of none."""
    return enum[index - 1] if 1 <= index <= len(enum) else str(index)


class Output:
    """The definitions of the names in the compiler's output model (`.ozn`)."""

    def __init__(self, text: str) -> None:
        self.values: Dict[str, Optional[str]] = {}
        self.kinds: Dict[str, str] = {}
        self.index_texts: Dict[str, str] = {}
        self.item = ""  # the output item
        for line in text.splitlines():
            found = DEFINED.match(line)
            if line.startswith("output "):
                self.item = line
            elif found and not line.startswith("function "):
                index, kind, name, value = found.groups()
                name = name.strip("'")
                self.values[name], self.kinds[name] = value, kind
                self.index_texts[name] = index or ""

    def printed(self) -> List[str]:
        """The names that a plan prints."""
        own = self.item.partition('"_output = "')[0]
        return [name.strip("'") for name in HEAD.findall(own)]

    def expressions(self, names: List[str]) -> Dict[str, str]:
        """What prints these names, which were listed in this order."""
        return {names[int(number)]: text for number, text in EXPRESSION.findall(self.item)}

    def value(self, name: str) -> Any:
        """The expression that a name is defined by, or `Unreadable`."""
        reader = Reader(self.values[name] or "")
        value = reader.value()
        if reader.next.sort != "end":
            raise reader.fail()
        return value

    def dimensions(self, name: str) -> Optional[List[List[int]]]:
        try:
            sets = Reader(f"{{{self.index_texts[name]}}}").value().parts
            return [bounds(self.number_set(one)) for one in sets]
        except (Unreadable, KeyError):
            return None

    def number_set(self, index: Any) -> List[int]:
        if isinstance(index, Term):
            return self.number_set(self.value(index.name))
        if isinstance(index, SetOf):
            index = SetOf(tuple(Range(self.number(part.low), self.number(part.high))
                                if isinstance(part, Range) else part for part in index.parts))
        listed = listing(index)
        if listed is None or not all(isinstance(element, int) for element in listed):
            raise Unreadable("an index set isn't one of numbers")
        return listed

    def number(self, value: Any) -> Any:
        return self.number(self.value(value.name)) if isinstance(value, Term) else value


def bounds(listed: List[int]) -> List[int]:
    return [listed[0], listed[-1]] if listed else [1, 0]


def dimension(text: str) -> List[int]:
    """An index set of an `output_array`, as its bounds."""
    low, dots, high = text.partition("..")
    return [int(low), int(high)] if dots else [1, 0]


class Flat(NamedTuple):
    """A declaration of the FlatZinc."""
    size: Optional[int]
    dimensions: Optional[List[List[int]]]
    domain: str
    elements: Tuple[str, ...]


def declarations(lines: Iterator[str]) -> Iterator[Tuple[str, Flat]]:
    """The declarations up to the first constraint."""
    for line in lines:
        if line.startswith(("constraint", "solve")):
            break
        found = DECLARED.match(line)
        if found and not line.startswith("predicate"):
            size, domain, name, annotations, elements = found.groups()
            sets = INDEX_SETS.search(annotations)
            dimensions = [dimension(text) for text in sets[1].split(",")] if sets else None
            yield name, Flat(int(size) if size else None, dimensions, domain,
                             tuple(elements.split(",")) if elements else ())


def floats(flat: Dict[str, Flat]) -> List[str]:
    """The variables and arrays that are of floats."""
    return [name for name, one in flat.items() if FLOAT.match(one.domain)]


class Added:
    """Finds out what each name is, and which items the FlatZinc wants for it."""

    def __init__(self, flat: Dict[str, Flat], output: Output, listed: List[str]) -> None:
        self.flat, self.output = flat, output
        self.expressions = output.expressions(listed)
        self.printed = set(output.printed())
        self.items: List[str] = []

    def name(self, name: str, kind: Dict[str, Any]) -> Name:
        """What a name is, of which the compiler tells this kind."""
        index_enums = tuple("" if one == "int" else one for one in kind.get("dims", ()))
        found = Name(flat=self.fitting(name), kind=kind.get("type", "int"),
                     is_set=bool(kind.get("set")), is_array=bool(kind.get("dim")),
                     enum=kind.get("enum_type", ""), index_enums=index_enums,
                     is_wanted=name in self.printed, is_optional=bool(kind.get("optional")),
                     expression=self.expressions.get(name, ""))
        flat = self.flat.get(name)
        if flat:
            size = 1 if flat.size is None else flat.size
            dimensions = flat.dimensions or self.output.dimensions(name)
            return found._replace(how="own", dimensions=dimensions if found.is_array else None,
                                  size=size, variables=flat.elements)
        try:
            return self.defined(name, found)
        except (Unreadable, KeyError):
            return self.computed(name, found)

    def fitting(self, name: str) -> str:
        """What a name is called in the FlatZinc."""
        if IDENTIFIER.fullmatch(name):
            return name
        fit = "name_" + re.sub(r"\W", "_", name, flags=re.ASCII)
        while fit in self.flat or fit in self.output.values:
            fit += "_"
        return fit

    def computed(self, name: str, found: Name) -> Name:
        """A name that the output model alone can tell."""
        if not found.expression:
            return found
        self.items.append(f"int: {found.flat} = 0;\n")
        dimensions = self.output.dimensions(name) if found.is_array else None
        return found._replace(how="computed", dimensions=dimensions)

    def defined(self, name: str, found: Name) -> Name:
        """A name that only the output model has, by other names, or by values."""
        if not 0 < len(self.output.values.get(name) or "") <= MOST_TEXT:
            raise Unreadable("it isn't defined, or too large")
        value = self.output.value(name)
        elements = value.elements if isinstance(value, Array) else [value]
        dimensions = self.output.dimensions(name) if found.is_array else None
        found = found._replace(size=len(elements), dimensions=dimensions)
        if found.is_optional:
            pairs = tuple(self.optional(element) for element in elements)
            self.items.append(f"int: {found.flat} = 0;\n")
            return found._replace(how="optional", variables=pairs)
        printed = self.output.kinds[name]
        kind = "set of int" if printed.startswith("set") else printed
        kind = kind if kind in ("bool", "set of int") else "int"
        return self.declare(kind, [written(self.followed(one)) for one in elements], found)

    def declare(self, kind: str, texts: List[str], found: Name) -> Name:
        """Adds a parameter, or an array of what the name stands for."""
        is_fixed = not any(text in self.flat for text in texts)
        joined = ",".join(texts)
        if is_fixed and not found.is_array:
            self.items.append(f"{kind}: {found.flat} = {joined};\n")
            return found._replace(how="own")
        if is_fixed and len(texts) > MOST_FIXED:
            raise Unreadable("it is too large")
        var = "" if is_fixed else "var "
        self.items.append(f"array [1..{len(texts)}] of {var}{kind}: {found.flat} = [{joined}];\n")
        return found._replace(how="own" if found.is_array else "single",
                              variables=() if is_fixed else tuple(texts))

    def objective(self, text: str) -> Name:
        return self.declare("int", [text], Name(flat="_objective"))

    def followed(self, value: Any) -> Any:
        """A value, or the FlatZinc variable that stands at the end of definitions."""
        while isinstance(value, Term) and not value.arguments and value.name not in self.flat:
            value = self.output.value(value.name)
        return value

    def optional(self, element: Any) -> Tuple[Any, Any]:
        """What tells whether an optional element is there, and what its value is: each a literal or
        a name, or of the first a name and the number that it has where the element is absent."""
        value = self.followed(element)
        if not isinstance(value, Term):
            return value is not None, value
        if not value.name.startswith("reverse_map_var_opt_"):
            raise Unreadable("it isn't known what it stands for")
        there, inner = map(self.followed, value.arguments)
        if isinstance(there, Term) and there.name == "int_ne" and there.arguments:
            name, number = there.arguments
            there = [written(self.followed(name)), number]
        return plain(there), plain(inner)


def plain(value: Any) -> Any:
    """A literal, or the text of a name."""
    return value if isinstance(value, (bool, int, list)) else written(value)


def written(value: Any) -> str:
    """A value in FlatZinc."""
    if isinstance(value, bool):
        return "true" if value else "false"
    if isinstance(value, int) or isinstance(value, Term) and not value.arguments:
        return str(value)
    if isinstance(value, SetOf):
        if len(value.parts) == 1 and isinstance(value.parts[0], Range):
            return "..".join(map(written, value.parts[0]))
        return "{" + ",".join(map(written, listing(value) or ())) + "}"
    raise Unreadable(f"{value} isn't of FlatZinc")
