#!/usr/bin/env python3
"""Writes the table of broken texts: make.py > cases.txt.

Each small text below is a text of the grammar. At each of its tokens one mutation is made, and the
place and the kind of the refusal are worked out from GRAMMAR by an Earley recogniser over the tokens:
the fault is the first token after which no text of the grammar can follow any more. No checker is run.
Rows of the sort `parses` are mutations that stay texts of the grammar. The result depends on SEED alone."""
import json
import random
import re

SEED = 4
LIMIT = 1048576      # greatest size of an array
DEPTH = 32           # greatest depth of an annotation
RESERVED = set("predicate array of var bool int float set constraint solve satisfy minimize maximize "
               "true false".split())

# Braces mean any number of times, brackets mean optional. `int` is an integer, `one` one of value
# 1, `size` one that is 0 or more. `note@` and the like stand once for each depth.
GRAMMAR = """
model      = { predicate } { decl } { constraint } solve
predicate  = "predicate" name "(" [ pparam { "," pparam } ] ")" ";"
pparam     = [ "array" "[" pindex "]" "of" ] [ "var" ] base ":" name
base       = "bool" | "int" | int ".." int | braces | "set" "of" ( "int" | int ".." int | braces )
decl       = plain ":" name notes "=" literal ";"
           | prefix plain ":" name notes "=" "[" [ literal { "," literal } ] "]" ";"
           | "var" base ":" name notes [ "=" basic ] ";"
           | prefix "var" base ":" name notes "=" list ";"
prefix     = "array" "[" one ".." size "]" "of"
plain      = "bool" | "int" | "set" "of" "int"
constraint = "constraint" name "(" [ arg { "," arg } ] ")" notes ";"
solve      = "solve" notes ( "satisfy" | "minimize" basic | "maximize" basic ) ";"
arg        = basic | list
list       = "[" [ basic { "," basic } ] "]"
basic      = literal | name
literal    = "true" | "false" | int | int ".." int | braces
braces     = "{" [ int { "," int } ] "}"
notes      = { "::" note@1 }
items      = { name "=" value ";" }
index      = int ".." int | braces
"""
NOTE = """
note@      = name [ "(" narg@ { "," narg@ } ")" ]
narg@      = nbasic@ | "[" [ nbasic@ { "," nbasic@ } ] "]"
nbasic@    = literal | float | string | note+
"""
# One to six index sets; `crowd` is what a seventh would begin with.
INDEXES = "pindex = pset" + ' [ "," pset' * 5 + ' [ "," crowd' + " ]" * 6 + """
pset = "int" | one ".." size
"""
ELEMENTS = '"[" [ literal { "," literal } ] "]" ")"'


def whole_grammar():
    text = GRAMMAR
    for depth in range(1, DEPTH + 1):
        text += NOTE.replace("@", f"@{depth}").replace("+", f"@{depth + 1}")
    text += f"note@{DEPTH + 1} = deep\n"
    text += INDEXES
    text += "value = literal"
    for n in range(1, 7):
        text += f' | "array{n}d" "(" ' + 'index "," ' * n + ELEMENTS
    return text + "\n"


class Grammar:
    """Plain rules: `rules[n]` is a pair of a symbol and the list of symbols that it may stand for."""

    def __init__(self, text):
        self.rules, self.of = [], {}
        words = re.findall(r'"[^"]*"|[a-z]+(?:@\d+)?|[{}\[\]()|=]', text)
        at = 0
        while at < len(words):
            head, at = words[at], at + 2
            at = self.choice(head, words, at)
        self.nullable = set()
        while True:
            new = {h for h, body in self.rules if all(s in self.nullable for s in body)}
            if new == self.nullable:
                break
            self.nullable = new

    def add(self, head, body):
        self.of.setdefault(head, []).append(len(self.rules))
        self.rules.append((head, tuple(body)))

    def choice(self, head, words, at):
        """Reads alternatives up to a closing bracket or the next rule, and gives the place behind."""
        body, parts = [], 0
        while at < len(words) and words[at] not in "}])" and not (at + 1 < len(words) and words[at + 1] == "="):
            word = words[at]
            if word == "|":
                self.add(head, body)
                body, at = [], at + 1
            elif word in "{[(":
                parts += 1
                inner = f"{head}/{len(self.rules)}.{parts}"
                if word == "(":
                    at = self.choice(inner, words, at + 1) + 1
                elif word == "[":
                    self.add(inner, [])
                    at = self.choice(inner, words, at + 1) + 1
                else:
                    self.add(inner, [])
                    self.add(inner, [inner, inner + "*"])
                    at = self.choice(inner + "*", words, at + 1) + 1
                body.append(inner)
            else:
                body.append(word)
                at += 1
        self.add(head, body)
        return at


class Token:
    """A token with its text; `kind` is word, whole, float, string, mark, or the name of a lexical fault."""

    def __init__(self, text):
        self.text, self.value = text, None
        if re.fullmatch(r"[A-Za-z_][A-Za-z0-9_]*", text):
            self.kind = "word"
        elif re.fullmatch(r"-?(0x[0-9A-Fa-f]+|0o[0-7]+|[0-9]+)", text):
            digits = text.lstrip("-")
            base = {"0x": 16, "0o": 8}.get(digits[:2], 10)
            self.value = int(digits[2:] if base != 10 else digits, base) * (-1 if text[0] == "-" else 1)
            self.kind = "whole" if -2 ** 63 <= self.value < 2 ** 63 else "TooLarge"
        elif re.fullmatch(r"-?[0-9]+(\.[0-9]+([eE][+-]?[0-9]+)?|[eE][+-]?[0-9]+)", text):
            self.kind = "float"
        elif re.fullmatch(r'"([^"\\\n]|\\[^\n])*"', text):
            self.kind = "string"
        elif text in "( ) [ ] { } , ; : :: = ..".split():
            self.kind = "mark"
        else:
            self.kind = "BadByte"

    def fits(self, terminal):
        if terminal[0] == '"':
            return self.text == terminal[1:-1] and self.kind in ("word", "mark")
        if terminal in ("name", "deep"):
            return self.kind == "word" and self.text not in RESERVED
        if terminal == "crowd":
            return self.kind == "whole" or self.text == "int"
        if terminal == "one":
            return self.kind == "whole" and self.value == 1
        if terminal == "size":
            return self.kind == "whole" and self.value >= 0
        return self.kind == {"int": "whole"}.get(terminal, terminal)


class Earley:
    """The sets of items (rule, how far, begun where) after each token read so far."""

    def __init__(self, grammar, start):
        self.g, self.start = grammar, start
        self.sets = [self.closed([(r, 0, 0) for r in grammar.of[start]], [])]

    def closed(self, items, before):
        items, seen = list(items), set(items)
        here = len(before)
        for rule, dot, origin in items:
            head, body = self.g.rules[rule]
            if dot == len(body):
                if origin < here:
                    new = [(r, d + 1, o) for r, d, o in before[origin]
                           if d < len(self.g.rules[r][1]) and self.g.rules[r][1][d] == head]
                else:
                    new = []
            elif body[dot] in self.g.of:
                new = [(r, 0, here) for r in self.g.of[body[dot]]]
                if body[dot] in self.g.nullable:
                    new.append((rule, dot + 1, origin))
            else:
                new = []
            for item in new:
                if item not in seen:
                    seen.add(item)
                    items.append(item)
        return items

    def wanting(self, sets):
        """The items of the last set that want a terminal next, with it."""
        for rule, dot, origin in sets[-1]:
            body = self.g.rules[rule][1]
            if dot < len(body) and body[dot] not in self.g.of:
                yield (rule, dot, origin), body[dot]

    def step(self, sets, token):
        """The fault at this token, or none and the sets after it."""
        moved = [(item, t) for item, t in self.wanting(sets) if token.fits(t)]
        if not moved:
            return ("Float" if token.kind == "float" or token.text == "float" else "Syntax"), sets
        if any(t == "deep" for _, t in moved):
            return "TooDeep", sets
        if any(t == "crowd" for _, t in moved):
            return "TooMany", sets
        if any(t == "size" for _, t in moved) and token.value > LIMIT:
            return "TooMany", sets
        return None, sets + [self.closed([(r, d + 1, o) for (r, d, o), _ in moved], sets)]

    def whole(self, sets):
        return any(o == 0 and self.g.rules[r][0] == self.start and d == len(self.g.rules[r][1])
                   for r, d, o in sets[-1])


def joined(tokens):
    """The text of the tokens, blanks only where two could run together, and the span of each."""
    text, spans = "", []
    for token in tokens:
        closed = text[-1:] in tuple("()[]{},;\n") and token.kind != "BadByte"
        if text and not closed and token.text not in tuple("()[]{},;"):
            text += " "
        spans.append((len(text), len(text) + len(token.text)))
        text += token.text
        if token.text == ";" or token.kind == "BadByte":
            text += "\n"
    return text, spans


def refusal(earley, tokens):
    """The text, and the name and span of its refusal (none where it is a text of the grammar)."""
    text, spans = joined(tokens)
    for token, span in zip(tokens, spans):
        if token.kind == "BadByte":
            return text, ("BadByte", (span[0], span[0] + 1)), None
        if token.kind == "TooLarge":
            return text, ("TooLarge", span), None
    sets = earley.sets
    for token, span in zip(tokens, spans):
        fault, sets = earley.step(sets, token)
        if fault:
            return text, (fault, span), sets
    if earley.whole(sets):
        return text, None, sets
    return text, ("Syntax", (len(text), len(text))), sets


MODELS = """
predicate p(); solve satisfy;
predicate q(bool: a, int: b, var -1..5: c, {1,3}: d, {}: e); solve satisfy;
predicate r(set of int: a, var set of 0o1..5: b, set of {2}: c); solve satisfy;
predicate s(array [int] of var int: a, array [0x1..2] of bool: b); solve satisfy;
bool: a = true; int: b :: n = -3; solve minimize b;
set of int: c = 1..3; set of int: d = {3,1}; solve satisfy;
array [1..0] of bool: e = []; array [1..2] of int: f :: n = [1,0x2]; solve satisfy;
array [01..1] of set of int: g = [{}]; solve maximize 3;
var bool: a; var int: b :: x = 5; var 1..5: c = b; var {1,3}: d; solve satisfy;
var set of int: e; var set of 1..3: f = {}; var set of {1}: g = 1..2; var {}: h; solve satisfy;
var int: b; array [1..2] of var int: i = [b,4]; array [1..0] of var bool: j :: k = []; solve satisfy;
array [1..1] of var 0..9: l = [4]; array [1..1] of var set of 1..3: m = [{1}]; solve satisfy;
var int: x; constraint c(); constraint d(x,true,1,1..2,{1},[x,false],[]) :: a :: b(c); solve minimize x;
constraint c([1..2],[{},3]); solve :: f(1.5,"s",[a,-2e3,"t"],[],g(true,{},-1..0)) satisfy;
solve :: h([k([m(false)]),4]) :: z maximize 1;
"""
ITEMS = """
x = 3; y = true; s = {1,-2}; r = 1..5; e = {};
a = array1d(1..2,[1,2]); b = array2d(1..1,{1,3},[false,true]); c = array3d(1..0,{},2..2,[]);
d = array4d(1..1,1..1,{1},1..1,[{2,3}]); array1d = array5d(1..1,1..1,1..1,1..1,1..1,[1..2]);
f = array6d({1},1..1,1..1,1..1,1..1,1..1,[-0x1F]); true_ = 0o17;
"""
POOL = """zz 7 -1 0 1 "s" ( ) [ ] { } , ; : :: = .. predicate array of var bool int set constraint solve
satisfy minimize maximize true false array1d array2d 1048576""".split()
FLOATS = "2.5 -1e3 0.0E+1 float 7e0".split()
BAD = ["?", "-", ".", '"abc', "9223372036854775808", "-9223372036854775809", "0x8000000000000000", "'",
       "\xff", "\x00", '"a\\', "99999999999999999999999999", "-0o1000000000000000000001", "#", "!"]


def tokens_of(line):
    pattern = r'"[^"]*"|-?0[xo][0-9A-Fa-f]+|-?\d+(?:\.\d+)?(?:[eE][+-]?\d+)?|\w+|::|\.\.|[^\s]'
    return [Token(t) for t in re.findall(pattern, line)]


def mutations(draw, tokens, at):
    """One of each sort of mutation at a place, in an order that is drawn."""
    before, here, behind = tokens[:at], tokens[at], tokens[at + 1:]
    other = draw.choice([t for t in POOL if t != here.text])
    sorts = [("delete", before + behind),
             ("double", before + [here, here] + behind),
             ("replace", before + [Token(other)] + behind),
             ("float", before + [Token(draw.choice(FLOATS))] + ([here] if draw.random() < 0.5 else []) + behind),
             ("cut", before)]
    draw.shuffle(sorts)
    return sorts


def nested(depth):
    return "solve :: " + "a(" * (depth - 1) + "a" + ")" * (depth - 1) + " satisfy;"


# Rows about order, depth and size, written by hand; what they answer is worked out like the others'.
MORE = [
    nested(33), nested(34), nested(32) + " 1.5", nested(33).replace("a(a(a(", "a(a([a(", 1).replace(")))", ")])", 1),
    "constraint c() :: " + "b([1," * 32 + "b" + "])" * 32 + "; solve satisfy;",
    "array [1..1048577] of int: a = []; solve satisfy;",
    "array [1..0x100001] of var int: a = []; solve satisfy;",
    "array [1..9223372036854775807] of int: a = []; solve satisfy;",
    "predicate p(array [1..1048577] of int: a); solve satisfy;",
    "predicate p(array [1..1048576] of int: a, array [1..2000000] of int: b); solve satisfy;",
    "array [2..1048577] of int: a = []; solve satisfy;",
    "array [1..-1] of int: a = []; solve satisfy;",
    "array [1..1048577 solve",
    "array [int] of int: a = []; solve satisfy;",
    "predicate p(array [0..1] of int: a); solve satisfy;",
    "predicate p(array [int,1..3] of int: a, array [int,int,int,int,int,int] of var bool: b); "
    "solve satisfy;",
    "predicate p(array [int,int,int,int,int,int,int] of int: a); solve satisfy;",
    "predicate p(array [1..1,1..1,1..1,1..1,1..1,1..1,7] of int: a); solve satisfy;",
    "predicate p(array [] of int: a); solve satisfy;",
    "predicate p(array [int,] of int: a); solve satisfy;",
    "predicate p(array [int,1..1048577] of int: a); solve satisfy;",
    "array [1..1,1..1] of int: a = [1]; solve satisfy;",
    "solve satisfy; constraint c();", "solve satisfy; solve satisfy;", "constraint c(); var int: x; solve satisfy;",
    "var int: x; predicate p(); solve satisfy;", "constraint c(); predicate p(); solve satisfy;",
    "solve satisfy; 1.5", "solve satisfy; float", "var float: x; solve satisfy;", "var 1.5..2: x; solve satisfy;",
    "array [1..1] of float: x = [1.5]; solve satisfy;", "float: x = 1.5; solve satisfy;",
    "constraint c(x,1.5); solve satisfy;", "constraint c([1.5]); solve satisfy;", "predicate p(float: x); solve satisfy;",
    "solve :: a({1.5}) satisfy;", "solve :: a(1..2.5) satisfy;", "solve :: a(1.5..2.5) satisfy;",
    "solve :: a(1.5 2.5) satisfy;", "solve :: 1.5 satisfy;", "solve :: a() satisfy;", "solve :: a([[1]]) satisfy;",
    "solve :: \"s\" satisfy;", "solve minimize 1.5;", "solve minimize [x];", "solve minimize;",
    "constraint c([[1]]); solve satisfy;", "constraint c(x[1]); solve satisfy;", "constraint c(1,); solve satisfy;",
    "constraint c(\"s\"); solve satisfy;", "constraint c(a(1)); solve satisfy;", "constraint int(); solve satisfy;",
    "var int: int; solve satisfy;", "var set of bool: x; solve satisfy;", "set of 1..2: x = {}; solve satisfy;",
    "1..2: x = 1; solve satisfy;", "{1}: x = 1; solve satisfy;", "bool: x = y; solve satisfy;", "bool: x; solve satisfy;",
    "array [1..1] of int: x = [y]; solve satisfy;", "array [1..1] of var int: x; solve satisfy;",
    "array [1..1] of var int: x = y; solve satisfy;", "array [1..1] of 1..2: x = [1]; solve satisfy;",
    "var int: x = [1]; solve satisfy;", "int: x = [1]; solve satisfy;", "var 1..: x; solve satisfy;",
    "var 1: x; solve satisfy;", "var x; solve satisfy;", "var {a}: x; solve satisfy;", "var {1,}: x; solve satisfy;",
    "var {true}: x; solve satisfy;", "var {1..2}: x; solve satisfy;", "int: x = 1..; solve satisfy;",
    "array [1..1] of array [1..1] of int: x = [[1]]; solve satisfy;", "predicate p(,); solve satisfy;",
    "predicate p(var var int: x); solve satisfy;", "predicate p(int x); solve satisfy;", "",
]
MORE_ITEMS = [
    "x = y;", "x = [1,2];", "x = array1d([1]);", "x = array2d(1..2,[1,2]);", "x = array1d(1..2,1..1,[1,2]);",
    "x = array7d(1..1,[1]);", "x = array0d([1]);", "x = array1d(2,[1,2]);", "x = array1d(1..2,[1,y]);",
    "x = array1d(1..2,[1,[2]]);", "x = array1d(1..2,[1,2],);", "x = array1d(1..2,1..2);", "x = array1d(int,[1]);",
    "x = 1", "x = 1;;", "= 1;", "true = 1;", "1 = 1;", "x == 1;", "x = 1, y = 2;", "x = float;", "x = array1d(1..1,[1.5]);",
    "x = 1..2.5;", "x = \"s\";", "x :: a = 1;", "x : 1;", "x = array1d({1.5},[1]);", "solve satisfy;",
    "x = array3d(1..1,1..1,{},[]) y = 1;",
]


def main():
    draw = random.Random(SEED)
    grammar = Grammar(whole_grammar())
    rows, seen, reached = [], set(), set()

    def add(sort, earley, how, tokens):
        text, fault, sets = refusal(earley, tokens)
        if sort == "items":
            # A stream's block is read up to the line of its marker; a block without a line isn't read.
            if not text.strip():
                return False
            if not text.endswith("\n"):
                text += "\n"
                if fault and fault[1][0] == fault[1][1]:
                    fault = (fault[0], (len(text), len(text)))
        if (sort, text) in seen:
            return False
        seen.add((sort, text))
        if fault and sets:
            reached.update(grammar.rules[r][0].split("/")[0].split("@")[0] for r, d, o in sets[-1] if d > 0)
        place = f"{fault[1][0]}..{fault[1][1]}" if fault else "-"
        rows.append((sort, fault[0] if fault else "parses", place, how, json.dumps(text)))
        return True

    bad = 0
    for sort, start, lines, more in (("model", "model", MODELS, MORE), ("items", "items", ITEMS, MORE_ITEMS)):
        earley = Earley(grammar, start)
        for line in lines.strip().splitlines():
            tokens = tokens_of(line)
            assert refusal(earley, tokens)[1] is None, line
            add(sort, earley, "whole", tokens)
            known = line != MODELS.strip().splitlines()[0] and "solve satisfy;" in line
            for at in range(len(tokens) - (3 if known else 0)):
                for how, broken in mutations(draw, tokens, at):
                    if refusal(earley, broken)[1] and add(sort, earley, f"{how} {at}", broken):
                        break
                if draw.random() < 0.1:
                    token, bad = Token(BAD[bad % len(BAD)]), bad + 1
                    # Every other one behind a grammar fault, which it comes before.
                    add(sort, earley, f"bad {at}", (tokens[1:] if bad % 2 else tokens)[:at] + [token] + tokens[at:])
        for line in more:
            add(sort, earley, "by hand", tokens_of(line))
    wanted = {h.split("/")[0].split("@")[0] for h, _ in grammar.rules}
    assert reached == wanted, wanted - reached
    print("# Made by make.py. The columns: what is read, the refusal's name, its place, the mutation, the text.")
    for row in rows:
        print("\t".join(row))


main()
