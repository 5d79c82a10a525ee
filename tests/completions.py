#!/usr/bin/env python3
"""Compares what bash and zsh offer behind `fzcheck` with the words that the program has.

    tests/completions.py PROGRAM

Which words there are is read from the crate that asks `clap` for them, and which of them a command
takes is asked of the program. What bash offers is asked of bash; of zsh the file is read."""
import os
import re
import subprocess
import sys
from typing import Set

from expecting import end, expect, first

ROOT = os.path.dirname(os.path.dirname(os.path.abspath(__file__)))
sys.path.insert(0, os.path.join(ROOT, "python"))
from fzcheck.mzn.command import OPTIONS
from fzcheck.solver.configure import OPTIONS as CONFIGURE_OPTIONS

ASK = """source "$0"; COMP_WORDS=("$@"); COMP_CWORD=$(($# - 1)); _%s
echo "${COMPREPLY[@]}" """
BATCH = os.path.join(ROOT, "python", "fzcheck-batch")


def read(path: str) -> str:
    with open(os.path.join(ROOT, path), encoding="utf-8") as file:
        return file.read()


def said(*words: str) -> str:
    """What a command says, on either stream."""
    return subprocess.run(words, text=True, stdin=subprocess.DEVNULL, stdout=subprocess.PIPE,
                          stderr=subprocess.STDOUT, timeout=60).stdout


def by_bash(*words: str, program: str = "fzcheck") -> Set[str]:
    """What bash offers where the last of the words is being written."""
    file = f"{ROOT}/completions/{program}.bash"
    return set(said("bash", "-c", ASK % program.replace("-", "_"), file, program, *words).split())


def compare_batch(check_options: Set[str]) -> None:
    """The options of fzcheck-batch, of which `run` has some of check too."""
    zsh = read("completions/fzcheck-batch.zsh")
    both = set(re.findall(r"(--[a-z-]+)", zsh.split("_arguments")[0]))
    for command in ("run", "report", "merge"):
        told = re.findall(r"^  (-[a-z-]+)(?:, (--[a-z-]+))?", said(BATCH, command, "--help"), re.M)
        own = {it for both_forms in told for it in both_forms if it} - check_options - {"-h"}
        offered = by_bash(command, "-", program="fzcheck-batch")
        expect(f"{command} of fzcheck-batch, by bash", own, {
            it for it in offered if it.split("=")[0] not in check_options})
        branch = re.split(rf"(?m)^  {command}\)", zsh)[1].split(";;")[0]
        found = {it.rstrip("-") for it in re.findall(r"['\"(](--?[a-z-]+)", branch)}
        expect(f"{command} of fzcheck-batch, by zsh", own, (found | both) - check_options)
    expect("commands of fzcheck-batch", {"run", "report", "merge", "--help", "--version"},
           by_bash("", program="fzcheck-batch"))


def compare_fuzzer(program: str) -> None:
    """The options of a program behind whose `--` a solver stands with options of its own."""
    told = said(os.path.join(ROOT, "python", program), "--help")
    own = set(re.findall(r"^  (?:-\w, )?(--[a-z-]+)", told, re.M))
    offered = {it for it in by_bash("-", program=program) if it.startswith("--") and it != "--"}
    expect(f"{program}, by bash", own, offered)
    zsh = read(f"completions/{program}.zsh").split("_arguments")[1]
    expect(f"{program}, by zsh", own, set(re.findall(r"(--[a-z][a-z-]+)", zsh)))
    expect(f"a solver's option after {program}", set(), by_bash("--", "fzn", "-", program=program))


def compare_plans() -> None:
    """The options of fzcheck-mzn, which are read from its list."""
    own = {it.split("=")[0] for it in OPTIONS}
    offered = by_bash("-", program="fzcheck-mzn")
    expect("fzcheck-mzn, by bash", set(OPTIONS), offered)
    zsh = read("completions/fzcheck-mzn.zsh").split("_arguments")[1]
    heads = " ".join(re.findall(r"(?m)^(.*?)\[", zsh))
    found = set(re.findall(r"--?[A-Za-z][a-z-]*", heads))
    expect("fzcheck-mzn, by zsh", own, found)
    expect("a file behind fzcheck-mzn", set(), by_bash("m", program="fzcheck-mzn"))
    for option, value in (("--claims", "prove"), ("--explain", "all")):
        expect(f"{option}= of fzcheck-mzn", {value},
               by_bash(option, "=", program="fzcheck-mzn"))


def compare_configure() -> None:
    own = set(CONFIGURE_OPTIONS)
    expect("fzcheck-configure, by bash", own, by_bash("-", program="fzcheck-configure"))
    zsh = read("completions/fzcheck-configure.zsh").split("_arguments")[1]
    expect("fzcheck-configure, by zsh", own, set(re.findall(r"(--[a-z]+)", zsh)))


def main(program: str) -> int:
    words, zsh = read("crates/fz_command/src/words.rt"), read("completions/fzcheck.zsh")
    options = set(re.findall(r'\("([a-z-]+)", Kind::', words))
    commands = set(first(r"\[subcommands: ([^\n]*)\]", said(program)).split(", "))
    expect("commands, by bash", commands, {it for it in by_bash("") if not it.startswith("-")})
    expect("commands, by zsh", commands, set(re.findall(r"(\w+)\\:", zsh)))
    for command in commands - {"help"}:
        taken = {f"--{it}" for it in options
                 if "unexpected argument" not in said(program, command, f"--{it}")}
        expect(f"{command}, by bash", taken | {"--help"},
               {it.split("=")[0] for it in by_bash(command, "--")})
        branch = first(rf"^  {command}\)\n(.*?);;", zsh)
        expect(f"{command}, by zsh", taken, set(re.findall(r"(--[\w-]+)", branch)))
        expect(f"a file behind {command}", set(), by_bash(command, "m"))
    explained = set(re.findall(r'"(\w+)"', first(r"EXPLAINED.*?= (.*?);", words)))
    expect("--explain=, by bash", explained, by_bash("check", "--explain", "="))
    expect("--explain=a, by bash", {it for it in explained if it.startswith("al")},
           by_bash("check", "--explain", "=", "al"))
    expect("--explain=, by zsh", explained, set(first(r"what:\(([^\n]*)\)", zsh).split()))
    claimed = set(re.findall(r'"(\w+)"', first(r"CLAIMED.*?= (.*?);", words)))
    expect("--claims=, by bash", claimed, by_bash("check", "--claims", "="))
    expect("--claims=p, by bash", claimed, by_bash("check", "--claims", "=", "p"))
    expect("--claims=, by zsh", claimed, set(first(r"how:\(([^\n]*)\)", zsh).split()))
    expect("--complete-steps=, by bash", set(), by_bash("check", "--complete-steps", "="))
    expect("a file behind --names", set(), by_bash("check", "--names", "m"))
    expect("commands behind help, by bash", commands - {"help"}, by_bash("help", ""))
    expect("options, by bash", {"-h", "--help", "-V", "--version"}, by_bash("-"))
    compare_batch({f"--{it}" for it in options})
    compare_plans()
    compare_configure()
    compare_fuzzer("fzcheck-fuzz")
    compare_fuzzer("fzcheck-shrink")
    return end()


if __name__ == "__main__":
    sys.exit(main(sys.argv[1]))
