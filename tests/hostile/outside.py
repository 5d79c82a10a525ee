"""What stands around the program: its descriptors, its files, its stack and its memory."""
import contextlib
import os
import shutil
import subprocess
import tempfile
import time
from typing import Any, Dict, Tuple

from beside import FIRST_MODEL, FIRST_STREAM, content, examples
from running import FOLDER, ROOT, Answer, Jobs, Ran, Tally, opened, run

ACCEPTED = 0, b"block 1: satisfied\naccepted: blocks 1\n", b""
INPUT = "(standard input)"
WRITE = 6, b"", b"refused: write\n"
MEMORY = 7, b"refused: memory\n"
NOBODY = 65_534

STACK, STACK_UNPROVED = 80, 160  # KB
UNPROVED = os.path.join(ROOT, "build", "unproved", "")  # where programs without proof are
LEAST_MEMORY, MOST_MEMORY = 4_096, 131_072  # KB of address space
DEEP = b"solve :: " + b"a([" * 31 + b"a" + b"])" * 31 + b" satisfy;\n"


def unread(name: str, message: str) -> Answer:
    """The answer where a file can't be opened or read, and what the system says of it."""
    return 6, b"", f"refused: read\n{name}: {message}\n".encode()


def in_shell(script: str, *words: str, **more: Any) -> Ran:
    """Runs words by a shell that first does what the script says."""
    return run(["sh", "-c", script, "sh", *words], **more)


def closed(program: str) -> Tally:
    """A standard stream that is closed. Files that are opened must not take its place."""
    tally = Tally()
    both = [program, "check", FIRST_MODEL, FIRST_STREAM]
    alone = [program, "check", FIRST_MODEL]
    missing = [program, "check", FIRST_MODEL + ".none"]
    show = [program, "show", FIRST_MODEL]
    as_json = [program, "check", "--json", FIRST_MODEL, FIRST_STREAM]
    for name, script, words, want in (
        ("standard input, which is wanted", '"$@" <&-', alone, unread(INPUT, "Bad file descriptor")),
        ("standard input, which isn't wanted", '"$@" <&-', both, ACCEPTED),
        ("standard input, and show", '"$@" <&-', show, (0, content(FIRST_MODEL), b"")),
        ("standard output", '"$@" >&-', both, WRITE),
        ("standard output, and show", '"$@" >&-', show, WRITE),
        ("standard output, and JSON", '"$@" >&-', as_json, WRITE),
        ("standard output and input", '"$@" >&- <&-', both, WRITE),
        ("standard error", '"$@" 2>&-', missing, (6, b"", b"")),
        ("all three", '"$@" <&- >&- 2>&-', both, (6, b"", b"")),
    ):
        tally.expect(f"closed: {name}", in_shell(script, *words).answer, want)
    return tally


def full(program: str) -> Tally:
    tally = Tally()
    for form in (), ("--json",):
        words = [program, "check", *form, FIRST_MODEL, FIRST_STREAM]
        tally.expect(f"/dev/full {form}", in_shell('"$@" >/dev/full', *words).answer, WRITE)
    shown = in_shell('"$@" >/dev/full', program, "show", FIRST_MODEL)
    tally.expect("/dev/full, and show", shown.answer, WRITE)
    refused = in_shell('"$@" 2>/dev/full', program, "check", FIRST_MODEL + ".none")
    tally.expect("/dev/full as standard error", refused.answer, (6, b"", b""))
    return tally


def no_reader(program: str) -> Tally:
    """A pipe that nobody reads is a write that fails: the program isn't ended by the signal of
    it."""
    tally = Tally()
    check = "check", FIRST_MODEL, FIRST_STREAM
    for words in check, (*check, "--json"), ("show", FIRST_MODEL):
        source, to = os.pipe()
        os.close(source)
        ran = run([program, *words], stdout=to)
        os.close(to)
        tally.expect(f"a pipe without reader, {words}", ran.answer, WRITE)
    return tally


def files(program: str) -> Tally:
    """A folder, a missing file, one without leave to read, an endless one."""
    tally = Tally()
    with tempfile.TemporaryDirectory(dir=FOLDER) as folder:
        missing = os.path.join(folder, "none")
        below, none, is_folder = FIRST_MODEL + "/x", "No such file or directory", "Is a directory"
        for name, model, stream, want in (
            ("a folder for a model", folder, FIRST_STREAM, unread(folder, is_folder)),
            ("a folder for a stream", FIRST_MODEL, folder, unread(folder, is_folder)),
            ("no model", missing, FIRST_STREAM, unread(missing, none)),
            ("no stream", FIRST_MODEL, missing, unread(missing, none)),
            ("a model below a file", below, FIRST_STREAM, unread(below, "Not a directory")),
            ("an empty name", "", FIRST_STREAM, unread("", none)),
        ):
            tally.expect(name, run([program, "check", model, stream]).answer, want)
        with open(os.path.join(folder, "x"), "wb"):
            pass
        here = os.open(folder, os.O_RDONLY)
        ran = run([program, "check", FIRST_MODEL], stdin=here)
        os.close(here)
        tally.expect("a folder on standard input", ran.answer, unread(INPUT, is_folder))
    endless = run([program, "check", "/dev/zero", FIRST_STREAM]).answer
    tally.expect("an endless model", endless, (4, b"", b"refused: model: TooLong\n"))
    endless = run([program, "check", FIRST_MODEL, "/dev/zero"]).answer
    tally.expect("an endless stream", endless, (4, b"", b"refused: stream: TooLong\n"))
    return tally


def as_another() -> Dict[str, Any]:
    """How to run a program as a user that may not read all, as the superuser may."""
    return {"user": NOBODY, "group": NOBODY, "extra_groups": []} if os.getuid() == 0 else {}


def no_leave(program: str) -> Tally:
    """Files that the user may not read. Where no program can be run as another, nothing is
    tried."""
    tally = Tally()
    with tempfile.TemporaryDirectory() as folder:
        os.chmod(folder, 0o755)
        copies = [shutil.copy(path, folder) for path in (program, FIRST_MODEL, FIRST_STREAM)]
        words, more = [copies[0], "check", *copies[1:]], as_another()
        try:
            tally.expect("leave to read", run(words, **more).answer, ACCEPTED)
        except PermissionError:
            print("outside: files without leave to read weren't tried: nothing runs as another")
            return tally
        for at in (1, 2):
            os.chmod(copies[at], 0)
            want = unread(copies[at], "Permission denied")
            tally.expect(f"no leave to read {copies[at]}", run(words, **more).answer, want)
            os.chmod(copies[at], 0o644)
    return tally


def little_stack(program: str) -> Tally:
    """A stack of 80 KB gives what an ample one gives. A program without proof is compiled
    otherwise, and wants more."""
    tally, stack = Tally(), STACK
    if program.startswith(UNPROVED):
        stack = STACK_UNPROVED
        print(f"outside: {stack} KB of stack, and not {STACK}, for a build without proof")
    limited = f'ulimit -s {stack}; exec env -i "$@"'
    for name, model, stream in examples():
        for words in (
            [program, "check", model, stream],
            [program, "check", "--explain", model, stream],
            [program, "show", model],
        ):
            ran = in_shell(limited, *words)
            tally.expect(f"{stack} KB of stack: {name}", ran.answer, run(words).answer)
    for words in ([program, "check", "/dev/stdin", FIRST_STREAM], [program, "show", "/dev/stdin"]):
        ran = in_shell(limited, *words, stdin=DEEP)
        tally.expect(f"{stack} KB of stack: 32 levels", ran.answer, run(words, DEEP).answer)
    return tally


def all_shown(terminal: int) -> bytes:
    """What a terminal got until nobody writes to it any more: it may come in several pieces, and
    its end is told as an error."""
    shown = b""
    with contextlib.suppress(OSError):
        while piece := os.read(terminal, 1_000):
            shown += piece
    os.close(terminal)
    return shown


def waiting(program: str) -> Tally:
    """Where standard error is a terminal and standard output isn't, a line tells after two seconds
    how far the check is, and is gone at the end."""
    tally = Tally()
    terminal, err = os.openpty()
    block = content(FIRST_STREAM)
    with subprocess.Popen(
        [program, "check", FIRST_MODEL], stdin=subprocess.PIPE, stdout=subprocess.PIPE, stderr=err
    ) as process:
        to, out = opened(process.stdin), opened(process.stdout)
        to.write(block)
        to.flush()
        first = out.readline()
        time.sleep(2.2)
        to.write(block)
        to.close()
        rest = out.read()
    os.close(err)
    shown = all_shown(terminal)
    line = b"2 blocks, all satisfied so far"
    report = b"block 1: satisfied\nblock 2: satisfied\naccepted: blocks 2\n"
    tally.expect("a terminal: the report", first + rest, report)
    tally.expect("a terminal: the line", shown, line + b"\r" + b" " * len(line) + b"\r")
    return tally


def large_pair(folder: str) -> Tuple[str, str]:
    """A model and a stream of some hundred KB, whose memory a limit can cut anywhere."""
    model, stream = os.path.join(folder, "model.fzn"), os.path.join(folder, "stream.txt")
    count = 10_000
    with open(model, "w") as f:
        f.writelines(f"var 0..9: x{i} :: output_var;\n" for i in range(count))
        f.writelines(f"constraint int_le(x{i},x{i + 1});\n" for i in range(count - 1))
        f.write("solve satisfy;\n")
    with open(stream, "w") as f:
        f.writelines(f"x{i} = {9 * i // count};\n" for i in range(count))
        f.write("----------\n")
    return model, stream


def little_memory(program: str) -> Tally:
    """Limits of memory from 4 MB up: out of memory, or the full answer."""
    tally = Tally()
    with tempfile.TemporaryDirectory(dir=FOLDER) as folder:
        for name, model, stream in [*examples()[:2], ("large", *large_pair(folder))]:
            words = [program, "check", model, stream]
            ample = run(words).answer
            limit, whole = LEAST_MEMORY, False
            while limit <= MOST_MEMORY:
                ran = in_shell(f'ulimit -v {limit}; exec "$@"', *words)
                whole = ran.answer == ample
                wants = (ran.status, ran.err) == MEMORY and ample[1].startswith(ran.out)
                tally.check(f"{limit} KB of memory: {name}", whole or wants, ran)
                limit += limit // 16
            tally.check(f"{MOST_MEMORY} KB of memory suffice: {name}", whole)
    return tally


def jobs(program: str) -> Jobs:
    tests = closed, full, no_reader, files, no_leave, waiting, little_stack, little_memory
    return [(test, (program,)) for test in tests]
