"""Streams that are packed: which kind a file is, by its first bytes, and what is in it."""
import importlib
import shutil
import subprocess
import tempfile
from typing import IO, Any, Callable, NamedTuple, Optional, Tuple

ENDINGS = (".gz", ".bz2", ".xz", ".zst")  # which a packed stream's name may have
PIECE = 1 << 20


class Kind(NamedTuple):
    """A kind of packed file, and what unpacks it: a module of Python, or else a program."""

    name: str
    first: bytes
    module: str
    program: Tuple[str, ...]


KINDS = (
    Kind("gzip", b"\x1f\x8b", "gzip", ("gzip", "-dc")),
    Kind("bzip2", b"BZh", "bz2", ("bzip2", "-dc")),
    Kind("xz", b"\xfd7zXZ\0", "lzma", ("xz", "-dc")),
    Kind("zstd", b"\x28\xb5\x2f\xfd", "compression.zstd", ("zstd", "-dcq")),
)


class Broken(Exception):
    """A packed file that can't be unpacked, and why."""


class NoProgram(Exception):
    """Nothing on this machine unpacks such a file."""


def kind_of(path: str) -> Optional[Kind]:
    with open(path, "rb", buffering=0) as file:
        first = file.read(max(len(kind.first) for kind in KINDS))
    return next((kind for kind in KINDS if first.startswith(kind.first)), None)


def opener(kind: Kind) -> Optional[Callable[[str], Any]]:
    """What opens such a file, where this Python has it."""
    try:
        found: Callable[[str], Any] = importlib.import_module(kind.module).open
        return found
    except ImportError:
        return None


def unpack(path: str, kind: Kind, file: IO[bytes]) -> None:
    """Writes what is in the packed file into the other one."""
    open_packed = opener(kind)
    if open_packed:
        unpack_by_module(path, kind, open_packed, file)
    elif shutil.which(kind.program[0]):
        with open(path, "rb") as packed:
            ran = subprocess.run(kind.program, stdin=packed, stdout=file, stderr=subprocess.PIPE)
        if ran.returncode:
            words = ran.stderr.decode(errors="replace").strip().splitlines() or ["it ends early"]
            raise Broken(f"this {kind.name} file is broken: {words[0]}")
    else:
        raise NoProgram(f"this is a {kind.name} file: install {kind.program[0]}, or unpack it")


def unpack_by_module(path: str, kind: Kind, open_packed: Callable[[str], Any],
                     file: IO[bytes]) -> None:
    with open_packed(path) as packed:
        while True:
            try:
                piece = packed.read(PIECE)
            except Exception as error:  # each module has errors of its own
                if isinstance(error, OSError) and error.errno:
                    raise
                raise Broken(f"this {kind.name} file is broken: {error}") from None
            if not piece:
                return
            file.write(piece)


class Plain:
    """A stream's file as it is, or without a name where it had to be unpacked: whatever ends the
    process takes it away."""

    def __init__(self, path: str) -> None:
        self.path = path
        self.file: Optional[IO[bytes]] = None
        kind = kind_of(path)
        if kind:
            self.file = tempfile.TemporaryFile(buffering=0)
            try:
                unpack(path, kind, self.file)
            except BaseException:
                self.close()
                raise
            self.path = f"/dev/fd/{self.file.fileno()}"

    def close(self) -> None:
        if self.file:
            self.file.close()
