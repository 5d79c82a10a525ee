"""What the environment asks of a solver that is checked (docs/MINIZINC.md)."""
import os

VERBOSE, HOLD, LIBRARY, STRICT, PATHS = (
    os.environ.get(f"FZCHECK_{name}", "0") not in ("", "0")
    for name in ("VERBOSE", "HOLD", "LIBRARY", "STRICT", "PATHS"))
