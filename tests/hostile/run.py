#!/usr/bin/env python3
"""Runs a built program where it is used badly: run.py PROGRAM [CALLS]

Memory that is refused, reads and writes that fail, cuts, texts at the limits and large ones, closed
and full descriptors, little stack and memory, and random texts beside the second checker. CALLS is the
program over the public calls, which calls.py runs. The last line is 'N passed, M failed'."""
import os
import sys
import time
from multiprocessing import Pool
from typing import Any, Tuple

import devices
import fronts
import fuzz
import growths
import large
import outside
import running
import sizes

PAIRS = 20_000  # of random texts
SEED = "1"


def job(test: running.Test, args: Tuple[Any, ...]) -> running.Tally:
    try:
        return test(*args)
    except Exception as error:
        tally = running.Tally()
        tally.check(f"{test.__module__}.{test.__name__} {args}", False, repr(error))
        return tally


def main() -> int:
    program = os.path.abspath(sys.argv[1])
    running.build()
    tally = running.Tally()
    with Pool() as pool:
        for name, jobs in (
            ("sizes", sizes.jobs(program)),
            ("large", large.jobs(program)),
            ("outside", outside.jobs(program)),
            ("devices", devices.jobs(program)),
            ("fronts", fronts.jobs(program)),
            ("growths", growths.jobs(program)),
            ("fuzz", fuzz.jobs(program, PAIRS, SEED)),
        ):
            began, before = time.monotonic(), tally.passed
            for part in pool.starmap(job, list(jobs), chunksize=1):
                tally.add(part)
            seconds = time.monotonic() - began
            passed = tally.passed - before
            print(f"{name}: {passed:,} checks passed, {seconds:.0f} seconds", flush=True)
    if len(sys.argv) > 2:
        import calls

        tally.add(calls.run(os.path.abspath(sys.argv[2])))
    return tally.end()


if __name__ == "__main__":
    sys.exit(main())
