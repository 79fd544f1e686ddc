#!/usr/bin/env python3
"""Runs tests of a built test program with each of their requests for memory refused in turn.

    bench/refused_tests.py PROGRAM TEST..

Each is a test that holds either way. A line is of a test: the requests of its run, each of which was refused, and
how many of these runs failed, each of which is reported.
"""

import os
import subprocess
import sys
import tempfile

from refused_pages import Runs, built_library


def main():
    if len(sys.argv) < 3:
        sys.exit(__doc__)
    program, failed_at_all = os.path.abspath(sys.argv[1]), False
    with tempfile.TemporaryDirectory() as room:
        built_library(room)
        for test in sys.argv[2:]:
            runs = Runs(room, [program, test])
            status, _, errors = runs.run(0)
            if status != 0:
                sys.exit(f"{test} fails where nothing is refused: {errors[:200]!r}")
            requests, failed = runs.requests(), 0
            for number in range(1, requests + 1):
                status, out, errors = runs.run(number)
                if status != 0:
                    failed += 1
                    print(f"{test}, request {number}: status {status}, {(out + errors)[-300:]!r}", flush=True)
            print(f"{test}: {failed} of {requests:,} failed", flush=True)
            failed_at_all = failed_at_all or failed > 0
    sys.exit(1 if failed_at_all else 0)


if __name__ == "__main__":
    main()
