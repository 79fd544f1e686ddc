"""Times the writing of a page's tree: from the first bytes that the built program writes to its last ones.

Usage: python3 bench/written.py PROGRAM PAGE

PROGRAM is crates/html_serialize/out/html_serialize, as `rt run` or `rt ci` leaves it. The page is parsed before the
first bytes are written, in pieces of the program's buffer.
"""
import subprocess
import sys
import time


def written(program, page):
    """The seconds of the reading, those of the writing, and the bytes that were written."""
    with open(page, "rb") as given:
        began = time.perf_counter()
        process = subprocess.Popen([program], stdin=given, stdout=subprocess.PIPE)
        first = last = None
        size = 0
        while piece := process.stdout.read1(1 << 16):
            last = time.perf_counter()
            first = first or last
            size += len(piece)
    if process.wait() != 0:
        sys.exit("the program failed")
    return first - began, last - first, size


def main():
    program, page = sys.argv[1:]
    for _ in range(5):
        reading, writing, size = written(program, page)
        print(f"read {reading:6.3f} s, wrote {size} bytes in {writing:6.3f} s, {size / writing / 1e6:6.1f} MB/s")


main()
