#!/usr/bin/env python3
"""Times the reading of sources that double in size:  python3 bench/reading.py PROGRAM

PROGRAM is the built program. Each source is of one kind and ends with a fault on its last line, so that it
is read to its end and nothing is run. Each is read forty times, the sizes by turns, and the least time
counts, without the time of an empty source. The last columns are the greatest time a byte by the least, and the
most memory that the program had while it read the largest source, in MiB.
"""
import os
import subprocess
import sys
import tempfile
import time
from pathlib import Path

SIZES = [64 << 10, 128 << 10, 256 << 10, 512 << 10, 1 << 20]
TURNS = 40
FIRST, LAST = b"model m\n", b"x:=\nend-model\n"
KINDS = {
    "statements": b"total:=total+early-late\n",
    "calls of a letter": b"f;",
    "blocks": b"if early<late then\nwriteln(\"early\")\nelse\nwriteln(late)\nend-if\n",
    "sums": b"x:=" + b"+".join([b"1"] * 400) + b"\n",
    "brackets": b"x:=" + b"(" * 400 + b"1" + b")" * 400 + b"\n",
    "texts": b"writeln(\"" + b"a" * 200 + b"\\n\")\n",
    "comments": b"(! a comment of several words !) ! and another\n",
    "newlines": b"\n",
}


def source_of(kind, size):
    """A source of this size, filled up with blanks."""
    room = size - len(FIRST) - len(LAST)
    body = kind * (room // len(kind))
    return FIRST + body + b" " * (room - len(body)) + LAST


def reading(program, room):
    """The seconds that a run takes, and its most memory in MiB."""
    start = time.perf_counter()
    ran = subprocess.Popen([program, "run", "a.mos"], cwd=room, stdout=subprocess.DEVNULL)
    _, status, used = os.wait4(ran.pid, 0)
    took = time.perf_counter() - start
    ran.returncode = os.waitstatus_to_exitcode(status)
    assert ran.returncode == 2, ran.returncode
    return took, used.ru_maxrss / 1024


def least(program, sources):
    """For each source its least time in seconds, and the most memory of the last one."""
    with tempfile.TemporaryDirectory(prefix="mosel-bench-") as room:
        readings = [[] for _ in sources]
        for _ in range(TURNS):
            for source, taken in zip(sources, readings):
                (Path(room) / "a.mos").write_bytes(source)
                taken.append(reading(program, room))
    return [min(took for took, _ in taken) for taken in readings], max(memory for _, memory in readings[-1])


def main(words):
    if len(words) != 1:
        print(__doc__.splitlines()[0], file=sys.stderr)
        return 2
    program = str(Path(words[0]).resolve())
    print("nanoseconds a byte" + "".join(f"{size >> 10:8} KiB" for size in SIZES) + "  spread     MiB")
    for name, kind in KINDS.items():
        (empty, *times), memory = least(program, [b""] + [source_of(kind, size) for size in SIZES])
        each = [(took - empty) * 1e9 / size for took, size in zip(times, SIZES)]
        print(f"{name:18}" + "".join(f"{one:12.1f}" for one in each) + f"{max(each) / min(each):8.2f}{memory:8.0f}")
    return 0


if __name__ == "__main__":
    sys.exit(main(sys.argv[1:]))
