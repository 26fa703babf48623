#!/usr/bin/env python3
"""Times one loop of 10,000,000 passes here, in Lua and in Python:  python3 bench/run.py PROGRAM

PROGRAM is the built program. Each is run five times, by turns, and the least time counts. A peer that is
not installed is left out.
"""
import shutil
import subprocess
import sys
import tempfile
import time
from pathlib import Path

HERE = Path(__file__).resolve().parent
TURNS = 5


def seconds(command, room):
    """How long the command takes, which has to print the number of passes."""
    start = time.perf_counter()
    ran = subprocess.run(command, cwd=room, stdout=subprocess.PIPE, check=True)
    took = time.perf_counter() - start
    assert b"10000000" in ran.stdout, ran.stdout[:200]
    return took


def main(words):
    if len(words) != 1:
        print(__doc__.splitlines()[0], file=sys.stderr)
        return 2
    program = str(Path(words[0]).resolve())
    commands = {"mosel": [program, "run", "loop.mos", "--lanes", "1", "--budget", "30000000"]}
    for name in ("lua5.4", "python3"):
        if shutil.which(name):
            commands[name] = [name, str(HERE / ("loop.lua" if name == "lua5.4" else "loop.py"))]
    with tempfile.TemporaryDirectory(prefix="mosel-bench-") as room:
        shutil.copyfile(HERE / "loop.mos", Path(room) / "loop.mos")
        times = {name: [] for name in commands}
        for _ in range(TURNS):
            for name, command in commands.items():
                times[name].append(seconds(command, room))
    least = {name: min(all_times) for name, all_times in times.items()}
    for name, took in least.items():
        print(f"{name:8} {took:6.3f} s  {took / least['mosel']:5.2f} of mosel's time")
    return 0


if __name__ == "__main__":
    sys.exit(main(sys.argv[1:]))
