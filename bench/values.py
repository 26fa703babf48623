#!/usr/bin/env python3
"""Times sets that grow by one member at a time and are asked for each, here, in Lua and in Python:  python3 bench/values.py PROGRAM

PROGRAM is the built program of crates/tests_calls (`rt run` there leaves it in out/). Each is run three times, by turns, and the
least time counts, without what the same words take for a set of no members. A row has nanoseconds a member, built and asked,
and the ratio to the quicker of the two peers. A peer that is not installed is left out.
"""
import shutil
import subprocess
import sys
import time
from pathlib import Path

TURNS = 3
SIZES = (10_000, 100_000, 1_000_000)
LONGEST = 60.0

# what a member is made of a number by, in Lua and in Python
KEYS = {"grow": ("i", "i"), "grow-mixed": ("i * 7919", "i * 7919"), "grow-texts": ("tostring(i)", "str(i)")}
LUA = """local s = {} for i = 0, N - 1 do s[KEY] = true end
local f = 0 for i = 0, N - 1 do if s[KEY] then f = f + 1 end end print(f)"""
PYTHON = """def run():
    s = set()
    for i in range(N): s.add(KEY)
    f = 0
    for i in range(N):
        if KEY in s: f += 1
    print(f)
run()"""


def filled(program, key, size):
    """The program over so many members."""
    return program.replace("KEY", key).replace("N", str(size))


def commands(program, subject, size):
    """Each peer's words, and what it reads."""
    in_lua, in_python = KEYS[subject]
    found = {"mosel": ([program], f"value {subject} 0..{size}\n".encode())}
    if shutil.which("lua5.4"):
        found["lua5.4"] = (["lua5.4", "-e", filled(LUA, in_lua, size)], b"")
    found["python3"] = ([sys.executable, "-c", filled(PYTHON, in_python, size)], b"")
    return found


def seconds(words, given, size):
    """How long the words take, which have to print the number of members found."""
    start = time.perf_counter()
    ran = subprocess.run(words, input=given, stdout=subprocess.PIPE, check=True, timeout=LONGEST)
    took = time.perf_counter() - start
    assert str(size).encode() in ran.stdout, ran.stdout[:200]
    return took


def least(program, subject, size):
    """Each peer's least time of some turns, which go round."""
    best = {}
    for _ in range(TURNS):
        for name, (words, given) in commands(program, subject, size).items():
            took = seconds(words, given, size)
            best[name] = min(took, best.get(name, took))
    return best


def main(words):
    if len(words) != 1:
        print(__doc__.splitlines()[0], file=sys.stderr)
        return 2
    program = str(Path(words[0]).resolve())
    for subject in KEYS:
        idle = least(program, subject, 0)
        for size in SIZES:
            took = {name: (best - idle[name]) / size * 1e9 for name, best in least(program, subject, size).items()}
            peer = min(ns for name, ns in took.items() if name != "mosel")
            shown = "".join(f"{name} {ns:6.0f}   " for name, ns in took.items())
            print(f"{subject:10} {size:>9}   {shown}ratio {took['mosel'] / peer:.2f}", flush=True)
    return 0


if __name__ == "__main__":
    sys.exit(main(sys.argv[1:]))
