#!/usr/bin/env python3
"""Times calls of the hub on journals of three lengths, and the events of one child:  python3 bench/hub.py PROGRAM

PROGRAM is the built program of crates/tests_hub (`rt run` there leaves it in out/). A first table has, for each kind of call, the
nanoseconds and bytes of memory of one call while a journal grows to 10,000, 100,000 and 1,000,000 entries, and the greatest by
the least of each. The time is that of a processor for a million calls: in 100 jobs one after the other, in ten, in one. The
memory is what one job holds at its end. A second table has the same time of an event that a child sends and the master takes,
here, in Erlang (with one scheduler) and in Python. Each is run five times, and the least counts, without what the same words take
for no calls. A peer that is not installed is left out.
"""
import os
import shutil
import subprocess
import sys
import tempfile
import threading
from pathlib import Path

TURNS = 5
SIZES = (10_000, 100_000, 1_000_000)
MANY_EVENTS = 499_000
# how many events wait at most, since a queue holds 65,536
WAITING = 50_000

# a job of two lanes: run 0 is the master's, run 1 the child's, and the pipe p goes from the child to the master
JOB = """job 2 1000000000 m.mos:0 c.mos:0
room 1000100
0 - claim
0 0 compile c.mos c.bim
0 0 load c.bim
0 0 run 1 x
1 - claim
0 0 pipe_read p
1 1 pipe_write p
"""
OPENED = 8


def many(calls, *parts):
    """Lines that make so many calls in all, by turns of the parts: each is a lane, a run and a call."""
    turn = min(WAITING, max(1, calls // len(parts)))
    lines, left = [], calls
    while left > 0:
        for part in parts:
            some = min(turn, left)
            if some:
                lines.append(f"times {some} {part}\n")
            left -= some
    return "".join(lines)


def piped(calls):
    """The same of puts of a byte into a pipe, up to all that may wait in it, and a take of them."""
    whole, rest = divmod(calls, 4_097)
    return "times 4096 1 1 put p 1 7\n0 0 take p\n" * whole + (f"times {rest} 1 1 put p 1 7\n" if rest else "")


# each kind of call, and the lines for so many
KINDS = {
    "is_empty": lambda calls: many(calls, "0 0 is_empty"),
    "status": lambda calls: many(calls, "0 0 status 1"),
    "write": lambda calls: many(calls, "0 0 write d.dat 7"),
    "send, next": lambda calls: many(calls, "1 1 send - 5 7", "0 0 next"),
    "put, take": piped,
}

ERLANG = """-module(events).
-export([main/1]).
main([Word]) ->
    All = list_to_integer(Word),
    Self = self(),
    spawn(fun() -> send(Self, All) end),
    take(All).
send(_, 0) -> ok;
send(To, N) -> To ! {5, 7}, send(To, N - 1).
take(0) -> io:format("done~n"), halt();
take(N) -> receive {5, 7} -> take(N - 1) end.
"""

PYTHON = """import sys
from collections import deque
def run(events, waiting):
    queue, taken = deque(), 0
    while events:
        some = min(waiting, events)
        for _ in range(some): queue.append((5, 7))
        for _ in range(some):
            queue.popleft()
            taken += 1
        events -= some
    print(taken)
run(int(sys.argv[1]), int(sys.argv[2]))
"""


def ran(words, given):
    """The seconds of a processor that the words take, and what they print at the end; they have to end well."""
    with tempfile.TemporaryFile() as source, tempfile.TemporaryFile() as printed:
        source.write(given)
        source.seek(0)
        child = subprocess.Popen(words, stdin=source, stdout=printed)
        _, status, usage = os.wait4(child.pid, 0)
        child.returncode = os.waitstatus_to_exitcode(status)
        assert child.returncode == 0, words
        printed.seek(max(0, printed.seek(0, os.SEEK_END) - 200))
        return usage.ru_utime + usage.ru_stime, printed.read()


def lines_of(kind, calls, jobs=1):
    """What a program reads in which so many calls of this kind are made in each of so many jobs."""
    return ((JOB + KINDS[kind](calls) + "entries\n") * jobs).encode()


def seconds(program, kind, calls, jobs):
    """The seconds of a processor for them."""
    took, last = ran([program], lines_of(kind, calls, jobs))
    assert last.split()[-1] == str(calls + OPENED).encode(), last
    return took


def held(program, kind, calls):
    """The bytes of memory that the program has written to at the end of a job with so many calls."""
    with subprocess.Popen([program], stdin=subprocess.PIPE, stdout=subprocess.PIPE) as child:
        writer = threading.Thread(target=lambda: (child.stdin.write(lines_of(kind, calls)), child.stdin.flush()))
        writer.start()
        for line in child.stdout:
            if line.startswith(b"entries"):
                break
        status = Path(f"/proc/{child.pid}/status").read_text()
        writer.join()
        child.stdin.close()
    return int(status.partition("RssAnon:")[2].split()[0]) * 1024


def time_of_call(program, kind):
    """The nanoseconds of a call in a journal of each size."""
    tries = {size: [] for size in SIZES}
    for _ in range(TURNS):
        for size in SIZES:
            calls, jobs = size - OPENED, SIZES[-1] // size
            tries[size].append((seconds(program, kind, calls, jobs), seconds(program, kind, 0, jobs)))
    least = {size: [min(column) for column in zip(*tries[size])] for size in SIZES}
    return [(took - idle) / (size - OPENED) / (SIZES[-1] // size) * 1e9 for size, (took, idle) in least.items()]


def room_of_call(program, kind):
    """The bytes of a call in a journal of each size."""
    bare = held(program, kind, 0)
    return [(held(program, kind, size - OPENED) - bare) / (size - OPENED) for size in SIZES]


def lengths(program):
    """The first table."""
    for kind in KINDS:
        times, rooms = time_of_call(program, kind), room_of_call(program, kind)
        shown = "".join(f"{ns:8.0f} ns {room:7.1f} bytes" for ns, room in zip(times, rooms))
        print(f"{kind:12}{shown}   spread {max(times) / min(times):.2f}, {max(rooms) / min(rooms):.2f}", flush=True)


def peers(program, folder):
    """Each peer's words for so many events, and what it reads."""
    found = {"hub": lambda events: ([program], (JOB + KINDS["send, next"](2 * events)).encode())}
    if shutil.which("erlc") and shutil.which("erl"):
        (Path(folder) / "events.erl").write_text(ERLANG)
        subprocess.run(["erlc", "events.erl"], cwd=folder, check=True)
        found["erlang"] = lambda events: (["erl", "+S", "1", "-noshell", "-pa", folder, "-run", "events", "main", str(events)], b"")
    found["python3"] = lambda events: ([sys.executable, "-c", PYTHON, str(events), str(WAITING)], b"")
    return found


def events(program):
    """The second table."""
    with tempfile.TemporaryDirectory(prefix="hub-bench-") as folder:
        found = peers(program, folder)
        for name, words in found.items():
            idle = min(ran(*words(1))[0] for _ in range(TURNS))
            took = min(ran(*words(MANY_EVENTS))[0] for _ in range(TURNS))
            print(f"{name:12}{(took - idle) / MANY_EVENTS * 1e9:8.0f} ns an event", flush=True)


def main(words):
    if len(words) != 1:
        print(__doc__.splitlines()[0], file=sys.stderr)
        return 2
    program = str(Path(words[0]).resolve())
    lengths(program)
    events(program)
    return 0


if __name__ == "__main__":
    sys.exit(main(sys.argv[1:]))
