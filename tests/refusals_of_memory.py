#!/usr/bin/env python3
"""Refuses each allocation in turn while operators on values run and the hub is called, and looks whether all stays as it was:

    python3 tests/refusals_of_memory.py [tests_calls] [tests_hub]

Run by hand, where `rt run` in crates/tests_calls and crates/tests_hub has built the programs (or in the one that is named), with
a C compiler and glibc: for each number N the program runs with its Nth allocation refused. A line that the first prints is the
operator's answer, or says that memory was wanting and shows the operand as it was, or that the operands could not be made. A call
of the hub for which memory was wanting is made again, once it was seen that no entry and no room was lost; then it is answered as
if nothing had been. Where a program itself lacks memory for a line, it ends there. That refusals change nothing is proved; this
shows it run.
"""
import os
import subprocess
import sys
import tempfile
from pathlib import Path

CRATES = Path(__file__).resolve().parent.parent / "crates"
# what stands before malloc and realloc: one of their calls is refused
REFUSES = """
#include <stdio.h>
#include <stdlib.h>
extern void *__libc_malloc(size_t size);
extern void *__libc_realloc(void *old, size_t size);
static long calls, refused;
__attribute__((constructor)) static void begin(void) {
    refused = atol(getenv("REFUSED_ALLOCATION"));
    calls = 0;
}
__attribute__((destructor)) static void end(void) { dprintf(2, "allocations %ld\\n", calls); }
static int is_refused(void) { return ++calls == refused; }
void *malloc(size_t size) { return is_refused() ? NULL : __libc_malloc(size); }
void *realloc(void *old, size_t size) { return is_refused() ? NULL : __libc_realloc(old, size); }
"""
# a line, what it prints where memory is there, and what where memory is wanting: for the operator, and for its operands
VALUES = (
    ("value add 1 2 3 4 5 6 7 8 | 9 10 11 12 13 14 15 16 17 18", "done, 18: 1 18", "no memory, 8: 1 2 3 4 5 6 7 8", "no operands"),
    ("value union 1 2 | 2 3", "3: 1 2 3", "no memory"),
    ("value join ab|cd", "4: abcd", "no memory"),
)
# a line of a job, and what is answered where memory is there
JOB = (
    ("job 2 100 m.mos:0 c.mos:0", "opened"),
    ("give 0", 'Claimed { run: 0, source: 0, params: Text { text: "" } }'),
    ("insist 0 0 compile c.mos c.bim", "Code(0)"),
    ("insist 0 0 load c.bim", "Loaded { model: 1, source: 1 }"),
    ("insist 0 0 run 1 x", "Started { run: 1 }"),
    ("give 1", 'Claimed { run: 1, source: 1, params: Text { text: "x" } }'),
    ("insist 0 0 write shmem:a 5", "Unit"),
    ("insist 1 1 read shmem:a", "Found { place: Place(6), bytes: SharedBlob { blob: Blob { bytes: [5] } } }"),
    ("insist 0 0 pipe_read p", "Session { place: Place(8) }"),
    ("insist 1 1 pipe_write p", "Session { place: Place(8) }"),
    ("insist 1 1 put p 3 7", "Unit"),
    ("insist 0 0 take p", "Bytes(Blob { bytes: [7, 7, 7] })"),
    ("insist 1 1 close p", "Unit"),
    ("insist 0 0 take p", "PipeEnd"),
    ("insist 1 1 send - 2 5", "Queued { run: 0 }"),
    ("insist 0 0 send 1 2 6", "Queued { run: 1 }"),
    ("insist 0 0 peek", "Seen { place: Place(14), class: 2, value: 5 }"),
    ("insist 0 0 next", "Took { place: Place(14), class: 2, value: 5 }"),
    ("insist 1 1 wait", "Unit"),
    ("insist 1 1 drop", "Took { place: Place(15), class: 2, value: 6 }"),
    ("insist 1 1 is_empty", "Flag(true)"),
    ("insist 0 0 status 1", "Number(2)"),
    ("insist 0 0 stop 1", "Unit"),
    ("insist 1 1 peek", "Halt"),
    ("end 1 1 stopped 0", "Unit"),
    ("insist 0 0 exit_code 1", "Number(102)"),
    ("insist 0 0 next", "Took { place: Place(24), class: 1, value: 102 }"),
    ("insist 0 0 run 1 y", "Started { run: 2 }"),
    ("give 1", 'Claimed { run: 2, source: 1, params: Text { text: "y" } }'),
    ("end 1 2 code 7", "Unit"),
    ("insist 0 0 unload 1", "Unit"),
    ("end 0 0 code 0", "Unit"),
    ("insist 0 - claim", "Done"),
    ("give 1", "Done"),
    ("entries", "34"),
)


def job_cases():
    """Each line of the job with what may be printed for it: its answer, or the same after a call that was made again."""
    return tuple((line, f"{line} -> {said}", f"{line} -> again {said}") for line, said in JOB)


def runner(crate, folder):
    """What the crate's program prints for these lines where the allocation of this number is refused, and how many it wants."""
    program, library = CRATES / crate / "out" / crate, Path(folder) / "refuses.so"
    (Path(folder) / "refuses.c").write_text(REFUSES)
    subprocess.run(["cc", "-shared", "-fPIC", "-O1", "-o", library, Path(folder) / "refuses.c"], check=True)

    def run(lines, refused):
        given = "".join(f"{line}\n" for line in lines)
        world = {**os.environ, "LD_PRELOAD": str(library), "REFUSED_ALLOCATION": str(refused)}
        ran = subprocess.run([program], env=world, input=given, capture_output=True, text=True)
        return ran.stdout.splitlines(), int(ran.stderr.rpartition("allocations ")[2])

    return run


def refuse(crate, run, cases, mark):
    """Refuses each allocation in turn; whether each line that is printed is one of those that its case allows."""
    given = [case[0] for case in cases]
    whole, allocations = run(given, 0)
    if whole != [case[1] for case in cases]:
        print(f"{crate}: {whole}")
        return False
    wanting = 0
    for refused in range(1, allocations + 1):
        lines, _ = run(given, refused)
        if not all(line in case[1:] for line, case in zip(lines, cases)):
            print(f"{crate}, allocation {refused}: {lines}")
            return False
        wanting += any(mark in line for line in lines)
    print(f"{crate}: each of {allocations} allocations was refused, {wanting} of them inside a call; all stayed")
    return wanting > 0


def main(names):
    good = True
    with tempfile.TemporaryDirectory(prefix="refusals-") as folder:
        for crate in names or ("tests_calls", "tests_hub"):
            cases, mark = (job_cases(), "again") if crate == "tests_hub" else (VALUES, "no memory")
            good &= refuse(crate, runner(crate, folder), cases, mark)
    return 0 if good else 1


if __name__ == "__main__":
    sys.exit(main(sys.argv[1:]))
