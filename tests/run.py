#!/usr/bin/env python3
"""Runs the black-box cases on a built program:  python3 tests/run.py PROGRAM [WORD..]

With WORDs only the cases whose names have one of them are run. README.md beside this file says what a
case is. The checks of house.py count as cases. The last line is `N passed, M failed`; the exit status is
1 where a case failed, else 0.
"""
import os
import re
import shutil
import subprocess
import sys
import tempfile
from pathlib import Path

import house

TESTS = Path(__file__).resolve().parent
EXAMPLES = TESTS.parent / "examples"
SECONDS = 60
REPEATED = re.compile(rb"\{([0-9]+)\*(.*?)\}", re.S)


def expanded(text):
    """The text with `{N*TEXT}` as N times TEXT."""
    return REPEATED.sub(lambda mark: int(mark[1]) * mark[2], text)


def is_like(wanted, got):
    """Whether the output is as wanted, where `{S}` stands for any number."""
    pieces = wanted.split(b"{S}")
    if len(pieces) == 1:
        return wanted == got
    return re.fullmatch(b"[0-9]+".join(map(re.escape, pieces)), got) is not None


def first_difference(wanted, got):
    """The first line that is not as wanted, in a few words."""
    wanted, got = wanted.split(b"\n"), got.split(b"\n")
    for number in range(max(len(wanted), len(got))):
        one, other = (lines[number] if number < len(lines) else None for lines in (wanted, got))
        if one is None or other is None or not is_like(one, other):
            shown = ["nothing" if it is None else repr(it[:100])[1:] for it in (one, other)]
            return f"line {number + 1} of the output is {shown[1]}, and not {shown[0]}"
    return "the output differs"


def files_in(folder):
    """The files below a folder, by name, with their bytes."""
    paths = [Path(at) / name for at, _, names in os.walk(folder) for name in names]
    return {str(path.relative_to(folder)): path.read_bytes() for path in paths}


class Case:
    """One run of the program: its words, the files that it finds, and what it has to answer."""

    def __init__(self, name, words, stdout, status=0, files=(), made=(), after=(), out=None):
        self.name, self.words, self.stdout, self.status = name, words, stdout, status
        self.files, self.made, self.after, self.out = files, made, after, out

    def lay_out(self, room):
        for path in self.files:
            (shutil.copytree if path.is_dir() else shutil.copyfile)(path, Path(room) / path.name)
        for path in self.made:
            (Path(room) / path.name).write_bytes(expanded(path.read_bytes()))

    def faults(self, program):
        """What is not as it should be, as a list of lines."""
        with tempfile.TemporaryDirectory(prefix="mosel-test-") as room:
            self.lay_out(room)
            before = files_in(room)
            out = open(self.out, "wb") if self.out else subprocess.PIPE
            try:
                ran = subprocess.run([program, *self.words], cwd=room, stdin=subprocess.DEVNULL, stdout=out, stderr=subprocess.PIPE, timeout=SECONDS)
            except subprocess.TimeoutExpired:
                return [f"it had not ended after {SECONDS} seconds"]
            finally:
                if self.out:
                    out.close()
            return [*self.wrong_answers(ran), *self.wrong_files(before, files_in(room))]

    def wrong_answers(self, ran):
        if ran.returncode != self.status:
            yield f"the status is {ran.returncode}, and not {self.status}"
        if not self.out and not is_like(self.stdout, ran.stdout):
            yield first_difference(self.stdout, ran.stdout)
        if ran.stderr:
            yield f"it wrote to standard error: {ran.stderr[:100]!r}"

    def wrong_files(self, before, now):
        wanted = dict(line.partition(" ")[::2] for line in self.after)
        for name in sorted(before.keys() | now.keys() | wanted.keys()):
            is_new = name in now and now[name] != before.get(name)
            if name in wanted and not is_new:
                yield f"{name} was not written"
            elif name in wanted and wanted[name] not in ("", now[name].hex()):
                yield f"{name} has other bytes: {now[name][:100].hex()}"
            elif name not in wanted and now.get(name) != before.get(name):
                yield f"{name} was made, changed or removed"


def lines_of(path):
    return [os.fsdecode(line) for line in path.read_bytes().split(b"\n")[:-1]] if path.is_file() else []


def cases_in(folder):
    """The case of a folder, or one for each line of its table."""
    stdout = expanded((folder / "stdout").read_bytes()) if (folder / "stdout").is_file() else b""
    status = int((lines_of(folder / "status") or ["0"])[0])
    rest = {"files": list(folder.glob("files/*")), "made": list(folder.glob("made/*")), "after": lines_of(folder / "after")}
    rest["out"] = (lines_of(folder / "out") or [None])[0]
    if not (folder / "table").is_file():
        yield Case(folder.name, lines_of(folder / "words"), stdout, status, **rest)
    for line in lines_of(folder / "table"):
        command, has_line, printed = line.partition(" => ")
        said = os.fsencode(printed) + b"\n" if has_line else stdout
        yield Case(f"{folder.name}: {command}", command.split(" "), said, status, **rest)


def example(path):
    """An example's transcript: `$ mosel` with its words on the first line, then the report."""
    command, _, report = path.read_bytes().partition(b"\n")
    words = command.decode().split()[2:]
    files = [EXAMPLES / word for word in words if (EXAMPLES / word).is_file()]
    return Case(f"examples/{path.name}", words, report, files=files, after=[f"{path.stem}.bim"])


class Check:
    """A check of the house as a case."""

    def __init__(self, check):
        self.name, self.check = f"house: {check.__name__}", check

    def faults(self, _program):
        return list(self.check())


def main(words):
    if not words or not os.access(words[0], os.X_OK):
        print(__doc__.splitlines()[0], file=sys.stderr)
        return 2
    program, only = str(Path(words[0]).resolve()), words[1:]
    cases = [case for folder in sorted((TESTS / "cases").iterdir()) for case in cases_in(folder)]
    cases += map(example, sorted(EXAMPLES.glob("*.report")))
    cases += map(Check, house.CHECKS)
    cases = [case for case in cases if not only or any(word in case.name for word in only)]
    failed = 0
    for case in cases:
        faults = case.faults(program)
        failed += bool(faults)
        for fault in faults:
            print(ascii(case.name)[1:-1] + f": {fault}")
    print(f"{len(cases) - failed} passed, {failed} failed")
    return 1 if failed else 0


if __name__ == "__main__":
    sys.exit(main(sys.argv[1:]))
