#!/usr/bin/env python3
"""Checks of the house itself:  python3 tests/house.py [--write]

Each check looks at the files alone and takes no time: that a crate's proofs lean on the contracts of the crates below and not
on their proofs; how long the longest chain of crates is; that docs/definitions.md is what the definitions say (`--write` writes
it); that no clause of a function which other crates can call leads to a definition that only says how the code goes about it;
that each place that docs/extending.md names is there; that the paths and links of all pages lead somewhere; and that clauses can
be read aloud. tests/run.py counts each of them as a case. The last line is `N passed, M failed`; the exit status is 1 where a
check failed, else 0.
"""
import re
import sys
from pathlib import Path

TOP = Path(__file__).resolve().parent.parent
CRATES = TOP / "crates"
DEFINITIONS = TOP / "docs" / "definitions.md"
EXTENDING = TOP / "docs" / "extending.md"
LONGEST_CHAIN = 8
CHAIN_PERCENT = 48
WIDEST, WIDE, WIDE_PERCENT = 160, 100, 3
NAME = r"[^\s(){}\[\].,;:λ]+"


def crates():
    """Each crate of the repository with those that it stands on, as crates.txt says."""
    found = {}
    for line in (TOP / "crates.txt").read_text().splitlines():
        head, colon, rest = line.partition(":")
        if colon and not line.startswith("#"):
            found[head.split()[0]] = rest.split()
    return {crate: [low for low in lows if low in found] for crate, lows in found.items()}


def files(crate, folder, ending):
    return sorted((CRATES / crate / folder).rglob(f"*{ending}"))


# A crate's proofs cite contracts and definitions of other crates, and none of their proofs.
def foreign_proofs():
    for crate in crates():
        for path in files(crate, "proofs", ".antt"):
            for other in re.findall(r"\bRattle\.(\w+)\.proofs\b", path.read_text()):
                if other != crate and other in crates():
                    yield f"{path.relative_to(TOP)} cites the proofs of {other}"


def is_test(crate):
    return crate.startswith("tests_")


def lines_of(crate):
    paths = [*files(crate, "src", ".rt"), *files(crate, "specs", ".antt"), *files(crate, "proofs", ".antt")]
    return sum(len(path.read_bytes().splitlines()) for path in paths)


def heaviest(below, weight):
    """The chain of crates, one behind the other, with the greatest weight."""
    best = {}

    def chain(crate):
        if crate not in best:
            under = max((chain(low) for low in below[crate]), default=(0, []))
            best[crate] = (under[0] + weight[crate], [*under[1], crate])
        return best[crate]

    return max(map(chain, below))


def chains():
    below = {crate: lows for crate, lows in crates().items() if not is_test(crate)}
    lines = {crate: lines_of(crate) for crate in below}
    count, longest = heaviest(below, dict.fromkeys(below, 1))
    if count > LONGEST_CHAIN:
        yield f"{count} crates stand on one another: {' '.join(longest)}"
    heavy, chain = heaviest(below, lines)
    if heavy * 100 > CHAIN_PERCENT * sum(lines.values()):
        yield f"{heavy * 100 / sum(lines.values()):.1f} percent of all lines lie on the chain {' '.join(chain)}"


GROUP = re.compile(r"(?:abbrev )?mutual$|module _ .*where$")


class Module:
    """A file of definitions: its first sentence, what it imports, and each definition with its comment and text."""

    def __init__(self, crate, path):
        self.crate, self.path = crate, path
        self.imports, self.aliases, self.definitions = {}, {}, {}
        self.sentence = ""
        if path.is_file():
            self.read(path.read_text())

    def read(self, text):
        comment, current, inside, above = [], None, False, []
        for line in joined_imports(text).splitlines():
            if line.lstrip().startswith("-- "):
                comment.append(line.strip().lstrip("- "))
            elif not line.strip():
                self.sentence = self.sentence or " ".join(comment)
                comment = []
            elif line.startswith("use "):
                self.sentence = self.sentence or " ".join(comment)
                self.imports.update(imported(line))
                self.aliases.update(alias_of(line))
            elif GROUP.match(line):
                inside, above, comment = True, comment, []
            elif name := self.begun(line, inside):
                current = name
                self.definitions[current] = [" ".join(comment or above), line]
                comment, above = [], []
                inside = inside and line.startswith(" ")
            elif current:
                self.definitions[current][1] += "\n" + line
                comment = []

    @staticmethod
    def begun(line, inside):
        """The definition that begins here: at the left edge, or one step in where definitions stand in a group."""
        found = re.match(rf"(  )?(?:abbrev |unfoldable )*pub (?:abbrev |unfoldable )*(?:record |data )?({NAME})(?=[ :]|$)", line)
        return found[2] if found and found[2] != "mod" and (inside or not found[1]) else None

    def cited(self, definition):
        """Each definition that this one names, as its crate, module and own name."""
        text = self.definitions[definition][1]
        for alias, word in re.findall(rf"(?<![\w.])(\w+)\.({NAME})", text):
            if alias in self.aliases:
                yield (*self.aliases[alias], word)
        for word in re.findall(NAME, text):
            if word in self.definitions:
                yield (self.crate, self.name(), word)
            elif word in self.imports:
                yield self.imports[word]

    def name(self):
        return ".".join(self.path.relative_to(CRATES / self.crate / "specs").with_suffix("").parts)


def joined_imports(text):
    return re.sub(r"^use [^;\n]*\{[^}]*\}", lambda found: re.sub(r"\s*\n\s*", " ", found[0]), text, flags=re.M)


def imported(line):
    """The names that a line `use Rattle.CRATE.specs.MODULE.{A, B as C}` brings, with their crates, modules and own names."""
    found = re.match(r"(?:ghost )?use Rattle\.(\w+)\.specs\.([\w.]+?)\.\{(.*)\}", line)
    if not found or found[2].startswith("declared"):
        return {}
    names = [name.strip().partition(" as ") for name in found[3].split(",")]
    return {(new or old).strip(): (found[1], found[2], old.strip()) for old, _, new in names}


def alias_of(line):
    """The name that a line `use Rattle.CRATE.specs.MODULE [as NAME]` gives a whole module."""
    found = re.match(r"use Rattle\.(\w+)\.specs\.([\w.]+?)(?: as (\w+))?$", line)
    if not found or found[2].startswith("declared"):
        return {}
    return {found[3] or found[2].split(".")[-1]: (found[1], found[2])}


def clauses(text):
    """The lines of each clause of a text, with the number of the first."""
    number, lines, depth = 0, [], 0
    for at, line in enumerate(text.splitlines(), 1):
        if not lines and re.match(r"\s*(ensures|requires)\b", line):
            number, depth = at, 0
        if number:
            lines.append(line)
            depth += line.count("{") - line.count("}")
            if depth <= 0:
                yield number, lines
                number, lines = 0, []


class Reading:
    """The definitions behind clauses, in the order in which a reader meets them."""

    def __init__(self):
        self.modules, self.met = {}, {}

    def read(self, text, parts):
        """Reads the clauses of these parts of the text of a file."""
        uses, aliases = {}, {}
        for line in re.findall(r"ghost (use [^;]+);", text):
            line = re.sub(r"\s+", " ", line)
            uses.update(imported(line))
            aliases.update(alias_of(line))
        for clause in (" ".join(lines) for part in parts for _, lines in clauses(part)):
            for alias, word in re.findall(rf"(?<![\w.])(\w+)\.({NAME})", clause):
                if alias in aliases:
                    self.meet(*aliases[alias], word)
            for name in re.findall(NAME, clause):
                if name in uses:
                    self.meet(*uses[name])
        return self

    def module(self, crate, name):
        if (crate, name) not in self.modules:
            path = CRATES / crate / "specs" / (name.replace(".", "/") + ".antt")
            self.modules[crate, name] = Module(crate, path)
        return self.modules[crate, name]

    def meet(self, crate, name, definition):
        module = self.module(crate, name)
        met = self.met.setdefault((crate, name), [])
        if definition in met or definition not in module.definitions:
            return
        met.append(definition)
        for place in module.cited(definition):
            self.meet(*place)

    def page(self):
        lines = [
            "# The definitions behind the promise",
            "",
            "Each definition that the clauses of the top call, `mosel_run::tool`, lead to, in the order in which a reader meets",
            "them. `python3 tests/house.py --write` writes this page from the files.",
        ]
        count = 0
        for (crate, name), met in self.met.items():
            if met:
                module = self.modules[crate, name]
                lines += ["", f"## `{module.path.relative_to(TOP)}`", ""]
                lines += [module.sentence, ""] * bool(module.sentence)
                lines += ["| definition | what it is |", "|---|---|"]
                lines += [f"| `{one}` | {module.definitions[one][0].replace('|', chr(92) + '|')} |" for one in met]
                count += len(met)
        lines.insert(4, f"They are {count} definitions in {sum(map(bool, self.met.values()))} files.")
        return "\n".join(lines) + "\n"


def functions(text):
    """Each function of a text: its name, the type or trait around it, whether it begins with `pub`, and its head with its clauses."""
    owner = ""
    for found in re.finditer(r"^(?:pub )?trait (\w+)|^impl\b[^{]*?\b(\w+)(?:<[^{]*>)? \{|^\}|^( *)(pub )?fn (\w+)\b.*?(?:;|\n\3\{)", text, re.M | re.S):
        if found[5]:
            yield found[5], owner if found[3] else "", bool(found[4]), found[0]
        else:
            owner = found[1] or found[2] or ""


def exported(crate):
    """The parts of each file of a crate that are heads of functions which other crates can call."""
    root = CRATES / crate / "src" / "lib.rt"
    if not root.is_file():
        return
    names = set(re.findall(r"\w+", " ".join(re.findall(r"pub use ([^;]+);", root.read_text()))))
    opened = set(re.findall(r"pub mod (\w+);", root.read_text()))
    for path in files(crate, "src", ".rt"):
        text = path.read_text()
        traits = re.findall(r"^pub trait (\w+)", text, re.M)
        heads = [
            head
            for name, owner, public, head in functions(text)
            if (owner in names and (public or owner in traits)) or (not owner and public and (name in names or path == root or path.stem in opened))
        ]
        yield path, text, heads


def promise():
    crate = "mosel_run"
    for path in files(crate, "src", ".rt"):
        text = path.read_text()
        for name, _, public, head in functions(text):
            if public and name == "tool":
                return Reading().read(text, [head])


def definitions():
    if not DEFINITIONS.is_file() or DEFINITIONS.read_text() != promise().page():
        yield "docs/definitions.md is old: python3 tests/house.py --write writes it"


# What the code is like is no part of a promise: files that begin with "As the code" or its like stand behind no clause of a
# function that other crates can call.
def models():
    for crate in crates():
        for path, text, heads in exported(crate):
            reading = Reading().read(text, heads)
            for place, met in reading.met.items():
                module = reading.modules[place]
                if met and module.sentence.startswith("As the "):
                    yield f"{module.path.relative_to(TOP)} says how the code goes about it, and stands behind {path.relative_to(TOP)}: {met[0]}"


# Each row `| `path` | `word` | ..` of the page names a place that is there: the file has the word.
def extending():
    rows = re.findall(r"^\| `([^`]+)` \| `([^`]+)` \|", EXTENDING.read_text(), re.M) if EXTENDING.is_file() else []
    if not rows:
        yield "docs/extending.md names no place"
    for path, word in rows:
        if not (TOP / path).is_file():
            yield f"docs/extending.md names {path}, which is not there"
        elif word not in (TOP / path).read_text():
            yield f"docs/extending.md names {word} in {path}, which does not have it"


# Each path and each link of a page leads to what is there, no page is half merged, and each crate says in a page of its own what it is.
def pages():
    for page in [TOP / "README.md", *TOP.glob("docs/*.md"), *TOP.glob("*/README.md"), *CRATES.glob("*/README.md")]:
        text = page.read_text()
        if re.search(r"^(<{7}|={7}$|>{7})", text, re.M):
            yield f"{page.relative_to(TOP)} has the marks of a merge that was not finished"
        paths = re.findall(r"`((?:crates|docs|examples|tests|bench)/[\w./+-]+)`", text)
        links = [page.parent / link for link in re.findall(r"\]\(([^)#:]+)(?:#[^)]*)?\)", text)]
        for path in [*(TOP / path for path in paths if "/out/" not in path), *links]:
            if not path.exists():
                yield f"{page.relative_to(TOP)} names {path}, which is not there"
    for crate in crates():
        if not is_test(crate) and not (CRATES / crate / "README.md").is_file():
            yield f"{crate} has no README.md"


def wide_clauses():
    """Clauses that are too wide to be read aloud, each by its widest line."""
    widths = []
    for crate in crates():
        for path in files(crate, "src", ".rt"):
            widths += [(max(map(len, lines)), f"{path.relative_to(TOP)}:{number}") for number, lines in clauses(path.read_text())]
    for width, place in sorted(widths, reverse=True):
        if width > WIDEST:
            yield f"{place}: a clause of {width} columns"
    wide = sum(width > WIDE for width, _ in widths)
    if wide * 100 > WIDE_PERCENT * len(widths):
        yield f"{wide} of {len(widths)} clauses have more than {WIDE} columns"


CHECKS = [foreign_proofs, chains, definitions, models, extending, pages, wide_clauses]


def main(words):
    if words == ["--write"]:
        DEFINITIONS.write_text(promise().page())
        return 0
    failed = 0
    for check in CHECKS:
        faults = list(check())
        failed += bool(faults)
        for fault in faults:
            print(f"{check.__name__}: {fault}")
    print(f"{len(CHECKS) - failed} passed, {failed} failed")
    return 1 if failed else 0


if __name__ == "__main__":
    sys.exit(main(sys.argv[1:]))
