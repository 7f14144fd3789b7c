#!/usr/bin/env python3
"""Looks up what the documents name: `checks/named.py`, without a word, and without the program.

docs/definitions.md, docs/guarantees.md, docs/architecture.md, docs/DECISIONS.md and docs/CONTRIBUTING.md say by hand what the clauses and definitions
of the crates say. Each name in backquotes there has to stand somewhere in the code of the repository, comments apart, and in docs/architecture.md
somewhere in crates/; where a document says in which crate, file or function a name stands, it has to stand there:

- in a table of definitions, under its crate and its file, each definition is one that the file declares;
- in a table of promises, under its crate, each function is one of the crate, and each clause one of the function's;
- in a table of crates each call is one that the row's crate has;
- `NAME` of `CRATE`, `CRATE::NAME`, and `NAME` in `FILE` stand where they say.

In all documents each path in backquotes leads to a file or a folder of the repository, links and the names of files outside of backquotes do, and
what is quoted behind the name of a document is a heading there. Names and paths of other worlds stand in a table below with their reasons; an entry
that nothing needs is a fault too.
"""

import collections
import os
import re
import sys

TOP = os.path.dirname(os.path.dirname(os.path.abspath(__file__)))
sys.path.insert(0, os.path.join(TOP, "checks/harness"))
from checked_program import Checks  # noqa: E402

# Where the kit has the libraries that it brings, in their sources.
KIT = os.environ.get("KIT_SOURCES", "/opt/rattle/rattle")
LOOKED_UP = ("docs/definitions.md", "docs/guarantees.md", "docs/architecture.md", "docs/DECISIONS.md", "docs/CONTRIBUTING.md")

# The page whose names have to stand in crates/, and not in a script alone.
OF_CRATES = "docs/architecture.md"

# Names and paths that stand nowhere in the code or among the files of the repository (for that page: nowhere in crates/), by the reason.
ELSEWHERE = {
    "the standard's way to write a kind of numbers or types": ("uN", "sN", "t1", "t2", "littleendian"),
    "the protocol's word for the length of what follows": ("SIZE",),
    "a function of the C library": ("pthread_create",),
    "the clause of a trait of the kit": ("output",),
    "a command of the kit": ("plant", "tidy"),
    "what the first example of docs/CONTRIBUTING.md would add": ("quiet_line", "add_quiet"),
    "a file that a reader of the page makes": ("logged.c", "mine.json", "later.uploads", "colonies.html", "players/other.wasm"),
    "a file of the host": ("etc/nginx/nginx.conf",),
    "a word of the command line": ("machine_bench MODULE FUEL", "TIMES=1"),
    "a command of the kit, as a whole": ("rt ci",),
    "a program of the system": ("strace", "wasm-interp"),
    "a table of scripts in checks/": ("EXAMPLES",),
    "the ending of files": (".txt",),
}
# Paths that are made, or that stand for many.
MADE = re.compile(r"(players|crates/[\w*]+)/out\b|crates/NAME\b")

WORD = re.compile(r"[^\W\d]\w*")
SPAN = re.compile(r"`([^`]+)`")
COMMENTS = {".rt": re.compile(r"//[^\n]*"), ".antt": re.compile(r"--[^\n]*")}
# What a line begins with that declares a name in a file of definitions: words of the language, or the name itself before a colon.
DECLARED = re.compile(r"(?m)^[ \t]*(?:(?:pub|abbrev|unfoldable|record|data|lemma)[ \t]+)*((?:[^\W\d]\w*[ \t]+)*[^\W\d]\w*)[ \t]*(?:[:({]|$)")
FUNCTION = re.compile(r"\bfn\s+([^\W\d]\w*)")
CLAUSE = re.compile(r"\b(?:ensures|requires)\*?(?:\s+([^\W\d]\w*))?\s*\{")
SUFFIXES = "rt|antt|edit|py|md|txt|json|tsv|sh|c|cpp|h|rs|uploads|wasm|service|bin|html|png|conf"
PATH = re.compile(rf"(?:\.?[\w*-]+/)+(?:[\w*-]+(?:\.(?:{SUFFIXES})\b)?)?|[\w-]+\.(?:{SUFFIXES})\b")
OUTSIDE = re.compile(rf"\b(?:docs|checks|oracle|bench|players|worlds|modules|crates)/[\w/-]*(?:\.(?:{SUFFIXES})\b)?")
LINK = re.compile(r"\]\(([^)\s]+)\)")
QUOTED = re.compile(r"([\w/]+\.md)(?:\]\([^)]*\))?,? \(?\"([^\"]+)\"")
QUOTED_HERE = re.compile(r"\"([A-Z][^\"]+)\" (?:below|above)\b")

COUNTS = ["no", "one", "two", "three", "four", "five", "six", "seven", "eight", "nine"]

checks = Checks(__file__, has_program=False)
note = checks.note
# The entries of the table of names of other worlds that were needed.
needed = set()


def elsewhere(name):
    """Whether a name or a path has an entry in the table of those of other worlds, which is then a needed one."""
    found = {(reason, name) for reason, names in ELSEWHERE.items() if name in names}
    needed.update(found)
    return bool(found)


def text_of(path):
    with open(os.path.join(TOP, path), encoding="utf-8") as it:
        return it.read()


# ---- what there is


class Source:
    """A file of a crate: its words but for comments, and where they are asked for what it declares, and the clauses of its functions."""

    def __init__(self, path):
        self.path, self.code = path, COMMENTS[os.path.splitext(path)[1]].sub("", text_of(path))
        self.words = set(WORD.findall(self.code))

    def declared(self):
        return {word for found in DECLARED.findall(self.code) for word in found.split()}

    def clauses(self):
        """Each function that stands there with the names of its clauses; a clause without a name is `-`."""
        found = collections.defaultdict(set)
        starts = list(FUNCTION.finditer(self.code))
        for start, end in zip(starts, [*(it.start() for it in starts[1:]), len(self.code)]):
            found[start[1]] |= {name or "-" for name in CLAUSE.findall(self.code, start.end(), end)}
        return found


class Repository:
    """All that may be named: the files and folders, the sources of each crate, and the words of all code."""

    def __init__(self):
        self.files, self.sources = set(), {}
        for at, folders, names in os.walk(TOP):
            folders[:] = [it for it in folders if it not in (".git", "out", "__pycache__")]
            self.files |= {os.path.relpath(os.path.join(at, it), TOP) for it in [*folders, *names]}
        for path in sorted(self.files):
            parts = path.split("/")
            if parts[0] == "crates" and len(parts) == 2:
                self.sources.setdefault(parts[1], [])
            elif parts[0] == "crates" and len(parts) > 3 and path.endswith((".rt", ".antt")):
                self.sources.setdefault(parts[1], []).append(Source(path))
        self.crates = set(self.sources)
        # (the libraries of the kit that the crates use)
        self.libraries = {it for it in WORD.findall(text_of("crates.txt")) if it not in self.crates} | {"std"}
        self.code = self.crates | set().union(*(it.words for crate in self.sources.values() for it in crate))
        self.names = self.code | self.libraries
        is_script = re.compile(r"(checks|oracle|bench|players|worlds|\.ci)/.*(\.(py|c|h|rs|sh|cpp)|run)$")
        scripts = [it for it in self.files if is_script.match(it) and it != "checks/named.py"]
        self.names |= {word for it in scripts for word in WORD.findall(text_of(it))}
        self.by_end = collections.defaultdict(set)
        for path in self.files:
            parts = path.split("/")
            for at in range(len(parts)):
                self.by_end["/".join(parts[at:])].add(path)
        self.functions = {}

    def words_of(self, crates):
        return set(crates).union(*(it.words for crate in crates for it in self.sources[crate]))

    def functions_of(self, crate):
        """The functions of a crate with the names of their clauses."""
        if crate not in self.functions:
            found = collections.defaultdict(set)
            for source in self.sources[crate]:
                for name, clauses in source.clauses().items() if source.path.endswith(".rt") else ():
                    found[name] |= clauses
            self.functions[crate] = found
        return self.functions[crate]

    def found(self, path, crates=()):
        """The files that a path may mean: from the top, from the folder of crates or below one of these crates; else whatever ends so."""
        path = path.rstrip("/").removesuffix("/*")
        places = [path, f"crates/{path}", *(f"crates/{crate}/{path}" for crate in crates)]
        return [it for it in places if it in self.files] or sorted(self.by_end[path])

    def source_at(self, path):
        return next((it for it in self.sources[path.split("/")[1]] if it.path == path), None)


# ---- what a document says


def is_known(path, known, crates=()):
    """Whether a path leads to a file or a folder of the repository, stands for many, or has an entry in the table of those of other worlds."""
    return bool(elsewhere(path) or MADE.match(path) or known.found(path, crates))


def head(span):
    """The name that a span begins with: behind the type where there is one."""
    found = re.match(r"\W*([^\W\d]\w*(?:::[^\W\d]\w*)*)", span)
    return found[1].split("::")[-1] if found else ""


class Page:
    """A document that is looked up line by line, with the crates, the files and the table in which each stands."""

    def __init__(self, path, known):
        self.path, self.known, self.faults = path, known, []
        self.names, self.where = (known.code, "in crates/") if path == OF_CRATES else (known.names, "in the code")
        self.crates, self.files, self.table, self.functions, self.row_before, self.is_explained = [], [], "", [], [], False

    def fault(self, number, what):
        self.faults.append(f"{self.path}:{number}: {what}")

    def look_up(self):
        is_inside = False
        for number, line in enumerate(text_of(self.path).splitlines(), 1):
            if line.startswith("#"):
                named = [it for it in WORD.findall(line) if it in self.known.crates]
                self.crates, self.files, self.functions, self.row_before, self.table = named, [], [], [], ""
                self.is_explained = line == "## How to read a definition"
            elif line.startswith("|") and not self.table:
                self.table = line
            elif line.startswith("|") and not line.startswith("|--"):
                self.row(number, line)
            elif not line.startswith("|"):
                # (a paragraph that names files, on one line or several, is said of the tables behind it)
                found = self.definition_files(line)
                self.files = [*(self.files if is_inside else []), *found] if found else self.files
                self.table, is_inside = "", bool(line) and (is_inside or bool(found))
            if not self.is_explained:
                self.line(number, line)

    def definition_files(self, text):
        """The files of definitions that a text names."""
        paths = [path for span in SPAN.findall(text) for path in PATH.findall(span) if path.endswith(".antt")]
        return [it for path in paths for it in self.known.found(path, self.crates) if it.startswith("crates/")]

    def row(self, number, line):
        cells = [it.strip() for it in re.split(r"(?<![^ ])\|(?![^ ])", line.strip()[1:-1])]
        kind = self.table.split(" | ")[:2]
        if kind[0] == "| Definition":
            self.definitions(number, cells[0], self.files)
        elif kind == ["| File", "Definition"]:
            self.files = self.definition_files(cells[0]) or self.files
            self.definitions(number, cells[1], self.files)
        elif kind == ["| Function", "Clause"]:
            self.promises(number, cells[0], cells[1])
        elif kind == ["| Layer", "Crate"]:
            crate = cells[1].strip("`")
            # (what stands behind a colon says what the calls before it do)
            for part in cells[3].split(";"):
                self.within(number, re.split(r"(?<=`):", part)[0], [crate], f"crates/{crate}")

    def definitions(self, number, cell, files):
        """Each definition of a cell is declared by one of these files, or of the crate where none is named."""
        own = self.definition_files(cell)
        sources = [it for path in [*files, *own] if (it := self.known.source_at(path))] or [it for crate in self.crates for it in self.known.sources[crate]]
        declared = set().union(*(it.declared() for it in sources))
        placed = {head(name) for name, _ in re.findall(r"`([^`]+)` of `(\w+)`", cell)}
        for span in SPAN.findall(cell):
            if not PATH.fullmatch(span) and head(span) not in declared | placed:
                self.fault(number, f"`{span}` is declared by none of {', '.join(sorted(files) or self.crates)}")

    def promises(self, number, functions, clauses):
        """Each function of a row is one of the crate, and each clause one of a function's of the row; a row that names no function speaks of those before it."""
        # (a function may be one that this crate passes on from another one)
        passed_on = {head(name): place for name, place in re.findall(r"`([^`]+)` \(?of `(\w+)`\)", functions)}
        names = [head(it) for it in SPAN.findall(functions)]
        there = collections.defaultdict(set)
        for crate in self.crates:
            for name, found in self.known.functions_of(crate).items():
                there[name] |= found
        words = self.known.words_of(self.crates)
        for name in names:
            if name in passed_on and name not in self.known.words_of([passed_on[name]]):
                self.fault(number, f"`{name}` is nothing of {passed_on[name]}")
            elif name not in passed_on and name not in there and name not in words | self.known.crates | self.known.libraries | set(ELSEWHERE):
                self.fault(number, f"`{name}` is no function of {', '.join(self.crates)}")
        rows, is_of_each = self.functions_of_row(functions, names, len(SPAN.findall(clauses)))
        known = set().union(*(there[name] for name in rows if name in there))
        if not all(it in there for it in rows):
            # (what a type or a trait promises may be said by a trait of another crate)
            known |= {clause for crate in self.known.crates for found in self.known.functions_of(crate).values() for clause in found}
        for span in SPAN.findall(clauses):
            if span not in known and not elsewhere(span) and not (head(span) in words and head(span)[:1].isupper()) and not re.search(rf"law[s]? [^|]*`{re.escape(span)}`", clauses):
                self.fault(number, f"`{span}` is no clause of {', '.join(rows)}")
            for name in rows if is_of_each and not head(span)[:1].isupper() else ():
                if name in there and name not in passed_on and span not in there[name]:
                    self.fault(number, f"`{span}` is no clause of {name}")

    def functions_of_row(self, functions, names, count):
        """The functions of which a row of promises speaks, and whether each of them has its clause: so it is where there is one clause. "These four" are the last
        four of the section, "all others" those of the section that the row above has not, and a row without a word goes on with those of the row above."""
        before = self.functions
        self.functions = [*before, *(it for it in names if it not in before)]
        others = [it for it in before if it not in self.row_before]
        these = re.match(r"these (\w+)", functions)
        if these:
            rows = [*before[-COUNTS.index(these[1]) :], *names]
        else:
            rows = others if functions == "all others" else names if functions else self.row_before
        self.row_before = rows
        return rows, count == 1 and bool(functions) and len(rows) > 1

    def within(self, number, text, crates, where):
        """Each name of a text stands in one of these crates."""
        words = self.known.words_of(crates)
        for span in SPAN.findall(text):
            for word in WORD.findall(span):
                if word not in words:
                    self.fault(number, f"`{word}` stands nowhere in {where}")

    def line(self, number, line):
        for name, place in re.findall(r"`([^`]+)` of `(\w+)`", line):
            if place in self.known.crates and head(name) not in self.known.words_of([place]) and not PATH.search(name):
                self.fault(number, f"`{name}` stands nowhere in crates/{place}")
        for place, name in re.findall(r"`(\w+)::(\w+)", line):
            if place in self.known.crates and name not in self.known.words_of([place]):
                self.fault(number, f"`{place}::{name}` stands nowhere in crates/{place}")
        for name, path in re.findall(rf"`([^`/.]+)` in `([^`]+\.(?:rt|antt))`", line):
            files = self.known.found(path, self.crates)
            if files and not any((it := self.known.source_at(file)) and head(name) in it.words for file in files if file.startswith("crates/")):
                self.fault(number, f"`{name}` doesn't stand in {', '.join(files)}")
        for span in SPAN.findall(line):
            self.span(number, span)

    def span(self, number, span):
        paths = PATH.findall(span)
        self.faults += [f"{self.path}:{number}: `{path}` is no file" for path in paths if not is_known(path, self.known, self.crates)]
        if self.path == OF_CRATES and elsewhere(span):
            return
        for word in [] if paths else WORD.findall(span):
            if word not in self.names and not elsewhere(word):
                self.fault(number, f"`{word}` stands nowhere {self.where}" + ("" if word == span else f", in `{span}`"))


def kit_names():
    """The names that docs/definitions.md says to be the kit's, each with the library and the files that it gives."""
    found, place, is_inside = [], "", False
    for line in text_of("docs/definitions.md").splitlines():
        is_inside = line.startswith("| Name | File of the kit |") or is_inside and line.startswith("|")
        cells = line.split(" | ")
        if is_inside and "`" in line:
            place = place if cells[1] == "the same" else cells[1]
            found += [(head(span), place) for span in SPAN.findall(cells[0])]
    return found


def kit_faults():
    """What the kit doesn't have where docs/definitions.md says so, where its sources are here."""
    faults = []
    for name, place in kit_names():
        library = place.split(" ")[0]
        files = [f"{KIT}/{library}/{it if it.startswith('specs/') else 'specs/' + it}.antt" for it in SPAN.findall(place)]
        there = [it for it in files if os.path.isfile(it)]
        if not any(re.search(rf"\b{name}\b", text_of(it)) for it in there):
            faults.append(f"`{name}` doesn't stand in {place} of the kit")
    return faults


# ---- links


def anchor(heading):
    """What a link to a heading ends in."""
    return re.sub(r"[^\w\- ]", "", heading.lower()).strip().replace(" ", "-")


def headings_of(path):
    """What may be quoted of a document: its headings, and what stands there in bold or begins a paragraph in italics."""
    text = text_of(path)
    return {it.strip().strip("*").rstrip(".") for it in re.findall(r"(?m)^#+ (.*)$|\*\*?([^*\n]+)\*\*?", text) for it in it if it}


def path_faults(path, known):
    """The paths in backquotes that lead nowhere, of a document whose names are not looked up."""
    lines = enumerate(text_of(path).splitlines(), 1)
    found = [(number, it) for number, line in lines for span in SPAN.findall(line) for it in PATH.findall(span)]
    return [f"{path}:{number}: `{it}` is no file" for number, it in found if not is_known(it, known)]


def link_faults(path, known):
    faults, folder, text = [], os.path.dirname(path), text_of(path)
    for number, line in enumerate(text.splitlines(), 1):
        for target in LINK.findall(line):
            file, _, part = target.partition("#")
            place = os.path.normpath(os.path.join(folder, file)) if file else path
            if re.match(r"[a-z]+:", target):
                continue
            if place not in known.files:
                faults.append(f"{path}:{number}: the link {target} leads to no file")
            elif part and part not in {anchor(it) for it in re.findall(r"(?m)^#+ (.*)$", text_of(place))}:
                faults.append(f"{path}:{number}: the link {target} leads to no heading")
        bare = line if line.startswith("    ") else SPAN.sub("", LINK.sub("", line))
        for file in OUTSIDE.findall(bare):
            if not MADE.match(file) and file.rstrip("/") not in known.files and not line.startswith("    "):
                faults.append(f"{path}:{number}: {file} is no file")
    whole = " ".join(text.split())
    for file, heading in QUOTED.findall(whole):
        places = [it for it in (file, f"docs/{file}") if it in known.files]
        if not places:
            faults.append(f"{path}: {file} is no document")
        elif heading.rstrip(".,") not in headings_of(places[0]):
            faults.append(f'{path}: "{heading}" is no heading of {places[0]}')
    faults += [f'{path}: "{heading}" is no heading of it' for heading in QUOTED_HERE.findall(whole) if heading not in headings_of(path)]
    return faults


def main():
    if sys.argv[1:] in (["-h"], ["--help"]):
        print(__doc__.strip())
        return
    if len(sys.argv) != 1:
        sys.exit(f"named.py: it takes no words, and not {sys.argv[1]}")
    try:
        look_up_all()
    except (OSError, UnicodeDecodeError) as error:
        sys.exit(f"named.py: {error}")
    checks.finish()


def look_up_all():
    known = Repository()
    known.names |= {name for name, _ in kit_names()}
    explained = text_of("docs/definitions.md").partition("## How to read a definition")[2].partition("\n## ")[0]
    known.names |= {word for span in SPAN.findall(explained) for word in WORD.findall(span)}
    for path in LOOKED_UP:
        page = Page(path, known)
        page.look_up()
        note(f"what {path} names", page.faults)
    documents = sorted(it for it in known.files if it.endswith(".md") and "/crates/" not in f"/{it}")
    for path in documents:
        if path not in LOOKED_UP:
            note(f"the paths of {path}", path_faults(path, known))
        note(f"the links of {path}", link_faults(path, known))
    idle = [f"{name}: {reason}" for reason, names in ELSEWHERE.items() for name in names if (reason, name) not in needed]
    note("entries of the table of names that nothing needs", idle)
    if os.path.isdir(KIT):
        note("the names of the kit", kit_faults())


if __name__ == "__main__":
    main()
