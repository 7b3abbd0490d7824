#!/usr/bin/env python3
"""Writes all definitions on which claims depend into docs/out/DEFINITIONS.md: python3 docs/definitions.py.

With --check nothing is written. docs/definitions.txt is the source: its text is copied, except that each run of lines
`FILE: SOURCE`, with a file of specs/, becomes a table. The table has a row for each definition in these files that a
clause of an exported function names. If there is none, or the line has a * after the file, the table has a row for each
definition that such a clause reaches through others. A row has the name, and the comment above the definition.

With and without --check, faults are printed: files without a table, definitions without a comment, and definitions in
the wrong place, since those that no clause of an exported function reaches belong into specs/inside/, and all others
outside of it. docs/DEFINITIONS.md, the reading order, is checked too: each file of specs/ that it names must exist, and
each block `antt FILE` must consist of lines of that file, word for word."""
import dataclasses
import pathlib
import re
import sys
from collections.abc import Iterator

TOP = pathlib.Path(__file__).resolve().parents[1]
PAGE = TOP / "docs" / "DEFINITIONS.md"
SOURCE = TOP / "docs" / "definitions.txt"
MADE = TOP / "docs" / "out" / "DEFINITIONS.md"
ROWS = re.compile(r"(?:^wal\w*/[\w/]+(?: \*)?: .+\n)+", re.M)
CRATES = TOP / "crates"
WORD = re.compile(r"[^\W\d][\w]*")
TOKEN = re.compile(r"[\w.]+|[^\w\s(){}\[\],;.]+")  # a word, as NAME or MODULE.NAME, or a sign
HEAD = re.compile(
    r"(?:(?:unfoldable|abbrev) pub|pub (?:record|data)|abbrev|unfoldable|record|data) (?!pub )([^\W\d]\w*|◌\S+)"
)
USE = re.compile(r"use Rattle\.(\w+)\.specs\.(?!declared)([\w.]+?)(?:\.\{([^}]*)\}| as (\w+));?$")


@dataclasses.dataclass(frozen=True)
class Definition:
    """A definition: its file, name and comment, the words of its text, and its constructors."""

    file: str
    name: str
    comment: str
    words: frozenset[str]
    constructors: tuple[str, ...]


# the meaning of each name in a file: a definition, as FILE.NAME, or for a module its file
Names = dict[str, str]


def signs_of(name: str) -> list[str]:
    """Return how a text spells a name: as itself, or as the sign of an operator; in `do` a bind is an arrow."""
    return ["←", ">>="] if name == "◌>>=◌" else [name.strip("◌")]


def names_used(lines: list[str]) -> Names:
    """Return the names of definitions and modules that the `use` lines of a file import."""
    names: Names = {}
    for line in lines:
        found = USE.match(line.strip().removeprefix("ghost ").removeprefix("pub "))
        if found is None:
            continue
        file = f"{found[1]}/{found[2].replace('.', '/')}"
        if found[4]:
            names[found[4]] = file
        for part in (found[3] or "").split(","):
            name, _, other = part.strip().partition(" as ")
            names |= {sign: f"{file}.{name}" for sign in signs_of(other or name)}
    return names


def comment_above(lines: list[str], at: int) -> str:
    """Return the comment that ends right above this line, or above the `infix` line before it."""
    told: list[str] = []
    if at > 0 and lines[at - 1].startswith("infix"):
        at -= 1
    while at > 0 and lines[at - 1].startswith("--"):
        at -= 1
        told.insert(0, lines[at].lstrip("- ").strip())
    return " ".join(told)


def read_file(path: pathlib.Path, file: str) -> tuple[list[Definition], Names]:
    """Return the definitions of a file of specs/ in order, and the meaning of the names in it. A definition right below
    another, without a comment of its own, shares the comment of that one."""
    lines = path.read_text().splitlines()
    heads = [at for at, line in enumerate(lines) if HEAD.match(line)]
    names = names_used(lines)
    definitions: list[Definition] = []
    for at, end in zip(heads, [*heads[1:], len(lines)]):
        found = HEAD.match(lines[at])
        assert found is not None
        text = "\n".join(line for line in lines[at:end] if not line.lstrip().startswith("--"))
        told = comment_above(lines, at)
        if not told and definitions and lines[at - 1]:
            told = definitions[-1].comment
        parts = tuple(re.findall(r"^  (\w+) :", text, re.M)) if text.startswith(("pub data", "data")) else ()
        definitions.append(Definition(file, found[1], told, frozenset(TOKEN.findall(text)), parts))
        names |= {name: f"{file}.{name}" for name in (*signs_of(found[1]), *parts)}
    return definitions, names


class Specs:
    """All definitions of the crates, and those that the text of each names. A constructor counts as its type."""

    def __init__(self) -> None:
        self.files: dict[str, list[Definition]] = {}
        self.names: dict[str, Names] = {}
        for path in sorted(CRATES.glob("wal*/specs/**/*.antt")):
            file = str(path.relative_to(CRATES).with_suffix("")).replace("/specs/", "/", 1)
            if path.name != "Lib.antt":
                self.files[file], self.names[file] = read_file(path, file)
        self.all = {f"{it.file}.{it.name}": it for its in self.files.values() for it in its}
        self.types = {f"{it.file}.{part}": name for name, it in self.all.items() for part in it.constructors}

    def named(self, words: frozenset[str], names: Names) -> set[str]:
        """Return the definitions that these words name, as NAME or MODULE.NAME."""
        found = set()
        for word in words:
            first, _, rest = word.partition(".")
            stands = names.get(first, "")
            for part in (stands, f"{stands}.{rest.partition('.')[0]}"):
                name = self.types.get(part, part)
                if name in self.all:
                    found.add(name)
        return found

    def reached(self, roots: set[str]) -> set[str]:
        """Return these definitions and all that they depend on."""
        seen: set[str] = set()
        todo = set(roots)
        while todo:
            name = todo.pop()
            seen.add(name)
            it = self.all[name]
            todo |= self.named(it.words, self.names[it.file]) - seen
        return seen


def exported_names(crate: pathlib.Path) -> set[str]:
    """Return the names of the functions, types and traits that a crate exports."""
    root = crate / "src" / "lib.rt"
    if not root.exists():
        return {"main"}
    text = root.read_text()
    lists = re.findall(r"pub use [\w:]+::(?:\{([^}]*)\}|(\w+));", text)
    names = {part.strip() for several, one in lists for part in (several or one).split(",")}
    for module in re.findall(r"^pub mod (\w+);", text, re.M):
        text += (crate / "src" / f"{module}.rt").read_text()
    names |= set(re.findall(r"^pub (?:const )?(?:extern \"C\" )?(?:fn|struct|enum|trait) (\w+)", text, re.M))
    return names


def type_of(header: str) -> str:
    """Return the type that an `impl` block is for."""
    part = header.rpartition(" for ")[2] if " for " in header else re.sub(r"^impl(<.*?>)? ", "", header)
    found = WORD.search(part)
    return found[0] if found else ""


def contract_words(path: pathlib.Path, exported: set[str]) -> set[str]:
    """Return the words of the contracts in a source file that callers of the crate see: those of exported functions,
    and those of the values and digests of exported types."""
    words: set[str] = set()
    owner, seen, inside = "", False, False
    for line in path.read_text().splitlines():
        head = re.match(r"(?:pub )?(impl|trait)\b(.*)", line)
        if head:
            owner = type_of(line.rstrip(" {")) if head[1] == "impl" else head[2].split("{")[0].split(":")[0].strip()
            seen = owner in exported
        elif line == "}":
            owner, seen = "", False
        call = re.match(r"( *)(pub )?(?:const )?(?:extern \"C\" )?fn (\w+)", line)
        if call:
            public = bool(call[2]) or (bool(owner) and line.startswith("    ") and seen)
            inside = public and (seen if owner else call[3] in exported)
        told = re.match(r" +(requires|ensures|ghost Value|ghost digest|auto)\b", line)
        if re.match(r" *\{$", line) or (line.endswith("{") and not told and "fn " not in line):
            inside = inside and told is not None
        if (inside and "//" not in line[:12]) or (seen and told and told[1].startswith("ghost")):
            words |= set(re.findall(r"[\w.]+", line))
    return words


def roots_of(specs: Specs) -> set[str]:
    """Return the definitions that clauses of exported functions name."""
    roots: set[str] = set()
    for crate in sorted(CRATES.glob("wal*")):
        exported = exported_names(crate)
        for path in sorted(crate.glob("src/**/*.rt")):
            lines = path.read_text().splitlines()
            names = names_used(lines)
            roots |= specs.named(frozenset(contract_words(path, exported)), names)
    return roots


def rows_of(definitions: list[Definition]) -> Iterator[str]:
    """Yield a row for each comment, with the names of all definitions below it."""
    names: dict[str, list[str]] = {}
    for it in definitions:
        names.setdefault(it.comment, []).append(f"`{it.name}`")
    for comment, several in names.items():
        yield f"| {', '.join(several)} | {comment.replace('|', chr(92) + '|')} |"


class Page:
    """The page of all definitions, and the faults that were found in it, in the specs or in the reading order."""

    def __init__(self, specs: Specs) -> None:
        self.specs = specs
        self.roots = roots_of(specs)
        self.reached = specs.reached(self.roots)
        self.shown: set[str] = set()
        self.faults: list[str] = []

    def shown_of(self, file: str, whole: bool) -> list[Definition]:
        """Return the definitions of a file that get a row: those that clauses name, or if `whole` all reached ones."""
        told = self.specs.files[file]
        own = [it for it in told if f"{it.file}.{it.name}" in self.roots]
        return [it for it in told if f"{it.file}.{it.name}" in self.reached] if whole or not own else own

    def table(self, found: re.Match[str]) -> str:
        """Return the table that replaces a run of lines in the source."""
        lines = ["| Definition | What it says |", "|---|---|"]
        for line in found[0].splitlines():
            told, _, source = line.partition(": ")
            file = told.removesuffix(" *")
            if file not in self.specs.files:
                self.faults.append(f"{SOURCE.name} names {file}, which is not there")
                continue
            self.shown.add(file)
            lines.append(f"| **`{file.replace('/', '/specs/', 1)}`** | *{source}* |")
            shown = self.shown_of(file, told != file)
            self.faults.extend(f"{file}.{it.name} has no comment above it" for it in shown if not it.comment)
            lines.extend(rows_of(shown))
        return "\n".join(lines) + "\n"

    def made(self, source: str) -> str:
        """Return the page of all definitions; its faults are then in `faults`."""
        new = ROWS.sub(self.table, source)
        self.judge()
        return new

    def judge(self) -> None:
        """Record the definitions that are in the wrong place, and the files that lack a table."""
        for name, it in self.specs.all.items():
            if ("/inside/" in it.file) == (name in self.reached):
                side = "out of specs/inside/" if name in self.reached else "into specs/inside/"
                self.faults.append(f"{name} belongs {side}")
        for file in sorted({self.specs.all[name].file for name in self.roots} - self.shown):
            self.faults.append(f"{SOURCE.name} has no line with {file}")

    def compare(self, page: str) -> None:
        """Record the files that the reading order names but do not exist, and its blocks that differ from the specs."""
        for file in sorted(set(re.findall(r"`(wal\w*/specs/[\w/]+)`", page))):
            if not (CRATES / f"{file}.antt").exists():
                self.faults.append(f"{PAGE.name} names {file}, which is not there")
        blocks = re.findall(r"^```antt (\S+)\n(.*?)^```$", page, re.M | re.S)
        if not blocks:
            self.faults.append(f"{PAGE.name} has no definition")
        for file, text in blocks:
            path = CRATES / f"{file}.antt"
            if not path.exists() or f"\n{text}" not in path.read_text():
                self.faults.append(f"{PAGE.name}: {file} does not have these lines: {text.splitlines()[0]} ..")


def main(words: list[str]) -> int:
    page = Page(Specs())
    new = page.made(SOURCE.read_text())
    page.compare(PAGE.read_text())
    if words != ["--check"]:
        MADE.parent.mkdir(exist_ok=True)
        MADE.write_text(new)
        print(f"{MADE}: {len(page.shown)} files of definitions")
    print("\n".join(page.faults))
    return int(bool(page.faults))


if __name__ == "__main__":
    sys.exit(main(sys.argv[1:]))
