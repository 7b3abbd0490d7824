#!/usr/bin/env python3
"""Compares the public contracts of two commits, clause by clause: docs/clauses.py OLD [NEW].

Without NEW, OLD is compared with the files of the checkout. For each `pub fn`, and each function of a `pub trait`, in
crates/*/src, this prints what was added (+), lost (-) or changed (~): the function itself, its signature, and its
`requires` and `ensures` clauses by name, or by number if they have no name. White space and comments do not count. A
function that moved to another crate is compared with itself there.

The meaning of a clause may also change through a definition that it names: so the files of specs/ that differ are
listed last. The status is 0 if nothing differs, 1 if something does, and 2 if a commit cannot be read."""
import dataclasses
import io
import pathlib
import re
import subprocess
import sys
import tarfile
from collections.abc import Iterator

TOP = pathlib.Path(__file__).resolve().parents[1]
SOURCE = re.compile(r"crates/(\w+)/src/.*\.rt")
SPECS = re.compile(r"crates/\w+/specs/(?!inside/).*\.antt")
OWNER = re.compile(r"(?P<public>pub )?(?P<kind>impl|trait)\b(?P<rest>.*)")
CALL = re.compile(r"(?P<indent> *)(?P<public>pub )?(?:const )?(?:unsafe )?(?:extern \"C\" )?fn (?P<name>\w+)")
TOKEN = re.compile(r'//[^\n]*|b?"(?:[^"\\]|\\.)*"|[{}();]|->|[^\W\d]\w*\*?|\s+|.', re.S)
CLAUSES = ("requires", "ensures", "ensures*")


@dataclasses.dataclass
class Contract:
    """A function's signature, and its clauses by kind and name."""

    file: str
    signature: str
    clauses: dict[str, str] = dataclasses.field(default_factory=dict)


# the contracts of a commit by crate, owner (a type or trait, or nothing) and name
Contracts = dict[tuple[str, str, str], Contract]


def plain(text: str) -> str:
    return " ".join(text.split())


def owner_of(head: str) -> tuple[str, bool]:
    """Return the type or trait whose block begins with this line, and whether all of its functions are public."""
    found = OWNER.match(head)
    if found is None:
        return "", False
    rest = re.sub(r"^<.*?>(?= )", "", found["rest"]).strip()
    if found["kind"] == "trait":
        return re.split(r"[<:{ ]", rest)[0], bool(found["public"])
    return " for ".join(re.split(r"[<{ ]", part.strip())[0] for part in rest.split(" for ")), False


def parse(text: str, file: str) -> Contract:
    """Return the contract at the beginning of a text, which ends at the body of its function."""
    made = Contract(file, "")
    parts: list[str] = []
    kind, name, depth, begun, numbers = "", "", 0, False, 0

    def close() -> None:
        nonlocal numbers
        told = plain("".join(parts))
        if not kind:
            made.signature = told
        else:
            numbers += not name
            made.clauses[f"{kind} {name or numbers}"] = told

    for token in TOKEN.findall(text):
        if token.startswith("//"):
            continue
        if depth == 0 and (token in CLAUSES or token in "{;" and (begun or not kind)):
            close()
            if token in "{;":
                return made
            kind, name, begun, parts = token, "", False, []
        elif kind and not begun and token == "{":
            name, begun, parts, depth = plain("".join(parts)), True, [], 1
        else:
            depth += (token in "{([") - (token in "})]")
            parts += [] if begun and depth == 0 and token == "}" else [token]
    sys.exit(f"{file}: a contract does not end: {plain(text)[:100]}")


def contracts_in(crate: str, file: str, text: str) -> Contracts:
    """Return the contracts of a source file's public functions."""
    found: Contracts = {}
    owner, shared, at = "", False, 0
    for line in text.splitlines(keepends=True):
        if OWNER.match(line):
            owner, shared = owner_of(plain(text[at:].partition("{")[0]))
        elif line.startswith("}"):
            owner, shared = "", False
        call = CALL.match(line)
        if call and (call["public"] or shared and call["indent"]):
            key = crate, owner if call["indent"] else "", call["name"]
            found[key] = parse(text[at:], file)
        at += len(line)
    return found


def files_of(commit: str | None) -> Iterator[tuple[str, str]]:
    """Yield the name and text of the source and spec files below crates/, of a commit or of the checkout."""
    if commit is None:
        for path in sorted((TOP / "crates").glob("*/s*/**/*")):
            if path.suffix in (".rt", ".antt"):
                yield str(path.relative_to(TOP)), path.read_text()
        return
    told = subprocess.run(["git", "archive", commit, "crates"], cwd=TOP, capture_output=True)
    if told.returncode:
        print(f"{commit} cannot be read: {told.stderr.decode().strip()}", file=sys.stderr)
        sys.exit(2)
    with tarfile.open(fileobj=io.BytesIO(told.stdout)) as archive:
        for member in archive:
            content = archive.extractfile(member) if member.isfile() else None
            if content and member.name.endswith((".rt", ".antt")):
                yield member.name, content.read().decode()


def read(commit: str | None) -> tuple[Contracts, dict[str, str]]:
    """Return the public contracts of a commit, or of the checkout, and its files of definitions."""
    contracts: Contracts = {}
    specs: dict[str, str] = {}
    for file, text in files_of(commit):
        source = SOURCE.fullmatch(file)
        if source:
            contracts |= contracts_in(source[1], file, text)
        elif SPECS.fullmatch(file):
            specs[file] = text
    return contracts, specs


def differing(old: Contract, new: Contract) -> Iterator[str]:
    """Yield a line for each difference between two contracts of one function."""
    if old.signature != new.signature:
        yield f"  ~ signature\n      {old.signature}\n      {new.signature}"
    for name in [*old.clauses, *(name for name in new.clauses if name not in old.clauses)]:
        was, now = old.clauses.get(name), new.clauses.get(name)
        if now is None:
            yield f"  - {name} {{ {was} }}"
        elif was is None:
            yield f"  + {name} {{ {now} }}"
        elif was != now:
            yield f"  ~ {name}\n      {was}\n      {now}"


def pairs_of(old: Contracts, new: Contracts) -> Iterator[tuple[tuple[str, str, str], tuple[str, str, str]]]:
    """Yield the functions that both have, and those that moved: from just one crate of the old to one of the new."""
    yield from ((key, key) for key in old if key in new)
    for key in old.keys() - new.keys():
        there = [other for other in new.keys() - old.keys() if other[1:] == key[1:]]
        from_here = [other for other in old.keys() - new.keys() if other[1:] == key[1:]]
        if len(there) == len(from_here) == 1:
            yield key, there[0]


def compare(old: Contracts, new: Contracts) -> Iterator[str]:
    """Yield a text for each function that was added, lost or changed."""
    pairs = dict(pairs_of(old, new))
    told: list[tuple[tuple[str, str, str], str, list[str]]] = []
    for key, other in pairs.items():
        lines = list(differing(old[key], new[other]))
        if lines or key != other:
            told.append((other, "~" if key == other else f"~ (from {key[0]})", lines))
    told += [(key, "-", []) for key in old if key not in pairs]
    for key in new.keys() - set(pairs.values()):
        told.append((key, "+", [f"  + {name} {{ {text} }}" for name, text in new[key].clauses.items()]))
    for (crate, owner, name), sign, lines in sorted(told):
        yield "\n".join([f"{sign} {crate}: {owner}{'::' if owner else ''}{name}", *lines])


def main(words: list[str]) -> int:
    if len(words) not in (1, 2) or words[0].startswith("-"):
        print(__doc__, file=sys.stderr)
        return 2
    old, old_specs = read(words[0])
    new, new_specs = read(words[1] if words[1:] else None)
    told = list(compare(old, new))
    changed = [file for file in sorted({*old_specs, *new_specs}) if old_specs.get(file) != new_specs.get(file)]
    told += [f"definitions differ: {file}" for file in changed]
    clauses = sum(len(it.clauses) for it in new.values())
    print("\n".join([*told, f"{len(new)} public functions with {clauses} clauses; {len(told)} differences"]))
    return int(bool(told))


if __name__ == "__main__":
    sys.exit(main(sys.argv[1:]))
