#!/usr/bin/env python3
"""Writes the tables in the pages that are derived from the crates: python3 docs/tables.py; --check only compares them.

The tables of crates in ARCHITECTURE.md, one for each layer, are made from crates.txt and the first sentence of each
crate, and the longest chain of crates from crates.txt. Each of the two is between a pair of comments that name it. In
crates.txt a layer begins with a line `## TITLE: WHAT IT IS.`, and a comment right above a crate is about that crate."""
import dataclasses
import functools
import pathlib
import re
import sys

TOP = pathlib.Path(__file__).resolve().parents[1]
PAGE = TOP / "docs" / "ARCHITECTURE.md"


@dataclasses.dataclass
class Layer:
    """A layer of crates: its title, what it is, and the note on each crate, which may be empty."""

    title: str
    told: str
    notes: dict[str, str]


@dataclasses.dataclass
class Crates:
    """The layers of crates.txt, and the crates on which each crate depends, in the order of the file."""

    layers: list[Layer]
    below: dict[str, list[str]]


def read_crates() -> Crates:
    """Read crates.txt, and check that each crate is in a layer, after all of our crates on which it depends."""
    made = Crates([], {})
    note = ""
    lines = (TOP / "crates.txt").read_text().splitlines()
    ours = {line.split(":")[0].split()[0] for line in lines if line and not line.startswith("#")}
    for line in lines:
        if line.startswith("## "):
            title, _, told = line.removeprefix("## ").partition(": ")
            made.layers.append(Layer(title, told, {}))
        elif line and not line.startswith("#"):
            head, _, stands = line.partition(":")
            name = head.split()[0]
            early = [other for other in stands.split() if other in ours and other not in made.below]
            if early or not made.layers:
                sys.exit(f"crates.txt: {name} is in no layer, or before {' '.join(early)}, on which it depends")
            made.layers[-1].notes[name] = note
            made.below[name] = stands.split()
        note = line.removeprefix("# ") if line.startswith("# ") else ""
    return made


def first_line(name: str) -> str:
    """Return a crate's own description: the first sentence of the comment at its head."""
    source = TOP / "crates" / name / "src"
    root = source / "lib.rt" if (source / "lib.rt").exists() else source / "main.rt"
    told = re.match(r"(?://! ?(?:.+)\n)+", root.read_text())
    if told is None:
        sys.exit(f"{root}: it has no line at its head that says what the crate is")
    text = " ".join(line.removeprefix("//!").strip() for line in told[0].splitlines())
    return re.split(r"\.(?: |$)", text)[0]


def chain_of(crates: dict[str, list[str]]) -> list[str]:
    """Return the longest list of crates in which each depends on the one before."""

    @functools.cache
    def upto(name: str) -> tuple[str, ...]:
        chains = [upto(other) for other in crates[name] if other in crates]
        return (*max(chains, key=len, default=()), name)

    longest: tuple[str, ...] = ()
    for name in crates:
        if len(upto(name)) > len(longest):
            longest = upto(name)
    return list(longest)


def row_of(name: str, note: str, crates: dict[str, list[str]]) -> str:
    own = " ".join(f"`{it}`" for it in crates[name] if it in crates)
    kit = " ".join(f"`{it}`" for it in crates[name] if it not in crates)
    stands = "; ".join(part for part in (own, kit and f"the kit's {kit}") if part) or "nothing"
    told = f"*{note}* {first_line(name)}" if note else first_line(name)
    return f"| `{name}` | {told} | {stands} |"


def tables(crates: Crates) -> str:
    """Return a heading, a sentence and a table for each layer."""
    parts = []
    for layer in crates.layers:
        rows = [row_of(name, note, crates.below) for name, note in layer.notes.items()]
        head = [f"### {layer.title}", "", layer.told[:1].upper() + layer.told[1:], ""]
        parts.append("\n".join([*head, "| Crate | What it is | Stands on |", "|---|---|---|", *rows]))
    return "\n\n".join(parts)


def renewed(page: str) -> str:
    """Return the page with its tables brought up to date."""
    crates = read_crates()
    parts = {"crates": tables(crates), "chain": ", ".join(f"`{name}`" for name in chain_of(crates.below)) + "."}
    for name, text in parts.items():
        begin, end = f"<!-- {name} -->\n", f"\n<!-- end of {name} -->"
        if page.count(begin) != 1 or page.count(end) != 1:
            sys.exit(f"{PAGE}: each of the two comments that name {name} must occur exactly once")
        page = page.partition(begin)[0] + begin + text + end + page.partition(end)[2]
    return page


def main(words: list[str]) -> int:
    page = PAGE.read_text()
    new = renewed(page)
    if words == ["--check"]:
        if page != new:
            print(f"{PAGE} is not up to date with the crates: run docs/tables.py")
        return int(page != new)
    PAGE.write_text(new)
    return 0


if __name__ == "__main__":
    sys.exit(main(sys.argv[1:]))
