#!/usr/bin/env python3
"""Proves the crates that a crate stands on side by side: crates/prove.py CRATE JOBS.

Commands of one checkout wait for each other where they share a crate below. So each of several copies of the sources,
which stand beside the checkout's own for the time of the run, proves one crate at a time, and what was proved is linked
into all of them and into the checkout. The crate that most work waits for has all of the jobs, and those beside it the
processors that it leaves. Each crate's name stands before what rt said of it, when it is done."""
import asyncio
import os
import pathlib
import shutil
import signal
import sys
import tempfile
import time

TOP = pathlib.Path(__file__).resolve().parents[1]
SMALL = 350  # lines of code: a smaller crate gains nothing from a second job
Below = dict[str, list[str]]


class Failed(Exception):
    """A crate was not proved: what rt said of it."""


def read_crates(top: str) -> Below:
    """The crates that this one stands on, and what each of them stands on."""
    rows = [
        line.split(":") for line in (TOP / "crates.txt").read_text().splitlines() if line.strip() and line[0] != "#"
    ]
    below = {name.split()[0]: others.split() for name, others in rows}
    wanted: list[str] = []
    todo = [name for name in below[top] if name in below]
    while todo:
        name = todo.pop()
        if name not in wanted:
            wanted.append(name)
            todo.extend(other for other in below[name] if other in below)
    return {name: [other for other in below[name] if other in wanted] for name in wanted}


def size_of(name: str) -> int:
    """The lines of a crate's code, to reckon its work by: its own lemmas take little of it."""
    return sum(it.read_bytes().count(b"\n") for it in (TOP / "crates" / name / "src").rglob("*.rt"))


def link_tree(old: pathlib.Path, new: pathlib.Path) -> None:
    """Links the files of a folder into another, but for what was made there."""
    shutil.copytree(old, new, copy_function=os.link, ignore=shutil.ignore_patterns("out"), dirs_exist_ok=True)


class Proving:
    """Crates that are proved, being proved and to be proved, and the copies of the checkout that are free."""

    def __init__(self, below: Below, jobs: int) -> None:
        self.below = below
        self.jobs = jobs
        self.beside = 0  # the jobs of those that are proved beside the first
        self.sizes = {name: size_of(name) for name in below}
        self.waits = {name: self.behind(name) for name in below}
        self.left = sorted(below, key=lambda name: -self.waits[name])
        self.done: set[str] = set()
        self.copies: list[pathlib.Path] = []
        self.running: dict[str, int] = {}  # the jobs of each
        self.tasks: set[asyncio.Task[None]] = set()

    def behind(self, name: str) -> int:
        """The lines on the longest chain of crates from this one up."""
        above = [other for other, names in self.below.items() if name in names]
        return self.sizes[name] + max(map(self.behind, above), default=0)

    def copy_checkout(self) -> pathlib.Path:
        """One more copy of the sources, with what is proved."""
        copy = pathlib.Path(tempfile.mkdtemp(prefix=".proving-", dir=TOP))
        self.copies.append(copy)
        lines = [line for line in (TOP / "crates.txt").read_text().splitlines(keepends=True) if line.strip()]
        (copy / "crates.txt").write_text(
            "".join(line for line in lines if line.replace(":", " ").split()[0] in self.below)
        )
        if (TOP / "HANDLES").exists():
            os.link(TOP / "HANDLES", copy / "HANDLES")
        for name in self.below:
            link_tree(TOP / "crates" / name, copy / "crates" / name)
            self.share(name, TOP, [copy])
        return copy

    def share(self, name: str, old: pathlib.Path, copies: list[pathlib.Path]) -> None:
        """Links the library of a proved crate into other copies."""
        made = old / "crates" / name / "out" / "rlib"
        for copy in copies:
            into = copy / "crates" / name / "out" / "rlib"
            if copy != old and made.exists():
                shutil.rmtree(into, ignore_errors=True)
                link_tree(made, into)

    async def prove(self, name: str, is_first: bool, jobs: int, copy: pathlib.Path) -> None:
        """Proves a crate in a copy, and shares it."""
        command = [*([] if is_first else ["nice", "-n", "10"]), "rt", "lib", "--jobs", str(jobs)]
        where = copy / "crates" / name
        begun = time.monotonic()
        pipe, join = asyncio.subprocess.PIPE, asyncio.subprocess.STDOUT
        child = await asyncio.create_subprocess_exec(*command, cwd=where, stdout=pipe, stderr=join)
        try:
            said, _ = await child.communicate()
        except asyncio.CancelledError:
            child.terminate()
            await child.wait()
            raise
        finally:
            del self.running[name]
            self.beside -= 0 if is_first else jobs
        told = said.decode(errors="replace")
        if child.returncode:
            raise Failed(f"{told}{name} failed")
        print(f"== {name}\n{told}checked in {time.monotonic() - begun:.0f} s with {jobs} jobs", flush=True)
        self.share(name, copy, [TOP, *self.copies])
        self.done.add(name)

    def jobs_for(self, name: str, is_first: bool) -> int:
        """How many jobs a crate gets, 0 where it has to wait."""
        all_jobs = 2 * self.jobs - 1
        taken = sum(self.running.values())
        most = max(1, min(self.jobs, all_jobs - taken)) if is_first else min(2, self.jobs - 1 - self.beside)
        return most if self.sizes[name] >= SMALL else min(1, most)

    def start(self, free: list[pathlib.Path]) -> None:
        """Begins with what can be proved now, in the copies that are free."""
        for name in [it for it in self.left if self.done.issuperset(self.below[it])]:
            is_first = self.waits[name] >= max((self.waits[it] for it in self.running), default=0)
            jobs = self.jobs_for(name, is_first)
            if jobs == 0:
                return
            self.left.remove(name)
            self.running[name] = jobs
            self.beside += 0 if is_first else jobs
            copy = free.pop() if free else self.copy_checkout()
            task = asyncio.create_task(self.prove(name, is_first, jobs, copy))
            task.add_done_callback(lambda _, copy=copy: free.append(copy))  # type: ignore
            self.tasks.add(task)

    async def run(self) -> None:
        """Proves all of them, or raises what befell the first that failed."""
        free: list[pathlib.Path] = []
        try:
            while self.left or self.tasks:
                self.start(free)
                ended, _ = await asyncio.wait(self.tasks, return_when=asyncio.FIRST_COMPLETED)
                for task in ended:
                    await task
                    self.tasks.remove(task)
        finally:
            for task in self.tasks:
                task.cancel()
            await asyncio.gather(*self.tasks, return_exceptions=True)
            for copy in self.copies:
                shutil.rmtree(copy, ignore_errors=True)


def main(words: list[str]) -> int:
    signal.signal(signal.SIGTERM, signal.default_int_handler)
    try:
        asyncio.run(Proving(read_crates(words[0]), int(words[1])).run())
    except Failed as failed:
        print(failed)
        return 1
    except KeyboardInterrupt:
        return 130
    return 0


if __name__ == "__main__":
    sys.exit(main(sys.argv[1:]))
