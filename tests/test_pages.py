"""Runs the commands that the pages show, and compares what they write with the lines below them: python3 -m unittest.

A page is run in one shell and one folder of its own, from its first block to its last. The program is the variable
WALRUS, or else crates/walrus/out/walrus.
"""
import contextlib
import dataclasses
import functools
import hashlib
import os
import pathlib
import shlex
import shutil
import signal
import subprocess
import tempfile
import unittest

TOP = pathlib.Path(__file__).resolve().parents[1]
BUILT = TOP / "crates" / "walrus" / "out" / "walrus"
PROGRAM = os.path.abspath(os.environ.get("WALRUS") or BUILT)
MANUAL = "docs/walrus.1"
PAGES = ["README.md", "examples/README.md", *sorted(f"docs/{page.name}" for page in TOP.glob("docs/*.md")), MANUAL]
SIX_WORDS = bytes.fromhex("000100020003000400050006")
SECONDS = 40  # for a page, on a busy machine
SKIPPED = {  # how a command begins, and why it is not run
    "ncat --listen": "it is a service, on a fixed port; test_blocks.py tries it",
    "ncat --no-shutdown": "it needs that service; test_blocks.py tries it",
    "tail -c 140 answers": "it is for a clash, and none can be made; test_blocks.py tries it on a false one",
    "xxd -r -p <<< LEFT": "LEFT stands for a text of a clash, as above",
    "xxd -r -p <<< RIGHT": "RIGHT stands for a text of a clash, as above",
    "ssh -N -L": "it is a service, to another machine",
}
TOOLS = {"ncat 127.0.0.1": "ncat", "jq ": "jq"}  # how a command begins that is left out where its tool is not here
SKIPPED |= {start: f"{tool} is not here" for start, tool in TOOLS.items() if not shutil.which(tool)}
needs_program = unittest.skipUnless("WALRUS" in os.environ or BUILT.exists(), "the program is not built")


def digest(*pieces):
    return hashlib.sha256(b"".join(pieces)).digest()


def opening(cross, words):
    """The envelope of an opening of secondary sliver 3 of the six words: these are those of the row that crosses."""
    leaves = [digest(b"\0", bytes([0, word])) for word in words]
    target = "570000" "0000006d" "12" "e02bba4bcbf5e38690b9d44c477647094b390c35d101726424629de2f5ab48fa" "01" "0003"
    body = [bytes([0, cross]), bytes([0, 0, 0, 2, 0, words[3], 2]), leaves[2], digest(b"\1", *leaves[:2])]
    return bytes.fromhex(target) + b"".join(body)


OPENINGS = opening(0, [1, 2, 3, 0]) + opening(1, [4, 5, 6, 7])
FILES = {MANUAL: {"file": SIX_WORDS, "openings": OPENINGS}}  # what a page speaks of and does not make


@dataclasses.dataclass
class Command:
    """A command, the line of the page in which it begins, and the lines that it is said to write."""
    line: int
    text: str
    wanted: list

    def is_skipped(self):
        return self.text.startswith(tuple(SKIPPED))


@functools.cache
def is_whole(text):
    """Whether bash takes the text for whole commands: no here-document, bracket, quote or pipe is open at its end."""
    told = subprocess.run(["bash", "-n"], input=text, capture_output=True, encoding="utf-8")
    return told.returncode == 0 and not told.stderr and not text.endswith("\\\n")


def read_commands(lines, opening, closing):
    """The commands in the blocks between lines `opening` and `closing`: behind `$ `, and `> ` where they go on."""
    commands, inside = [], False
    for number, line in enumerate(lines, 1):
        if line in (opening, closing):
            inside = line == opening
        elif inside and line.startswith("$ "):
            commands.append(Command(number, line[2:] + "\n", []))
        elif inside and not is_whole(commands[-1].text):
            commands[-1].text += line.removeprefix("> ") + "\n"
        elif inside:
            commands[-1].wanted.append(line)
    return commands


def read_page(page):
    text = (TOP / page).read_text(encoding="utf-8")
    if page == MANUAL:
        return read_commands(text.replace(r"\(aq", "'").replace(r"\-", "-").splitlines(), ".EX", ".EE")
    return read_commands(text.splitlines(), "```console", "```")


@contextlib.contextmanager
def make_folder(files=()):
    """A folder with these files and the program, what is told of commands beside it, and the variables of a shell.

    There ssh runs the command here, whichever host it is given.
    """
    with tempfile.TemporaryDirectory() as name:
        top = pathlib.Path(name)
        for folder in ("bin", "page", "told"):
            (top / folder).mkdir()
        for folder in ("bin", "page"):
            (top / folder / "walrus").symlink_to(PROGRAM)
        (top / "page" / "clients").symlink_to(TOP / "clients")
        (top / "bin" / "ssh").write_text('#!/bin/sh\nshift 2\nexec "$@"\n')
        (top / "bin" / "ssh").chmod(0o755)
        for file, content in dict(files).items():
            (top / "page" / file).write_bytes(content)
        path = f"{top / 'bin'}:{os.environ['PATH']}"
        yield top / "page", top / "told", {"PATH": path, "HOME": name, "LC_ALL": "C", "PYTHONDONTWRITEBYTECODE": "1"}


def run_script(script, seconds, folder, environment):
    """Runs it, and returns whether it and what it starts end within these seconds; what does not is killed."""
    streams = dict.fromkeys(("stdin", "stdout", "stderr"), subprocess.DEVNULL)
    words = ["bash", "-c", f"trap wait EXIT\n{script}", "bash"]
    process = subprocess.Popen(words, cwd=folder, env=environment, start_new_session=True, **streams)
    try:
        process.wait(seconds)
    except subprocess.TimeoutExpired:
        os.killpg(process.pid, signal.SIGKILL)
        process.wait()
    return process.returncode != -signal.SIGKILL


def run_commands(commands, files=(), seconds=SECONDS):
    """The lines that each command writes, in one shell; None for a command that the shell does not come to."""
    with make_folder(files) as (folder, told, environment):
        outputs = [told / str(command.line) for command in commands]
        script = 'begin_output() { local status=$?; exec >"$1" 2>&1; return $status; }\n'
        for command, output in zip(commands, outputs):
            script += f"begin_output {shlex.quote(str(output))}\n{command.text}"
        is_ended = run_script(script, seconds, folder, environment)
        texts = [output.read_text("utf-8", "backslashreplace") for output in outputs if output.exists()]
    got = [text.splitlines() for text in texts]
    if got and not is_ended:
        got[-1].append(f"(killed after {seconds} seconds)")
    return got + [None] * (len(commands) - len(got))


def tell(page, command, got):
    """What a failure says: the command, what was wanted and what came."""
    came = ["(nothing: the shell did not come to it)"] if got is None else got[:100]
    wanted = ["wanted:", *command.wanted, "came:", *came]
    return "\n".join([f"{page}, line {command.line}:", f"$ {command.text.rstrip()}", *wanted])


class Reading(unittest.TestCase):
    def test_commands_are_read_and_run(self):
        lines = ["```console", "$ a=1", "$ cat << END", "b", "$a", "END", "b", "2", "$ echo \\", "c", "c", "```", "d",
                 "```sh", "$ e", "```", "```console", "$ false |", ">   false", "$ echo $?  # f", "1", "```"]
        commands = read_commands(lines, "```console", "```")
        self.assertEqual([command.line for command in commands], [2, 3, 9, 18, 20])
        self.assertEqual(commands[1], Command(3, "cat << END\nb\n$a\nEND\n", ["b", "2"]))
        self.assertEqual(commands[3].text, "false |\n  false\n")
        self.assertEqual(run_commands(commands), [[], ["b", "1"], ["c"], [], ["1"]])
        told = "p, line 3:\n$ cat << END\nb\n$a\nEND\nwanted:\nb\n2\ncame:\nb\n1"
        self.assertEqual(tell("p", commands[1], ["b", "1"]), told)

    def test_what_the_shell_does_not_come_to_is_told(self):
        commands = [Command(1, "echo a >&2; exit\n", ["a"]), Command(2, "b\n", [])]
        self.assertEqual(run_commands(commands), [["a"], None])
        commands = [Command(1, "sleep 60 &\n", []), Command(2, "echo b; exit\n", [])]
        self.assertEqual(run_commands(commands, seconds=1), [[], ["b", "(killed after 1 seconds)"]])

    def test_each_skipped_command_is_one_of_a_page(self):
        texts = [command.text for page in PAGES for command in read_page(page)]
        self.assertEqual([start for start in SKIPPED if not any(text.startswith(start) for text in texts)], [])


@needs_program
@unittest.skipUnless(shutil.which("xxd"), "xxd is not here, which the pages use")
class Pages(unittest.TestCase):
    def check(self, page, command, got):
        if got != command.wanted:
            self.fail(tell(page, command, got))

    def test_commands_write_what_the_pages_say(self):
        for page in PAGES:
            commands = [command for command in read_page(page) if not command.is_skipped()]
            for command, got in zip(commands, run_commands(commands, FILES.get(page, ()))):
                with self.subTest(page=page, line=command.line):
                    self.check(page, command, got)


if __name__ == "__main__":
    unittest.main()
