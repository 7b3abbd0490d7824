"""What an interrupted fetch leaves of a file, and which process may use it."""
import asyncio
import contextlib
import errno
import fcntl
import os
import pathlib
import tempfile
import unittest
from typing import IO
from unittest import mock

from support.transfer_case import PIECE
from walrus.network.files import naming


class Partial(unittest.TestCase):
    """What a command leaves for the next one, and which process may use it."""

    def setUp(self) -> None:
        made = tempfile.TemporaryDirectory(prefix="walrus-partial-")
        self.addCleanup(made.cleanup)
        self.folder, self.name = pathlib.Path(made.name), "0A" * 32
        self.out = self.folder / "out"
        self.part = self.folder / f"out.{self.name.lower()}.part"

    def left(self) -> list[str]:
        return sorted(path.name for path in self.folder.iterdir())

    def give_up(self, size: int, fault: BaseException, output: str = "out") -> None:
        """Writes this much more of a file, and then raises this fault."""
        with contextlib.suppress(type(fault)):
            with naming.written_whole(str(self.folder / output), self.name) as file:
                file.seek(0, os.SEEK_END)
                file.write(bytes(size))
                raise fault

    def test_a_piece_at_least_is_left_unless_the_disk_is_full(self) -> None:
        interrupted = KeyboardInterrupt()
        for size, fault, left in (
            (PIECE - 1, interrupted, 0),
            (PIECE, interrupted, PIECE),
            (1, asyncio.CancelledError(), PIECE + 1),
            (0, OSError(28, "No space left on device"), 0),
        ):
            self.give_up(size, fault)
            self.assertEqual(self.part.stat().st_size if self.part.exists() else 0, left)
        self.assertEqual(self.left(), [])

    def test_names_may_be_as_long_as_a_disk_takes(self) -> None:
        for name in ("a" * 245, "\u00fc" * 122):
            for _ in range(2):
                self.give_up(PIECE, KeyboardInterrupt(), name)
            [left] = self.folder.iterdir()
            self.assertTrue(name.startswith(left.name.partition(".")[0]))
            self.assertTrue(left.name.endswith(f".{self.name.lower()}.part"))
            self.assertEqual(left.stat().st_size, 2 * PIECE)
            left.unlink()

    def test_who_comes_second_begins_anew(self) -> None:
        self.give_up(PIECE, KeyboardInterrupt())
        with naming.written_whole(str(self.out), self.name) as first:
            with naming.written_whole(str(self.out), self.name) as second:
                self.assertEqual((len(first.read()), second.read()), (PIECE, b""))
                second.write(b"second")
            self.assertEqual((self.out.read_bytes(), self.part.stat().st_size), (b"second", PIECE))
        self.assertEqual((self.out.stat().st_size, self.left()), (PIECE, ["out"]))

    def test_what_another_one_begins_meanwhile_is_its_own(self) -> None:
        """One begins just as another one has ended or is about to give up: both end well, in either order."""
        for patched, size in (("replace", PIECE), ("unlink", 1)):
            call, second = getattr(os, patched), contextlib.ExitStack()
            begun = list[IO[bytes]]()

            def at_once(*words: str) -> None:
                if patched == "replace":
                    call(*words)
                if not begun:
                    begun.append(second.enter_context(naming.written_whole(str(self.out), self.name)))
                if patched == "unlink":
                    call(*words)

            with mock.patch.object(os, patched, at_once), contextlib.suppress(KeyboardInterrupt):
                with naming.written_whole(str(self.out), self.name) as first:
                    first.write(bytes(size))
                    if patched == "unlink":
                        raise KeyboardInterrupt()
            with second:
                self.assertEqual(begun[0].read(), b"")
                begun[0].write(b"second")
            self.assertEqual((self.out.read_bytes(), self.left()), (b"second", ["out"]))

    def test_a_file_of_another_one_does_not_take_the_place(self) -> None:
        self.out.write_bytes(b"before")
        with self.assertRaisesRegex(FileNotFoundError, "removed meanwhile"):
            with naming.written_whole(str(self.out), self.name) as file:
                file.write(b"whole")
                self.part.unlink()
                self.part.write_bytes(b"half")
        self.assertEqual((self.out.read_bytes(), self.part.read_bytes()), (b"before", b"half"))

    def test_where_a_disk_has_no_locks_nothing_is_left(self) -> None:
        with mock.patch.object(fcntl, "flock", side_effect=OSError(errno.ENOLCK, "No locks available")):
            for size in (0, PIECE):
                if size:
                    self.part.write_bytes(bytes(size))
                self.give_up(PIECE, KeyboardInterrupt())
                self.assertEqual(self.left(), [self.part.name] if size else [])
            self.assertEqual(self.part.read_bytes(), bytes(PIECE))  # what came before stays
        self.part.write_bytes(b"")
        with open(self.part, "r+b") as other:
            fcntl.flock(other, fcntl.LOCK_EX)
            self.give_up(PIECE, KeyboardInterrupt())
        self.assertEqual(self.left(), [self.part.name])

    def test_what_may_be_another_s_is_not_written(self) -> None:
        other = self.folder / "other"
        other.write_bytes(b"other")
        for way in (self.part.symlink_to, self.part.hardlink_to):
            way(other)
            with naming.written_whole(str(self.out), self.name) as file:
                self.assertEqual(file.read(), b"")
                file.write(b"new")
            self.assertEqual((self.out.read_bytes(), other.read_bytes()), (b"new", b"other"))
            self.part.unlink()
        self.part.mkdir()
        with naming.written_whole(str(self.out), self.name) as file:
            file.write(b"newer")
        self.assertEqual((self.out.read_bytes(), self.left()), (b"newer", ["other", "out", self.part.name]))
