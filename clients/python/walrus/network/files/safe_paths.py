"""Files below a folder of this machine, at paths that somebody else chose: no link is followed, and nothing is written
outside of the folder."""
import contextlib
import itertools
import os
import secrets
import stat
import unicodedata
from typing import IO, Iterator, Optional


from walrus.network.service.failure import Failure

BELOW = os.O_RDONLY | os.O_DIRECTORY | os.O_NOFOLLOW | os.O_CLOEXEC


class Root(contextlib.AbstractContextManager["Root"]):
    """A folder, which must exist."""

    def __init__(self, path: str):
        self.path, self.handle = path, os.open(path, os.O_RDONLY | os.O_DIRECTORY | os.O_CLOEXEC)

    def __exit__(self, *_: object) -> None:
        os.close(self.handle)

    @contextlib.contextmanager
    def folder_of(self, path: str, make: bool = False) -> Iterator[tuple[int, str]]:
        """Yields a descriptor of the folder in which the file of this path is, and the file's own name. With `make`,
        missing folders are made."""
        *folders, name = path.split("/")
        if not {"", ".", ".."}.isdisjoint([*folders, name]):
            raise Failure(f"{path!r} is no path in a folder", 3)
        handle = os.dup(self.handle)
        try:
            for folder in folders:
                if make:
                    with contextlib.suppress(FileExistsError):
                        os.mkdir(folder, dir_fd=handle)
                below = os.open(folder, BELOW, dir_fd=handle)
                os.close(handle)
                handle = below
            yield handle, name
        finally:
            os.close(handle)

    @contextlib.contextmanager
    def opened(self, path: str, size: int) -> Iterator[Optional[IO[bytes]]]:
        """Yields the file of this path if it is a regular one of this length, else None."""
        with contextlib.ExitStack() as stack:
            try:
                handle, name = stack.enter_context(self.folder_of(path))
                words = os.O_RDONLY | os.O_NOFOLLOW | os.O_NONBLOCK | os.O_CLOEXEC
                file = stack.enter_context(open(os.open(name, words, dir_fd=handle), "rb"))
                told = os.fstat(file.fileno())
                is_it = stat.S_ISREG(told.st_mode) and told.st_size == size
            except OSError:
                is_it = False
            yield file if is_it else None

    @contextlib.contextmanager
    def written(self, path: str) -> Iterator[IO[bytes]]:
        """Yields a file beside this path, which takes its place at the end, or is deleted if anything fails."""
        with self.folder_of(path, make=True) as (handle, name):
            beside = f".walrus-{secrets.token_hex(8)}"
            words = os.O_RDWR | os.O_CREAT | os.O_EXCL | os.O_NOFOLLOW | os.O_CLOEXEC
            try:
                with open(os.open(beside, words, 0o666, dir_fd=handle), "w+b") as file:
                    yield file
                os.replace(beside, name, src_dir_fd=handle, dst_dir_fd=handle)
            finally:
                with contextlib.suppress(FileNotFoundError):
                    os.unlink(beside, dir_fd=handle)

    def folds(self) -> bool:
        """Whether the file system takes some names for equal that differ, by case or Unicode normalization."""
        name = f".walrus-\u00e5-{secrets.token_hex(8)}"
        os.close(os.open(name, os.O_WRONLY | os.O_CREAT | os.O_EXCL, 0o600, dir_fd=self.handle))
        try:
            others = name.upper(), unicodedata.normalize("NFD", name)
            return any(os.access(it, os.F_OK, dir_fd=self.handle) for it in others)
        finally:
            os.unlink(name, dir_fd=self.handle)

    def must_keep_apart(self, paths: list[str]) -> None:
        """Raises `Failure` if the file system takes two of these paths, or two of their folders, for one."""
        if not self.folds():
            return
        ordered = sorted(paths, key=lambda it: folded(it).replace("/", "\0"))  # those in one folder are side by side
        for one, other in itertools.pairwise(ordered):
            for name, second in zip(one.split("/"), other.split("/")):
                if name != second and folded(name) == folded(second):
                    pair = f"{name!r} and {second!r} of {one!r} and {other!r}"
                    raise Failure(f"{pair} are one name in {self.path}: fetch the folder to another file system", 1)
                if name != second:
                    break


def folded(path: str) -> str:
    return unicodedata.normalize("NFD", unicodedata.normalize("NFD", path).casefold())


def is_equal(file: IO[bytes], start: int, data: bytes) -> bool:
    """Whether a file has these bytes at offset `start`."""
    file.flush()
    return os.pread(file.fileno(), len(data), start) == data
