"""What an interrupted fetch leaves of a file. It is beside the file, and is called after it and the identifier, so that
versions never mix. The next fetch of the same identifier to the same path continues it."""
import contextlib
import errno
import fcntl
import os
import stat
from typing import IO, Optional

from .file_list import PIECE

LONGEST = 255  # most bytes of a file's name
FULL = errno.ENOSPC, errno.EDQUOT, errno.EFBIG  # errors of a full disk, on which nothing is left


def beside(path: str, identifier: str) -> str:
    """Returns the path at which the beginning of a file for this path is left."""
    folder, name = os.path.split(path)
    end = f".{identifier.lower()}.part"
    return os.path.join(folder, os.fsencode(name)[: LONGEST - len(end)].decode(errors="ignore") + end)


def opened(path: str) -> Optional[IO[bytes]]:
    """Returns the file there, or a new one, locked; None if another process has it, or it may be written by others."""
    with contextlib.suppress(OSError), contextlib.ExitStack() as stack:
        file = stack.enter_context(open(path, "r+b", opener=made))
        found = os.fstat(file.fileno())
        is_ours = stat.S_ISREG(found.st_mode) and found.st_nlink == 1 and found.st_uid == os.geteuid()
        try:
            fcntl.flock(file, fcntl.LOCK_EX | fcntl.LOCK_NB)
        except OSError as fault:
            if is_ours and not found.st_size and not isinstance(fault, BlockingIOError):
                remove(file)  # a disk without locks: this file is new, and nobody else's
            raise
        if is_ours and is_there(file):  # it was not renamed meanwhile
            stack.pop_all()
            return file
    return None


def is_there(file: IO[bytes]) -> bool:
    """Whether a file still has the name by which it was opened: it may have been removed, and another one created."""
    with contextlib.suppress(FileNotFoundError):
        return os.path.samestat(os.fstat(file.fileno()), os.lstat(file.name))
    return False


def remove(file: IO[bytes]) -> None:
    """Removes a file while it is open, and so locked: no other process can have taken it over."""
    if is_there(file):
        os.unlink(file.name)


def made(path: str, _: int) -> int:
    return os.open(path, os.O_RDWR | os.O_CREAT | os.O_NOFOLLOW | os.O_CLOEXEC, 0o600)


def goes_on(file: IO[bytes], fault: BaseException) -> bool:
    """Whether what has come is left for the next command: at least a piece, unless the disk is full."""
    return os.fstat(file.fileno()).st_size >= PIECE and getattr(fault, "errno", None) not in FULL
