"""Folders and files of a service, which are for its user alone: what is in them are keys, programs and others' data."""
import os
import pathlib
import stat
from typing import Iterable, Iterator

OTHERS, WRITING = stat.S_IRWXG | stat.S_IRWXO, stat.S_IWGRP | stat.S_IWOTH
MOST_STEPS = 4_096  # most parts of a path, with those of its links: what has more, the system does not find either
BESIDE = "", "-wal", "-shm", ".lock"  # what names of a database and its lock end with


class Foreign(PermissionError):
    """A folder or a file that others own, or may write. The text says which, and what to do."""


def close_to_others() -> None:
    """Makes all files that this process makes from now on files of its user alone."""
    os.umask(0o077)


def make_folder(folder: pathlib.Path) -> pathlib.Path:
    """Makes a folder for this user alone, with those above it, or closes one that is there to others. Returns its path
    without links. Raises `Foreign` if another user owns it, could have put something there, could exchange it, or made
    a link on the way to it, which may point to another folder of this user."""
    advice = "take a folder of your own, such as one in your home"
    must_be_own(links_to(folder), advice)
    folder.mkdir(parents=True, mode=0o700, exist_ok=True)
    must_be_own(links_to(folder), advice)  # one may have been made meanwhile
    folder = folder.resolve()
    found = folder.stat()
    if found.st_uid != os.geteuid():
        raise Foreign(f"{folder} belongs to another user ({found.st_uid}), whose files would be run: {advice}")
    if found.st_mode & WRITING:
        told = f"chmod 700 {folder}, if all that is in it is yours"
        raise Foreign(f"others may write to {folder}, and what they put there would be run: {advice}; or {told}")
    for above in folder.parents:
        found = above.stat()
        if found.st_uid not in (0, os.geteuid()):
            raise Foreign(f"{folder} is below {above}, whose owner ({found.st_uid}) may exchange it: {advice}")
        if found.st_mode & stat.S_IWOTH and not found.st_mode & stat.S_ISVTX:
            raise Foreign(f"{folder} is below {above}, where anybody may exchange it: {advice}")
    folder.chmod(0o700)
    return folder


def links_to(path: pathlib.Path) -> Iterator[pathlib.Path]:
    """Yields the symbolic links on the way to a path, those on the way to what they point to among them."""
    way, left = pathlib.Path("/"), [*reversed(path.absolute().parts[1:])]
    for _ in range(MOST_STEPS):
        if not left:
            return
        step = way / left.pop()
        if step.is_symlink():
            yield step
            target = step.readlink()
            way = pathlib.Path("/") if target.is_absolute() else way
            left += reversed(target.parts[target.is_absolute() :])  # noqa: E203
        else:
            way = way.parent if step.name == ".." else step


def must_be_own(links: Iterable[pathlib.Path], advice: str) -> None:
    """Raises `Foreign` for a link of another user, who is not root."""
    for link in links:
        if (owner := link.lstat().st_uid) not in (0, os.geteuid()):
            raise Foreign(f"{link} is a link of another user ({owner}), and may point anywhere: {advice}")


def close(paths: Iterable[pathlib.Path]) -> None:
    """Takes from others what they may do with these files and folders, if they are there: versions before let them
    read. Raises `Foreign` for what another user owns."""
    for path in paths:
        try:
            found = path.stat()
        except FileNotFoundError:
            continue
        if found.st_mode & OTHERS and found.st_uid != os.geteuid():
            owner = f"chown {os.geteuid()} {path}; chmod go= {path}"
            raise Foreign(f"{path} belongs to another user ({found.st_uid}), and others may use it: {owner}")
        if found.st_mode & OTHERS:
            path.chmod(stat.S_IMODE(found.st_mode) & ~OTHERS)


def close_database(name: str) -> None:
    """Closes the files of a database to others, and the folder of contents and the copy of the ledger beside it."""
    path = pathlib.Path(name)
    close(pathlib.Path(f"{it}{end}") for it in (path, path.with_suffix(".ledger")) for end in BESIDE)
    close(path.with_suffix(end) for end in (".parts", ".parts.lock"))


def begin(database: str) -> None:
    """Called when a service starts: what is there of its database, and all that it makes, is for its user alone."""
    close_to_others()
    close_database(database)
