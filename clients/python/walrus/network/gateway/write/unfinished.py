"""State of resumable uploads on the disk: each has a folder of its own, so that it can continue after a break.

A folder has `about` (until when the file is kept, the epoch in which the upload began, and the length if known),
`names` (33 bytes for each certified piece: its identifier, and 1 if it was stored before), the later pieces in files by
number, of which the last one grows, and their sums (`growing`), and `told` (the answer) once finished. Its name begins
with a mark of the owner."""
import collections
import contextlib
import fcntl
import hashlib
import json
import os
import pathlib
import re
import secrets
import shutil
import time
from typing import IO, Any, Optional


from walrus.network.files.file_list import MARK, NAME, PIECE
from walrus.network.files.sealed import Blob
from walrus.network.gateway.http.errors import Problem
from walrus.network.gateway.resources.spool import must_fit, write
from walrus.network.service.threads import to_the_end

from .growing_files import FULL, Piece, drop, sum_of, written_at

ALL, OF_ONE = 64, 8  # the most unfinished uploads, and of one owner
FINISHED = 256  # the most finished uploads that are kept
LULL = 600  # seconds without a byte after which an upload may have to give its place to another one
UNHEARD = 120  # the same for an upload that never had a byte, if its own owner needs the place
IDLE, KNOWN = 86_400, 3_600  # seconds without a byte until an upload is dropped; for which a finished one is kept
LATER = 3_600  # seconds for which an upload is kept that seems to be over when a gateway starts
FRESH = 1.0  # seconds for which a list of the uploads is used again: with many of them, making it takes milliseconds
RECORD = NAME + 1
BEGUN = time.time() - time.monotonic()  # by how much the time of day was ahead of the monotonic clock at the start
STRANGER, HOLDER = "a", "b"  # first letters of the names of uploads that belong to an address, and to a token
GONE = "there is no such upload, or it was dropped: begin it again, and what is certified is not stored again"


def now() -> float:
    """Returns the time of day by a clock that nobody sets while this process runs: otherwise young uploads would seem
    old when the clock jumps."""
    return BEGUN + time.monotonic()


def touched(folder: str) -> float:
    """Returns when data last arrived for the upload in `folder`. If that is later than now, the clock was set since: it
    counts from now on."""
    about = f"{folder}/about"
    path = about if os.path.exists(about) else folder
    if (found := os.stat(path).st_mtime) > now():
        os.utime(path, (now(), now()))
    return min(found, now())


class Upload:
    """An upload as its folder has it; raises `Problem` if that is gone. `reserve` is the fraction of the disk that
    stays free."""

    def __init__(self, folder: pathlib.Path, reserve: float = 0.0):
        self.reserve = reserve
        try:
            self.folder, self.about = folder, json.loads((folder / "about").read_text())
            self.told: Optional[dict[str, Any]] = None
            if (folder / "told").exists():
                self.told = json.loads((folder / "told").read_text())
            records = b"" if self.told else (folder / "names").read_bytes()
        except FileNotFoundError:
            raise Problem(404, GONE) from None
        self.records = records[: len(records) // RECORD * RECORD]
        self.measure()

    def measure(self) -> None:
        """Notes what has arrived of the pieces that are not certified yet. What the disk has lost has not arrived."""
        self.sizes = list[int]()
        while self.sizes[-1:] in ([], [PIECE]) and (path := self.path(self.count + len(self.sizes))).exists():
            self.sizes.append(sum_of(path)[0])

    @property
    def count(self) -> int:
        """The number of certified pieces."""
        return len(self.records) // RECORD

    @property
    def offset(self) -> int:
        """The number of bytes that have arrived."""
        return int(self.told["size"]) if self.told else self.count * PIECE + sum(self.sizes)

    @property
    def names(self) -> list[bytes]:
        """The identifiers of the certified pieces."""
        return [self.records[place:][:NAME] for place in range(0, len(self.records), RECORD)]

    @property
    def was_there(self) -> bool:
        """Whether all certified pieces were stored before this upload."""
        return not self.records[NAME::RECORD].strip(b"\1")

    @property
    def is_marked(self) -> bool:
        """Whether the file begins with the mark of a list."""
        return (self.folder / "marked").exists()

    def path(self, number: int) -> pathlib.Path:
        return self.folder / f"{number}.piece"

    async def add(self, data: memoryview) -> Optional[int]:
        """Writes bytes that arrived, which must fit into the growing piece; returns its number once it is full. Earlier
        pieces may be certified meanwhile."""
        if not self.sizes or self.sizes[-1] == PIECE:
            self.sizes.append(0)
        number = self.count + len(self.sizes) - 1
        try:
            await to_the_end(written_at, self.path(number), self.sizes[-1], data, self.reserve)
        finally:
            with contextlib.suppress(FileNotFoundError):
                self.sizes[-1] = sum_of(self.path(number))[0]  # also if the disk took only a part
        return number if self.sizes[-1] == PIECE else None

    def room(self) -> int:
        """Returns the number of bytes that the growing piece still takes."""
        return PIECE - (self.sizes[-1] if self.sizes and self.sizes[-1] < PIECE else 0)

    def whole(self) -> range:
        """Returns the numbers of the pieces that are whole and not certified yet."""
        return range(self.count, self.count + sum(size == PIECE for size in self.sizes))

    def piece(self, number: int) -> Blob:
        """Returns a piece that is not certified yet, in its file; empty if there is none."""
        return Piece(self.path(number)) if self.path(number).exists() else b""

    def record(self, name: bytes, was_there: bool) -> None:
        """Records that the first uncertified piece is now certified under `name`, and deletes its file."""
        if not self.count:
            with open(self.path(0), "rb") as file:
                if file.read(len(MARK)) == MARK:
                    (self.folder / "marked").touch()
        with open(self.folder / "names", "r+b", buffering=0) as out:
            out.seek(len(self.records))
            write(out, memoryview(name + bytes([was_there])))  # raises if a full disk takes only a part
        drop(self.path(self.count))
        self.records += name + bytes([was_there])
        del self.sizes[:1]
        self.touch()

    def finish(self, told: dict[str, Any]) -> None:
        """Keeps the answer for a client that missed it, and deletes the pieces."""
        half = self.folder / "told.half"
        half.write_text(json.dumps(told))
        half.rename(self.folder / "told")
        for path in [self.folder / "names", *self.folder.glob("*.sum"), *self.folder.glob("*.piece")]:
            path.unlink()
        self.told, self.records = told, b""

    def touch(self) -> None:
        """Restarts the time after which the upload is dropped."""
        os.utime(self.folder / "about", (now(), now()))


class Unfinished:
    """The uploads in a folder, which several gateways may share."""

    def __init__(self, folder: pathlib.Path, reserve: float = 0.0):
        self.folder, self.reserve = folder, reserve
        for path in folder.glob("*"):  # the clock may have been set since data arrived for what seems to be over
            with contextlib.suppress(FileNotFoundError):
                if now() > touched(str(path)) + IDLE:
                    os.utime(path / "about", (now() - IDLE + LATER, now() - IDLE + LATER))
        self.at, self.found = time.monotonic(), self.sweep()

    def known(self) -> dict[str, float]:
        """Returns when data last arrived for each unfinished upload; what other gateways do, up to `FRESH` s late."""
        if time.monotonic() - self.at > FRESH:
            self.at, self.found = time.monotonic(), self.sweep()
        return self.found

    def sweep(self) -> dict[str, float]:
        """Drops uploads that have been idle for too long; returns when data last arrived for each unfinished one."""
        found, done = dict[str, float](), list[tuple[float, str]]()
        for name in os.listdir(self.folder) if self.folder.exists() else []:
            path = f"{self.folder}/{name}"
            with contextlib.suppress(FileNotFoundError):
                finished, last = os.path.exists(f"{path}/told"), touched(path)
                if now() > last + (KNOWN if finished else IDLE):
                    shutil.rmtree(path, ignore_errors=True)
                elif finished:
                    done.append((last, name))
                else:
                    found[name] = last
        for _, name in sorted(done)[: max(0, len(done) - FINISHED)]:
            shutil.rmtree(self.folder / name, ignore_errors=True)
        return found

    def create(self, owner: str, about: dict[str, Any]) -> Upload:
        """Begins an upload, whose name begins with a mark of its owner; raises `Problem` if there are too many."""
        mine, known = mark_of(owner), self.known()
        own = {name: last for name, last in known.items() if name.startswith(mine)}
        if len(own) >= OF_ONE and not self.drop_idle(own):
            text = f"{OF_ONE} uploads of yours are not finished: continue one of them, or end one with DELETE"
            text += f", or try again once one of them has been idle for {LULL // 60} minutes"
            raise Problem(429, text, {"Retry-After": "60"})
        strangers = {name: last for name, last in known.items() if name.startswith(STRANGER)}
        is_half = mine.startswith(STRANGER) and len(strangers) >= ALL // 2
        others = strangers if is_half else known if len(known) >= ALL else {}
        if others and not self.make_place(mine, others):
            text = f"{len(others)} uploads are not finished: try again later, or send a file of up to 16 MiB by PUT"
            raise Problem(503, text)
        made = self.folder / (mine + secrets.token_hex(16))
        made.mkdir(parents=True, mode=0o700)
        try:
            (made / "names").touch()
            said = json.dumps(about).encode()
            must_fit(made, len(said), self.reserve, FULL)
            with open(made / "about", "wb", buffering=0) as file:
                write(file, memoryview(said))
        except BaseException:
            shutil.rmtree(made, ignore_errors=True)  # otherwise it would take a place that no client knows of
            raise
        upload = self.find(made.name)
        upload.touch()
        self.found[made.name] = now()
        return upload

    def make_place(self, mine: str, known: dict[str, float]) -> bool:
        """Drops the most idle upload of the owner with most, if it was idle for `LULL` s and `mine` will have fewer."""
        counts = collections.Counter(name[: len(mine)] for name in known)
        owner, most = counts.most_common(1)[0]
        name = min((it for it in known if it.startswith(owner)), key=lambda it: known[it])
        return most > counts[mine] + 1 and now() >= known[name] + LULL and self.end(name, LULL)

    def drop_idle(self, own: dict[str, float]) -> bool:
        """Drops the upload of an owner that has been idle for longest, if that is a while; first one without a byte, as
        the reply with its URL may have been lost: nobody can continue or end it then. Returns whether one is gone."""
        oldest_first = sorted(own, key=own.__getitem__)
        for lull in (UNHEARD, LULL):
            for name in oldest_first:
                try:
                    may_go = now() >= own[name] + lull and (lull == LULL or self.find(name).offset == 0)
                except Problem:  # it was dropped just now
                    return self.forget(name)
                if may_go and self.end(name, lull):
                    return True
        return False

    def end(self, name: str, lull: float) -> bool:
        """Drops an upload unless a request works on it, or data came within `lull` s; returns whether it is gone."""
        with contextlib.suppress(OSError), open(self.folder / name / "about", "rb") as lock:
            fcntl.flock(lock, fcntl.LOCK_EX | fcntl.LOCK_NB)
            if now() >= touched(f"{self.folder}/{name}") + lull:
                shutil.rmtree(self.folder / name, ignore_errors=True)
        return not (self.folder / name).exists() and self.forget(name)

    def forget(self, name: str) -> bool:
        """Has an upload count no more, as it is gone or finished; returns True."""
        self.found.pop(name, None)
        return True

    def lock(self, owner: str, name: str) -> Optional[IO[bytes]]:
        """Locks an upload: returns the file that holds the lock until it is closed, or None if another request works on
        the upload. Raises `Problem` if the owner has no such upload."""
        if not is_of(owner, name):
            raise Problem(404, GONE)
        try:
            lock = open(self.folder / name / "about", "rb")
        except FileNotFoundError:
            raise Problem(404, GONE) from None
        try:
            fcntl.flock(lock, fcntl.LOCK_EX | fcntl.LOCK_NB)
        except BlockingIOError:
            lock.close()
            return None
        return lock

    def find(self, name: str) -> Upload:
        """Returns the upload of a name. Raises `Problem` if there is none, or if a power loss left its files empty; it
        is dropped then."""
        try:
            return Upload(self.folder / name, self.reserve)
        except ValueError:
            shutil.rmtree(self.folder / name, ignore_errors=True)
            raise Problem(404, GONE) from None

    def drop(self, upload: Upload) -> None:
        shutil.rmtree(upload.folder, ignore_errors=True)
        self.forget(upload.folder.name)


def is_of(owner: str, name: str) -> bool:
    """Whether a name has the form of an owner's upload."""
    return bool(re.fullmatch("[0-9a-f]{48}", name)) and name.startswith(mark_of(owner))


def mark_of(owner: str) -> str:
    """Returns the first sixteen letters of the names of an owner's uploads."""
    kind = STRANGER if owner.startswith("address ") else HOLDER
    return kind + hashlib.sha256(owner.encode("utf-8", "surrogateescape")).hexdigest()[:15]
