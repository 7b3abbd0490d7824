"""How posters and followers reach the ledger: they post entries to any recorder, and hear all entries in order."""
import asyncio
import base64
import contextlib
import errno
import json
import random
import ssl
import time
from typing import Any, AsyncGenerator, AsyncIterator, Callable, NamedTuple, Optional, Sequence, Union

import aiohttp
from aiohttp import http_exceptions


from walrus.network.service.condition import Waiting

from .checkpoint import MOST_PIECES, Pieces, Unfit
from .entries import DIGITS, Chain, Entry, fitting
from .rules import Ledger
from .state import State

NAME = "recorder"  # in the certificate of every recorder, and of nobody else
SILENCE, AWAY, LONGEST_LINE = 10.0, 5.0, 2**20  # seconds of silence until a recorder or the ledger is away; bytes
CONNECT = 5.0  # seconds within which an address must accept a connection
AGAIN, FULL = (
    1.0,
    5.0,
)  # seconds until another recorder is asked for a checkpoint that was none; for one that the disk did not take
MOST, MOST_BYTES = 1_000, 262_144  # entries that are posted at once, and their bytes
PARTED = "it is another ledger, or one that was restored (network/OPERATING.md)"
MADE_UP = ValueError, KeyError, TypeError, RecursionError  # raised by what a recorder makes up
PASSING = (aiohttp.ClientError, http_exceptions.HttpProcessingError, ConnectionError, TimeoutError, *MADE_UP)


class Refused(PermissionError):
    """The ledger refused an entry; the message says why."""


class Unreachable(ConnectionError):
    """No recorder answered in time; or the ledger is being restored, and was sent what is kept of it here."""


class Parted(OSError):
    """The ledger is not the one that was heard before: its follower must stop."""


class Resolver(aiohttp.ThreadedResolver):
    """Resolves any name to a recorder's host. Each time another of its addresses comes first, as one may not answer."""

    def __init__(self, host: str):
        super().__init__()
        self.host, self.turn = host, -1

    async def resolve(self, hostname: str, port: int = 0, family: int = 0) -> list[dict[str, Any]]:
        found = [{**it, "hostname": hostname} for it in await super().resolve(self.host, port, family)]
        self.turn = (self.turn + 1) % len(found)
        return found[self.turn :] + found[: self.turn]  # noqa: E203


class News(NamedTuple):
    """News from a recorder: entries, how far the ledger is heard with them, and where it ended as the stream began."""

    chain: Chain
    entries: list[Entry]
    head: int
    ledger: str  # its identity
    pieces: Union[list[bytes], Pieces] = []  # of a checkpoint at that place, which replaces all entries up to there


def whole(value: object) -> int:
    """Returns a place or a number of pieces; raises `ValueError` for what is none, such as NaN, which no comparison of
    places refuses."""
    if type(value) is not int or not 0 <= value < 10**DIGITS:
        raise ValueError(f"a recorder sends {str(value)[:40]} where a number should be")
    return value


class Recorders:
    """The recorders of a ledger, reached with a certificate, whose name is the poster's. Any of them will do."""

    def __init__(self, addresses: Sequence[str], authority: str, certificate: str, key: str):
        context, jar = ssl.create_default_context(cafile=authority), aiohttp.DummyCookieJar()
        context.load_cert_chain(certificate, key)
        self.known: list[tuple[str, aiohttp.ClientSession]] = []
        for host, _, port in (it.rpartition(":") for it in addresses):
            connector = aiohttp.TCPConnector(ssl=context, resolver=Resolver(host.strip("[]")), limit=0)
            words: dict[str, Any] = {"cookie_jar": jar, "read_bufsize": LONGEST_LINE}
            words |= {"auto_decompress": False, "headers": {"Accept-Encoding": "identity"}}  # few bytes may become many
            session = aiohttp.ClientSession(connector=connector, **words)
            self.known.append((f"https://{NAME}:{port}/v1/", session))
        self.at, self.said = random.randrange(len(self.known)), "it is too slow"
        self.folder: Optional[str] = None  # where a checkpoint is kept while it comes; None: the system's folder for it
        self.pieces = Pieces()  # of a checkpoint, as far as they have come
        self.waiting: list[tuple[str, "asyncio.Future[int]"]] = []
        self.sending: Optional["asyncio.Task[None]"] = None
        self.tail: Callable[[int, int], list[Entry]] = lambda place, count: []  # entries kept here, after a place
        self.digest: Callable[[int], str] = lambda place: ""  # of all up to a place of the tail, if it is known

    async def aclose(self) -> None:
        if self.sending:
            self.sending.cancel()
            await asyncio.gather(self.sending, return_exceptions=True)
        for _, session in self.known:
            await session.close()

    async def post(self, key: str, seconds: Optional[float] = 20) -> int:
        """Posts an entry under the certificate's name; returns its place, which is the first if it counted before."""
        try:
            async with asyncio.timeout(seconds):
                return await self.leave(key)
        except TimeoutError:
            raise Unreachable(f"no recorder took {key[:100]} within {seconds:g} s: {self.said}") from None

    def leave(self, key: str) -> "asyncio.Future[int]":
        """Queues an entry under the certificate's name; returns a future of its place that nobody need await."""
        taken: "asyncio.Future[int]" = asyncio.get_running_loop().create_future()
        taken.add_done_callback(lambda it: it.cancelled() or it.exception())  # so asyncio does not log a fault unread
        self.waiting.append((key.partition("/")[2], taken))
        if self.sending is None or self.sending.done():
            self.sending = asyncio.create_task(self.send())
        return taken

    async def send(self) -> None:
        """Posts queued entries until none is left; those that come during a request go with the next one."""
        pause = 0.1
        while waiting := [(text, taken) for text, taken in self.waiting if not taken.done()]:
            self.waiting, at = waiting, self.at
            texts = fitting((text for text, _ in waiting[:MOST]), MOST_BYTES)
            try:
                status, told = await asyncio.create_task(self.ask("entries", texts, at))
                if status in (400, 403, 413):  # it refuses all of them
                    told = [{"refused": told["error"]}] * len(texts)
                elif status != 200 or len(told) != len(texts):
                    raise ConnectionError(f"a recorder answers with status {status}: {told['error']}")
                answers = [it["place"] if "place" in it else Refused(it["refused"]) for it in told]
            except PASSING as fault:
                pause = await self.mind(fault, at, pause)
                continue
            pause = 0.1
            for (_, taken), answer in zip(waiting, answers):
                if not taken.done():
                    taken.set_exception(answer) if isinstance(answer, Refused) else taken.set_result(answer)

    async def ask(self, path: str, body: object, at: int) -> tuple[int, Any]:
        """Posts to one of the recorders, by its index; returns the status of its answer, and the answer."""
        url, session = self.known[at]
        limit = aiohttp.ClientTimeout(total=30, sock_connect=CONNECT)
        async with session.post(url + path, json=body, timeout=limit) as said:
            return said.status, await said.json(content_type=None)

    async def mind(self, fault: BaseException, at: int, pause: float) -> float:
        """Turns to the next recorder after one failed, and sleeps for `pause` seconds; returns the next pause."""
        ended = isinstance(fault, aiohttp.ServerDisconnectedError) or getattr(fault, "errno", 0) == errno.ECONNRESET
        self.said = "a recorder does not accept the certificate, or ended" if ended else str(fault) or "it is too slow"
        if self.at == at:
            self.at = (at + 1) % len(self.known)
        await asyncio.sleep(pause)
        return min(2 * pause, 2.0)

    async def follow(self, chain: Optional[Chain], ledger: str = "") -> AsyncGenerator[News, None]:
        """Yields the news of a ledger after a chain, without end, from any recorder; raises `Parted` or `Refused`."""
        pause = 0.1
        while True:
            at = self.at
            try:
                async for news in self.stream(chain, ledger):
                    pause, chain, ledger = 0.1, news.chain, news.ledger
                    yield news
                raise ConnectionError("the recorder ended")
            except Unreachable as fault:
                self.said = str(fault)
                await asyncio.sleep(0.1)
            except PASSING as fault:
                pause = await self.mind(fault, at, pause)

    async def stream(self, chain: Optional[Chain], ledger: str) -> AsyncIterator[News]:
        """Yields the news of one recorder, until it ends or is silent for too long."""
        (url, session), place = self.known[at := self.at], chain.place if chain else 0
        limit = aiohttp.ClientTimeout(total=None, sock_connect=CONNECT, sock_read=SILENCE)
        async with session.get(f"{url}entries", params={"after": str(place)}, timeout=limit) as said:
            read = said.content.readline
            told = json.loads(await read())
            if "tail" in told:  # restoring.py asks so for what is kept here, and gets it, or a part
                entries = self.tail(place := whole(told["tail"]), 4 * MOST)
                after = entries[0].place - 1 if entries else place
                body = {"after": after, "digest": self.digest(after)}
                await self.ask("tail", body | {"entries": fitting((it.text for it in entries), MOST_BYTES)}, at)
                raise Unreachable(told["error"])
            if said.status != 200:
                raise {403: Refused, 409: Parted}.get(said.status, ConnectionError)(told["error"])
            head, begun = whole(told["head"]), Chain(whole(told.get("place", place)), bytes.fromhex(told["digest"]))
            if ledger not in ("", told["ledger"]) or chain and begun.place == place and chain != begun:
                raise Parted(f"the ledger's first {place} entries are others than were heard before: {PARTED}")
            count = self.must_lead_on(told, begun, place)
            pieces = self.pieces = Pieces(self.folder)
            try:
                while len(pieces) < count:
                    await self.keep(base64.b64decode(json.loads(await read())["piece"]), pieces)
                if pieces and pieces.state != told["state"]:
                    raise ConnectionError("a recorder's checkpoint does not have the digest that it should have")
                chain, ledger = begun, told["ledger"]
                yield News(chain, [], head, ledger, pieces)
            finally:
                pieces.clear()  # they are applied, and this stream may last for months
            while line := await read():
                told = json.loads(line)
                if "error" in told:
                    raise ConnectionError(f"a recorder no longer sees the ledger: {told['error']}")
                entries, chain = chain.followed(told["entries"]), chain.behind(told["entries"])
                if told["digest"] != chain.digest.hex():
                    raise Parted(f"the entries up to {chain.place} have another digest than the ledger: {PARTED}")
                yield News(chain, entries, head, ledger)

    def must_lead_on(self, told: dict[str, Any], begun: Chain, place: int) -> int:
        """Returns the number of pieces of the checkpoint that a stream begins with. It must be of a place behind which
        nothing was heard yet: an older one would take back what was heard, as would one of another ledger."""
        count = whole(told.get("pieces", 0))
        if begun.place < place:
            known = self.digest(begun.place)
            if known not in ("", begun.digest.hex()):
                raise Parted(f"the ledger's first {begun.place} entries are others than were heard before: {PARTED}")
            raise ConnectionError(f"a recorder has a checkpoint of place {begun.place}, and {place} entries were heard")
        if (count > 0) != (begun.place > place) or count > MOST_PIECES:
            raise ConnectionError(f"a recorder has a checkpoint of place {begun.place} in {count} pieces")
        return count

    async def keep(self, piece: bytes, pieces: Pieces) -> None:
        """Keeps a piece of a checkpoint until all of them are here."""
        try:
            await asyncio.to_thread(pieces.add, piece)
        except OSError as fault:
            await asyncio.sleep(FULL)
            raise ConnectionError(f"the disk does not take a checkpoint: {fault}") from fault


class View:
    """The ledger as far as it was heard, and a way to wait until a condition on it holds."""

    def __init__(self, recorders: Recorders, state: Optional[State] = None):
        self.recorders, self.state, self.waiting = recorders, state or State(), Waiting()
        self.ledger, recorders.tail, recorders.digest = self.state.ledger, self.state.entries, self.state.digest
        recorders.folder = self.state.folder
        self.head, self.heard_at = -1, time.monotonic()  # where the ledger ended; when a recorder said something
        self.absence = 0.0, 0.0, ""  # the last one longer than `AWAY`: its seconds, its end, and why
        self.lost: Optional[Exception] = None  # the fault that has ended following for good

    @property
    def chain(self) -> Optional[Chain]:
        """How far the ledger was heard; None before anything was heard."""
        return self.state.chain

    async def follow(self) -> None:
        try:
            while True:
                async with contextlib.aclosing(self.recorders.follow(self.chain, self.state.identity)) as coming:
                    try:
                        async for news in coming:
                            await self.enter(news)
                    except Unfit as fault:  # nothing of that checkpoint is there, and another recorder is asked
                        await self.recorders.mind(fault, self.recorders.at, AGAIN)
        except Exception as fault:
            self.lost = fault
            self.waiting.tell()
            raise

    @property
    def caught_up(self) -> bool:
        """Whether everything was heard that the ledger had when a recorder was reached."""
        return self.chain is not None and 0 <= self.head <= self.chain.place

    def silence(self) -> float:
        """Returns the seconds since a recorder last confirmed that it sees the ledger."""
        return time.monotonic() - self.heard_at

    def away_since(self, begun: float) -> str:
        """Returns a text that the ledger is away, or was at some time since `begun`; an empty one if it never was."""
        (seconds, end, said), now = self.absence, self.silence()
        if now > AWAY:
            return f"the ledger is away for {now:.0f} s ({self.recorders.said})"
        return f"the ledger was away for {seconds:.0f} s ({said})" if end > begun else ""

    async def enter(self, news: News) -> None:
        """Applies new entries in order, and wakes tasks that waited for what they say. Nothing is saved until all are
        applied, so a process that ends meanwhile hears all of them again."""
        state = self.state
        while news.entries and not state.takes_more():  # no more are heard until the disk takes what was
            self.recorders.said = f"the disk does not take {state.name}"
            await asyncio.sleep(1)
        if (seconds := self.silence()) > AWAY:
            self.absence = seconds, time.monotonic(), self.recorders.said
        if news.pieces:  # they replace what was heard before
            await state.take(news.pieces, news.ledger, news.chain)
        state.identity, state.entering = news.ledger, True
        await self.apply(news.entries)
        self.head, self.heard_at, state.entering = news.head, time.monotonic(), False
        if self.chain != news.chain or not state.whole:
            state.save(news.chain, news.entries, soon=True)
        self.waiting.tell()

    async def apply(self, entries: list[Entry]) -> None:
        for entry in entries:
            self.ledger.apply(entry)

    async def until(self, holds: Callable[[Ledger], object], seconds: Optional[float] = 30) -> bool:
        """Waits until a condition holds; returns whether it did in time. Raises `Unreachable` once following ended."""
        known = await self.waiting.until(lambda: self.lost or not self.state.entering and holds(self.ledger), seconds)
        if self.lost:
            raise Unreachable(f"the ledger is not followed any more: {self.lost}")
        return known
