"""Batches of entries in etcd, over its JSON gateway. Only recorders talk to etcd."""
import asyncio
import base64
import contextlib
import dataclasses
import functools
import json
import re
import ssl
from typing import Any, Callable, Coroutine, Optional, TypeVar

import aiohttp


from walrus.network.ledger.checkpoint import Mark, Unfit, line_of, unpacked
from walrus.network.ledger.entries import Chain

FIRST, LAST, HEAD = b"/walrus/000000000001", b"/walrus/999999999999", b"/walrus/head"
MARK, PIECES = b"/walrus/checkpoint", b"/walrus/checkpoint/"
DEFRAGMENTING, TURN = b"/walrus/defragmenting", 600  # has the turn to defragment; seconds of a turn at most
PAGE, SILENCE, LONGEST_LINE = 16, 60.0, 2**20  # batches that are read at once; seconds; bytes
WIDTHS = 64, 4_096, 262_144  # places among which a batch's key is looked for, as etcd sorts all keys in the range
COMPACTED, DROPPED = 5_000, 500  # revisions between two compactions; keys that are dropped at once
NO_SPACE = "database space exceeded"  # in etcd's own words
QUOTA = re.compile(r"^etcd_server_quota_backend_bytes (\S+)$", re.MULTILINE)
T = TypeVar("T")


class Failed(ConnectionError):
    """A call to etcd failed; the message has etcd's own words."""


class Gone(Exception):
    """The requested entries or pieces were dropped: a later checkpoint replaces them."""


def coded(data: bytes) -> str:
    return base64.b64encode(data).decode()


def decoded(pair: dict[str, Any], name: str = "value") -> bytes:
    return base64.b64decode(pair.get(name, ""))


def value_of(found: Optional[list[dict[str, Any]]]) -> bytes:
    """Returns the value of the key that was asked for; nothing if there is no such key."""
    return decoded(found[0]) if found else b""


def key_of(place: int) -> bytes:
    """Returns the key of the batch that begins with this place."""
    return b"/walrus/%012d" % place


def key_of_piece(place: int, number: int) -> bytes:
    """Returns the key of a piece of the checkpoint of this place."""
    return PIECES + b"%012d/%06d" % (place, number)


@dataclasses.dataclass(frozen=True)
class Batch:
    """Entries that were appended together, and the chain of the ledger before them."""

    before: Chain
    entries: list[str]

    @property
    def last(self) -> int:
        return self.before.place + len(self.entries)

    @functools.cached_property
    def after(self) -> Chain:
        return self.before.behind(self.entries)

    @functools.cached_property
    def size(self) -> int:
        return sum(map(len, self.entries))

    @functools.cached_property
    def line(self) -> bytes:
        """The line sent to followers that have heard the ledger up to this batch; made once for all of them."""
        return line_of({"entries": self.entries, "digest": self.after.digest.hex()})

    def behind(self, place: int) -> "Batch":
        """Returns the part of this batch after a place."""
        known = max(0, place - self.before.place)
        return Batch(self.before.behind(self.entries[:known]), self.entries[known:]) if known else self

    def value(self) -> bytes:
        told = {"before": self.before.digest.hex(), "entries": self.entries}
        return json.dumps(told, separators=(",", ":")).encode()

    @classmethod
    def read(cls, pair: dict[str, Any]) -> "Batch":
        value, place = json.loads(decoded(pair)), int(decoded(pair, "key").rpartition(b"/")[2])
        return cls(Chain(place - 1, bytes.fromhex(value["before"])), value["entries"])


class Etcd:
    """A client of etcd with a certificate of the ledger's own authority. Its calls raise `Failed`."""

    def __init__(self, url: str, authority: str, certificate: str, key: str):
        context = ssl.create_default_context(cafile=authority)
        context.load_cert_chain(certificate, key)
        connector, jar = aiohttp.TCPConnector(ssl=context), aiohttp.DummyCookieJar()
        self.session = aiohttp.ClientSession(connector=connector, cookie_jar=jar, read_bufsize=LONGEST_LINE)
        self.url, self.aclose, self.revision, self.compacted = url, self.session.close, 0, 0

    async def call(self, path: str, body: dict[str, Any], seconds: float = 10) -> dict[str, Any]:
        """Calls etcd's JSON gateway once."""

        async def ask() -> dict[str, Any]:
            limit = aiohttp.ClientTimeout(total=seconds)
            async with self.session.post(f"{self.url}/v3/{path}", json=body, timeout=limit) as said:
                answer = await said.json(content_type=None)
            if said.status != 200:
                raise OSError(answer.get("error", answer))
            return dict(answer)

        return await self.asked(ask())

    async def asked(self, work: Coroutine[Any, Any, T]) -> T:
        """Awaits etcd's answer in a task of its own, as deadlines of aiohttp 3.8 disturb asyncio's around them."""
        try:
            return await asyncio.create_task(work)
        except (aiohttp.ClientError, OSError, TimeoutError, ValueError) as fault:
            raise Failed(f"etcd at {self.url} does not answer: {fault or 'it is too slow'}") from fault

    async def range(self, first: bytes, last: bytes = b"", **words: Any) -> list[dict[str, Any]]:
        """Returns the pairs with keys from `first` to before `last`, or the pair of `first` if no `last` is given."""
        span = {"key": coded(first), **({"range_end": coded(last)} if last else {}), **words}
        return list((await self.call("kv/range", span)).get("kvs", []))

    async def replace(
        self, key: bytes, old: bytes, puts: dict[bytes, bytes], *others: bytes, lease: str = "0"
    ) -> tuple[bytes, list[dict[str, Any]]]:
        """Puts values if a key still has its old value, or does not exist if `old` is empty. Returns the key's value
        after that, and, if nothing was put, some pairs from each of the other keys on. What is put ends with its
        lease."""
        compare = {"target": "VALUE", "value": coded(old)} if old else {"target": "CREATE", "create_revision": "0"}
        words: dict[str, Any] = {"compare": [{"key": coded(key), "result": "EQUAL", **compare}]}
        pairs = [{"key": coded(it), "value": coded(puts[it]), "lease": lease} for it in puts]
        words["success"] = [{"request_put": it} for it in pairs]
        spans = [{"key": coded(it), "range_end": coded(LAST), "limit": PAGE} for it in others]
        words["failure"] = [{"request_range": it} for it in ({"key": coded(key)}, *spans)]
        answer = await self.call("kv/txn", words)
        self.revision = int(answer["header"]["revision"])
        if answer.get("succeeded"):
            return puts[key], []
        found = [it["response_range"].get("kvs", []) for it in answer["responses"]]
        return value_of(found[0]), sum(found[1:], [])

    async def head(self) -> bytes:
        """Returns the value of the head key; nothing before the ledger is created."""
        return value_of(await self.range(HEAD))

    async def batches(self, after: int) -> list[Batch]:
        """Returns some batches, beginning with the one that has the entry after a place; the ledger must be longer than
        that. Raises `Gone` if that entry was dropped."""
        found = await self.range(key_of(after + 1), LAST, limit=PAGE)
        for width in () if found and decoded(found[0], "key") == key_of(after + 1) else WIDTHS:
            keys = await self.range(key_of(max(1, after - width)), key_of(after + 1), keys_only=True)
            if keys:
                found = await self.range(decoded(keys[-1], "key"), LAST, limit=PAGE)
                break
        batches = [it for it in map(Batch.read, found) if it.last > after]
        if not batches or batches[0].before.place > after:
            raise Gone(f"the entries after place {after} are dropped")
        return batches

    async def append(self, head: bytes, after: bytes, batch: Optional[Batch] = None) -> tuple[bytes, list[Batch]]:
        """Puts a batch and the new head if the head is still `head`. Returns the head after that, and, if another
        recorder was first, the batches that begin where this one would have."""
        puts = {key_of(batch.before.place + 1): batch.value()} if batch else {}
        head, found = await self.replace(HEAD, head, {HEAD: after, **puts}, *puts)
        others = [*map(Batch.read, found)]
        return head, others if batch and others and others[0].before.place == batch.before.place else []

    async def mark(self) -> Optional[Mark]:
        """Returns the mark of the current checkpoint; None before the first one."""
        found = value_of(await self.range(MARK))
        return Mark(**json.loads(found)) if found else None

    async def put_mark(self, mark: Mark, before: Optional[Mark]) -> None:
        """Replaces a mark; does nothing if the mark in etcd is not `before`, where None means no mark."""
        old, new = (json.dumps(it._asdict()).encode() if it else b"" for it in (before, mark))
        await self.replace(MARK, old, {MARK: new})

    async def put_piece(self, place: int, number: int, piece: bytes) -> None:
        """Puts a compressed piece of a checkpoint unless it is there already, as another recorder may write a
        checkpoint of the same place. Raises `Failed` if that one differs."""
        key = key_of_piece(place, number)
        found, _ = await self.replace(key, b"", {key: piece})
        with contextlib.suppress(Unfit):  # another zlib may compress the same into other bytes
            if found == piece or unpacked(found) == unpacked(piece):
                return
        raise Failed("another recorder writes a different checkpoint of this place; it may be of another version")

    async def count_pieces(self, place: int) -> int:
        """Returns the number of pieces of checkpoints after a place."""
        span = {"key": coded(key_of_piece(place + 1, 0)), "range_end": coded(PIECES + b"~"), "count_only": True}
        return int((await self.call("kv/range", span)).get("count", 0))

    async def piece(self, place: int, number: int) -> bytes:
        """Returns a piece of a checkpoint, compressed; raises `Gone` if it was dropped."""
        if not (found := await self.range(key_of_piece(place, number))):
            raise Gone("a later checkpoint has replaced this one")
        return decoded(found[0])

    async def drop(self, mark: Mark) -> None:
        """Drops the batches up to a checkpoint, and the checkpoints before it: some at a time, as others wait."""
        for first, last in ((FIRST, key_of(mark.place + 1)), (PIECES, key_of_piece(mark.place, 0))):
            while found := await self.range(first, last, limit=DROPPED, keys_only=True):
                end = coded(decoded(found[-1], "key") + b"\0")
                answer = await self.call("kv/deleterange", {"key": found[0]["key"], "range_end": end})
                self.revision = int(answer["header"]["revision"])
        await self.compact(0)

    async def compact(self, most: int = COMPACTED) -> None:
        """Has etcd forget what was replaced or dropped, if more than `most` revisions were made since the last time."""
        if self.revision > self.compacted + most:
            self.compacted = self.revision
            with contextlib.suppress(Failed):  # another recorder has done so
                await self.call("kv/compaction", {"revision": str(self.revision)})

    async def quota(self) -> float:
        """Returns the quota of the recorder's member of etcd in bytes, from that member's metrics for Prometheus. Once
        its file is larger, it appends nothing."""

        async def ask() -> float:
            limit = aiohttp.ClientTimeout(total=10)
            async with self.session.get(f"{self.url}/metrics", timeout=limit) as said:
                found = QUOTA.search(await said.text())
            if not found:
                raise OSError("/metrics does not have its quota")
            return float(found[1])

        return await self.asked(ask())

    async def sizes(self, seconds: float = 10) -> tuple[int, int]:
        """Returns the bytes of the file of the recorder's member of etcd, and those of them that are in use."""
        told = await self.call("maintenance/status", {}, seconds)
        return int(told.get("dbSize", 0)), int(told.get("dbSizeInUse", 0))

    async def leads(self) -> bool:
        """Whether the recorder's member leads etcd."""
        told = await self.call("maintenance/status", {})
        return bool(told.get("leader") == told["header"]["member_id"])

    async def defragment(self) -> None:
        """Defragments the recorder's member, which answers nobody meanwhile, unless it is another member's turn. If the
        call is not answered in time, the member may still be defragmenting, so it keeps its turn until that expires.
        Above its quota etcd gives no turns: the member defragments without one, as nobody waits for it then."""
        try:
            lease = str((await self.call("lease/grant", {"TTL": str(TURN)}))["ID"])
            holder, _ = await self.replace(DEFRAGMENTING, b"", {DEFRAGMENTING: lease.encode()}, lease=lease)
        except Failed as fault:
            if NO_SPACE not in str(fault):
                raise
            lease, holder = "", b""
        if holder.decode() == lease:
            await self.call("maintenance/defragment", {}, 60)
        if lease:
            await self.call("lease/revoke", {"ID": lease})

    async def watch(self, hear: Callable[[bytes], None]) -> None:
        """Calls `hear` with the head soon after each change. It is a hint: a recorder asks for the head anyway."""
        limit = aiohttp.ClientTimeout(total=None, sock_connect=5, sock_read=SILENCE)
        while True:
            with contextlib.suppress(aiohttp.ClientError, OSError, TimeoutError, ValueError, KeyError):
                body = {"create_request": {"key": coded(HEAD)}}
                async with self.session.post(f"{self.url}/v3/watch", json=body, timeout=limit) as said:
                    while line := await said.content.readline():
                        for event in json.loads(line)["result"].get("events", []):
                            hear(decoded(event["kv"]))
            await asyncio.sleep(1)
