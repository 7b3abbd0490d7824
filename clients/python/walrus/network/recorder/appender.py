"""A recorder: checks posted entries by the rules of the ledger, appends them to etcd, and serves them in order.

All that it knows it has read from etcd, and each append is a transaction that compares the head there. So any number of
recorders may share one etcd: one of them wins a place, and the others read its batch and continue after it."""
import asyncio
import collections
import contextlib
import itertools
import json
import secrets
import sys
import time
from typing import Iterator, Optional, Union


from walrus.network.ledger.checkpoint import Mark, Pieces, Unfit
from walrus.network.ledger.entries import OPERATOR, Chain, Entry, fitting
from walrus.network.ledger.follower import Refused
from walrus.network.ledger.rules import FORMLESS, refusal
from walrus.network.ledger.state import State
from walrus.network.service.condition import Waiting

from .etcd import Batch, Etcd, Failed, Gone

MOST_BATCH, HELD, RECENT = 262_144, 1_048_576, 4_194_304  # bytes of a batch, kept for each follower, and for all
TOGETHER = 1_000  # entries of a batch at most, as the event loop does nothing else while they are judged or entered
BEAT, POLL, FRESH = 1.0, 1.0, 5.0  # seconds
Answer = Union[int, Refused]  # the place of a posted entry, or why it was refused
Taken = asyncio.Future[Answer]


class Broken(Exception):
    """The ledger in etcd is not the one that this recorder has read: it must stop until an operator has looked."""


class Recorder:
    """The ledger as etcd has it, the places of entries that count while etcd has them, and entries that wait."""

    def __init__(self, etcd: Etcd, state: Optional[State] = None, least: float = 0.0) -> None:
        self.etcd, self.state, self.least = etcd, state or State(), least  # `least`: seconds that an epoch lasts
        self.ledger, self.state.apply = self.state.ledger, self.apply
        self.waiting = dict[Taken, str]()
        self.recent, self.size = collections.deque[Batch](), 0  # batches for followers, and their bytes
        self.seen, self.fault = float("-inf"), ""  # when all was read that etcd had; the last failure, if it lasts
        self.appended, self.turned = 0.0, False  # when entries last were; whether it appended the epoch change itself
        self.bell, self.news, self.own = asyncio.Event(), Waiting(), 0  # `own`: the place up to which it appends now
        self.turn = asyncio.Lock()  # of followers that need batches that only etcd has
        self.turns = collections.defaultdict[str, asyncio.Lock](asyncio.Lock)  # so that each name waits there only once

    @property
    def chain(self) -> Chain:
        """How far this recorder has read the ledger."""
        return self.state.chain or Chain(0, b"")

    @property
    def fresh(self) -> bool:
        """Whether this recorder had all of the ledger at some moment in the last `FRESH` seconds; `slow` is why not."""
        return time.monotonic() < self.seen + FRESH

    @property
    def slow(self) -> str:
        return self.fault or f"etcd at {self.etcd.url} is slow"

    async def run(self) -> None:
        """Appends waiting entries, one transaction after another, and reads what other recorders append."""
        pause, watching = 0.1, asyncio.create_task(self.etcd.watch(self.hear))
        try:
            while True:
                with contextlib.suppress(TimeoutError):
                    async with asyncio.timeout(POLL):
                        await self.bell.wait()
                self.bell.clear()
                try:
                    await self.append()
                    await self.etcd.compact()
                    pause, self.fault = 0.1, ""
                except Failed as fault:
                    if str(fault) != self.fault:
                        print(f"{fault}; it is asked again", file=sys.stderr, flush=True)
                    self.fault = str(fault)
                    await asyncio.sleep(pause)
                    pause = min(2 * pause, 2.0)
                    self.bell.set()
                self.news.tell()
        finally:
            watching.cancel()

    def hear(self, head: bytes) -> None:
        """Wakes `run` if this head is beyond what this recorder has read or is appending: another one moved it."""
        if json.loads(head)["place"] > max(self.own, self.chain.place):
            self.bell.set()

    def post(self, texts: list[str]) -> asyncio.Future[list[Answer]]:
        """Queues entries, and returns a future of their places once they are appended; of a refused one, the reason."""
        taken = dict[Taken, str]((asyncio.Future(), text) for text in texts)
        for it, text in taken.items():
            if not Entry(0, text).words:
                it.set_result(Refused(FORMLESS))
            it.add_done_callback(self.waiting.pop)
        self.waiting |= taken
        self.bell.set()
        return asyncio.gather(*taken)

    def head(self, chain: Chain) -> bytes:
        """Returns the value that the head in etcd has if the ledger ends with this chain."""
        return json.dumps({"ledger": self.state.identity, "place": chain.place, "digest": chain.digest.hex()}).encode()

    async def catch_up(self) -> None:
        """Reads what other recorders have appended, until there is nothing new."""
        while not await self.step():
            pass

    async def append(self) -> None:
        """Appends the waiting entries that count as one batch and answers them, unless another recorder was first."""
        answers, batch = self.judge()
        try:
            ended_here = await self.step(batch)
        except Failed:
            if batch:
                await self.step()  # etcd may be full, and still answers reads
            raise
        for taken, answer in answers.items() if ended_here else ():  # otherwise they were judged by an outdated ledger
            if not taken.done():
                taken.set_result(answer)
        if not ended_here or not all(it.done() for it in self.waiting):
            self.bell.set()

    async def step(self, batch: Optional[Batch] = None) -> bool:
        """Appends a batch if the ledger in etcd ends here, or else reads on; returns whether it ended here."""
        if not self.state.takes_more() and (batch or await self.etcd.head() != self.head(self.chain)):
            raise Failed(f"the disk does not take {self.state.name}: {self.state.fault}")
        begun, known = time.monotonic(), self.head(self.chain)
        wanted, self.own = (self.head(batch.after), batch.last) if batch else (known, 0)
        head, others = await self.etcd.append(known, wanted, batch) if batch else (await self.etcd.head(), [])
        if (ended_here := head == wanted) and batch:
            self.enter(batch, own=True)
        elif ended_here and not self.state.whole:
            self.state.save(self.chain)
        if ended_here or await self.read(head, others):
            self.seen = begun
        return ended_here

    async def read(self, head: bytes, others: list[Batch]) -> bool:
        """Reads batches up to a head, or some; returns whether that was all. Creates a ledger if there is none."""
        if not head:
            if self.chain.place:  # this recorder must not found another one in its place
                raise Broken(f"etcd has no ledger any more, of which this recorder has read {self.chain.place} entries")
            birth = secrets.token_hex(32)
            head, _ = await self.etcd.append(b"", json.dumps({"ledger": birth, "place": 0, "digest": birth}).encode())
        told = json.loads(head)
        if not self.chain.place:
            self.state.identity, self.state.chain = told["ledger"], Chain(0, bytes.fromhex(told["ledger"]))
        if told["ledger"] != self.state.identity or told["place"] < self.chain.place:
            raise Broken(f"etcd has another ledger than before, or an older one: {head.decode()}")
        if told["place"] == self.chain.place and told["digest"] != self.chain.digest.hex():
            raise Broken(f"the batches in etcd do not have the digest that its head has: {head.decode()}")
        try:
            if told["place"] > self.chain.place and not others:
                others = await self.etcd.batches(self.chain.place)
            for batch in itertools.takewhile(lambda _: self.state.takes_more(), others):
                self.enter(batch)
        except Gone:
            await self.take()
        return bool(self.chain.place >= told["place"])

    async def take(self) -> None:
        """Loads the checkpoint in etcd in place of what was read before."""
        mark, place = await self.etcd.mark(), self.chain.place
        if not mark or mark.place <= place:
            raise Broken(f"etcd has neither the entries after place {place} nor a later checkpoint")
        pieces = Pieces(self.state.folder)
        try:
            await self.gather(mark, pieces)
            await self.state.take(pieces, self.state.identity, mark.chain)
            self.recent.clear()
            self.size = 0
            await self.state.forget_places(mark.place)
        except Gone:  # a later one has replaced it meanwhile
            pass
        except Unfit as fault:
            raise Broken(f"the checkpoint of place {mark.place} in etcd is not what was written: {fault}") from fault
        finally:
            pieces.clear()

    async def gather(self, mark: Mark, pieces: Pieces) -> None:
        """Reads all pieces of a checkpoint from etcd; raises `Unfit` if they are not what was written."""
        for number in range(mark.pieces):
            piece = await self.etcd.piece(mark.place, number)
            try:
                await asyncio.to_thread(pieces.add, piece)
            except OSError as fault:
                raise Failed(f"the disk does not take the checkpoint of place {mark.place}: {fault}") from fault
        if pieces.state != mark.state:
            raise Unfit("its digest is another one")

    def enter(self, batch: Batch, own: bool = False) -> None:
        """Applies a batch that etcd has (`own` if this recorder has just appended it), or the part that is new here."""
        rest, epoch = batch.behind(self.chain.place), self.ledger.epoch
        if rest.before != self.chain:
            raise Broken(f"the batch in etcd after place {batch.before.place} does not follow on what was read")
        entries = self.chain.followed(rest.entries)
        for entry in entries:
            self.apply(entry)
        if self.ledger.epoch != epoch:
            self.turned = own
        self.appended = time.monotonic()
        self.state.save(batch.after, entries, soon=True)
        self.recent.append(batch)
        self.size += batch.size
        while self.size > RECENT:
            self.size -= self.recent.popleft().size

    def apply(self, entry: Entry) -> Optional[str]:
        """Applies an entry, and notes its place if it counts."""
        word = self.ledger.apply(entry)
        if word and not refusal(word):
            self.state.note_place(entry)
        return word

    def judge(self) -> tuple[dict[Taken, Answer], Optional[Batch]]:
        """Tries waiting entries on a copy of the ledger; returns the batch of those that count, and what to answer once
        it is appended. The first entry of each poster goes first, then each one's second: nobody waits for all that
        another one posts."""
        fork, places, answers = self.ledger.fork(), dict[str, int](), dict[Taken, Answer]()
        numbers = collections.defaultdict[str, Iterator[int]](itertools.count)  # counts the entries of each poster
        waiting = [it for it in self.waiting.items() if not it[0].done()]
        waiting.sort(key=lambda it: next(numbers[it[1].partition("/")[0]]))
        for (taken, _), text in zip(waiting, fitting((text for _, text in waiting[:TOGETHER]), MOST_BATCH)):
            entry = Entry(self.chain.place + len(places) + 1, text)
            stands = fork.stands(entry)
            if text in places and not stands:
                break  # an entry between says otherwise: this one is appended again with the next batch
            if place := places.get(text) or stands and self.state.place_of(text):
                answers[taken] = place
            elif reason := self.early(entry) or fork.refused(entry):
                answers[taken] = Refused(reason)
            else:
                answers[taken] = places[text] = entry.place
                if (fork.epoch, fork.expelled) != (self.ledger.epoch, self.ledger.expelled):
                    break  # the copy is good up to an epoch change only, and until a name is expelled
        return answers, Batch(self.chain, [*places]) if places else None

    def early(self, entry: Entry) -> str:
        """Returns why the next epoch cannot be begun yet, or an empty text for other entries, and once it can be."""
        ledger, age = self.ledger, self.state.begun.seconds
        if entry.words[:2] != [OPERATOR, "begin"] or not ledger.now or ledger.moving or age >= self.least:
            return ""
        said = (
            f"epoch {ledger.epoch} began {age:.0f} s ago by this recorder's clock, and lasts at least {self.least:g} s"
        )
        return f"{said} (least): begin the next one in {self.least - age:.0f} s"

    async def behind(self, place: int, name: str = "") -> list[Batch]:
        """Returns the batches after a place, or only the first ones; raises `Gone` if etcd has dropped them."""
        found = [*itertools.takewhile(lambda it: it.last > place, reversed(self.recent))][::-1]
        if place < (found[0].before.place if found else self.chain.place):
            async with self.turns[name], self.turn:
                found = await self.etcd.batches(place)
        sizes = itertools.accumulate((it.size for it in found[1:]), initial=0)  # beyond the first
        return [it.behind(place) for it, size in zip(found, sizes) if size <= HELD]

    async def refresh(self) -> None:
        """Waits until this recorder has all that the ledger has now; raises `Failed` after `FRESH` seconds."""
        begun = time.monotonic()
        self.bell.set()
        if not await self.news.until(lambda: self.seen > begun, FRESH):
            raise Failed(self.slow)
