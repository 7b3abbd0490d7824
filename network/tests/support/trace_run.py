"""The check by the proved core: what a recorded network did, as a schedule, and what `walrus replay` says of it.

Entries of the ledger stand in their order. Behind each stands what the shards answered once they had been told it, up
to the next one: what shards of different nodes did between two entries does not depend on each other. At the end each
blob is asked for its certificate and its holders, and slivers are recovered, which must be those on the disks."""
import argparse
import collections
import contextlib
import dataclasses
import json
import pathlib
import sqlite3
import sys
from typing import Any, Iterable, Iterator, Mapping

sys.path.insert(0, str(pathlib.Path(__file__).resolve().parents[3] / "clients" / "python"))

from walrus import client, loop  # noqa: E402
from walrus.format.frames import PRIMARY, PROOF, SECONDARY  # noqa: E402
from walrus.network.ledger.entries import ACK, ATTEST, REGISTER, Entry  # noqa: E402
from walrus.network.ledger.rules import Ledger  # noqa: E402

MOST_EVENTS, MOST_BYTES = 65_536, 16_777_216
SENT = {0: "stored", 1: "unregistered", 2: "unverified", 3: "no-metadata", 9: "malformed", 11: "held"}
SIDES = ("now", "next")
EVENTS = (REGISTER, ACK, ATTEST, "begin", "ready", "finish")  # entries that the core knows too


class TooLong(Exception):
    """A run that `walrus replay` cannot take, as it is too long, or a name was expelled that kept blobs."""


class Parted(Exception):
    """The line at which the network and the proved world part."""


def parts_on_disk(base: sqlite3.Connection, path: pathlib.Path) -> Iterator[tuple[int, int, bytes, int, bytes]]:
    """The epoch, the shard, the blob, the number and the content of all parts that are held in a database."""
    words = "SELECT sides.epoch, shard, identifier, part, payload, file FROM sides JOIN held USING (holding)"
    words += " JOIN contents USING (content) WHERE held.epoch <= sides.epoch AND NOT wrong"
    for *where, payload, file in base.execute(words + " AND (gone IS NULL OR gone > sides.epoch)"):
        with contextlib.suppress(FileNotFoundError):  # whose loss nobody has noticed yet, or which another replaces
            frame = (path.resolve().with_suffix(".parts") / file[:2] / file).read_bytes() if file else payload
            yield where[0], where[1], where[2], where[3], frame


@dataclasses.dataclass
class Record:
    """What a node's database tells: the ledger, what its shards answered, and what they hold."""

    entries: list[Entry]
    answers: list[tuple[int, int, int, int, bytes, bytes]]  # place, revision, epoch, shard, request, reply
    held: dict[tuple[int, int, bytes], dict[int, bytes]]  # by epoch, shard and identifier: the frames of parts

    @classmethod
    def read(cls, path: pathlib.Path) -> "Record":
        base = sqlite3.connect(f"{path.resolve().as_uri()}?mode=ro", uri=True)
        tail = sqlite3.connect(f"{path.resolve().with_suffix('.ledger').as_uri()}?mode=ro", uri=True)
        try:
            entries = [Entry(*row) for row in tail.execute("SELECT place, text FROM entries ORDER BY place")]
            words = "SELECT place, revision, epoch, shard, request, reply FROM history ORDER BY place"
            answers = base.execute(words).fetchall()
            held: dict[tuple[int, int, bytes], dict[int, bytes]] = collections.defaultdict(dict)
            for epoch, shard, identifier, part, frame in parts_on_disk(base, path):
                held[epoch, shard, identifier][part] = frame
            return cls(entries, answers, held)
        finally:
            base.close()
            tail.close()


@dataclasses.dataclass(frozen=True)
class Step:
    """An event, the line that the network says of it, and where that was recorded."""

    event: dict[str, Any]
    line: str
    source: str


class Trace:
    """The steps of a run. Nodes that lied, or lost their disk, are faulty: of them only their entries count."""

    def __init__(self, records: Mapping[str, Record], faulty: Iterable[str] = (), blobs: Mapping[bytes, bytes] = {}):
        self.records, self.faulty, self.blobs = records, set(faulty), blobs
        self.ledger, self.steps = Ledger(), []  # type: Ledger, list[Step]
        self.head: dict[str, Any] = {}
        self.numbers: dict[str, int] = {}

    def write(self) -> None:
        """Makes the steps of the whole run."""
        entries = max((record.entries for record in self.records.values()), key=len)
        answered: dict[int, list[tuple[str, tuple[int, int, int, int, bytes, bytes]]]] = collections.defaultdict(list)
        for name, record in sorted(self.records.items()):
            for row in record.answers if name not in self.faulty else ():
                answered[row[1]].append((name, row))
        for place, entry in enumerate(entries):
            self.steps.extend(self.enter(entry))
            if place + 1 == len(entries) or entries[place + 1].place > entry.place:
                for name, row in answered.pop(entry.place, ()):
                    self.steps.extend(self.answer(name, *row))
        if answered:
            raise Parted(f"answers stand behind revisions {sorted(answered)[:3]} that no entry has")
        self.steps.extend(self.ask_at_end())

    def number_names(self, owners: tuple[str, ...]) -> None:
        """Gives each node of a committee a number below n; who stays keeps its own."""
        kept = {name: number for name, number in self.numbers.items() if name in owners}
        free = iter(sorted(set(range(len(owners))) - set(kept.values())))
        self.numbers = {name: kept[name] if name in kept else next(free) for name in dict.fromkeys(owners)}

    def committee(self, owners: tuple[str, ...]) -> dict[str, Any]:
        self.number_names(owners)
        faulty = [shard for shard, owner in enumerate(owners) if owner in self.faulty]
        return {"owners": [self.numbers[owner] for owner in owners], "faulty": faulty}

    def enter(self, entry: Entry) -> Iterator[Step]:
        """The event of an entry; none of one that is void."""
        if entry.words[1:2] == ["expel"] and self.ledger.blobs.posters()[entry.words[2]]:
            raise TooLong(f"{entry.words[2]} was expelled and kept blobs, which the core would keep for longer")
        before, word = self.ledger.now, self.ledger.apply(entry)
        if word is None or entry.words[1] not in EVENTS:
            return
        poster, kind, *fields = entry.words
        event: dict[str, Any] = {"do": kind}
        text = kind
        if word == "founded":
            self.head = {"f": self.ledger.faults, "epoch": 0, **self.committee(self.ledger.now)}
            return
        if kind == "register":
            event |= {"id": fields[0], "until": int(fields[1])}
            text = f"{kind} {fields[0]}"
        elif kind in (ACK, ATTEST, "ready"):
            event["shard"] = self.ledger.shards_of(poster)[0]
            text = f"{kind} {event['shard']}"
            if kind != "ready":
                event["id"] = fields[1]
                text += f" {fields[1]}"
        elif kind == "begin":
            owners = tuple(fields[2].split(","))
            stays = [shard for shard, (one, two) in enumerate(zip(before, owners)) if one == two]
            event |= {"stays": stays, **self.committee(owners)} if word[:5] == "epoch" else {"stays": [], "faulty": []}
        yield Step(event, f"{text} {word}", f"the ledger's place {entry.place}, {entry.text}")

    def side(self, epoch: int, source: str) -> str:
        if epoch - self.ledger.epoch not in range(1 + self.ledger.moving):
            raise Parted(f"{source}: a shard of epoch {epoch} answered in epoch {self.ledger.epoch}")
        return SIDES[epoch - self.ledger.epoch]

    def answer(
        self, name: str, place: int, revision: int, epoch: int, shard: int, request: bytes, reply: bytes
    ) -> Iterator[Step]:
        """The event of a request that a correct shard answered, where it is one."""
        source = f"{name}, answer {place}, behind revision {revision}"
        side, said = self.side(epoch, source), [payload for _, payload in client.split(reply)]
        code, kind = said[-1][1], request[0]
        if kind in (0x10, 0x14, 0x11, 0x13):
            # What a process is not told, as it ends with the epoch that goes, it takes for unregistered: no event.
            if code in SENT and not (side == "next" and SENT[code] == "unregistered"):
                event = {"do": "send", "at": side, "shard": shard, "bytes": request.hex()}
                yield Step(event, f"send {shard} {SENT[code]}", source)
        elif kind == 0x20 and len(request) == 33:
            event = {"do": "read", "id": request[1:].hex(), "replies": [{"true": shard, "at": side}]}
            yield Step(event, f"read {request[1:].hex()} {self.alone(said[:-1])}", source)
        elif kind == 0x24 and len(request) == 33 and code in (0, 5):
            event = {"do": "forget", "at": side, "shard": shard, "id": request[1:].hex()}
            yield Step(event, f"forget {shard} {request[1:].hex()} {'declined' if code else 'done'}", source)

    def alone(self, said: list[bytes]) -> str:
        """What a reader would say who heard one correct shard alone."""
        kinds = [payload[0] for payload in said]
        if not {0x10, 0x14} & {*kinds}:
            return "no-metadata"
        return "reject" if 0x13 in kinds else f"short {kinds.count(0x11)} of {self.ledger.faults + 1}"

    def ask_at_end(self) -> Iterator[Step]:
        """What the ledger and the disks say at the end of each blob."""
        ledger = self.ledger
        for identifier, blob in sorted(ledger.blobs.items()):
            digits, found = identifier.hex(), ledger.certificate(identifier)
            acks = blob.votes[ACK].get(ledger.writing_epoch, 0).bit_count()
            word = f"epoch {found[0]} count {found[1]}" if found else f"pending {acks}"
            yield Step({"do": "certificate", "id": digits}, f"certificate {digits} {word}", "the ledger at the end")
            epoch = ledger.home_epoch(identifier)
            owners, at = ledger.owners(epoch), SIDES[epoch - ledger.epoch]
            held = {shard: self.held(owner, epoch, shard, identifier) for shard, owner in enumerate(owners)}
            count = sum(PROOF in it or {PRIMARY, SECONDARY} <= set(it) for it in held.values())
            yield Step({"do": "holders", "id": digits}, f"holders {digits} {count}", "the disks at the end")
            replies = [{"true": shard, "at": at} for shard in range(len(owners))]
            if identifier in self.blobs and found:
                data = self.blobs[identifier].hex() or "-"
                yield Step(
                    {"do": "read", "id": digits, "replies": replies}, f"read {digits} bytes {data}", "the writer"
                )
            if not found or any(PROOF in parts for parts in held.values()):
                continue
            for part, crossing, axis, needed in (
                (PRIMARY, SECONDARY, "primary", ledger.quorum),
                (SECONDARY, PRIMARY, "secondary", ledger.faults + 1),
            ):
                count = sum(crossing in parts for parts in held.values())
                for shard, parts in held.items():
                    if part in parts:
                        event = {
                            "do": "recover",
                            "at": at,
                            "shard": shard,
                            "axis": axis,
                            "id": digits,
                            "replies": replies,
                        }
                        enough = f"sliver {parts[part][40:].hex()}"
                        line = enough if count >= needed else f"short {count} of {needed}"
                        yield Step(event, f"recover {shard} {axis} {digits} {line}", f"the disk of {owners[shard]}")

    def held(self, owner: str, epoch: int, shard: int, identifier: bytes) -> dict[int, bytes]:
        """The parts of a blob on the disk of a correct node, but for its metadata."""
        record = self.records.get(owner) if owner not in self.faulty else None
        return record.held.get((epoch, shard, identifier), {}) if record else {}

    def schedule(self) -> bytes:
        text = json.dumps({**self.head, "events": [step.event for step in self.steps]}, separators=(",", ":")).encode()
        if len(self.steps) > MOST_EVENTS or len(text) > MOST_BYTES:
            raise TooLong(f"{len(self.steps)} events in {len(text)} bytes are more than `walrus replay` takes")
        return text

    def compare(self, status: int, report: bytes) -> None:
        """Raises `Parted` at the first line that is not the network's."""
        lines = report.decode().splitlines()
        for number, (step, line) in enumerate(zip(self.steps, lines), 1):
            if step.line != line:
                texts = f"the core says `{line[:300]}`, the network `{step.line[:300]}` ({step.source})"
                raise Parted(f"line {number}: {texts}; event {json.dumps(step.event)[:300]}")
        if status or len(lines) != len(self.steps):
            raise Parted(f"walrus replay ended with status {status} behind {len(lines)} of {len(self.steps)} lines")


async def check(
    folder: pathlib.Path, program: str, faulty: Iterable[str] = (), blobs: Mapping[bytes, bytes] = {}
) -> int:
    """Checks the recorded run of a network in a folder; the number of lines that agree."""
    trace = Trace({path.stem: Record.read(path) for path in sorted(folder.glob("*.db"))}, faulty, blobs)
    trace.write()
    text = trace.schedule()
    (folder / "trace.json").write_bytes(text)
    trace.compare(*await client.Walrus(program).run("replay", data=text))
    return len(trace.steps)


def main() -> int:
    parser = argparse.ArgumentParser(description="Checks a recorded run by walrus replay; the schedule is trace.json.")
    parser.add_argument("folder", type=pathlib.Path)
    parser.add_argument("--faulty", default="", help="the nodes that lied or lost their disk, with commas between")
    words = parser.parse_args()
    program = json.loads((words.folder / "network.json").read_text())["program"]
    try:
        count = loop.run(check(words.folder, program, filter(None, words.faulty.split(","))))
    except (Parted, TooLong) as fault:
        print(f"network/trace: {fault}")
        return 1
    print(f"{count} lines agree with walrus replay")
    return 0


if __name__ == "__main__":
    sys.exit(main())
