"""The present health of a blob: which of its shards are live now, not only which acknowledged it once. Also whether
anything can be stored at present."""
from typing import Any, Iterable, Mapping, NamedTuple, Optional


from walrus.network.ledger.entries import ACK
from walrus.network.ledger.rules import Ledger

HELD, CARRIED, LACKING, SILENT = "held", "carried", "lacking", "silent"
LIVE = HELD, CARRIED  # acknowledged to this committee, or to an earlier one and carried over, as `ready` vouches


class Nodes(NamedTuple):
    """What is known of nodes that were asked: why each does not answer (empty if it does), and its figures."""

    faults: Mapping[str, str]
    figures: Mapping[str, Mapping[str, Mapping[str, float]]]

    def answers(self, name: str) -> bool:
        return self.faults.get(name) == ""

    def is_silent(self, name: str) -> bool:
        """Whether a node was asked and did not answer."""
        return bool(self.faults.get(name))

    def has_room(self, name: str) -> bool:
        """Whether a node's disk has room, by its own figures; assumed if it reports none."""
        disk = self.figures.get(name, {}).get("disk", {})
        return disk.get("free", 1) > disk.get("reserve", 0)


def shards_of(ledger: Ledger, identifier: bytes, nodes: Nodes, findings: Iterable[dict[str, Any]]) -> list[str]:
    """Returns the state of each shard in the committee that answers for a blob; each node's last challenge counts."""
    home, found = ledger.home_epoch(identifier), ledger.certificate(identifier)
    acks = ledger.blobs[identifier].votes[ACK].get(home, 0)
    name, states = identifier.hex(), list[str]()
    shown: dict[str, bool] = {it["node"]: it["holds"] for it in reversed([*findings]) if it["blob"] == name}
    for number, node in enumerate(ledger.owners(home)):
        holds: Optional[bool] = shown.get(node)
        if not nodes.answers(node):
            states.append(SILENT)
        elif holds is False:
            states.append(LACKING)
        elif holds or acks >> number & 1:
            states.append(HELD)
        else:
            states.append(CARRIED if found and found[0] < home else LACKING)
    return states


def storing(ledger: Ledger, nodes: Nodes, away: Mapping[str, Any]) -> dict[str, Any]:
    """Returns whether anything can be stored now (`possible`), why not, and how many shards would take it."""
    names, why = dict.fromkeys(ledger.writing), list[str]()
    takes = {it for it in names if not nodes.is_silent(it) and nodes.has_room(it)}
    count = sum(it in takes for it in ledger.writing)
    if away["stale"]:
        why.append("the ledger is away")
    if not ledger.now:
        why.append("the network has no committee yet")
    elif count < ledger.quorum:
        silent = [it for it in names if nodes.is_silent(it)]
        full = [it for it in names if it not in silent and not nodes.has_room(it)]
        said = [f"{' '.join(silent)} {'do' if len(silent) > 1 else 'does'} not answer"] if silent else []
        said += [f"{' '.join(full)} {'have' if len(full) > 1 else 'has'} no room on the disk"] if full else []
        why.append(f"{count} of {len(ledger.writing)} shards take files, and {ledger.quorum} must: {'; '.join(said)}")
    return {"possible": not why, "why": "; ".join(why), "shards": count}
