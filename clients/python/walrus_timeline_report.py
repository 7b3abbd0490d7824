"""Reads the report of a schedule, and tells from both what came of each event, and how blobs and epochs stood."""

import bisect
import re
from typing import Any, NamedTuple

from walrus_timeline_schedule import KINDS, Fault

NUMBER, HEX = "(?:0|[1-9][0-9]*)", "(?:-|(?:[0-9a-f]{2})++)"
FORMS = {kind: re.compile(words.replace("N", NUMBER).replace("HEX", HEX)) for kind, (_, _, words) in KINDS.items()}
COLLISION, WRITTEN = re.compile("collision(?: (?:[0-9a-f]{2})++){2}"), re.compile("write ([0-9a-f]{64}) ")
OUTCOMES = {  # the words with which the lines of an outcome begin; all other lines are done
    "done": "",
    "refused": "refused absent ignored malformed unregistered no-metadata unverified expires declined",
    "short": "short waiting pending",
    "rejected": "reject invalid inconsistent proof",
    "collision": "collision",
}
OUTCOME_OF = {word: outcome for outcome, words in OUTCOMES.items() for word in words.split()}
FACTS = {"until": "until", "certified": "certified", "invalid": "invalid", "bytes": "read", "reject": "read"}
Lane = tuple[str, int]  # the side and the number of a shard


class Step(NamedTuple):
    """An event with its line: its outcome, its blob, the lane of its shard, and those of others that take part.

    `heard` is how many replies were bytes, which anyone may have sent: lies, and true parts by other ways."""

    number: int
    kind: str
    line: str
    outcome: str
    blob: str
    lane: Lane | None
    others: list[Lane]
    heard: int


class Span(NamedTuple):
    """From an event on, counted from 0: the reading epoch, whether it changes, and the faulty shards of both sides."""

    start: int
    epoch: int
    is_moving: bool
    faulty: dict[str, set[int]]


class Story:
    """What came of a schedule. Each blob has its facts: the event, counted from 0, a name, and a number."""

    def __init__(self, schedule: dict[str, Any]):
        self.schedule, self.shards, self.steps = schedule, 3 * schedule["f"] + 1, list[Step]()
        self.spans = [Span(0, schedule["epoch"], False, {"now": set(schedule["faulty"]), "next": set()})]
        self.owners = self.next_owners = schedule.get("owners", list(range(self.shards)))
        self.blobs: dict[str, list[tuple[int, str, int]]] = {}

    def can_come_to(self, event: dict[str, Any], word: str) -> bool:
        """Whether the epochs and the committees allow it."""
        _, epoch, is_moving, faulty = self.spans[-1]
        following = f"epoch {epoch + 1}" if epoch < 65535 else "refused last-epoch"
        match event["do"]:
            case "register" if event["until"] <= epoch + is_moving:
                return word == "refused past"
            case "register":
                return is_moving and word == "refused moving" or word[6:].isdigit() and int(word[6:]) >= event["until"]
            case "begin":
                return word == ("refused moving" if is_moving else following)
            case "ready" | "finish":
                return is_moving != (word == "refused not-moving") and (word == following or "epoch" not in word)
        is_absent = event.get("at") == "next" and not is_moving
        is_ignored = "at" in event and not is_absent and event["shard"] in faulty[event["at"]]
        return (word == "absent") == is_absent and (word == "ignored") == is_ignored

    def take(self, line: str) -> None:
        """The line of the next event; raises `Fault` where it is of another one."""
        number, event = len(self.steps) + 1, self.schedule["events"][len(self.steps)]
        written = WRITTEN.match(line) if event["do"] == "write" else None
        blob = written[1] if written else event.get("id", "").lower()
        parts = [str(event[key]) for key in ("shard", "axis") if key in event] + [blob] * (blob != "")
        front = " ".join([event["do"], *parts, ""])
        word = line.removeprefix(front)
        is_collision = event["do"] in ("write", "send", "read", "recover") and COLLISION.fullmatch(line)
        if not is_collision and (word == line or not FORMS[event["do"]].fullmatch(word)):
            raise Fault(number, f"the line of event {number} is to be {front}{KINDS[event['do']][2]}")
        if written and not word.endswith(" " + (event["blob"].lower() or "-")):
            raise Fault(number, f"event {number} writes other bytes, {shortened(event['blob']) or 'none'}")
        if not self.can_come_to(event, word):
            raise Fault(number, f"event {number} cannot come to {shortened(word)} here")
        self.add(event, line, word.split(), blob)

    def add(self, event: dict[str, Any], line: str, words: list[str], blob: str) -> None:
        """A step with what changes with it."""
        index, kind, (_, epoch, is_moving, faulty) = len(self.steps), event["do"], self.spans[-1]
        side, outcome = "next" if is_moving else "now", OUTCOME_OF.get(words[0], "done")
        others = [(reply["at"], reply["true"]) for reply in event.get("replies", []) if "true" in reply]
        heard = len(event.get("replies", [])) - len(others)
        if kind == "write":
            others = [(side, shard) for shard in event["to"]]
            is_short = words[0] == "stored" and int(words[1]) < len(set(event["to"]) - faulty[side])
            outcome = "short" if is_short else outcome
        elif kind in ("read", "recover") and words[0] == "no-metadata":
            outcome = "short"
        elif kind == "begin" and outcome == "done":
            self.next_owners = event.get("owners", list(range(self.shards)))
            sides = {"now": faulty["now"], "next": set(event["faulty"])}
            staying = sorted(set(event["stays"]) - sides["now"] - sides["next"])
            others = [("next", shard) for shard in staying if self.owners[shard] == self.next_owners[shard]]
            self.spans.append(Span(index, epoch, True, sides))
        elif kind == "finish" and outcome == "done":
            self.owners = self.next_owners
            self.spans.append(Span(index, epoch + 1, False, {"now": faulty["next"], "next": set()}))
        fact = "holders" if kind == "holders" else FACTS.get(words[0], "")
        if blob:
            number = 0 if fact in ("", "read") else int(words[-1])
            self.blobs.setdefault(blob, []).append((index, fact, number))
        side = event.get("at", "next" if kind == "ready" else side)
        lane = (side, event["shard"]) if "shard" in event else None
        self.steps.append(Step(index + 1, kind, shortened(line), outcome, blob, lane, others, heard))

    def phases(self, blob: str) -> list[tuple[int, int, str]]:
        """From which event until which a blob was registered, certified or invalid."""
        runs: list[tuple[int, int, str]] = []
        for index, name, number in self.blobs[blob]:
            start, end, state = runs.pop() if runs and runs[-1][1] > index else (index, index, "registered")
            if name == "until":
                late = bisect.bisect_left(self.spans, number, key=lambda span: span.epoch)
                end = self.spans[late].start if late < len(self.spans) else len(self.steps)
            if name in ("certified", "invalid") and state != name:
                runs.append((start, index, state))
                start, state = index, name
            runs += [(start, end, state)] * (end > start)
        return runs

    def summary(self, blob: str, end: int) -> str:
        """What is told of a blob before an event."""
        facts = [(name, number) for index, name, number in self.blobs[blob] if index < end]
        last, reads = dict(facts), sum(name == "read" for name, _ in facts)
        told = [f"until {last['until']}" if "until" in last else "not registered"]
        told += [f"{name} by {last[name]}" for name in ("certified", "invalid") if name in last]
        told += [f"{last['holders']} hold it"] if "holders" in last else []
        return ", ".join(told + ([f"{reads} read" + "s" * (reads > 1)] if reads else []))


def shortened(text: str) -> str:
    return re.sub("[0-9a-f]{80,}", lambda found: f"{found[0][:32]}.. ({len(found[0]) // 2} bytes)", text)


def read_report(schedule: dict[str, Any], content: bytes) -> Story:
    """The story of a schedule; raises `Fault` where the report is not of it."""
    story, lines, count = Story(schedule), content.decode(errors="replace").split("\n"), len(schedule["events"])
    for number, line in enumerate(lines, 1):
        has_ended = len(story.steps) == count or story.steps[-1:] and story.steps[-1].outcome == "collision"
        if has_ended and number == len(lines) and not line:
            break
        if number == len(lines) or has_ended:
            raise Fault(number, "the run has ended before this line" if has_ended else "the report ends too early")
        story.take(line)
    return story
