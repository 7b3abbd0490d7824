#!/usr/bin/env python3
"""Draws a schedule and its report as one page on standard output: time goes right, and each shard has a lane."""

import argparse
import bisect
import collections
import html
import os
import pathlib
import string
import subprocess
import sys
from typing import Iterator

from walrus_timeline_report import OUTCOMES, Lane, Span, Step, Story, read_report
from walrus_timeline_schedule import KINDS, Fault, read_schedule

HERE, SECONDS = pathlib.Path(__file__).resolve().parent, 600  # for a replay
TEMPLATE = string.Template((HERE / "walrus_timeline_style.svg").read_text(encoding="utf-8"))
DETAIL, STAVE, BINS, LETTERS = 120, 40, 90, 84  # events drawn one by one, those of a row; columns where there are more
LEFT, RIGHT, WIDE, MOST_STRIPS = 62, 12, 400, 40
PAGE = """<!doctype html><html lang="en"><meta charset="utf-8"><meta name="viewport" content="width=device-width">
<title>{name}</title><style>:root{{color-scheme:light dark}}body{{margin:8px}}div,pre{{overflow:auto}}
svg[width="400"]{{max-width:100%;height:auto}}</style>
{pictures}<details><summary>The lines of events {first} to {last}</summary><pre>{lines}</pre></details></html>
"""
SIGNS = {kind: letter for kind, (letter, _, _) in KINDS.items()} | dict(zip(OUTCOMES, " -?x!"))
SIGNS |= {"registered": "-", "certified": "=", "invalid": "x"}
Row = None | str | Lane  # the epochs, a blob, or a shard


def tag(name: str, kind: str, words: str = "", **places: object) -> str:
    spelled = {key: f"{place:.5g}" if isinstance(place, float) else place for key, place in places.items()}
    front = f'<{name} class="{kind}"' + "".join(f' {key}="{place}"' for key, place in spelled.items())
    return f"{front}>{html.escape(words)}</{name}>" if words else f"{front}/>"


def mark(kind: str, outcome: str, x: float, y: float) -> str:
    box = tag("use", outcome, href="#collision" if outcome == "collision" else "#box", x=x, y=y) if outcome else ""
    return box + (tag("use", f"icon {outcome}", href=f"#{kind}", x=x, y=y) if kind else "")


def name_of(span: Span, width: float) -> str:
    """The longest name of an epoch that its band has room for: a bold letter takes up to 7.7, and 3 stand before it."""
    names = [f"moving to epoch {span.epoch + 1}", f"to {span.epoch + 1}", f">{span.epoch + 1}"]
    names = names if span.is_moving else [f"epoch {span.epoch}", f"ep. {span.epoch}", str(span.epoch)]
    return next((name for name in names if len(name) * 7.7 + 3 < width), "")


class Stave:
    """The events from one on and before another, so many of them in a column, drawn from a height downwards."""

    def __init__(self, story: Story, first: int, last: int, per: int, step: float, top: float):
        self.story, self.first, self.last, self.per, self.step, self.top = story, first, last, per, step, top
        self.steps, self.columns = story.steps[first:last], -(-(last - first) // per)
        self.spans: list[tuple[int, int, Span]] = []  # from which column until which one
        for column in range(self.columns):
            span = story.spans[bisect.bisect(story.spans, first + column * per, key=lambda span: span.start) - 1]
            start = self.spans.pop()[0] if self.spans and self.spans[-1][2] is span else column
            self.spans.append((start, column + 1, span))
        blobs = list(dict.fromkeys(step.blob for step in self.steps if step.blob))
        self.omitted, high = max(0, len(blobs) - MOST_STRIPS), 30 if per == 1 else 13
        under = top + (26 if self.omitted or not all(step.lane or step.blob for step in self.steps) else 12)
        self.rows: dict[Row, float] = {None: top + 24.0}
        self.rows |= {blob: under + high * place for place, blob in enumerate(blobs[:MOST_STRIPS], 1)}
        y = under + high * (len(self.rows) - 1) + 14
        self.lane = max(5.0, min(17.0 if per == 1 else 13.0, 700 / story.shards))
        sides = {lane[0] for step in self.steps for lane in [*step.others, step.lane or ("now", 0)]}
        for side in sorted(
            sides | {"next" for *_, span in self.spans if span.is_moving} | {"now"}, key="now next".index
        ):
            self.rows |= {(side, shard): y + self.lane * (shard + 0.5) for shard in range(story.shards)}
            y += self.lane * story.shards + 8
        self.bottom = y

    def x(self, column: float) -> float:
        return LEFT + self.step * column

    def key(self, step: Step) -> Row:
        return step.lane or (step.blob if step.blob in self.rows else None)

    def phases(self, blob: str) -> Iterator[tuple[int, int, str]]:
        """What was known of a blob, from which column until which one."""
        for *ends, state in self.story.phases(blob):
            start, end = (min(max(-(-(int(at) - self.first) // self.per), 0), self.columns) for at in ends)
            yield from [(start, end, state)] * (start < end)

    def draw(self) -> Iterator[str]:
        yield tag("text", "label", f"event {self.first + 1}", x=LEFT - 6, y=self.top + 11)
        for start, end, span in self.spans:
            yield from self.span(self.x(start), self.x(end), span)
        for start, end, span in self.spans:  # behind all bands, so that none covers a label
            yield tag("text", "head", name_of(span, self.x(end) - self.x(start)), x=self.x(start) + 3, y=self.top + 11)
        for row, y in self.rows.items():
            if isinstance(row, str):
                yield tag("text", "label", f"{row[:6]}..", x=LEFT - 6, y=y + 4)
                yield from self.strip(row, y)
            elif row and row[1] % max(1, round(11 / self.lane)) == 0:
                yield tag("text", "label", f"{row[0].title()} {row[1]}", x=LEFT - 6, y=y + 4)
        yield from map(self.event, range(self.columns), self.steps) if self.per == 1 else self.bins()
        for blob, y in self.rows.items():
            if isinstance(blob, str) and self.per == 1:
                yield tag("text", "sum", self.story.summary(blob, self.last), x=LEFT, y=y - 11)
        if self.omitted:
            yield tag("text", "faint", f"and {self.omitted} more blobs", x=LEFT, y=self.bottom + 4)

    def span(self, x: float, far: float, span: Span) -> Iterator[str]:
        """An epoch as a band, and the lanes in it, hatched where their shards are faulty."""
        high = self.bottom - self.top
        if span.is_moving:
            yield tag("rect", "moving", x=x, y=self.top, width=far - x, height=high)
        if x > LEFT:
            yield tag("path", "change", d=f"M{x:.5g} {self.top:.5g}v{high:.5g}")
        for row, y in self.rows.items():
            if isinstance(row, tuple) and (row[0] == "now" or span.is_moving):
                yield tag("path", "lane", d=f"M{x:.5g} {y:.5g}H{far:.5g}")
                if row[1] in span.faulty[row[0]]:
                    yield tag("rect", "faulty", x=x, y=y - self.lane / 2 + 0.5, width=far - x, height=self.lane - 1)

    def strip(self, blob: str, y: float) -> Iterator[str]:
        runs, high = list(self.phases(blob)), 15 if self.per == 1 else 7
        bars = [(state, self.x(start), self.step * (end - start)) for start, end, state in runs]
        shapes = [tag("rect", state, x=x, y=y - high / 2, width=width, height=high) for state, x, width in bars]
        yield f"<g><title>{blob}: {self.story.summary(blob, self.last)}</title>{''.join(shapes)}</g>"
        for end in {end for _, end, _ in runs} - {start for start, _, _ in runs} - {self.columns}:
            yield tag("path", "end", d=f"M{self.x(end):.5g} {y - high / 2 - 3:.5g}v{high + 6}")

    def group(self, told: str, column: int, shapes: str) -> str:
        """Shapes with a title that shows over their whole column."""
        hit = tag("rect", "hit", x=self.x(column), y=self.top, width=self.step, height=self.bottom - self.top)
        return f"<g><title>{html.escape(told)}</title>{hit}{shapes}</g>"

    def event(self, column: int, step: Step) -> str:
        x, y = self.x(column + 0.5), self.rows[self.key(step)]
        others = [self.rows[lane] for lane in sorted(set(step.others))]
        ends = [*others, y, self.rows.get(step.blob, y)]
        shapes = [tag("path", "guide", d=f"M{x:.5g} {min(ends):.5g}V{max(ends):.5g}")] * (min(ends) < max(ends))
        shapes += [tag("path", "dots", d="".join(f"M{x:.5g} {other:.5g}h0" for other in others))] * (others != [])
        shapes += [mark("" if step.kind == "holders" else step.kind, step.outcome, x, y)]
        shapes += [tag("text", "count", step.line.split()[-1], x=x, y=y + 4)] * (step.kind == "holders")
        shapes += [
            tag("use", "bytes", href="#bytes", x=x + 6 * place - 3 * (min(step.heard, 4) - 1), y=y + 11)
            for place in range(min(step.heard, 4))
        ]
        heard = f" ({step.heard} {'reply' if step.heard == 1 else 'replies'} as bytes)" * (step.heard > 0)
        told = f"{step.number}: {step.line}{heard}"
        return self.group(told, column, "".join(shapes))

    def bins(self) -> Iterator[str]:
        """For each row and column the worst outcome, and for each column how often what came."""
        worst: dict[tuple[Row, int], str] = {}
        for index, step in enumerate(self.steps):
            place = self.key(step), index // self.per
            worst[place] = max(step.outcome, worst.get(place, "done"), key=list(OUTCOMES).index)
        for outcome in OUTCOMES:
            places = [(self.x(column), self.rows[row]) for (row, column), found in worst.items() if found == outcome]
            bars = "".join(f"M{x:.5g} {y - 3:.5g}h{self.step:.4g}v6h-{self.step:.4g}z" for x, y in places)
            yield tag("path", outcome, d=bars) if bars else ""
        for column, start in enumerate(range(0, len(self.steps), self.per)):
            end = start + self.per
            steps = self.steps[start:end]
            counts = collections.Counter(f"{step.kind} {step.outcome}".removesuffix(" done") for step in steps)
            told = ", ".join(f"{count} {name}" for name, count in counts.items())
            yield self.group(f"{steps[0].number} to {steps[-1].number}: {told}", column, "")


def picture(story: Story, first: int, last: int, name: str) -> str:
    """The events from one on and before another as SVG: one by one, or how many where they are many."""
    per = 1 if last - first <= DETAIL else -(-(last - first) // BINS)
    columns = max(1, min(-(-(last - first) // per), STAVE if per == 1 else BINS))
    step = min(24.0, max(16.0 if per == 1 else 1, (WIDE - LEFT - RIGHT) / columns))
    width, y, shapes = max(WIDE, LEFT + step * columns + RIGHT), 26.0, list[str]()
    for start in range(first, max(last, first + 1), columns * per):
        stave = Stave(story, start, min(last, start + columns * per), per, step, y)
        shapes += filter(None, stave.draw())
        y = stave.bottom + 10
    steps, x, y = story.steps[first:last], 10.0, y + 8
    kinds, outcomes = {step.kind for step in steps if per == 1}, {step.outcome for step in steps}
    states = {phase[2] for blob in {step.blob for step in steps} - {""} for phase in story.phases(blob)}
    legend = [(kind, "", kind) for kind in KINDS if kind in kinds] + [("dots", "", "takes part")] * (per == 1)
    legend += [("bytes", "", "heard as bytes")] * (per == 1 and any(step.heard for step in steps))
    legend += [("", outcome, outcome) for outcome in OUTCOMES if outcome in outcomes] + [("", "faulty", "faulty shard")]
    legend += [("", state, f"blob {state}") for state in ("registered", "certified", "invalid") if state in states]
    for kind, outcome, words in legend:
        if x + 24 + 6.4 * len(words) > width:
            x, y = 10.0, y + 19
        shapes += [mark(kind, outcome, x + 7, y), tag("text", "faint", words, x=x + 18, y=y + 4)]
        x += 30 + 6.4 * len(words)
    title = html.escape(f"{name}: f = {story.schedule['f']}, events {first + 1} to {last} of {len(story.steps)}")
    sizes = {"width": f"{width:.5g}", "inner": f"{width - 1:.5g}", "height": f"{y + 16:.5g}", "high": f"{y + 15:.5g}"}
    return TEMPLATE.substitute(sizes, title=title, shapes="\n".join(shapes))


def page(story: Story, first: int, last: int, name: str) -> str:
    """The pictures of all events and of those as HTML, with their lines."""
    shown = dict.fromkeys([(0, len(story.steps)), (first, last)])
    pictures = "".join(f"<div>{picture(story, *window, name)}</div>" for window in shown)
    lines = "\n".join(f"{step.number}: {html.escape(step.line)}" for step in story.steps[first:last])
    return PAGE.format(name=html.escape(name), pictures=pictures, first=first + 1, last=last, lines=lines)


def letters(story: Story, first: int, last: int, name: str) -> str:
    """The same in lines of at most 100 letters."""
    stave = Stave(story, first, last, max(1, -(-(last - first) // LETTERS)), 1.0, 0.0)
    rows: dict[Row, list[str]] = {row: [" "] * stave.columns for row in [*stave.rows, "outcome"]}
    for start, end, span in stave.spans:
        label = f" >{span.epoch + 1}".ljust(end - start, "~") if span.is_moving else f" {span.epoch}".ljust(end - start)
        rows[None][start:end] = label[: end - start]
        for row in rows:
            if isinstance(row, tuple) and (row[0] == "now" or span.is_moving):
                rows[row][start:end] = "./"[row[1] in span.faulty[row[0]]] * (end - start)
    for row in stave.rows:
        for start, end, state in stave.phases(row) if isinstance(row, str) else ():
            rows[row][start:end] = SIGNS[state] * (end - start)
    for index, step in enumerate(stave.steps):
        for lane in step.others if stave.per == 1 else ():
            rows[lane][index] = "o"
        column, outcome = index // stave.per, rows["outcome"]
        rows[stave.key(step)][column] = SIGNS[step.kind]
        outcome[column] = max(outcome[column], SIGNS[step.outcome], key=" -?x!".index)
    names = {row: f"{row[0]} {row[1]}" if isinstance(row, tuple) else (row or "epoch")[:8] for row in rows}
    lines = [f"{name}: events {first + 1} to {last} of {len(story.steps)}, {stave.per} in a column"]
    lines += [f"{names[row]:>10}  {''.join(signs)}".rstrip() for row, signs in rows.items()]
    lines += ["outcome: - refused, ? short, x rejected, ! collision; blob: - registered, = certified, x invalid"]
    kinds = [f"{SIGNS[kind]} {kind}" for kind in KINDS]
    return "\n".join([*lines, ", ".join(["o takes part", "/ faulty", *kinds[:7]]), ", ".join(kinds[7:]), ""])


def replay(content: bytes) -> bytes:
    program = os.environ.get("WALRUS") or str(HERE.parents[1] / "walrus")
    ran = subprocess.run([program, "replay"], input=content, stdout=subprocess.PIPE, timeout=SECONDS)
    if ran.returncode not in (0, 10):  # 10: the report ends in a collision
        sys.exit(f"{program} replay ended with status {ran.returncode}: {ran.stdout[:80].decode()}")
    return ran.stdout


def main() -> None:
    parser = argparse.ArgumentParser(description=__doc__)
    parser.add_argument("schedule", type=pathlib.Path)
    parser.add_argument("report", type=pathlib.Path, nargs="?", help="where it is missing, `walrus replay` makes it")
    parser.add_argument("--from", type=int, dest="first", default=1, metavar="N", help="the first event that is drawn")
    parser.add_argument("--to", type=int, dest="last", metavar="N", help="the last one")
    parser.set_defaults(draw=page)
    parser.add_argument("--svg", action="store_const", dest="draw", const=picture, help="the picture alone")
    parser.add_argument("--text", action="store_const", dest="draw", const=letters, help="lines of letters")
    parser.add_argument("--check", action="store_true", help="only tells what is wrong with the schedule")
    given = parser.parse_args()
    path = given.schedule
    try:
        content = path.read_bytes()
        schedule, warnings = read_schedule(content)
        print("".join(f"{path}:{warning}\n" for warning in warnings), end="", file=sys.stderr)
        if given.check:
            return
        path = given.report or "the report"
        story = read_report(schedule, given.report.read_bytes() if given.report else replay(content))
    except Fault as fault:
        sys.exit(f"{path}:{fault.args[0]}: {fault.args[1]}")
    except (OSError, subprocess.TimeoutExpired) as error:
        sys.exit(f"{error} (WALRUS is to name the program)")
    count, first = len(story.steps), given.first - 1
    last = min(count, (first + DETAIL if given.draw is page else count) if given.last is None else given.last)
    if count and not 0 <= first < last:
        sys.exit(f"there are events 1 to {count}, and --from and --to name none of them")
    print(given.draw(story, first, last, given.schedule.stem), end="")


if __name__ == "__main__":
    main()
