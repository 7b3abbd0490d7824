#!/usr/bin/env python3
"""Draws docs/pictures/*.svg.

pictures.py          writes them
pictures.py --check  prints which of them are not up to date

The picture of the sample schedule needs the program, which the variable WALRUS names; without it, it is left out.
"""
import collections
import json
import os
import pathlib
import subprocess
import sys

TOP = pathlib.Path(__file__).resolve().parents[1]
FOLDER, SCHEDULES = TOP / "docs" / "pictures", TOP / "examples" / "schedules"
sys.dont_write_bytecode = True
sys.path.insert(0, str(TOP / "clients" / "python"))
import tables  # noqa: E402
import walrus_timeline  # noqa: E402
from walrus_sample import sample_schedule  # noqa: E402
from walrus_timeline_report import read_report  # noqa: E402
from walrus_timeline_schedule import read_schedule  # noqa: E402

BACKGROUND, INK, FAINT, LINE = "#fbfaf6", "#1c1c1c", "#5c5c5c", "#8a8a8a"
SOURCE, PRIMARY, SECONDARY, BOTH, PLAIN, FAULTY = "#cfe2f5", "#f7cf8a", "#b4dcae", "#e6d3ee", "#ffffff", "#f2b8b5"
WORDS = [["0001", "0002", "0003", "0000"], ["0004", "0005", "0006", "0007"],
         ["000b", "000c", "0009", "000e"], ["000e", "000b", "000c", "0009"]]


class Picture:
    """An SVG picture with a background, to which shapes are added from back to front."""

    def __init__(self, name, title, width, height):
        self.name = name
        self.shapes = [
            f'<svg xmlns="http://www.w3.org/2000/svg" viewBox="0 0 {width} {height}"'
            f' width="{width}" height="{height}" role="img">',
            f"<title>{title}</title>",
            '<defs><marker id="tip" viewBox="0 0 8 8" refX="7" refY="4" markerWidth="8" markerHeight="8" orient="auto">'
            f'<path d="M0 0 L8 4 L0 8 z" fill="{INK}"/></marker></defs>',
            f'<rect width="{width}" height="{height}" rx="10" fill="{BACKGROUND}" stroke="{LINE}"/>',
        ]

    def shape(self, tag, words="", **attributes):
        spelled = "".join(f' {name.replace("_", "-")}="{value}"' for name, value in attributes.items())
        self.shapes.append(f"<{tag}{spelled}>{words}</{tag}>")

    def box(self, x, y, width, height, fill=PLAIN, stroke=LINE, thick=1.0):
        self.shape("rect", x=x, y=y, width=width, height=height, fill=fill, stroke=stroke, stroke_width=thick)

    def text(self, x, y, words, size=14, anchor="start", fill=INK, mono=False, bold=False):
        family = "DejaVu Sans Mono, Menlo, Consolas, monospace" if mono else "DejaVu Sans, Verdana, Arial, sans-serif"
        style = {"font_weight": "bold"} if bold else {}
        self.shape("text", words, x=x, y=y, font_family=family, font_size=size, text_anchor=anchor, fill=fill, **style)

    def lines(self, x, y, rows, size=14, step=20, **style):
        for place, words in enumerate(rows):
            self.text(x, y + step * place, words, size, **style)

    def label(self, x, y, width, height, words, fill=PLAIN, size=13, mono=False):
        self.box(x, y, width, height, fill)
        self.text(x + width / 2, y + height / 2 + size * 0.36, words, size, "middle", mono=mono)

    def arrow(self, x, y, to_x, to_y, dashed=False, tip=True):
        style = {"stroke_dasharray": "5 4"} if dashed else {}
        if tip:
            style["marker_end"] = "url(#tip)"
        self.shape("line", x1=x, y1=y, x2=to_x, y2=to_y, stroke=INK, stroke_width=1.4, **style)

    def whole(self):
        return "\n".join(self.shapes + ["</svg>", ""])


def cell_fill(row, column, rows, columns, shard):
    """Return the colour of a symbol of the matrix; a shard's slivers take precedence over the source block."""
    if row == shard and column < columns:
        return PRIMARY
    if column == shard and row < rows:
        return SECONDARY
    return SOURCE if row < rows and column < columns else PLAIN


def matrix():
    faults, shard, side, left, top = 2, 5, 52, 70, 84
    rows, columns, shards = faults + 1, 2 * faults + 1, 3 * faults + 1
    picture = Picture("matrix", "The extended matrix for f = 2, with the slivers of shard 5", 820, 500)
    picture.text(30, 36, "The extended matrix for f = 2: n = 7 rows and columns of symbols", 17, bold=True)
    for row in range(shards):
        picture.text(left - 12, top + side * row + 31, row, 14, "end", FAINT)
        picture.text(left + side * row + side / 2, top - 10, row, 14, "middle", FAINT)
        for column in range(shards):
            fill = cell_fill(row, column, rows, columns, shard)
            picture.label(left + side * column, top + side * row, side, side, f"{row},{column}", fill, 12)
    picture.box(left, top, columns * side, rows * side, "none", INK, 3)
    picture.box(left, top + shard * side, shards * side, side, "none", INK, 1.6)
    picture.box(left + shard * side, top, side, shards * side, "none", INK, 1.6)
    matrix_legend(picture, 470, 96)
    return picture


def matrix_legend(picture, x, y):
    entries = [
        (SOURCE, ["Source block: f+1 rows of 2f+1 symbols,", "the blob, padded with zeros"]),
        (PRIMARY, ["Primary sliver 5: the first 2f+1 symbols", "of row 5; it determines the row"]),
        (SECONDARY, ["Secondary sliver 5: the first f+1 symbols", "of column 5; it determines the column"]),
        (PLAIN, ["Symbols that follow by the codes; those", "from 3,5 to 6,6 are in no sliver"]),
    ]
    for place, (fill, rows) in enumerate(entries):
        picture.box(x, y + 62 * place - 14, 26, 26, fill)
        picture.lines(x + 38, y + 62 * place, rows, 13.5)
    picture.lines(x, y + 268, ["Row 5 and column 5 are the cross of shard 5", "in format one; in format two its secondary",
                               "sliver is that of column n-1-5 = 1."], 13.5)
    picture.lines(x, y + 346, ["Symbol 2,5 is in row 2, too: shard 2 sends", "it to whoever recovers secondary sliver 5."], 13.5)


def tree(picture, x, y, leaves, root, fill):
    """Draw four leaves with their inner nodes and root, growing downwards."""
    wide, step = 96, 102
    middle = x + step * 1.5 + wide / 2
    for place, words in enumerate(leaves):
        picture.label(x + step * place, y, wide, 26, words, fill, 12, True)
        parent = x + step * (2 * (place // 2) + 0.5) + wide / 2
        picture.arrow(x + step * place + wide / 2, y + 26, parent + (place % 2 * 2 - 1) * 12, y + 51)
    for place in (0, 1):
        picture.label(x + step * (2 * place + 0.5), y + 52, wide, 26, "H(01 l r)", PLAIN, 12, True)
        picture.arrow(x + step * (2 * place + 0.5) + wide / 2, y + 78, middle + (place * 2 - 1) * 14, y + 103)
    picture.label(middle - 66, y + 104, 132, 26, root, fill, 12)


def identifier():
    picture = Picture("identifier", "From a blob to its identifier", 820, 640)
    picture.text(30, 36, "From a blob of 12 bytes to its identifier, f = 1, format one", 17, bold=True)
    picture.text(30, 76, "blob", 14)
    for place, word in enumerate(WORDS[0][:3] + WORDS[1][:3]):
        picture.label(90 + 56 * place, 60, 56, 26, word, SOURCE, 12, True)
    picture.arrow(118, 86, 118, 116)
    picture.text(130, 106, "laid out row by row, extended both ways", 13, fill=FAINT)
    for row, words in enumerate(WORDS):
        for column, word in enumerate(words):
            picture.label(90 + 56 * column, 120 + 30 * row, 56, 30, word, SOURCE if row < 2 and column < 3 else PLAIN, 12, True)
    picture.box(90, 150, 224, 30, "none", INK, 2.4)
    picture.lines(30, 288, ["Each row and each column", "has a tree over its symbols:", "eight roots. Here row 1."], 13.5)
    picture.arrow(314, 165, 370, 165)
    tree(picture, 374, 152, [f"H(00 {word})" for word in WORDS[1]], "primary root 1", PRIMARY)
    picture.arrow(575, 282, 528, 322)
    picture.lines(590, 298, ["with secondary root 1", "in pair 1"], 13, 17, fill=FAINT)
    tree(picture, 374, 324, [f"H(00 pair {place})" for place in range(4)], "pair root", BOTH)
    picture.lines(30, 382, ["Pair i: primary root i and", "secondary root i, the 64 bytes", "of a leaf."], 13.5)
    picture.arrow(575, 454, 575, 488)
    text_of_identifier(picture, 90, 490)
    return picture


def text_of_identifier(picture, x, y):
    picture.text(30, y + 18, "text", 14)
    place = x
    for words, width in [("02", 50), ("0001", 70), ("000000000000000c", 190), ("pair root (32 bytes)", 360)]:
        picture.label(place, y, width, 28, words, BOTH if width == 360 else PLAIN, 12, True)
        place += width
    for words, middle in [("prefix", x + 25), ("f", x + 85), ("length", x + 215)]:
        picture.text(middle, y + 46, words, 12.5, "middle", FAINT)
    picture.arrow(x + 485, y + 28, x + 485, y + 74)
    picture.text(x + 497, y + 56, "H", 13, fill=FAINT)
    picture.text(30, y + 94, "identifier", 14)
    picture.label(x + 30, y + 76, 640, 28, "e02bba4bcbf5e38690b9d44c477647094b390c35d101726424629de2f5ab48fa", BOTH, 13, True)
    picture.text(30, y + 130, "H is SHA-256; l and r are the two entries below.", 12.5, fill=FAINT)


def committee(picture, x, y, name, shards):
    """Draw a committee's shards, one below the other, each with a label."""
    picture.text(x + 95, y - 14, name, 15, "middle", bold=True)
    for shard, (fill, words) in enumerate(shards):
        picture.box(x, y + 66 * shard, 190, 50, fill)
        picture.text(x + 95, y + 66 * shard + 21, f"shard {shard}", 14, "middle")
        picture.text(x + 95, y + 66 * shard + 39, words, 12, "middle", INK)


def handover():
    picture = Picture("handover", "A handover between the committees of two epochs", 820, 590)
    picture.text(30, 36, "A handover, f = 1: each committee has four shards, of which one is faulty", 17, bold=True)
    committee(picture, 60, 92, "Now, epoch e", [(SOURCE, "metadata, both slivers")] * 3 + [(FAULTY, "faulty: says anything")])
    committee(picture, 570, 92, "Next, epoch e+1", [
        (FAULTY, "faulty: says anything"), (SECONDARY, "stays: keeps its slivers"),
        (PRIMARY, "begins empty, recovers"), (PRIMARY, "begins empty, recovers")])
    picture.arrow(250, 183, 568, 183)
    picture.text(266, 177, "stays", 13)
    for shard in range(3):
        picture.arrow(250, 117 + 66 * shard + 8 * (shard == 1), 568, 236 + 12 * shard, dashed=True)
        picture.arrow(250, 127 + 66 * shard + 8 * (shard == 1), 568, 304 + 12 * shard, dashed=True)
    picture.lines(266, 330, ["openings from 2f+1 shards for a", "primary sliver, f+1 for a secondary"], 13, 18)
    time_line(picture, 408)
    return picture


def time_line(picture, y):
    picture.arrow(60, y, 770, y)
    for x, words in [(150, "begin"), (430, "2f+1 ready"), (600, "finish")]:
        picture.arrow(x, y - 8, x, y + 8, tip=False)
        picture.text(x, y - 14, words, 14, "middle", bold=True)
    rows = [
        ("Reads go to", "Now; Next once 2f+1 of Next acknowledged the blob", SOURCE),
        ("New blobs to", "Next", SECONDARY),
    ]
    for place, (name, changing, fill) in enumerate(rows):
        picture.text(60, y + 38 + 62 * place, name, 13.5)
        picture.label(60, y + 46 + 62 * place, 80, 26, "Now", SOURCE, 12.5)
        picture.label(150, y + 46 + 62 * place, 440, 26, changing, fill, 12.5)
        picture.label(600, y + 46 + 62 * place, 160, 26, "the new Now", SECONDARY, 12.5)
    picture.text(60, y + 162, "At finish the shards of Next serve alone, and drop every blob that is no longer live.", 13.5)


def layers():
    """Return the picture of the layers in crates.txt, the lowest at the bottom."""
    crates = tables.read_crates()
    chain = tables.chain_of(crates.below)
    across, wide, high = 5, 104, 28
    heights = [20 + 36 * -(-len(layer.notes) // across) for layer in crates.layers]
    height = 110 + sum(heights) + 10 * len(heights)
    picture = Picture("layers", "The layers of crates, the lowest at the bottom", 820, height)
    picture.text(30, 36, "The crates in layers: each stands on crates of its own layer and of those below", 17, bold=True)
    y = height - 46
    for layer, tall in zip(crates.layers, heights):
        y -= tall + 10
        picture.box(30, y, 760, tall)
        picture.text(42, y + tall / 2 + 5, layer.title, 13, bold=True)
        for place, name in enumerate(layer.notes):
            left, top = 264 + wide * (place % across), y + 14 + 36 * (place // across)
            picture.label(left, top, wide - 7, high, name, SOURCE if name in chain else PLAIN, 11, True)
    picture.box(30, height - 40, 26, 20, SOURCE)
    picture.text(64, height - 25, "on the longest chain of crates, each of which waits for the one before", 13)
    return picture


class Timeline(collections.namedtuple("Timeline", "name content report")):
    """The timeline of a schedule and its report, as a picture."""

    def whole(self):
        story = read_report(read_schedule(self.content)[0], self.report)
        return walrus_timeline.picture(story, 0, len(story.steps), self.name.removeprefix("schedule_"))


def sample(program, number):
    """Return the timeline of the schedule of `walrus sample NUMBER`."""
    content = json.dumps(sample_schedule(program, number)).encode()
    ran = subprocess.run([program, "replay"], input=content, stdout=subprocess.PIPE, check=True, timeout=60)
    return Timeline("schedule_sample", content, ran.stdout)


def timelines():
    for path in sorted(SCHEDULES.glob("*.json")):
        yield Timeline(f"schedule_{path.stem}", path.read_bytes(), path.with_suffix(".report").read_bytes())
    if "WALRUS" in os.environ:
        yield sample(os.environ["WALRUS"], 1)
    else:
        print("left out: schedule_sample.svg, as the variable WALRUS does not name the program")


def main(words):
    pictures = [matrix(), identifier(), handover(), layers(), *timelines()]
    if words == ["--check"]:
        files = {path.stem: path.read_text(encoding="utf-8") for path in FOLDER.glob("*.svg")}
        differing = [each.name for each in pictures if files.get(each.name) != each.whole()]
        sys.exit("".join(f"not what pictures.py writes: {name}.svg\n" for name in differing) or 0)
    for each in pictures:
        (FOLDER / f"{each.name}.svg").write_text(each.whole(), encoding="utf-8")


if __name__ == "__main__":
    main(sys.argv[1:])
