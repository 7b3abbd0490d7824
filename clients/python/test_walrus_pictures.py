"""Tests of the pictures of schedules: python3 -m unittest, in this folder.

Those of a browser use Chromium."""
import io
import pathlib
import re
import shutil
import subprocess
import tempfile
import unittest
import zlib
from xml.etree import ElementTree

from timeline_case import BEGIN, FINISH, NAMES, TOP, report, schedule_of, story, tell
import walrus_timeline as timeline

CHROMIUM = shutil.which("chromium") or shutil.which("chromium-browser") or shutil.which("google-chrome")
SVG = "{http://www.w3.org/2000/svg}"


class Pictures(unittest.TestCase):
    def test_each_event_has_a_mark_with_its_line(self) -> None:
        for name in NAMES:
            told = story(name)
            root = ElementTree.fromstring(timeline.picture(told, 0, len(told.steps), name))
            titles = [title.text for title in root.iter(f"{SVG}title")]
            for step, line in zip(told.steps, report(name).splitlines(), strict=True):
                heard = {0: "", 1: " (1 reply as bytes)"}.get(step.heard, f" ({step.heard} replies as bytes)")
                self.assertIn(f"{step.number}: {line}{heard}", titles)
            diamonds = [use for use in root.iter(f"{SVG}use") if use.get("href") == "#bytes"]
            heard_in_all = sum(min(step.heard, 4) for step in told.steps)
            self.assertEqual(len(diamonds), heard_in_all + (heard_in_all > 0))  # and one in the legend
            marks = [use.get("class") for use in root.iter(f"{SVG}use") if use.get("href") == "#box"]
            counted = [step.outcome for step in told.steps]
            legend = set(counted) | {"faulty"} | {state for blob in told.blobs for _, _, state in told.phases(blob)}
            self.assertEqual(sorted(map(str, marks)), sorted(counted + list(legend)))

    def test_lanes_are_hatched_while_their_shards_are_faulty(self) -> None:
        root = ElementTree.fromstring(timeline.picture(story("handover"), 0, 19, "handover"))
        labels = {
            text.text: float(text.get("y", "0")) - 4 for text in root.iter(f"{SVG}text") if text.get("class") == "label"
        }
        lanes = [f"{side} {shard}" for side in ("Now", "Next") for shard in range(4)]
        self.assertEqual([label for label in labels if label and label[0] == "N"], lanes)
        hatched = [
            (float(it.get("x", "0")), float(it.get("y", "0")) + float(it.get("height", "0")) / 2)
            for it in root.iter(f"{SVG}rect")
            if it.get("class") == "faulty"
        ]
        found = sorted(
            (name, x) for x, y in hatched for name, lane in labels.items() if name in lanes and abs(lane - y) < 1
        )
        self.assertEqual([name for name, _ in found], ["Next 0", "Now 0", "Now 3", "Now 3"])
        step = (timeline.WIDE - timeline.LEFT - timeline.RIGHT) / 19
        wanted = [timeline.LEFT + step * index for index in (6, 16, 0, 6)]
        for (_, x), place in zip(found, wanted):
            self.assertAlmostEqual(x, place, delta=0.1)

    def test_a_page_stands_alone(self) -> None:
        for name in NAMES:
            page = timeline.page(story(name), 0, 5, name)
            self.assertNotIn("<script", page)
            self.assertEqual(set(re.findall(r"https?://[^\"' ]*", page)), {"http://www.w3.org/2000/svg"})
            self.assertEqual(set(re.findall(r'(?:src|href)="(?!#)', page)), set())
            self.assertIn('<meta name="viewport" content="width=device-width">', page)

    def test_the_pages_show_them_and_they_are_small(self) -> None:
        page = (TOP / "docs" / "SCHEDULES.md").read_text(encoding="utf-8")
        for name in [*NAMES, "sample"]:
            self.assertIn(f"](pictures/schedule_{name}.svg)", page)
            picture = TOP / "docs" / "pictures" / f"schedule_{name}.svg"
            self.assertLess(picture.stat().st_size, 40000)
            width = ElementTree.parse(picture).getroot().get("width", "")
            self.assertLessEqual(float(width), 400)

    def test_the_letters_of_the_handover(self) -> None:
        lines = timeline.letters(story("handover"), 0, 19, "handover").splitlines()
        self.assertEqual(
            lines[:12],
            [
                "handover: events 1 to 19 of 19, 1 in a column",
                "     epoch   0    B>1~~~~~N~N1",
                "  e02bba4b  RW--=H===========HD",
                "     now 0  .oA.....o.o.....///",
                "     now 1  .o.A....ooo.......o",
                "     now 2  .o..A....oo.......o",
                "     now 3  ////////////////..o",
                "    next 0        //////////",
                "    next 1        o....oY...",
                "    next 2        .YV.Vo.Y..",
                "    next 3        ...V.V...Y",
                "   outcome         -      ?",
            ],
        )

    def test_windows(self) -> None:
        told = story("handover")
        picture = timeline.picture(told, 6, 9, "handover")
        titles = [title.text or "" for title in ElementTree.fromstring(picture).iter(f"{SVG}title")]
        self.assertEqual([title.split(":")[0] for title in titles if title[0].isdigit()], ["7", "8", "9"])
        self.assertIn("handover: f = 1, events 7 to 9 of 19", titles)

    def test_many_events_give_a_small_page(self) -> None:
        told = tell(schedule_of(*[FINISH] * 65536), "finish refused not-moving\n" * 65536)
        page = timeline.page(told, 0, timeline.DETAIL, "many")
        self.assertLess(len(page), 100000)
        self.assertTrue("<title>64882 to 65536: 655 finish refused</title>" in page)

    def test_many_blobs_are_not_all_drawn(self) -> None:
        events = [{"do": "register", "id": f"{number:064x}", "until": 1} for number in range(1000)]
        report = "".join(f"register {number:064x} until 1\n" for number in range(1000))
        told = tell(schedule_of(*events), report)
        picture = timeline.picture(told, 0, 1000, "many")
        self.assertEqual(picture.count("until 1</title>"), timeline.MOST_STRIPS)
        self.assertTrue("and 960 more blobs" in picture)
        self.assertLess(len(timeline.letters(told, 0, 1000, "many").splitlines()), 60)

    def test_the_largest_committee(self) -> None:
        events = [BEGIN, {"do": "send", "at": "next", "shard": 999, "bytes": ""}]
        told = tell(schedule_of(*events, f=333), "begin epoch 1\nsend 999 malformed\n")
        root = ElementTree.fromstring(timeline.picture(told, 0, 2, "large"))
        self.assertEqual(len([path for path in root.iter(f"{SVG}path") if path.get("class") == "lane"]), 2000)

    def test_nothing_at_all(self) -> None:
        told = tell(schedule_of(), "")
        for draw in (timeline.picture, timeline.page, timeline.letters):
            self.assertIn("of 0", draw(told, 0, 0, "empty"))


@unittest.skipUnless(CHROMIUM, "Chromium is not here, which draws the pages")
class Rendering(unittest.TestCase):
    def screenshot(self, page: str, *options: str) -> tuple[bytes, int]:
        """The pixels of a page in a window of a phone's width, row by row, and the bytes of a row."""
        with tempfile.TemporaryDirectory(ignore_cleanup_errors=True) as folder:
            path, shot = pathlib.Path(folder, "page.html"), pathlib.Path(folder, "shot.png")
            path.write_text(page, encoding="utf-8")
            words = [
                "--headless",
                "--no-sandbox",
                "--disable-gpu",
                "--hide-scrollbars",
                f"--user-data-dir={folder}/browser",
            ]
            words += ["--window-size=420,300", f"--screenshot={shot}", *options, path.as_uri()]
            subprocess.run([str(CHROMIUM), *words], capture_output=True, timeout=50, check=True)
            return read_png(shot.read_bytes())

    def test_a_page_is_drawn_in_light_and_in_dark(self) -> None:
        page = timeline.page(story("handover"), 0, 19, "handover")
        light, size = self.screenshot(page)
        colours = colours_of(light, size)
        for name, colour in {"page": "ffffff", "done": "bfdcf5", "certified": "c9e7c4", "moving": "e9eef4"}.items():
            self.assertIn(bytes.fromhex(colour), colours, name)
        dark, size = self.screenshot(page, "--force-dark-mode")
        self.assertIn(bytes.fromhex("14181d"), colours_of(dark, size))
        self.assertNotIn(bytes.fromhex("bfdcf5"), colours_of(dark, size))


def read_png(png: bytes) -> tuple[bytes, int]:
    """The pixels of a PNG of 8 bits a channel without interlacing, and the number of bytes of each."""
    width, kind, chunks, packed = int.from_bytes(png[16:20], "big"), png[25], io.BytesIO(png[8:]), b""
    while head := chunks.read(8):
        data, _ = chunks.read(int.from_bytes(head[:4], "big")), chunks.read(4)
        packed += data if head[4:] == b"IDAT" else b""
    pixel, rows, pixels = {2: 3, 6: 4}[kind], io.BytesIO(zlib.decompress(packed)), bytearray()
    above = bytes(width * pixel)
    while way := rows.read(1):
        line = bytearray(rows.read(width * pixel))
        for index, up in enumerate(above):
            left, corner = (line[index - pixel], above[index - pixel]) if index >= pixel else (0, 0)
            guess = min((left, up, corner), key=lambda it: abs(left + up - corner - it))
            line[index] = (line[index] + [0, left, up, (left + up) // 2, guess][way[0]]) % 256
        pixels += line
        above = bytes(line)
    return bytes(pixels), pixel


def colours_of(pixels: bytes, size: int) -> set[bytes]:
    return set(map(bytes, zip(pixels[0::size], pixels[1::size], pixels[2::size])))


if __name__ == "__main__":
    unittest.main()
