"""Tests that links between the pages lead to a file, and to a heading if they name one: python3 -m unittest."""
import pathlib
import re
import unittest

TOP = pathlib.Path(__file__).resolve().parents[1]
FOLDERS = ("docs", "examples", "clients", "network")
PAGES = [TOP / "README.md", *sorted(page for name in FOLDERS for page in (TOP / name).glob("*.md"))]
LINK = re.compile(r"\]\(([^)\s]+)\)")


def without_code(text: str) -> str:
    return re.sub(r"^```.*?^```$", "", text, flags=re.S | re.M)


def anchors(page: pathlib.Path) -> set[str]:
    """The names by which headings of a page are linked to."""
    heads = re.findall(r"^#+ (.*)$", without_code(page.read_text()), re.M)
    return {re.sub(r"[^\w\- ]", "", head.lower()).replace(" ", "-") for head in heads}


class Links(unittest.TestCase):
    def test_links_lead_somewhere(self) -> None:
        bad = []
        count = 0
        for page in PAGES:
            for link in LINK.findall(without_code(page.read_text())):
                if re.match(r"[a-z]+:", link):
                    continue
                name, _, anchor = link.partition("#")
                there = page.parent / name if name else page
                count += 1
                if not there.exists() or anchor and anchor not in anchors(there):
                    bad.append(f"{page.relative_to(TOP)}: {link}")
        self.assertGreater(count, 100)
        self.assertEqual(bad, [])


if __name__ == "__main__":
    unittest.main()
