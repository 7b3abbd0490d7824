"""What pytest has to know of these tests: where walrus is, what goes on side by side, and what was skipped."""
import os
import pathlib
from typing import Any, Iterator

import pytest
import support  # noqa: F401  # which says where walrus is

HERE = pathlib.Path(__file__).resolve().parent
FIRST = "bottle", "story"  # they take longest
MASK = os.umask(0o022)
os.umask(MASK)


@pytest.fixture(autouse=True)
def mask() -> Iterator[None]:
    """Services close what they make to others, by the mask of their process: here that is the next test's too."""
    yield
    os.umask(MASK)


def pytest_collection_modifyitems(items: list[pytest.Item]) -> None:
    """Stories come first, each with the others of its module in one process: they start whole networks."""
    items.sort(key=lambda it: it.path.relative_to(HERE).parts[0] not in FIRST)
    for item in items:
        if item.path.parent.name == "story":
            item.add_marker(pytest.mark.xdist_group(item.path.stem))


def pytest_terminal_summary(terminalreporter: Any) -> None:
    """Names what was skipped, and why, in a line for each test, as unittest does."""
    for report in terminalreporter.stats.get("skipped", []):
        reason = report.longrepr[2] if isinstance(report.longrepr, tuple) else str(report.longrepr)
        terminalreporter.write_line(f"{report.nodeid} ... skipped {reason.removeprefix('Skipped: ')!r}")
