"""Epochs by the calendar."""
import time
import unittest
from unittest import mock

from walrus.network.ledger import calendar, entries
from walrus.network.ledger.entries import Entry
from walrus.network.ledger.rules import Ledger


class Dates(unittest.TestCase):
    def test_epochs_are_counted_by_the_calendar_and_rounded_up(self) -> None:
        ledger, day = Ledger(), 86_400
        self.assertIsNone(calendar.calendar_of(ledger))
        with self.assertRaisesRegex(ValueError, "no calendar by which 90d could be counted"):
            calendar.epochs_for({"calendar": None, "epoch": 0, "moving": False}, "90d")
        ledger.apply(Entry(1, entries.entry_key("operator", "calendar", 2, 1_000_000, 14 * 1_440)))
        plan = calendar.calendar_of(ledger)
        self.assertEqual(calendar.date_of(ledger, 3), "1971-12-10T10:40Z")  # 1,000,000 minutes and 14 days behind 1970
        for epoch, moving, now, text, wanted in (
            (2, False, 0, "14d", 1),
            (2, False, 1, "14d", 2),
            (2, False, 0, "90d", 7),
            (2, False, 7 * day, "1m", 1),
            (2, True, 0, "28d", 1),
            (5, False, 0, "1w", 1),
            (9, False, 0, "90d", 7),  # of a machine whose clock is behind
            (9, True, -3_650 * day, "90d", 6),
        ):
            with mock.patch.object(time, "time", lambda now=now: 60_000_000 + now):
                status = {"calendar": plan, "epoch": epoch, "moving": moving}
                self.assertEqual(calendar.epochs_for(status, text), wanted, (epoch, moving, now, text))
        for text in ("", "90", "d", "1.5d", "-1d", "0d"):
            with self.assertRaises(ValueError):
                calendar.seconds_of(text)
