"""Calendars, first epochs and expelled nodes: commands of operators over a ledger."""
import argparse
import contextlib
import datetime
import io
import json
import os
import pathlib
import unittest
from unittest import mock

from support import harness
from support.ledger_case import FOUNDED, FOUR, LedgerCase
from walrus.network.deploy import epochs
from walrus.network.ledger.entries import OPERATOR, Entry, entry_key
from walrus.network.ledger.rules import Ledger
from walrus.network.service.failure import Failure

NODES = ["node-0", "node-1", "node-2", "node-3"]


@unittest.skipUnless(os.access(harness.find_program(), os.X_OK), "the program is not built")
class Planned(LedgerCase):
    async def test_the_first_epoch_of_a_plan_begins_once_however_often_the_command_is_repeated(self) -> None:
        """The plan may have other nodes by then."""
        plan = self.local.told() | {"nodes": {"node-0": ["alpha", 1, 4]}, "faults": 1}
        pathlib.Path(self.folder, "network.json").write_text(json.dumps(plan))
        told = json.dumps({"epoch": 0, "nodes": NODES, "ended": []})
        for as_json, wanted in ((False, "epoch 0 has begun before: nothing was begun"), (True, told)):
            with contextlib.redirect_stdout(io.StringIO()) as said:
                self.assertEqual(await epochs.begin(argparse.Namespace(folder=self.folder, json=as_json)), 0)
            self.assertEqual(said.getvalue(), f"{wanted}\n")

    async def test_a_plan_by_which_an_epoch_would_be_due_already_is_asked_about(self) -> None:
        """A timer would begin one epoch at each run, and what expires with them is gone."""
        year = datetime.timedelta(days=365)
        now = datetime.datetime.now()
        before, behind = (it.isoformat(timespec="minutes") for it in (now - year, now + year))
        for length, since, due in (("14d", before, 26), ("1m", "", 0), ("14d", behind, -27), ("59m", "", 0)):
            said = await self.plan(length, since)
            self.assertRegex(
                said, rf"^epoch 0 counts from 20.*, and each has {length} \(.* minutes\): so epoch {due} is due"
            )
            self.assertRegex(
                said, "no plan was posted, as there is no terminal to ask at: --yes posts it without asking$"
            )
        async with self.following(self.user("publisher")) as view:
            self.assertEqual(view.ledger.calendar, (0, 0, 0))
        hour = (now - datetime.timedelta(hours=1)).isoformat(timespec="minutes")
        for length, since, options in (
            ("14d", hour, {}),
            ("60m", "", {}),
            ("14d", before, {"yes": True}),
            ("off", "", {}),
        ):
            said = await self.plan(length, since, **options)
            self.assertRegex(
                said, "there is no plan, from place" if length == "off" else rf"each has {length} .*, from place"
            )
            self.assertEqual("so epoch 26 is due now" in said, since == before)

    async def plan(self, length: str, since: str, yes: bool = False) -> str:
        words = argparse.Namespace(folder=self.folder, json=False, yes=yes, length=length, since=since)
        with contextlib.redirect_stdout(io.StringIO()) as said:
            try:
                self.assertEqual(await epochs.plan(words), 0)
            except Failure as fault:
                return f"{said.getvalue()}{fault.args[0]}"
        return said.getvalue()

    async def test_a_spare_node_that_was_added_before_the_first_epoch_gets_no_shard_of_it(self) -> None:
        network = mock.MagicMock(ledger=Ledger(), until=mock.AsyncMock(return_value=True), begin=mock.AsyncMock())
        network.__aenter__.return_value = network
        nodes = {name: ["alpha", 1, 1] for name in [*NODES, "node-4"]}
        plan = self.local.told() | {"nodes": nodes, "faults": 1}
        pathlib.Path(self.folder, "network.json").write_text(json.dumps(plan))
        with mock.patch.multiple(epochs, Network=lambda *_: network, must_answer=mock.AsyncMock()):
            with contextlib.redirect_stdout(io.StringIO()):
                self.assertEqual(await epochs.begin(argparse.Namespace(folder=self.folder, json=False)), 0)
        network.begin.assert_awaited_once_with(1, NODES, 0)

    async def test_who_would_be_one_too_many_with_those_expelled_before_is_shown_as_that(self) -> None:
        ledger = Ledger()

        def enter(*texts: str) -> None:
            for text in texts:
                self.assertTrue(ledger.apply(Entry(ledger.revision + 1, text)))

        enter(FOUNDED, entry_key(OPERATOR, "expel", "node-0"))
        known = "node-1 has 1 shards, and 1 may be lost, in all 2 shards of expelled nodes, so"
        self.assertEqual(epochs.known_of(ledger, "node-1"), f"{known} nothing is stored before a handover")
        self.assertNotIn("lost", epochs.known_of(ledger, "writer"))
        enter(entry_key(OPERATOR, "begin", 1, 1, FOUR))
        self.assertEqual(epochs.known_of(ledger, "node-1"), f"{known} this handover may never end")
        network = mock.MagicMock(ledger=ledger)
        network.__aenter__.return_value, network.recorders.post = network, mock.AsyncMock(return_value=9)
        words = argparse.Namespace(command="expel", folder=self.folder, name="node-1", json=True, yes=True)
        with mock.patch.object(epochs, "Network", lambda *_: network), contextlib.redirect_stdout(io.StringIO()):
            with self.assertRaisesRegex(Failure, "node-1 is not expelled: .* 2 shards .*; without --yes you are asked"):
                await epochs.post(words)
            words.name = "writer"
            self.assertEqual(await epochs.post(words), 0)
        network.recorders.post.assert_awaited_once_with(entry_key(OPERATOR, "expel", "writer"))
