"""Epochs that are begun too early, or with names of no nodes."""
import tempfile
import time
from typing import Union
from unittest import mock

from support.ledger_case import FOUNDED, FOUR, registration
from support.recorder_case import RecorderCase
from walrus.network.ledger import epoch_age
from walrus.network.ledger.entries import ADDRESS, OPERATOR, entry_key
from walrus.network.ledger.state import State
from walrus.network.recorder.appender import Recorder
from walrus.network.recorder.etcd import Batch


class Begins(RecorderCase):
    """Whoever has the operator's key, or a script of the operator's, begins epochs: what ends with them is erased."""

    async def say(self, made: Recorder, *words: object) -> Union[int, str]:
        """Posts an entry; returns its place, or why it was refused."""
        said = made.post([entry_key(*map(str, words))])
        await made.append()
        [answer] = await said
        return answer if isinstance(answer, int) else str(answer)

    async def test_names_behind_which_no_node_stands_hold_no_shard(self) -> None:
        made = await self.recorder(entry_key(OPERATOR, "concentrated", 0))
        alone, four = ",".join([OPERATOR] * 4), "a,b,c,d"
        self.assertRegex(str(await self.say(made, OPERATOR, "begin", 0, 1, alone)), "^operator can hold no shard: ")
        said = await self.say(made, OPERATOR, "begin", 0, 1, four)
        self.assertEqual(said, "a and b and c and d can hold no shard: start the node, or correct the name")
        for place, name in enumerate(["a", "b", "c", "d", OPERATOR], 2):
            self.assertEqual(await self.say(made, name, ADDRESS, "127.0.0.1", 1), place)
        self.assertEqual(await self.say(made, "x", "begin", 0, 1, "e,e,e,e"), "only operator may post that")
        self.assertEqual(await self.say(made, OPERATOR, "begin", 0, 1, four), 7)
        self.assertEqual(await self.say(made, OPERATOR, "concentrated", 1), 8)
        for names, strange in ((alone, OPERATOR), ("a,b,c,e", "e"), ("a,b,e,x", "e and x")):
            said = await self.say(made, OPERATOR, "begin", 1, 1, names)
            self.assertRegex(str(said), f"^{strange} can hold no shard: ")
        self.assertEqual(await self.say(made, OPERATOR, "expel", "d"), 9)
        self.assertRegex(str(await self.say(made, OPERATOR, "begin", 1, 1, four)), "^d can hold no shard: ")
        self.assertEqual(await self.say(made, "e", ADDRESS, "127.0.0.1", 1), 10)
        self.assertEqual(await self.say(made, OPERATOR, "begin", 1, 1, "a,b,c,e"), 11)

    async def test_an_epoch_has_a_least_length(self) -> None:
        """By the recorder's own clock, also over its restart."""
        path, turns = f"{self.enterContext(tempfile.TemporaryDirectory())}/state", [*"abc"]
        made = Recorder(self.etcd, State(path), 60.0)
        await made.catch_up()
        for text in (entry_key("node-0", ADDRESS, "127.0.0.1", 1), FOUNDED, registration("x", 1, 9)):
            self.assertTrue(await made.step(Batch(made.chain, [text])))

        async def begun(epoch: int) -> Union[int, str]:
            return await self.say(made, OPERATOR, "begin", epoch, 1, FOUR)

        said = "^epoch 0 began 0 s ago by this recorder's clock, and lasts at least 60 s .least.: begin the next one in"
        for _ in range(9):
            self.assertRegex(str(await begun(1)), said)
        self.assertEqual((made.ledger.epoch, made.ledger.moving, len(made.ledger.blobs)), (0, False, 1))
        for later, is_over in ((30, False), (61, True)):
            self.assertTrue(made.state.settle())
            made.state.close()
            now = time.time()
            with mock.patch.object(epoch_age.time, "time", lambda now=now, later=later: now + later):
                made = Recorder(self.etcd, State(path), 60.0)
            await made.catch_up()
            self.assertEqual(isinstance(await begun(1), int), is_over)
        for name in turns:
            self.assertIsInstance(await self.say(made, f"node-{'abc'.index(name)}", "ready", 1), int)
        self.assertIsInstance(await self.say(made, "node-0", "finish", 1), int)
        self.assertRegex(str(await begun(2)), "^epoch 1 began 0 s ago")
        late = Recorder(self.etcd, least=60.0)  # which has seen none of it, and reads all at once
        self.addCleanup(late.state.close)
        await late.catch_up()
        self.assertRegex(str(await self.say(late, OPERATOR, "begin", 2, 1, FOUR)), "^epoch 1 began 0 s ago")
        made.state.close()
