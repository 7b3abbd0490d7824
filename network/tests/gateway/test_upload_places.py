"""Unfinished uploads of some clients leave places for others."""
import asyncio
import collections
import os
import time
from typing import Any
from unittest import mock

from support.harm_case import HarmCase
from walrus.network.gateway.http import errors
from walrus.network.gateway.write import unfinished

LATER = {"Upload-Complete": "?0"}


class Uploads(HarmCase):
    async def begin(self, **shown: str) -> int:
        return (await self.ask("POST", "/v1/uploads?epochs=1", headers={**LATER, **shown}))[0]

    async def test_uploads_of_some_leave_places_for_others(self) -> None:
        self.token("anyone")
        alice, bob, carol = (self.token(it) for it in ("alice", "bob", "carol"))
        await self.start()
        with mock.patch.multiple(unfinished, ALL=6, FRESH=-1.0):
            self.assertEqual([await self.begin() for _ in range(4)], [201] * 3 + [503])  # strangers have a half
            self.assertEqual([await self.begin(**alice) for _ in range(4)], [201] * 3 + [503])
            self.assertEqual(await self.begin(**bob), 503)  # data has just arrived for the others
            for path in self.folder.glob("tokens.uploads/*/about"):
                os.utime(path, (time.time() - 700, time.time() - 700))
            self.assertEqual((await self.begin(**alice), await self.begin(**bob)), (503, 201))
            self.assertEqual((await self.begin(**carol), await self.begin(**bob)), (201, 503))
            counts = collections.Counter(path.name[:16] for path in self.folder.glob("tokens.uploads/*"))
            self.assertEqual(sorted(counts.values()), [1, 1, 2, 2])  # the two who had three gave one each

    async def test_addresses_that_send_nothing_leave_places_for_another_one(self) -> None:
        """Otherwise four addresses keep all others out for a day, with an occasional request each."""
        kept, about = unfinished.Unfinished(self.folder / "many"), {"until": 9, "epoch": 0, "length": None}
        with mock.patch.multiple(unfinished, ALL=8, FRESH=-1.0):
            for owner in ("address 192.0.2.1", "address 192.0.2.2") * 2:
                kept.create(owner, about)
            with self.assertRaises(errors.Problem) as raised:
                kept.create("address 192.0.2.3", about)
            self.assertEqual(raised.exception.status, 503)
            for path in self.folder.glob("many/*/about"):
                os.utime(path, (time.time() - 700, time.time() - 700))
            kept.create("address 192.0.2.3", about)
            self.assertEqual(len(kept.sweep()), 4)

    async def test_what_one_finished_is_known_and_costs_the_next_little(self) -> None:
        await self.start()
        kept = unfinished.Unfinished(self.folder / "many")
        for number in range(400):
            folder = self.folder / "many" / f"{number:048x}"
            folder.mkdir(parents=True)
            for it in ("about", "told"):
                (folder / it).write_text("{}")
        kept.sweep()
        self.assertEqual(len(os.listdir(self.folder / "many")), unfinished.FINISHED)

    async def test_what_is_refused_does_not_look_at_the_uploads_of_all(self) -> None:
        """Otherwise each POST that is refused, or follows a DELETE, takes milliseconds of the event loop."""
        for number in range(unfinished.FINISHED):
            folder = self.folder / "many" / f"b{number:047x}"
            folder.mkdir(parents=True)
            for it in ("about", "told"):
                (folder / it).write_text("{}")
        kept, about = unfinished.Unfinished(self.folder / "many"), {"until": 9, "epoch": 0, "length": None}
        owners = [f"token {it}" for it in range(unfinished.ALL // unfinished.OF_ONE)]
        made = [kept.create(owner, about) for owner in owners for _ in range(unfinished.OF_ONE)]
        usual, begun = os.listdir, time.monotonic()
        with mock.patch.object(os, "listdir", side_effect=usual) as looked:
            for _ in range(100):
                for owner, status in ((owners[0], 429), ("token another", 503)):
                    with self.assertRaises(errors.Problem) as raised:
                        kept.create(owner, about)
                    self.assertEqual(raised.exception.status, status)
                kept.drop(made.pop())
                made.append(kept.create(owners[-1], about))
        took = time.monotonic() - begun
        looks = [it for it in looked.call_args_list if it.args == (kept.folder,)]
        self.assertLessEqual(len(looks), 1 + took / unfinished.FRESH)
        self.assertEqual(len(kept.sweep()), unfinished.ALL)

    async def test_what_came_since_the_last_look_is_not_dropped(self) -> None:
        kept, about = unfinished.Unfinished(self.folder / "many"), {"until": 9, "epoch": 0, "length": None}
        made = [kept.create("token a", about) for _ in range(unfinished.OF_ONE)]
        for upload in made:
            os.utime(upload.folder / "about", (time.time() - 700, time.time() - 700))
        kept.at -= 2 * unfinished.FRESH
        self.assertLess(max(kept.known().values()), time.time() - 600)
        for upload in made[1:]:
            upload.touch()
        kept.create("token a", about)
        with self.assertRaises(errors.Problem):
            kept.create("token a", about)
        self.assertEqual([upload.folder.exists() for upload in made], [False] + [True] * 7)

    async def test_of_those_who_wait_for_an_upload_one_looks_whether_it_is_free(self) -> None:
        await self.start()
        path = (await self.ask("POST", "/v1/uploads?epochs=1", headers=LATER))[1]["location"]
        kept, name = self.gateway.uploads.kept, path.rpartition("/")[2]
        usual, looked = kept.lock, set["asyncio.Task[Any] | None"]()

        def look(*words: str) -> Any:
            looked.add(asyncio.current_task())
            return usual(*words)

        held = kept.lock("address 127.0.0.1", name)
        assert held
        with held, mock.patch.object(kept, "lock", look):
            asked = [asyncio.create_task(self.ask("HEAD", path)) for _ in range(10)]
            await asyncio.sleep(3)
            self.assertEqual(len(looked), 1)
        async with asyncio.timeout(30):
            self.assertEqual([status for status, _, _ in await asyncio.gather(*asked)], [200] * 10)
