"""What is a network's own is for its user alone, and its processes end with the one that started them."""
import asyncio
import contextlib
import os
import pathlib
import select
import shutil
import signal
import socket
import stat
import subprocess
import sys
import tempfile
import unittest
from unittest import mock

from support.harness import HERE, free_port
from walrus.network.deploy import founding, up
from walrus.network.deploy.local import Local
from walrus.network.deploy.ports import Held, holder_of, must_be_free
from walrus.network.node import node
from walrus.network.recorder import server
from walrus.network.service.failure import Failure
from walrus.network.service.private_files import Foreign, close_database, make_folder

NOBODY = 65_534


def mode(path: pathlib.Path) -> int:
    return stat.S_IMODE(path.stat().st_mode)


class Folders(unittest.TestCase):
    def setUp(self) -> None:
        self.folder = pathlib.Path(self.enterContext(tempfile.TemporaryDirectory()))
        self.addCleanup(os.umask, os.umask(0o022))

    def test_a_new_folder_is_for_its_user_alone(self) -> None:
        make_folder(self.folder / "above" / "net")
        self.assertEqual(mode(self.folder / "above" / "net"), 0o700)

    def test_one_that_others_may_only_read_is_closed_to_them(self) -> None:
        (self.folder / "net").mkdir(mode=0o755)
        make_folder(self.folder / "net")
        self.assertEqual(mode(self.folder / "net"), 0o700)

    def test_one_that_others_may_write_is_refused(self) -> None:
        net = self.folder / "net"
        for bits in (0o777, 0o775, 0o1777, 0o702):
            net.mkdir()
            net.chmod(bits)
            with self.assertRaisesRegex(Foreign, f"others may write to {net}.* take a folder of your own.*chmod 700"):
                make_folder(net)
            self.assertEqual(mode(net), bits)
            net.rmdir()

    @unittest.skipIf(os.getuid(), "only root makes a folder of another user")
    def test_one_of_another_user_is_refused_also_by_a_link_and_above(self) -> None:
        net = self.folder / "net"
        net.mkdir(mode=0o700)
        os.chown(net, NOBODY, NOBODY)
        (self.folder / "link").symlink_to(net)
        for place in (net, self.folder / "link"):
            with self.assertRaisesRegex(Foreign, f"{net} belongs to another user .65534.*: take a folder of your own"):
                make_folder(place)
        with self.assertRaisesRegex(Foreign, f"below {net}, whose owner .65534. may exchange it"):
            make_folder(net / "mine")

    @unittest.skipIf(os.getuid(), "only root makes a link of another user")
    def test_one_that_a_link_of_another_user_points_to_is_refused(self) -> None:
        own, link = self.folder / "own", self.folder / "link"
        own.mkdir(mode=0o755)
        link.symlink_to(own)
        make_folder(link)
        self.assertEqual(mode(own), 0o700)
        own.chmod(0o755)
        (self.folder / "through").symlink_to("link")
        os.chown(link, NOBODY, NOBODY, follow_symlinks=False)
        for place in (link, self.folder / "through", link / "new"):
            with self.assertRaisesRegex(Foreign, f"{link} is a link of another user .65534., and may point anywhere"):
                make_folder(place)
            words = mock.Mock(folder=place, detach=False, add="", nodes="", faults=1)
            with mock.patch.object(up, "find_program", lambda: sys.executable), self.assertRaises(Foreign):
                asyncio.run(up.up(words, mock.Mock()))
        self.assertEqual((mode(own), [*own.iterdir()]), (0o755, []))

    def test_one_in_a_folder_of_everybody_is_refused(self) -> None:
        every = self.folder / "every"
        every.mkdir()
        every.chmod(0o777)
        with self.assertRaisesRegex(Foreign, f"below {every}, where anybody may exchange it"):
            make_folder(every / "net")
        every.chmod(0o1777)  # as /tmp is
        make_folder(every / "net")

    def test_up_and_found_refuse_what_a_stranger_left(self) -> None:
        net = self.folder / "net"
        net.mkdir()
        net.chmod(0o777)
        (net / "node-0.toml").write_text('role = "node"\nprogram = "/bin/evil"\n')
        words = mock.Mock(folder=net, detach=False, add="", nodes="", faults=1)
        with mock.patch.object(up, "find_program", lambda: sys.executable), self.assertRaises(Foreign):
            asyncio.run(up.up(words, mock.Mock()))
        with self.assertRaises(Foreign):
            founding.Founding.begin(net, {}, 9)
        self.assertEqual([it.name for it in net.iterdir()], ["node-0.toml"])

    def test_what_is_there_of_a_database_is_closed(self) -> None:
        names = ["a.db", "a.db-wal", "a.db.lock", "a.ledger", "a.ledger.lock", "a.parts.lock"]
        for name in names:
            (self.folder / name).touch(0o644)
        (self.folder / "a.parts").mkdir(0o755)
        (self.folder / "other.db").touch(0o644)
        close_database(str(self.folder / "a.db"))
        self.assertEqual({mode(self.folder / name) for name in names}, {0o600})
        self.assertEqual([mode(self.folder / name) for name in ("a.parts", "other.db")], [0o700, 0o644])

    def test_services_make_files_for_their_user_alone(self) -> None:
        wrong = mock.Mock(database="/nowhere/a.db", state="/nowhere/a.ledger")
        wrong.name = "a"
        for serve in (node.serve, server.serve):
            os.umask(0o022)
            with mock.patch("sys.stderr"), contextlib.suppress(Exception):
                asyncio.run(serve(wrong))
            (self.folder / "made").touch()
            self.assertEqual(mode(self.folder / "made"), 0o600)
            (self.folder / "made").unlink()

    def test_two_do_not_run_over_one_folder(self) -> None:
        lock = up.locked(self.folder)
        self.assertEqual(mode(self.folder / "up.lock"), 0o600)
        with self.assertRaisesRegex(Failure, f"process {os.getpid()} runs the network in {self.folder} already"):
            up.locked(self.folder)
        lock.close()
        up.locked(self.folder).close()


class Ports(unittest.TestCase):
    def test_who_holds_a_port_is_named(self) -> None:
        with socket.create_server(("127.0.0.1", 0)) as held:
            port = held.getsockname()[1]
            with self.assertRaises(Held) as raised:
                must_be_free("node-0", "127.0.0.1", port)
            text = str(raised.exception)
            self.assertIn(f"node-0 cannot listen on 127.0.0.1:{port}: ", text)
            if shutil.which("ss"):
                self.assertIn(f"process {os.getpid()} ({sys.executable}", text)
                self.assertIn(f"end it (kill {os.getpid()}), and start again", text)
        must_be_free("node-0", "127.0.0.1", port)
        self.assertEqual(holder_of("127.0.0.1", port), "")
        with socket.create_server(("127.0.0.1", 0)) as held, mock.patch.dict(os.environ, {"PATH": ""}):
            with self.assertRaisesRegex(Held, "another process holds it, which this user cannot see; find it as root"):
                must_be_free("node-0", "127.0.0.1", held.getsockname()[1])

    @unittest.skipIf(shutil.which("ss") is None, "ss is not here (iproute2)")
    def test_who_holds_it_of_another_address_is_not_named(self) -> None:
        with socket.create_server(("127.0.0.2", 0)) as held:
            port = held.getsockname()[1]
            self.assertTrue(holder_of("127.0.0.2", port))
            self.assertTrue(holder_of("0.0.0.0", port))
            self.assertEqual(holder_of("127.0.0.1", port), "")
        with socket.create_server(("0.0.0.0", 0)) as held:
            self.assertTrue(holder_of("localhost", held.getsockname()[1]))


PARENT = f"""import asyncio, pathlib, sys
sys.path[:0] = [{str(HERE)!r}]
from support import harness
async def main():
    process = await harness.Local(pathlib.Path(sys.argv[1])).spawn("child", "sleep", "600")
    print(process.pid, flush=True)
    await asyncio.sleep(600)
asyncio.run(main())"""


@unittest.skipIf(shutil.which("setpriv") is None, "setpriv is not here (util-linux)")
class Children(unittest.TestCase):
    def test_a_killed_parent_leaves_no_orphan(self) -> None:
        folder = self.enterContext(tempfile.TemporaryDirectory())
        line = [sys.executable, "-c", PARENT, folder]
        with subprocess.Popen(line, stdout=subprocess.PIPE, text=True) as parent:
            assert parent.stdout
            child = os.pidfd_open(int(parent.stdout.readline()))
            self.addCleanup(os.close, child)
            parent.send_signal(signal.SIGKILL)
        self.assertEqual(parent.wait(), -signal.SIGKILL)

        self.assertTrue(select.select([child], [], [], 60)[0], "the child goes on")


class Starts(unittest.IsolatedAsyncioTestCase):
    async def test_a_node_whose_port_is_taken_says_by_whom(self) -> None:
        folder, port = pathlib.Path(self.enterContext(tempfile.TemporaryDirectory())), free_port()
        (folder / "a.toml").write_text(f"port = {port}\n")
        with socket.create_server(("127.0.0.1", port)), self.assertRaisesRegex(Held, f"a cannot listen on .*:{port}"):
            await Local(folder).start("a", ["true"])
        self.assertFalse((folder / "a.log").exists())
