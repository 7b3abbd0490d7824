"""Rules of a gateway and of ports that need no network: forms, calls of the program, and connections that fail."""
import asyncio
import contextlib
import sys
import threading
import unittest
from typing import Any, AsyncIterator
from unittest import mock

from walrus import client
from walrus.engines.backends import Library, Program, Ran
from walrus.network.gateway.bodies.forms import files_of
from walrus.network.gateway.bodies.source import Source
from walrus.network.gateway.http.errors import Problem
from walrus.network.ledger.entries import OPERATOR, Entry, entry_key
from walrus.network.peers import network as network_client
from walrus.network.peers.engine import SHORT, Calls
from walrus.wire import connection, port

ODD = {  # what follows multipart/form-data, and the status of a body of this type
    "": 415,
    ";": 415,
    "; boundary": 415,
    "; boundary=": 415,
    '; boundary=""': 415,
    f"; boundary={'x' * 71}": 415,
    "; boundary*x*=a": 415,
    "; boundary*=idna''%ff..": 415,  # a codec that knows no other errors
    "; boundary*=undefined''x": 415,
    "; boundary*=\0''x": 415,
    "; boundary*0=a; boundary*=b": 415,
    f"; boundary*{'9' * 5_000}=x": 415,
    "; boundary*=utf-8''%ff": 400,
    "; boundary*=zlib''%ff": 400,
    "; boundary=\udcff": 400,
    '; boundary="\\""': 400,
    '; boundary="a;b"': 400,
    '; boundary="a\\"b"': 400,
    "; boundary=other": 400,
}


class Forms(unittest.IsolatedAsyncioTestCase):
    async def files(self, kind: str, body: bytes) -> list[tuple[str, str, bytes]]:
        async def stream() -> AsyncIterator[bytes]:
            yield body

        return [
            (sent.name, sent.field, b"".join([part async for part in sent.parts]))
            async for sent in files_of(kind, Source(stream()), "send a form")
        ]

    async def test_whatever_is_said_of_a_boundary_is_refused_in_words(self) -> None:
        body = b'--x\r\nContent-Disposition: form-data; name="f"; filename="n"\r\n\r\ndata\r\n--x--\r\n'
        for told, status in ODD.items():
            with self.assertRaises(Problem, msg=told) as caught:
                await self.files(f"multipart/form-data{told}", body)
            self.assertEqual((caught.exception.status, "send a form" in str(caught.exception)), (status, True), told)
        for kind in ("", "x", "text/plain; boundary=x", "multipart/mixed; boundary=x"):
            with self.assertRaises(Problem) as caught:
                await self.files(kind, body)
            self.assertEqual(caught.exception.status, 415, kind)
        for told in ("boundary=x", 'boundary="x"', "boundary*=utf-8''x", "boundary*0=x"):
            self.assertEqual(await self.files(f"multipart/form-data; {told}", body), [("n", "f", b"data")])


class Noted(Library):
    """Records the threads in which it is called."""

    def __init__(self) -> None:
        self.threads = list[threading.Thread]()

    def run(self, words: Any, data: Any = b"", room: Any = None) -> Ran:
        self.threads.append(threading.current_thread())
        return Ran(0, memoryview(b"said"))


class Few(unittest.IsolatedAsyncioTestCase):
    """Calls run on the event loop if they are short, of the library, and the committee is small; else in a thread."""

    def calls(self, engine: Any) -> Calls:
        with mock.patch("walrus.network.peers.engine.engine_of", return_value=engine):
            made = Calls.of("walrus")
        self.addCleanup(made.close)
        return made

    async def is_here(self, made: Calls, size: int = 0, *words: object) -> bool:
        self.assertEqual(await made.run(*(words or ("read", "00")), data=bytes(size)), (0, b"said"))
        return made.engine.threads[-1] is threading.current_thread()  # type: ignore[union-attr]

    async def test_a_short_call_is_made_in_place_up_to_three_faults(self) -> None:
        made = self.calls(Noted())
        self.assertFalse(await self.is_here(made))  # the size of the committee is not known yet
        for faults, few in ((0, True), (1, True), (3, True), (4, False), (33, False)):
            with mock.patch.object(network_client.Calls, "of", return_value=made):
                network = self.network(faults)
            self.assertEqual(await self.is_here(made), few, faults)
            self.assertEqual(await self.is_here(made.within(contextlib.nullcontext)), few, faults)
            self.assertEqual(network.walrus, made)
        self.network(1, made)
        self.assertTrue(await self.is_here(made, SHORT - 4_097))
        self.assertFalse(await self.is_here(made, SHORT - 4_096))
        self.assertFalse(await self.is_here(made, 0, "bundle", 1))  # its output may be long

    def network(self, faults: int, made: Any = None) -> network_client.Network:
        """Returns a user of a network, for a committee of this f."""
        access = network_client.Access("x", "walrus", [], "", "", "", "")
        with mock.patch.multiple(network_client, Recorders=mock.DEFAULT, Peers=mock.DEFAULT):
            with contextlib.ExitStack() as stack:
                if made:
                    stack.enter_context(mock.patch.object(network_client.Calls, "of", return_value=made))
                found = network_client.Network(access)
        self.addCleanup(found.state.close)
        if faults:
            owners = ",".join(f"n{it}" for it in range(3 * faults + 1))
            self.assertTrue(found.ledger.apply(Entry(1, entry_key(OPERATOR, "begin", 0, faults, owners))))
        return found

    async def test_a_process_is_waited_for_in_a_thread(self) -> None:
        engine, threads = Program(sys.executable), list[threading.Thread]()

        def run(*_: object) -> Ran:
            threads.append(threading.current_thread())
            return Ran(0, memoryview(b"said"))

        made = self.calls(engine)
        made.few = lambda: True
        with mock.patch.object(engine, "run", run):
            self.assertEqual(await made.run("read", "00"), (0, b"said"))
        self.assertIsNot(threads[0], threading.current_thread())


class Ports(unittest.IsolatedAsyncioTestCase):
    async def test_a_connection_whose_answer_fails_in_any_way_is_let_go(self) -> None:
        """Nothing counts for it any more, and its client gets an error; others are still answered."""
        faults, unseen = [ZeroDivisionError("unforeseen"), SystemError("unforeseen")], list[object]()
        asyncio.get_running_loop().set_exception_handler(lambda _, told: unseen.append(told["message"]))

        async def reply(shard: int, request: bytes) -> port.Said:
            if faults:
                raise faults.pop()
            return port.Said([client.envelope(b"\x30" + bytes(9))])

        served = port.Port(reply, client.Shape(1), port.Bounds())
        self.addAsyncCleanup(served.close_port)
        number = await served.listen("127.0.0.1", 0)
        asked = client.envelope(client.write_frame(client.Read(bytes(32))))
        for _ in range(2):
            own = await connection.connect("127.0.0.1", number)
            own.write(asked)
            with contextlib.suppress(ConnectionResetError):
                self.assertEqual(await own.read(1), b"")
            own.transport.abort()
            async with asyncio.timeout(120):
                while served.connections or served.kept or served.asking:
                    await asyncio.sleep(0.001)
        own = await connection.connect("127.0.0.1", number)
        self.addCleanup(own.transport.abort)
        own.write(asked)
        self.assertEqual(await own.readexactly(17), client.envelope(b"\x30" + bytes(9)))
        self.assertEqual((faults, len(served.connections)), ([], 1))
