"""How the gateway treats a refusal of the program: by its code, never by its words."""
import unittest
from unittest import mock

from walrus import bundles, client
from walrus.client.program import refusal
from walrus.engines.codes import Code
from walrus.network.gateway.http import errors
from walrus.network.gateway.read.reader import Reader
from walrus.network.gateway.resources.memory import Memory
from walrus.network.gateway.status.watch import Watch
from walrus.network.gateway.write import writer as chunks
from walrus.network.settings.gateway_options import Options

PIECE = 16_777_216


class Codes(unittest.IsolatedAsyncioTestCase):
    def test_what_a_read_lacks_is_told_by_types(self) -> None:
        """Whatever the words are, the codes decide."""
        for code, said, status, text, lacking in (
            (Code.TOO_FEW, b"short 1 of 3\n", 503, "1 of 3 needed slivers are heard", 2),
            (Code.TOO_FEW, b"1 heard, 3 wanted\n", 503, "1 of 3 needed slivers are heard", 2),
            (Code.NO_METADATA, b"no metadata\n", 503, "too little of the blob is heard", None),
            (Code.MISSING_COLUMN, b"missing column 7\n", 503, "too little of the blob is heard", None),
            (Code.REJECT, b"no metadata\n", 410, "badly encoded", None),
            (Code.PROOF, b"the bundle was badly encoded", 410, "badly encoded", None),
            (Code.BAD_INDEX, b"reject\n", 404, "is no bundle", None),
            (Code.NO_MEMBER, b"2 are there\n", 404, "has 2 members", None),
            (Code.MALFORMED, b"malformed at 7\n", 503, "malformed at 7", None),
        ):
            problem = errors.problem_of(refusal(code // 100, said, {}, code))
            self.assertEqual((problem.status, problem.more.get("lacking")), (status, lacking), said)
            self.assertIn(text, str(problem))

    async def test_files_that_are_no_bundle_are_told_by_codes(self) -> None:
        network = mock.Mock(ledger=mock.Mock(faults=1))
        writer = chunks.Writer(network, Memory(2**30), 1)
        for code, kind in (
            (Code.TOO_MANY_MEMBERS, errors.Problem),
            (Code.BUNDLE_TOO_LONG, errors.Problem),
            (Code.NO_MEMORY, client.Refused),
            (Code.MALFORMED, client.Refused),
        ):
            fault = refusal(code // 100, b"in other words", {}, code)
            with mock.patch.object(bundles, "join", side_effect=fault), self.assertRaises(kind) as caught:
                await writer.bundle(b"data", [{"name": "a", "size": 4}])
            self.assertEqual(getattr(caught.exception, "status"), 413 if kind is errors.Problem else code // 100)

    async def test_a_blob_that_was_badly_encoded_is_announced_whatever_is_read_of_it(self) -> None:
        network, name = mock.Mock(), bytes([1] * 32)
        reader, told = Reader(network, Options()), list[bytes]()
        reader.rejected = told.append
        for code, behind, announced in (
            (Code.REJECT, b"", True),
            (Code.PROOF, (3).to_bytes(4, "big"), True),  # a column of a bundle
            (Code.BAD_INDEX, (3).to_bytes(4, "big"), False),
            (Code.TOO_FEW, b"", False),
        ):
            network.fetch = mock.AsyncMock(side_effect=refusal(code // 100, b"1 2", {}, code))
            with self.assertRaises(client.Refused):
                await reader.fetch(name + behind, PIECE)
            self.assertEqual(told, [name] * announced, code)
            told.clear()

    async def test_a_proof_of_bad_encoding_meets_a_challenge(self) -> None:
        watch, kept = mock.Mock(), {client.METADATA: b"m", client.PROOF: b"p"}
        watch.network.walrus.run = mock.AsyncMock(return_value=(3, b"in other words"))
        for code, held, proves in (
            (Code.INCONSISTENT, kept, True),
            (Code.CONSISTENT, kept, False),
            (Code.INCONSISTENT, {client.METADATA: b"m"}, False),
        ):
            watch.network.walrus.code = mock.Mock(return_value=code)
            with mock.patch.object(client, "listen", mock.AsyncMock(return_value=(0, held, ""))):
                self.assertIs(await Watch.proves(watch, mock.Mock(), bytes(32)), proves)
