"""What the tests of slow peers share: a network that waits for longer than any test may take."""
from unittest import mock

from support.http_case import GatewayCase
from walrus.network.settings.gateway_options import Options

LONG, ENOUGH = 1_200.0, 300.0  # seconds for which slow peers are waited for; in which a test ends otherwise


class SlowCase(GatewayCase):
    """A network and a gateway with long deadlines."""

    options = Options(seconds=1, challenge=0, patience=LONG)

    async def asyncSetUp(self) -> None:
        await super().asyncSetUp()
        self.local.options |= {"heal": 3_600}
        names = [
            "gateway.read.reader.SILENCE",
            "gateway.read.reader.GRACE",
            "peers.network.LATE",
        ]  # of clients, and nodes
        for name in (*(f"walrus.network.{it}" for it in names), "asyncio.constants.SSL_HANDSHAKE_TIMEOUT"):
            self.enterContext(mock.patch(name, LONG))
        await self.start()
