"""What the tests of harm at a gateway share: stored files, and clients that read slowly or not at all."""
import asyncio
import hashlib
import socket

from support.guard_case import GuardCase


class HarmCase(GuardCase):
    """A gateway at which one client tries to harm others."""

    def keep(self, data: bytes) -> str:
        """Makes a blob readable, and returns its identifier."""
        name = hashlib.sha256(data).hexdigest()
        self.files[name] = data
        return name

    async def connect(self, said: bytes) -> tuple[asyncio.StreamReader, asyncio.StreamWriter]:
        """Returns a connection on which this was sent, and whose client receives little."""
        reader, writer = await asyncio.open_connection("127.0.0.1", self.port, limit=4_096)
        writer.get_extra_info("socket").setsockopt(socket.SOL_SOCKET, socket.SO_RCVBUF, 4_096)
        writer.write(said)
        return reader, writer
