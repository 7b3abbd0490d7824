"""Messages to the service manager: that a service is ready, and regularly that it is alive. Lines for operators."""
import asyncio
import contextlib
import functools
import io
import os
import signal
import socket
import sys
from typing import Any

SOON = 1.0  # seconds until READY is sent again to a manager that accepted nothing


@functools.cache
def sender() -> socket.socket:
    """Return the socket for messages to the manager. It stays open, so that a service without free descriptors can
    still send, and it does not block, so that a manager that hangs does not stop its services."""
    made = socket.socket(socket.AF_UNIX, socket.SOCK_DGRAM)
    made.setblocking(False)
    return made


def notify(text: str) -> None:
    """Send a message to the service manager that started this process, if there is one."""
    address = os.environ.get("NOTIFY_SOCKET", "")
    if address:
        sender().sendto(text.encode(), address.replace("@", "\0", 1) if address.startswith("@") else address)


def alive() -> None:
    """Show the watchdog of the service manager that this process is alive."""
    with contextlib.suppress(OSError):
        notify("WATCHDOG=1")


def beat() -> None:
    """Show the watchdog, if there is one, from now on regularly that the event loop runs."""
    microseconds = int(os.environ.get("WATCHDOG_USEC", "0"))
    if microseconds:
        alive()
        asyncio.get_running_loop().call_later(microseconds / 3e6, beat)


def tell_ready() -> None:
    """Tell the manager that a service is ready; retry while it accepts nothing."""
    try:
        notify("READY=1")
    except BlockingIOError:
        asyncio.get_running_loop().call_later(SOON, tell_ready)


class Lines(io.FileIO):
    """Loses what its file does not take, as on a full disk: the caller is in the midst of what it reports."""

    def write(self, data: Any) -> int:
        try:
            return super().write(data)
        except OSError:
            return len(data)


def lose_lines() -> None:
    """Lose lines on standard error that cannot be written from now on, so that none of them ends a service."""
    if sys.stderr:
        sys.stderr = io.TextIOWrapper(Lines(2, "w", closefd=False), errors="backslashreplace", line_buffering=True)


def ready(text: str) -> None:
    """Print a line that a service answers from now on, tell the service manager too, and start `beat`."""
    print(text, flush=True)
    tell_ready()
    beat()


def ending() -> asyncio.Event:
    """Returns an event that is set once SIGINT or SIGTERM arrives."""
    told = asyncio.Event()
    for number in (signal.SIGINT, signal.SIGTERM):
        asyncio.get_running_loop().add_signal_handler(number, told.set)
    return told
