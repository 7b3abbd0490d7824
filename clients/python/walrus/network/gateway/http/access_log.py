"""The access log: a line for each request in the Common Log Format, with the name of its token."""
import contextlib
import datetime
import logging
import logging.handlers
import sys
from typing import Optional

from aiohttp import web
from aiohttp.abc import AbstractAccessLogger


class CommonLog(AbstractAccessLogger):
    """Writes ADDRESS - NAME [TIME] "REQUEST" STATUS BYTES for each request."""

    def log(self, request: web.BaseRequest, response: web.StreamResponse, time: float) -> None:
        token, flow = request.get("token"), request.get("flow")
        told = len(response.body) if isinstance(response, web.Response) and isinstance(response.body, bytes) else 0
        size = told * (request.method != "HEAD") if isinstance(response, web.Response) else flow.moved if flow else 0
        asked = f"{request.method} {request.raw_path} HTTP/{request.version.major}.{request.version.minor}"
        words = [request.get("address") or request.remote or "-", "-", token.name if token else "-", stamp()]
        self.logger.info("%s", " ".join([*words, f'"{escaped(asked)}"', str(response.status), str(size)]))


def stamp() -> str:
    now = datetime.datetime.now(datetime.timezone.utc)
    return f"[{now:%d/%b/%Y:%H:%M:%S} +0000]"


def escaped(text: str) -> str:
    """Returns a client's text in a form that ends neither a field of the log nor the line."""
    return "".join(it if " " <= it <= "~" and it not in '"\\' else f"\\x{ord(it):02x}" for it in text)


class LogFile(logging.handlers.WatchedFileHandler):
    """A log file that may be moved away. While it cannot be written or opened again, its lines are lost and requests go
    on; each new cause is printed once on standard error."""

    cause = said = ""

    def emit(self, record: logging.LogRecord) -> None:
        self.cause = ""
        try:
            super().emit(record)
        except OSError as fault:  # the old file cannot be closed, or the new one not be opened
            self.cause, self.stream = str(fault), None  # type: ignore[assignment]
        last, self.said = self.said, self.cause
        if self.cause not in ("", last):
            with contextlib.suppress(OSError, ValueError):  # standard error may be on the same full disk
                print(f"the access log lacks lines from here on: {self.cause}", file=sys.stderr, flush=True)

    def handleError(self, record: logging.LogRecord) -> None:
        """Notes why a line could not be written, as on a full disk; the base class would print a traceback."""
        self.cause = str(sys.exc_info()[1])


def log_to(place: str) -> Optional[logging.Logger]:
    """Returns the log in a file, which may be moved away meanwhile, or on standard output (`-`); None for no name."""
    if not place:
        return None
    log = logging.Logger("walrus.access", logging.INFO)
    to: logging.Handler = logging.StreamHandler(sys.stdout)
    log.addHandler(to if place == "-" else LogFile(place))
    return log
