"""Ports of this machine: which process holds one."""
import contextlib
import errno
import pathlib
import re
import socket
import subprocess

ANY = "*", "0.0.0.0", "::"  # how ss and systems write all addresses


class Held(OSError):
    """A port that another process holds. The text says which one, and what to do."""


def holder_of(host: str, port: int) -> str:
    """Returns the process that listens on a port of an address, by its number and its command; empty if it is not seen
    from here. Others may have the same port of other addresses."""
    with contextlib.suppress(OSError, subprocess.TimeoutExpired):
        words = ["ss", "-Hltnp", f"sport = :{port}"]
        told = subprocess.run(words, capture_output=True, text=True, timeout=10).stdout.splitlines()
        address = socket.getaddrinfo(host or ANY[1], port)[0][4][0]
        held = [it for it in told if address in ANY or it.split()[3].rpartition(":")[0].strip("[]") in (*ANY, address)]
        if found := re.search(r"pid=(\d+)", "".join(held)):
            line = pathlib.Path(f"/proc/{found[1]}/cmdline").read_bytes().replace(b"\0", b" ").decode(errors="replace")
            return f"{found[1]} ({line.strip()[:200]})"
    return ""


def must_be_free(name: str, host: str, port: int) -> None:
    """Raises `Held` if a service cannot listen on a port, as another process does."""
    with socket.socket(socket.AF_INET6 if ":" in host else socket.AF_INET) as tried:
        tried.setsockopt(socket.SOL_SOCKET, socket.SO_REUSEADDR, 1)  # as services do: closed connections hold nothing
        try:
            tried.bind((host, port))
        except OSError as fault:
            if fault.errno != errno.EADDRINUSE:
                return  # what else is wrong the service says itself
            number = (holder := holder_of(host, port)).partition(" ")[0]
            who = f"process {holder} holds it" if holder else "another process holds it, which this user cannot see"
            mend = f"end it (kill {number})" if holder else f"find it as root (ss -ltnp 'sport = :{port}'), and end it"
            raise Held(f"{name} cannot listen on {host}:{port}: {who}; {mend}, and start again") from None
