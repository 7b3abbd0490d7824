"""Tokens of a gateway: each has rights, to read or to store, and bounds. The file has only their SHA-256."""
import argparse
import contextlib
import dataclasses
import fcntl
import hashlib
import hmac
import json
import os
import pathlib
import secrets
import sys
from typing import Any, Iterable, Optional


from walrus.network.files.naming import readable, written_whole
from walrus.network.service.names import NAME

RIGHTS = READ, STORE = "read", "store"
ANYONE = "anyone"  # the name that stands for clients without a token
BOUNDS = "bytes", "blobs", "epochs"
TEXT = f"make a token, in place of an older one of this name; the name {ANYONE} stands for clients without a token"
WORDS = {
    "folder": ("walrus-network", "the network's folder, in which tokens.json is changed"),
    "tokens": ("", "another file of tokens"),
    "remove": (False, "remove the token"),
}
MEANT = "bytes that it may store in an epoch", "blobs that it may store in an epoch; a long file has several"


@dataclasses.dataclass(frozen=True)
class Token:
    """A token, by its SHA-256. Its bounds are bytes and blobs that may be stored in an epoch, and epochs for which a
    file may be kept; None is no bound."""

    name: str
    digest: bytes
    rights: frozenset[str]
    bounds: dict[str, Optional[int]]

    @classmethod
    def of(cls, name: str, told: Any) -> "Token":
        """Returns the token that an entry of the file describes; raises `ValueError` if it is malformed."""
        unknown = {*told} - {"sha256", "rights", *BOUNDS} if isinstance(told, dict) else {"no object"}
        if unknown or not NAME.fullmatch(name):
            raise ValueError(f"{name[:64]!r}: {' '.join(sorted(unknown)) or 'a name has letters, digits, . _ and -'}")
        digest, rights = bytes.fromhex(told.get("sha256", "")), told.get("rights")
        bounds = {it: told.get(it) for it in BOUNDS}
        fit = isinstance(rights, list) and {*rights} <= {*RIGHTS} and len(digest) == 32 * (name != ANYONE)
        if not fit or not all(it is None or type(it) is int and it >= 0 for it in bounds.values()):
            raise ValueError(f"{name}: it needs rights of {' and '.join(RIGHTS)}, a SHA-256, and numbers as bounds")
        return cls(name, digest, frozenset(rights), bounds)


def read_tokens(path: pathlib.Path) -> dict[str, Token]:
    """Returns the tokens of a file by name; raises `OSError`, or `ValueError` if it is malformed."""
    try:
        told = json.loads(path.read_text())
        if not isinstance(told, dict):
            raise ValueError("it is not a JSON object")
        return {name: Token.of(name, it) for name, it in told.items()}
    except (ValueError, TypeError, AttributeError, RecursionError) as fault:
        raise ValueError(f"{path} has no tokens that can be read: {fault}") from None


class Tokens:
    """The tokens of a file, which is read again when it changes. If it is later lost or malformed, the earlier tokens
    remain valid: a gateway with tokens must not become open to all. For the same reason the file must be there at the
    start if it is not `default`, or if there have been tokens, as `used` then shows: raises `ValueError`."""

    def __init__(self, path: pathlib.Path, default: pathlib.Path, used: pathlib.Path):
        self.path, self.known, self.state = path, None, ()  # type: pathlib.Path, Optional[dict[str, Token]], object
        self.used = used if path.resolve() == default.resolve() else None  # another file must be there in any case
        if path.exists():
            self.known, self.state = read_tokens(path), self.look()
            self.mark()
        elif fault := fault_of(path, default, used):
            raise ValueError(fault)

    def mark(self) -> None:
        """Makes the file of what tokens have used, empty, unless it is there or not needed to notice a loss."""
        try:
            if self.used and not self.used.exists():
                self.used.touch()
        except OSError as fault:
            print(f"{fault}: if {self.path} is lost, the next start does not notice", file=sys.stderr, flush=True)

    def look(self) -> object:
        """Returns a value that changes whenever the file does."""
        try:
            found = self.path.stat()
        except OSError as fault:
            return fault.errno if self.known is not None else ()
        return found.st_mtime_ns, found.st_size, found.st_ino

    def all(self) -> Optional[dict[str, Token]]:
        """Returns the tokens by name, or None if there has been no file."""
        if (state := self.look()) != self.state:
            self.state = state
            try:
                self.known = read_tokens(self.path)
                self.mark()
            except (OSError, ValueError) as fault:
                print(f"{fault}: the earlier tokens remain valid", file=sys.stderr, flush=True)
                self.known = self.known or {}
        return self.known

    def find(self, shown: bytes) -> Optional[Token]:
        """Returns the token with this text, or None; digests are compared in constant time."""
        digest, found = hashlib.sha256(shown).digest(), None
        for token in (self.all() or {}).values():
            if token.name != ANYONE and hmac.compare_digest(token.digest, digest):
                found = token
        return found


def fault_of(path: pathlib.Path, default: pathlib.Path, used: pathlib.Path) -> str:
    """Returns what is wrong if a file of tokens is missing that is not the default one, or that has been there, as
    `used` shows; empty if nothing is."""
    may_lack = path.resolve() == default.resolve()
    if os.path.exists(path) or may_lack and not os.path.exists(used):
        return ""
    said = f"{path} is not there" + (f", but {used} is, so there have been tokens" if may_lack else "")
    mend = f"bring it back, or make a first token (walrus-net token NAME --tokens {path}), after which anyone may read"
    mend += f" until walrus-net token {ANYONE} --rights none --tokens {path}"
    return f"tokens: {said}: {mend}" + (f"; to have none again, remove {used}" if may_lack else "")


def places(folder: pathlib.Path, tokens: str, used: str) -> tuple[pathlib.Path, pathlib.Path, pathlib.Path]:
    """Returns the file of tokens, the default one in a gateway's folder, and the file of what tokens have used, if
    options name the first and the last, or leave them empty."""
    default = folder / "tokens.json"
    path = pathlib.Path(tokens or default)
    return path, default, pathlib.Path(used or path.with_suffix(".used"))


def change_token(path: pathlib.Path, name: str, told: Optional[dict[str, Any]]) -> str:
    """Makes a token of a name in a file, in place of an older one, or removes it if `told` is None. Returns the text of
    the token, which is stored nowhere. A new file lets anyone read, as without a file. Commands at once take turns."""
    folder = os.open(path.resolve().parent, os.O_RDONLY | os.O_DIRECTORY | os.O_CLOEXEC)
    try:
        with contextlib.suppress(OSError):  # a disk without locks
            fcntl.flock(folder, fcntl.LOCK_EX)
        return changed(path, name, told)
    finally:
        os.close(folder)


def changed(path: pathlib.Path, name: str, told: Optional[dict[str, Any]]) -> str:
    """Does the work of `change_token` once it is this command's turn."""
    known: dict[str, Any] = json.loads(path.read_text()) if path.exists() else {ANYONE: {"rights": [READ]}}
    made = secrets.token_urlsafe(32) if told is not None and name != ANYONE else ""
    if told is None and known.pop(name, None) is None:
        raise ValueError(f"{path} has no token of {name}")
    if told is not None:
        known[name] = {**({"sha256": hashlib.sha256(made.encode()).hexdigest()} if made else {}), **told}
        Token.of(name, known[name])
    with written_whole(str(path)) as out:
        out.write(json.dumps(known, indent=1).encode() + b"\n")
    return made


def add_words(parser: argparse.ArgumentParser) -> None:
    both = ",".join(RIGHTS)
    parser.add_argument("--rights", help=f"rights, separated by commas, or none; {both}, but for {ANYONE} say which")
    for name, text in zip(BOUNDS, (*MEANT, "epochs for which it may keep a file")):
        parser.add_argument(f"--{name}", type=int, metavar="N", help=f"{text}; without it, any number")


def run(words: argparse.Namespace) -> None:
    """Makes or removes a token as the command line says, and prints a new one; it is shown only this once."""
    path = pathlib.Path(words.tokens or pathlib.Path(words.folder, "tokens.json"))
    if words.rights is None and words.name == ANYONE and not words.remove:
        raise ValueError(f"say what clients without a token may do: --rights {READ}, or {','.join(RIGHTS)}, or none")
    rights = rights_of(",".join(RIGHTS) if words.rights is None else words.rights)
    bounds = {it: getattr(words, it) for it in BOUNDS if getattr(words, it) is not None}
    with readable():  # the file has only digests, so others may read it
        made = change_token(path, words.name, None if words.remove else {"rights": rights, **bounds})
    if words.json:
        print(json.dumps({"name": words.name, "token": made or None, "removed": words.remove}))
    elif made:
        print(made)
        print(f"this is the token of {words.name}; keep it, as {path} has only its SHA-256", file=sys.stderr)


def rights_of(text: str) -> list[str]:
    """Returns the rights in a text with commas between them; raises `ValueError` for others."""
    rights: Iterable[str] = dict.fromkeys(it for it in text.split(",") if it not in ("", "none"))
    if not {*rights} <= {*RIGHTS}:
        raise ValueError(f"rights are {' or '.join(RIGHTS)}, or none")
    return [*rights]
