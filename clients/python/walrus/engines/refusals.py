"""The exceptions that calls raise: the words and status with which a run ended, and advice what to do about it."""

from .codes import Code

ADVICE = {
    2: "a number, an identifier or a name is out of its range",
    3: "the writer encoded it badly, or it is not what the identifier names: no other reply mends that",
    4: "ask further shards, and call again with what they reply",
    5: "there was too little memory: free some, or run fewer calls at once",
    6: "the input could not be read",
    7: "the output could not be written",
    8: "the input is cut or damaged at this place",
    9: "split the input",
    10: "two texts have one digest: keep them, the digest is broken",
    11: "an argument is no text",
    127: "the program was built for another processor: build it on this machine with ./walrus",
}


ENVELOPE = b"\x57"  # the first byte of a text that is not a line: a proof, or a shard's earlier answers


class Refused(Exception):
    """A call had no result. `code` says which refusal it is, `status` is the program's exit status, `text` its output,
    and `words` the line in that output that is meant for people, if there is one."""

    def __init__(self, command: str, status: int, text: bytes, code: Code) -> None:
        self.command, self.status, self.text, self.code = command, status, text, code
        is_line = code is not Code.USAGE and text[:1] != ENVELOPE
        self.words = text[:300].decode("ascii", "replace").strip() if is_line else ""
        said = f"{self.words} (status {status})" if self.words else f"status {status}"
        super().__init__(f"walrus {command}: {said}: {ADVICE.get(status, 'this status is not known')}")

    def __reduce__(self) -> tuple[type["Refused"], tuple[str, int, bytes, Code]]:
        return type(self), (self.command, self.status, self.text, self.code)


class WrongWords(Refused, ValueError):
    """Status 2 or 11: an argument is out of its range."""


class BadlyEncoded(Refused):
    """Status 3: the blob was badly encoded, or is no bundle. `proof` is the frame that shows it (`recover` only)."""

    @property
    def proof(self) -> bytes:
        return self.text[7:] if self.code is Code.PROOF else b""


class Lacking(Refused):
    """Status 4: something is missing; `code` and `words` say what."""


class OutOfMemory(Refused, MemoryError):
    """Status 5."""


class Malformed(Refused, ValueError):
    """Status 8 or 9: the input is no stream of envelopes, or too long."""


class Collision(Refused):
    """Status 10: a hash collision, two different texts with the same digest; `text` contains them."""


KINDS: dict[int, type[Refused]] = {
    2: WrongWords,
    3: BadlyEncoded,
    4: Lacking,
    5: OutOfMemory,
    8: Malformed,
    9: Malformed,
    10: Collision,
    11: WrongWords,
}


def refused(command: str, status: int, text: bytes, code: Code) -> Refused:
    """Return the exception for a status other than 0."""
    return KINDS.get(status, Refused)(command, status, text, code)
