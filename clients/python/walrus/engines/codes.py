"""The refusals of the program, each with a code, as clients/c/walrus.h lists them.

The library reports the code of a run. A process gives only its status and text, and an older library has no codes: for
these the code is looked up here, in the same table that the library contains."""

import enum
import re

from .buffers import Buffer


class Code(enum.IntEnum):
    """A refusal: a hundred times its status, plus its place among those of the status. No number is ever reused."""

    NONE = 0  # no refusal, or one that only a later version has
    USAGE = 201
    REJECT = 301
    INCONSISTENT = 302
    BAD_INDEX = 303
    WRONG_OPENING = 304
    PROOF = 305
    NO_METADATA = 401
    TOO_FEW = 402
    NO_PROOF = 403
    PROOF_COUNT = 404
    PROOF_REPEATS = 405
    BAD_OPENING = 406
    CONSISTENT = 407
    DISK_FULL = 408
    TOO_MANY_MEMBERS = 409
    BUNDLE_TOO_LONG = 410
    MISSING_COLUMN = 411
    NO_MEMBER = 412
    NO_SHARD = 413
    NO_PRIMARY = 414
    NO_SECONDARY = 415
    DRAW_COUNT = 416
    NO_MEMORY = 501
    INPUT_FAILED = 601
    NO_ROOM = 701
    MALFORMED = 801
    NOT_JSON = 802
    BAD_SCHEDULE = 803
    TOO_MANY_EVENTS = 804
    BAD_EVENT = 805
    BROKEN_REQUEST = 806
    TOO_LONG = 901
    COLLISION = 1001
    NO_WORDS = 1101

    @classmethod
    def _missing_(cls, value: object) -> "Code":
        return cls.NONE

    @classmethod
    def of(cls, status: int, text: Buffer) -> "Code":
        """Return the refusal of a run that ended with this status and wrote this text."""
        front = bytes(memoryview(text)[:LONGEST])
        return next((it for it, begins in TABLE.items() if it // 100 == status and front.startswith(begins)), cls.NONE)


TABLE = {  # the prefix of each refusal's text; of those with one status the first that matches counts
    Code.USAGE: b"usage: ",
    Code.REJECT: b"reject\n",
    Code.INCONSISTENT: b"inconsistent\n",
    Code.BAD_INDEX: b"bad index\n",
    Code.WRONG_OPENING: b"wrong ",
    Code.PROOF: b"\x57",  # an envelope
    Code.NO_METADATA: b"no metadata\n",
    Code.TOO_FEW: b"short ",
    Code.NO_PROOF: b"no proof\n",
    Code.PROOF_COUNT: b"wrong count\n",
    Code.PROOF_REPEATS: b"repeated\n",
    Code.BAD_OPENING: b"bad opening ",
    Code.CONSISTENT: b"consistent\n",
    Code.DISK_FULL: b"disk full needed ",
    Code.TOO_MANY_MEMBERS: b"too many members\n",
    Code.BUNDLE_TOO_LONG: b"bundle too long\n",
    Code.MISSING_COLUMN: b"missing column ",
    Code.NO_MEMBER: b"no member of ",
    Code.NO_SHARD: b"no shard\n",
    Code.NO_PRIMARY: b"no primary\n",
    Code.NO_SECONDARY: b"no secondary\n",
    Code.DRAW_COUNT: b"wrong count ",
    Code.NO_MEMORY: b"",
    Code.INPUT_FAILED: b"",
    Code.NO_ROOM: b"",
    Code.MALFORMED: b"malformed at ",
    Code.NOT_JSON: b"not json\n",
    Code.BAD_SCHEDULE: b"bad schedule\n",
    Code.TOO_MANY_EVENTS: b"too many events\n",
    Code.BAD_EVENT: b"bad event ",
    Code.BROKEN_REQUEST: b"",
    Code.TOO_LONG: b"",
    Code.COLLISION: b"",
    Code.NO_WORDS: b"",
}
LONGEST = max(map(len, TABLE.values()))

BADLY_ENCODED = {Code.REJECT, Code.INCONSISTENT, Code.PROOF}  # by its writer: further replies do not help
TOO_LITTLE = {Code.NO_METADATA, Code.TOO_FEW, Code.MISSING_COLUMN}  # was replied so far: further replies may help
SHOWS_NOTHING = {Code.PROOF_COUNT, Code.PROOF_REPEATS, Code.BAD_OPENING, Code.CONSISTENT}  # the proof is not valid
DO_NOT_FIT = {Code.TOO_MANY_MEMBERS, Code.BUNDLE_TOO_LONG}  # the files do not fit into one bundle


def numbers_of(text: bytes) -> list[int]:
    """Return the decimal numbers in a line, in order."""
    return [int(digits) for digits in re.findall(rb"[0-9]+", text)]
