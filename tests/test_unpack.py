"""Tries what the program reads from images of journals: python3 -m unittest.

What is expected is worked by hand, or computed by hostile/images.py.
"""

import random
import unittest

import bundled  # noqa: F401  # which makes the modules of hostile/ known
from rows import Row, Rows, malformed
from test_image import CLOSED, EMPTY, LARGEST, MOST, PROOF, TOO_LONG, WORKED_IMAGE, X, Image
from test_image import image_row, listed, parts_of, puts
from test_pages import needs_program
from worked import ELEVEN, FALSE, HONEST, SECOND

import images
from images import DROP_ALL, DROP_PART, PUT, record

Y = b"\xab" + bytes(31)


def unpack_row(image: bytes, ends: Image) -> Row:
    return Row(["unpack"], image, ends)


FIVE = record(PUT, X, 2, b"abcde")
ONE = record(PUT, Y, 0, b"z")
DROP = record(DROP_PART, X, 2)
ALL = record(DROP_ALL, X)
HELD_FIVE, HELD_ONE = (X, "secondary", 5), (Y, "metadata", 1)


def with_byte(data: bytes, place: int, byte: int) -> bytes:
    return data[:place] + bytes([byte]) + data[place + 1 :]


@needs_program
class Reading(Rows):
    def test_the_worked_one(self) -> None:
        self.check(
            "worked",
            unpack_row(WORKED_IMAGE, listed((X, "secondary", 4))),
            unpack_row(with_byte(WORKED_IMAGE, 0, 2), EMPTY),
            unpack_row(with_byte(WORKED_IMAGE, 1, 9), malformed(0)),
            unpack_row(b"", malformed(0)),
            unpack_row(CLOSED, EMPTY),
            unpack_row(b"\xff" * 100, EMPTY),
            unpack_row(b"\1", malformed(0)),
        )

    def test_lists(self) -> None:
        """In the order of identifiers and parts; what was dropped is gone, and may be put again."""
        names = [("metadata", 3), ("primary", 2), ("secondary", 5), ("proof", 4)]
        parts = [record(PUT, name, part, bytes(size)) for name in (Y, X) for part, (_, size) in enumerate(names)][::-1]
        every = [(name, *part) for name in (X, Y) for part in names]
        table = [
            (parts, every),
            ([FIVE, ONE], [HELD_FIVE, HELD_ONE]),
            ([FIVE, DROP], []),
            ([FIVE, ONE, DROP], [HELD_ONE]),
            ([DROP, FIVE, DROP, DROP, record(PUT, X, 2, b"!")], [(X, "secondary", 1)]),
            ([FIVE, record(DROP_PART, X, 1), record(DROP_PART, Y, 2)], [HELD_FIVE]),
            ([*parts, ALL], every[4:]),
            ([ALL, *parts, ALL, record(DROP_ALL, Y), FIVE], [HELD_FIVE]),
            ([record(DROP_ALL, X), record(DROP_ALL, Y)], []),
        ]
        rows = [unpack_row(b"".join(records) + CLOSED, listed(*held)) for records, held in table]
        self.check("lists", *rows)
        self.check("gates", *[unpack_row(FIVE + gate + FIVE, listed(HELD_FIVE)) for gate in (b"\0", b"\2", b"\xff")])

    def test_records_that_are_none(self) -> None:
        """Kinds, parts and sizes out of range, parts that are held, and what ends too early: the first one is told."""
        bad = [
            with_byte(FIVE, 1, 0),
            with_byte(FIVE, 1, 4),
            with_byte(FIVE, 34, 4),
            record(PUT, X, 1),
            with_byte(DROP, 34, 4),
            with_byte(ALL, 34, 1),
            record(DROP_PART, X, 2, b"z"),
            record(DROP_ALL, X, 0, b"z"),
            with_byte(FIVE, 35, 1),  # a size of 16,777,221
            FIVE + FIVE,
        ]
        self.check(
            "bad",
            *[
                unpack_row(front + record_ + CLOSED, malformed(len(front) + own(record_)))
                for front in FRONTS
                for record_ in bad
            ],
            unpack_row(FIVE + ONE, malformed(44)),
            unpack_row(ONE + FIVE[:-1], malformed(40)),
            unpack_row(ONE + DROP, malformed(40)),
            unpack_row(ONE + b"\1", malformed(40)),
            unpack_row(ONE + FIVE + DROP + FIVE + FIVE + CLOSED, malformed(167)),
        )

    def test_fronts(self) -> None:
        """Each front of an image: the record that is cut is told, as its gate is open; the whole image is read."""
        data = ONE + FIVE + DROP + CLOSED
        self.assertEqual(len(data), 124)
        starts = [0] * 41 + [40] * 44 + [84] * 39
        for length, start in enumerate(starts):
            self.check("fronts", unpack_row(data[:length], malformed(start)))
        self.check("whole", unpack_row(data, listed(HELD_ONE)), unpack_row(data + FIVE, listed(HELD_ONE)))

    def test_changed_bytes(self) -> None:
        """An image in which one byte is another one, as hostile/images.py reads it."""
        data = ONE + FIVE + DROP + record(PUT, Y, 3, b"!") + ALL + CLOSED
        for place in range(len(data)):
            for change in (1, 2, 0x80):
                changed = with_byte(data, place, data[place] ^ change)
                self.check("changed", unpack_row(changed, images.unpacked(changed)))

    def test_crashes(self) -> None:
        """Whatever stands of the last record while its gate is closed, the parts before it are read."""
        data, place = FIVE + ONE + record(PUT, X, 0, bytes(range(1, 30))) + CLOSED, len(FIVE + ONE)
        drawn = random.Random(2)
        held = listed(HELD_FIVE, HELD_ONE)
        for length in range(place + 1, len(data)):
            kept = data[:place] + b"\0" + data[place + 1 : length]
            noise = data[:place] + b"\0" + drawn.randbytes(length - place)
            self.check(
                "crashes", unpack_row(kept, held), unpack_row(kept.ljust(200, b"\0"), held), unpack_row(noise, held)
            )

    def test_the_longest(self) -> None:
        """An image of 128 MiB; a byte more; and a part of 16,777,216 bytes with one more."""
        long = b"".join(record(PUT, bytes([number]) * 32, 1, bytes(LARGEST)) for number in range(7))
        held = [(bytes([number]) * 32, "primary", LARGEST) for number in range(7)]
        longer = images.HEAD.pack(1, PUT, X, 1, LARGEST + 1) + bytes(LARGEST + 2)
        self.check(
            "long",
            unpack_row((long + CLOSED).ljust(MOST, b"\1"), listed(*held)),
            unpack_row((long + CLOSED).ljust(MOST + 1, b"\0"), TOO_LONG),
            unpack_row(longer, malformed(0)),
            unpack_row(ONE + longer, malformed(40)),
        )


FRONTS = [b"", ONE, ONE + record(PUT, X, 1, b"0123456789")]


def own(faulty: bytes) -> int:
    """Where the record stands that is wrong, within these bytes."""
    return len(FIVE) if faulty == FIVE + FIVE else 0


@needs_program
class Both(Rows):
    def test_what_is_written_is_read(self) -> None:
        """Parts of the worked blobs in any order, and some of them again."""
        drawn = random.Random(3)
        all_parts = [part for blob in (HONEST, SECOND, ELEVEN, FALSE) for part in parts_of(blob, 1)] + [PROOF]
        for _ in range(20):
            payloads = drawn.sample(all_parts, drawn.randrange(len(all_parts) + 1))
            payloads += drawn.choices(payloads, k=2) if payloads else []
            status, image = images.image_of(MOST, payloads)
            self.assertEqual(status, 0)
            names = "metadata", "primary", "secondary", "proof"
            held = {(put[2:34], put[34]): len(put) - 39 for put in puts(*payloads)}
            wanted = listed(*[(name, names[part], size) for (name, part), size in sorted(held.items())])
            self.check("both", image_row(len(image), payloads, (0, image)), unpack_row(image, wanted))


if __name__ == "__main__":
    unittest.main()
