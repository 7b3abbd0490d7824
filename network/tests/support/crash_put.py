"""Puts parts into the store of a node and prints which are on the disk, for tests that kill it or fail calls."""
import asyncio
import contextlib
import os
import pathlib
import sqlite3
import sys

TOP = pathlib.Path(__file__).resolve().parents[3]
sys.path.insert(0, str(TOP / "clients" / "python"))

from walrus.network.node.disk.store import Store  # noqa: E402

STEPS = [(0, 0, 300), (0, 1, 3_000), (0, 2, 900), (1, 0, 5_000)]  # blob, part, bytes


def content(blob: int, part: int, size: int, again: int) -> bytes:
    return bytes([blob, part, again]) * (size // 3)


async def put(store: Store, blob: int, part: int, size: int, again: int) -> None:
    """Put a part, in a file if it is long; if `again`, in place of one that is marked wrong."""
    payload, identifier, holding = content(blob, part, size, again), bytes([blob]) * 32, store.holding(0, 0) or 0
    try:
        file = store.files.write(identifier, payload)[0] if size > 1_000 else None
        if again:
            store.mark(holding, identifier, part, True)
        store.put(holding, 0, identifier, part, payload, file)
        written = store.written()
        if written is None or await written:
            with contextlib.suppress(OSError):  # this call may be the one that fails
                os.write(1, f"{blob} {part} {size} {again}\n".encode())
    except (OSError, sqlite3.Error) as fault:
        print("not stored:", fault, file=sys.stderr)


async def main() -> None:
    store = Store(pathlib.Path(sys.argv[1]))
    store.begin(0, 0)
    store.flush()
    if store.holding(0, 0):
        for step in STEPS:
            await put(store, *step, 0)
        await put(store, *STEPS[1], 1)
        await asyncio.sleep(0.01)  # for the removal of the replaced file
    store.close()


if __name__ == "__main__":
    asyncio.run(main())
