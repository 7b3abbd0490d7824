"""A whole network on this machine, with a gateway, to try it."""
import argparse
import asyncio
import fcntl
import os
import pathlib
import subprocess
import sys
import time
from typing import IO


from walrus.network.gateway import app
from walrus.network.peers.engine import find_program
from walrus.network.service import private_files, systemd
from walrus.network.service.failure import Failure
from walrus.network.settings.file import values_of
from walrus.network.settings.gateway_options import Options

from .epochs import shards_of
from .local import Local
from .ports import must_be_free

LONGEST = 600  # seconds until everything must be ready


def nodes_in(folder: pathlib.Path) -> list[str]:
    """Returns the nodes whose settings are in a folder."""
    return sorted(path.stem for path in folder.glob("*.toml") if values_of(path).get("role") == "node")


async def up(words: argparse.Namespace, options: Options) -> int:
    """Runs etcd, recorders, nodes and a gateway until a signal ends them, or too much has ended for anything to be
    stored. With `--add` it only makes the settings of nodes, and with `--detach` it runs in the background."""
    program = find_program()
    if not os.access(program, os.X_OK):
        raise Failure(f"{program} is not there: build it with ./walrus, or set WALRUS to its path", 1)
    private_files.close_to_others()
    folder = private_files.make_folder(words.folder or pathlib.Path("walrus-network"))
    if words.detach:
        return detach(folder)
    local = Local(folder, program)
    if words.add:
        for name in words.add.split(","):
            await local.add_node(name)
            print(folder / f"{name}.toml")
        return 0
    lock = locked(folder)
    must_be_free("the gateway", words.host, words.port)
    fresh, told = [f"node-{number}" for number in range(3 * words.faults + 1)], systemd.ending()
    found = nodes_in(folder)
    owners = shards_of(words.nodes.split(",")) if words.nodes else [] if found else fresh
    try:
        await local.up(list(dict.fromkeys([*owners, *found])), words.faults, owners)
        ran = {name: f"{name} ({process.pid})" for name, process in local.processes.items()}
        recorders = " ".join(ran.pop(name) for name in local.recorders)
        others = " ".join(told for name, told in ran.items() if name not in local.members)
        print(f"the network is up in {folder}: recorders {recorders}, nodes {others}", flush=True)
        watching = asyncio.create_task(local.watch())
        watching.add_done_callback(lambda _: told.set())
        status = await app.serve(folder, words.host, words.port, options, told)
        if watching.done():
            raise Failure(f"the network ends, as {watching.result()}: the logs are in {folder}", 1)
        watching.cancel()
        return status
    finally:
        await local.close()
        lock.close()


def locked(folder: pathlib.Path) -> IO[str]:
    """Locks a folder until the file that it returns is closed; raises `Failure` if another process runs a network over
    it. No other user can open the file, and so hold the lock."""
    lock = open(folder / "up.lock", "a+", opener=lambda path, flags: os.open(path, flags | os.O_NOFOLLOW, 0o600))
    try:
        fcntl.flock(lock, fcntl.LOCK_EX | fcntl.LOCK_NB)
    except BlockingIOError:
        lock.seek(0)
        text = (
            f"process {lock.read()} runs the network in {folder} already: end it first (kill), or take another folder"
        )
        raise Failure(text, 1) from None
    lock.truncate(0)
    lock.write(str(os.getpid()))
    lock.flush()
    return lock


def detach(folder: pathlib.Path) -> int:
    """Runs the same command in the background; returns once it is ready, and raises `Failure` if it ends before."""
    log = folder / "up.log"
    before = log.stat().st_size if log.exists() else 0
    line = [sys.executable, "-m", "walrus.network", *(it for it in sys.argv[1:] if it != "--detach")]
    with open(log, "ab") as out:
        process = subprocess.Popen(line, stdin=subprocess.DEVNULL, stdout=out, stderr=out, start_new_session=True)
    end = time.monotonic() + LONGEST
    while "\nready\n" not in (said := log.read_bytes()[before:].decode(errors="replace")):
        if process.poll() is not None:
            raise Failure(f"the network is not up: {said.strip()[-500:]}", 1)
        if time.monotonic() > end:
            told = f"after {LONGEST} s the network still starts: kill {process.pid} ends it, and {log} tells of it"
            raise Failure(told, 1)
        time.sleep(0.1)
    print(f"{said.strip()}: kill {process.pid} ends it, and {log} tells of it")
    return 0
