"""walrus-net: stores and fetches files through the gateway of a network, and has the commands of its operators."""
import argparse
import json
import os
import pathlib
import sys
from typing import Any, Awaitable, Callable, Optional

import aiohttp

from walrus import client, loop
from walrus.network.files.manifest import clean
from walrus.network.gateway.auth import tokens
from walrus.network.ledger.calendar import epochs_for
from walrus.network.ledger.follower import Refused, Unreachable
from walrus.network.node import progress
from walrus.network.service.failure import Failure
from walrus.network.service.systemd import lose_lines

from . import operators
from .folder_fetch import fetch_any
from .folder_store import store_folder
from .pipes import store_piped
from .resumable_store import store
from .transfers import PATIENCE, ask, listed, store_bundle


URL = "http://127.0.0.1:31415"
STATUSES = """exit status: 0 done; 1 it could not be done; 2 wrong arguments; 3 the blob was badly encoded, or a
challenge was not met; 4 there is no such blob, or too few shards answer just now; 130 interrupted"""
COMPLETION = """_walrus_net() {
    local word=${COMP_WORDS[COMP_CWORD]} words='store fetch list expiring extend status challenge'
    words="$words handover share expel restore scrub calendar found begin add renew remove check"
    words="$words token node recorder gateway up completion"
    [ "$COMP_CWORD" -eq 1 ] || words=$(walrus-net "${COMP_WORDS[1]}" --help | grep -o -- '--[a-z]*')
    COMPREPLY=($(compgen -W "$words" -- "$word"))
    [ "$COMP_CWORD" -eq 1 ] || COMPREPLY+=($(compgen -f -- "$word"))
}
complete -o filenames -F _walrus_net walrus-net"""


CHECKED = {"checked": ["blobId"], "unchecked": ["endEpoch", "certificate"]}  # of the answer to a store
FAULTS = Failure, client.Failed, Refused, Unreachable, aiohttp.ClientError, OSError, ValueError, RuntimeError


def tell_blob(told: dict[str, Any]) -> str:
    found, names = told["certificate"], {it: " ".join(told.get(it, [])) for it in ("acknowledged", "lacking")}
    state = f"{found['count']} shards acknowledged it in epoch {found['epoch']}" if found else "not certified"
    state = "declared invalid" if told.get("invalid") else state
    more = [f"{told['live']} shards are there now"] if found and "live" in told else []
    more += [f"{it}: {text}" for it, text in names.items() if text]
    until = f"{told['endEpoch']} ({told['ends']})" if told.get("ends") else told["endEpoch"]
    return clean(", ".join([f"{told['blobId']} until epoch {until}", state, *more]))


def tell_stored(told: dict[str, Any]) -> str:
    """Says of what was stored also what was checked: the gateway may lie, and show no certificate."""
    return f"{tell_blob(told)} (checked here: the identifier; all else is the gateway's word)"


def tell_figures(told: dict[str, dict[str, float]]) -> list[str]:
    """Returns in words what a node holds, and what it is doing."""
    held, disk, mended, scrub = (told.get(it, {}) for it in ("held", "disk", "recovered", "scrub"))
    sizes = {it: parts.get("bytes", 0) / 1e6 for it, parts in told.items()}
    words = [f"holds {sizes['held']:.1f} MB"] if held else []
    words += [f"{disk.get('free', 0) / 1e9:.1f} GB of its disk are free"] if disk else []
    words += [f"{held['wrong']} parts are wrong on its disk"] if held.get("wrong") else []
    behind = told.get("ledger", {}).get("behind", 0)
    words += [f"{behind} entries of the ledger behind"] if behind else []
    done, of = mended.get("blobs", 0), mended.get("of", 0)
    of_sizes = f"{sizes.get('recovered', 0):.1f} of {mended.get('of_bytes', 0) / 1e6:.1f} MB"
    words += [f"recovered {done} of {of} blobs, {of_sizes}"] if done < of else []
    return words + ([f"a scrub has read {sizes['scrub']:.1f} MB"] if scrub.get("running") else [])


def tell_status(told: dict[str, Any]) -> str:
    moving = f", moving to the next, {told['ready']} of {told['quorum']} shards ready" if told["moving"] else ""
    following = (told.get("calendar") or {}).get("next")
    moving += f", the next planned for {following}" if following else ""
    lines = [f"epoch {told['epoch']}{moving}; " + ", ".join(f"{count} {it}" for it, count in told["blobs"].items())]
    lines[0] += f"; the ledger is at place {told['ledger']['place']}"
    if told["ledger"]["stale"]:
        lines.append(f"the ledger is away for {told['ledger']['away']:.0f} s: {told['ledger']['said']}")
    for it in told["nodes"]:
        words = [f"{at} {' '.join(map(str, it[at]))}" for at in ("shards", "next") if it[at]] + [it["state"]]
        words += tell_figures(it.get("figures", {}))
        words += [clean(progress.in_words(it["waits"]))] if it.get("waits") else []
        lines.append(f"{it['name']}: {', '.join(words)}" + (f" ({it['said']})" if it["said"] else ""))
    if why := told.get("storing", {}).get("why"):
        lines.append(f"nothing can be stored now: {why}")
    return "\n".join([*map(clean, lines), *map(tell_blob, told["recent"][:10])])


def tell(words: argparse.Namespace, told: dict[str, Any], text: str) -> None:
    """Prints the answer to a command: as JSON, or in words."""
    print(json.dumps(told) if words.json else text, flush=True)


async def run_store(words: argparse.Namespace, session: aiohttp.ClientSession) -> None:
    if words.bundle:
        told = {**await store_bundle(session, words.file, words.epochs), **CHECKED}
        members = [clean(f"{it['id']} {it['name']}") for it in told["members"]]
        tell(words, told, "\n".join([tell_stored(told), *members]))
        return
    for path in words.file:
        way = store_folder if os.path.isdir(path) else store if os.path.isfile(path) else store_piped
        way = store_piped if path == "-" else way  # a file of that name is ./-
        told = {"file": path, **await way(session, path, words.epochs), **CHECKED}
        tell(words, told, f"{tell_stored(told)} {path}")


async def run_fetch(words: argparse.Namespace, session: aiohttp.ClientSession) -> None:
    told = await fetch_any(session, words.id, words.output, words.only)
    if words.json:
        print(json.dumps({"blobId": words.id, **told}), file=sys.stderr)


async def run_list(words: argparse.Namespace, session: aiohttp.ClientSession) -> None:
    async for told in listed(session, words.within):
        print(json.dumps(told) if words.json else tell_blob(told))


async def run_extend(words: argparse.Namespace, session: aiohttp.ClientSession) -> None:
    for name in words.id:
        told = await ask(session, "PUT", f"/v1/blobs/{name}", params={"epochs": words.epochs})
        tell(words, told, tell_blob(told))


async def run_status(words: argparse.Namespace, session: aiohttp.ClientSession) -> None:
    told = await ask(session, "GET", f"/v1/status/{words.id}".rstrip("/"))
    tell(words, told, tell_blob(told) if words.id else tell_status(told))


async def run_challenge(words: argparse.Namespace, session: aiohttp.ClientSession) -> int:
    told = await ask(session, "PUT", f"/v1/challenges/{words.id}/{words.node}")
    tell(words, told, clean(f"{words.node} {'holds' if told['holds'] else 'lacks'} it: {told['said']}"))
    return 0 if told["holds"] else 3


# Commands that a gateway answers; each returns its exit status, or None for 0.
RUNS: dict[str, Callable[[argparse.Namespace, aiohttp.ClientSession], Awaitable[Optional[int]]]] = {
    "store": run_store,
    "fetch": run_fetch,
    "list": run_list,
    "expiring": run_list,
    "extend": run_extend,
    "status": run_status,
    "challenge": run_challenge,
}


def add_epochs(sub: argparse.ArgumentParser) -> None:
    """Adds the options that say for how long files are kept; one of them is required."""
    group = sub.add_mutually_exclusive_group(required=True)
    group.add_argument("--epochs", type=int, help="for how many epochs from now on")
    group.add_argument("--for", dest="time", metavar="TIME", help="for how long at least, such as 90d, by the calendar")


def parse() -> argparse.Namespace:
    parser = argparse.ArgumentParser("walrus-net", description=__doc__, epilog=STATUSES)
    subs = parser.add_subparsers(dest="command", required=True, metavar="COMMAND")

    def add(command: str, text: str, *places: str, **options: Any) -> argparse.ArgumentParser:
        sub = subs.add_parser(command, help=text, description=text, epilog=STATUSES)
        for place in places:
            many: dict[str, Any] = {"nargs": place[-1], "default": ""} if place[-1] in "?+*" else {}
            name = place.rstrip("?+*")
            kind = pathlib.Path if name in ("folder", "place", "settings") else str
            sub.add_argument(name, type=kind, **many)
        for option, (default, told) in options.items():
            more: dict[str, Any] = {"action": "store_true"}
            if not isinstance(default, bool):
                more, told = {"type": type(default), "default": default}, f"{told}; {default}".removesuffix("; ")
            sub.add_argument(f"--{option}", help=told, **more)
        return sub

    remote = {"gateway": (os.environ.get("WALRUS_GATEWAY", URL), "its URL, or the variable WALRUS_GATEWAY")}
    plain = {"json": (False, "print the result as JSON")}
    bundle = {"bundle": (False, "store small files together, as one bundle")}
    sub = add("store", "store files and folders; - is standard input", "file+", **bundle, **remote, **plain)
    add_epochs(sub)
    out = {"output": ("-", "the file or folder to write"), "only": ("", "fetch only this file or folder of a folder")}
    add("fetch", "fetch a file, a file of a bundle (ID/NUMBER), or a folder", "id", **out, **remote, **plain)
    within = {"within": (65_536, "those that end within this number of epochs, the present one included")}
    add("list", "list the blobs", **within, **remote, **plain)
    within = {"within": (1, "those that end within this number of epochs, the present one included")}
    add("expiring", "list the blobs that end soon", **within, **remote, **plain)
    sub = add("extend", "keep files for longer", "id+", **remote, **plain)
    add_epochs(sub)
    add("status", "show the state of the network, or of a blob", "id?", **remote, **plain)
    add("challenge", "have a node show that it holds its part of a blob", "id", "node", **remote, **plain)
    operators.add_words(add)
    tokens.add_words(add("token", tokens.TEXT, "name", **tokens.WORDS, **plain))
    add("completion", 'completion for bash: eval "$(walrus-net completion)"')
    return parser.parse_args()


async def run(words: argparse.Namespace) -> int:
    if words.command in operators.RUNS:
        return await operators.RUNS[words.command](words)
    limit = aiohttp.ClientTimeout(total=None, sock_connect=10, sock_read=PATIENCE)
    token = os.environ.get("WALRUS_TOKEN", "")
    headers = {"Accept-Encoding": "identity"}  # a few compressed bytes of a liar may become many
    headers |= {"Authorization": f"Bearer {token}"} if token else {}
    async with aiohttp.ClientSession(words.gateway, timeout=limit, headers=headers, auto_decompress=False) as session:
        if words.command in ("store", "extend") and words.epochs is None:
            words.epochs = epochs_for(await ask(session, "GET", "/v1/status"), words.time)
        return await RUNS[words.command](words, session) or 0


def finish(words: argparse.Namespace) -> int:
    """Runs a command, flushes its output, and returns the exit status."""
    if words.command == "completion":
        print(COMPLETION)
    elif words.command == "token":
        tokens.run(words)
    elif words.command in ("node", "recorder", "gateway", "up"):
        lose_lines()
    status = loop.run(run(words)) if words.command not in ("completion", "token") else 0
    sys.stdout.flush()
    return status


def main() -> int:
    words = parse()
    try:
        return finish(words)
    except KeyboardInterrupt:
        text, status = "interrupted", 130
    except BrokenPipeError:
        os.dup2(os.open(os.devnull, os.O_WRONLY), 1)  # Python flushes it again as it ends
        text, status = "nobody reads what it writes any more", 1
    except FAULTS as fault:
        is_lost = isinstance(fault, (aiohttp.ClientError, TimeoutError)) and "gateway" in words
        text = f"{fault}: is the gateway running at {words.gateway}?" if is_lost else str(fault)
        text, status = fault.args if isinstance(fault, Failure) else (text, 1)
    print(f"walrus-net {words.command}:", "\n".join(map(clean, text.split("\n"))), file=sys.stderr)
    return int(status)


if __name__ == "__main__":
    sys.exit(main())
