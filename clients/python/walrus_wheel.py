"""Builds the wheel of the package `walrus`, with the client and the network, for pip. The build needs nothing from
elsewhere; the network's commands need aiohttp, cryptography and prometheus-client when they run.

The wheel includes the shared library if there is one: the file that the variable WALRUS_LIBRARY names, or the one that
was built in the checkout. Without it the wheel fits every machine, and its calls run the program `walrus`."""

import base64
import hashlib
import os
import pathlib
import sysconfig
import tomllib
import zipfile
from typing import Optional

from walrus.engines.backends import BUILT

HERE = pathlib.Path(__file__).resolve().parent
TOP = HERE.parents[1]
WHEN = 1980, 1, 1, 0, 0, 0  # the time of each file, so that the same sources give the same wheel


def library() -> Optional[pathlib.Path]:
    """Return the path of the shared library to include, or None. Raises if the file WALRUS_LIBRARY names is missing."""
    named = os.environ.get("WALRUS_LIBRARY")
    places = [pathlib.Path(named)] if named else [TOP / built for built in BUILT]
    found = [place for place in places if place.is_file()]
    if named and not found:
        raise FileNotFoundError(f"{named}, which the variable WALRUS_LIBRARY names, is no file")
    return found[0] if found else None


def contents() -> dict[str, bytes]:
    """Return the contents of the package's files by their names in the wheel."""
    files = {
        str(it.relative_to(HERE)): it
        for it in (HERE / "walrus").rglob("*")
        if it.is_file() and it.suffix not in (".pyc", ".so")
    }
    found = {name: files[name].read_bytes() for name in sorted(files)}
    if place := library():
        found["walrus/libwalrus.so"] = place.read_bytes()
    return found


def record(files: dict[str, bytes], name: str) -> bytes:
    """Return the wheel's RECORD, the list of its files with their digests; `name` is that of the list itself."""
    digests = {file: base64.urlsafe_b64encode(hashlib.sha256(data).digest()) for file, data in files.items()}
    lines = [f"{file},sha256={digests[file].decode().rstrip('=')},{len(data)}" for file, data in files.items()]
    return "\n".join([*lines, f"{name},,", ""]).encode()


def build_wheel(
    wheel_directory: str, config_settings: Optional[dict[str, str]] = None, metadata_directory: Optional[str] = None
) -> str:
    """Build the wheel in this folder and return its name (PEP 517)."""
    project = tomllib.loads((HERE / "pyproject.toml").read_text(encoding="utf-8"))["project"]
    version = (TOP / "VERSION").read_text(encoding="utf-8").strip()
    files, front = contents(), f"{project['name'].replace('-', '_')}-{version}"
    platform = sysconfig.get_platform().replace("-", "_").replace(".", "_") if "walrus/libwalrus.so" in files else "any"
    tag, folder = f"py3-none-{platform}", f"{front}.dist-info"
    told = [("Metadata-Version", "2.1"), ("Name", project["name"]), ("Version", version)]
    told += [("Summary", project["description"]), ("Requires-Python", project["requires-python"])]
    for extra, needs in project["optional-dependencies"].items():
        told += [("Provides-Extra", extra), *(("Requires-Dist", f"{it} ; extra == '{extra}'") for it in needs)]
    pure = "true" if platform == "any" else "false"
    wheel = [("Wheel-Version", "1.0"), ("Generator", "walrus_wheel"), ("Root-Is-Purelib", pure), ("Tag", tag)]
    for name, heads in (("METADATA", told), ("WHEEL", wheel)):
        files[f"{folder}/{name}"] = "".join(f"{key}: {value}\n" for key, value in heads).encode()
    scripts = [f"{name} = {it}\n" for name, it in project["scripts"].items()]
    files[f"{folder}/entry_points.txt"] = "".join(["[console_scripts]\n", *scripts]).encode()
    files[f"{folder}/RECORD"] = record(files, f"{folder}/RECORD")
    with zipfile.ZipFile(pathlib.Path(wheel_directory, f"{front}-{tag}.whl"), "w", zipfile.ZIP_DEFLATED) as packed:
        for file, data in files.items():
            packed.writestr(zipfile.ZipInfo(file, WHEN), data, zipfile.ZIP_DEFLATED)
    return f"{front}-{tag}.whl"
