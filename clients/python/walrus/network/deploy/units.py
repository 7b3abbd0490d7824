"""Warnings to root of what the unit of a service cannot read, write or use: root may do all, and would not notice."""
import os
import pathlib
import re
import subprocess
from typing import Any, Mapping, Optional

ETC = pathlib.Path("/etc/walrus")  # the folder of the settings with which units run
READ = ["authority", "certificate", "key", "etcd_authority", "etcd_certificate", "etcd_key"]
READ += ["tls_certificate", "tls_key", "tokens", "program"]
WRITTEN = ["database", "state", "used", "log"]
ASKED = ["LoadState", "MemoryMax", "ReadWritePaths", "StateDirectory"]
PAGE = "network/OPERATING.md, Units"


def systemctl(*words: str) -> str:
    """Return the output of systemctl; empty if systemd does not run."""
    try:
        return subprocess.run(["systemctl", *words], capture_output=True, text=True, timeout=10).stdout
    except (OSError, subprocess.TimeoutExpired):
        return ""


def warnings(path: pathlib.Path, role: str, told: Mapping[str, Any]) -> list[str]:
    """Return what settings in a file need and the unit that runs them cannot do; nothing if there is no such unit."""
    if os.geteuid() or path.resolve().parent != ETC:
        return []
    unit = f"walrus-{role}.service" if role == "recorder" else f"walrus-{role}@{path.stem}.service"
    lines = systemctl("show", unit, *(f"--property={it}" for it in ASKED)).splitlines()
    shown = dict(line.split("=", 1) for line in lines if "=" in line)
    if shown.get("LoadState") != "loaded":
        return []
    found = re.findall(r"^LoadCredential=([^:\n]+)", systemctl("cat", unit), re.MULTILINE)
    given = {it.replace("%i", path.stem) for it in found}
    read = {path: 4} | {pathlib.Path(told[it]): 1 if it == "program" else 4 for it in READ if told.get(it)}
    shut: dict[pathlib.Path, pathlib.Path] = {}
    for file, needed in read.items():
        if file.name not in given and (place := shut_at(file.resolve(), needed)):
            shut.setdefault(place, file)
    said = []
    for place, file in shut.items():
        mend = "hand it over by LoadCredential" if place.suffix == ".key" else f"chmod go+rX {place}"
        said.append(f"{unit} cannot read {file}, as {place} is for root alone: {mend} ({PAGE})")
    own = [f"/var/lib/{it}" for it in shown["StateDirectory"].split()]
    own += [it.lstrip("+-") for it in shown["ReadWritePaths"].split()]
    for name in WRITTEN:
        text = told.get(name, "")
        if text not in ("", "-") and not any(map(pathlib.Path(text).absolute().is_relative_to, own)):
            said.append(f"{unit} cannot write {name} to {text}, but only below {' and '.join(own)} ({PAGE})")
    most = shown["MemoryMax"]
    if most.isdigit() and told.get("memory", 0) > int(most):
        said.append(f"{unit} is ended above {most} bytes (MemoryMax), and memory is {told['memory']} ({PAGE})")
    return said


def shut_at(file: pathlib.Path, needed: int) -> Optional[pathlib.Path]:
    """Return the folder above a file, or the file, that only root may use, or None; `needed` is the file's mode bit."""
    for part, bit in [*((it, 1) for it in reversed(file.parents)), (file, needed)]:
        try:
            found = part.stat()
        except OSError:  # a missing file is reported elsewhere
            return None
        owner, group = found.st_mode >> 6 if found.st_uid else 0, found.st_mode >> 3 if found.st_gid else 0
        if not (owner | group | found.st_mode) & bit:
            return part
    return None
