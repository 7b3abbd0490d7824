"""Checks of a file of settings and of the files that it names, before a service is started with it."""
import os
import pathlib
import re
import stat
from typing import Any


from walrus.network.gateway.auth import tokens
from walrus.network.service import certificates
from walrus.network.service.certificates import SOON
from walrus.network.service.names import is_loopback
from walrus.network.settings.file import Role, Wrong, faults_in, placed, values_of
from walrus.network.settings.services import GatewaySettings, RecorderSettings, Settings

from . import units
from .machine import is_known_to_tls

KINDS: tuple[type[Role], ...] = (Settings, RecorderSettings, GatewaySettings)
ROLES = {it.role: it for it in KINDS}


def check(path: pathlib.Path) -> tuple[str, list[str], list[str]]:
    """Return the role of a file, its faults, and warnings, such as of a certificate that expires soon."""
    try:
        values = values_of(path)
    except (Wrong, OSError) as fault:
        return "", [str(fault)], []
    role = values.get("role", "")
    if role not in ROLES:
        return "", [f"it has no role, which is {' or '.join(ROLES)}"], []
    if faults := faults_in(ROLES[role], values):
        return role, faults, []
    told = placed(ROLES[role], path, values)
    faults += faults_of_places(told) + faults_of_files(told) + faults_of_keys(told) + faults_of_https(told)
    soon = []
    if role == GatewaySettings.role:
        places = tokens.places(pathlib.Path(told["authority"]).parent, told.get("tokens", ""), told.get("used", ""))
        faults += filter(None, [lost := tokens.fault_of(*places)])
        told |= {"tokens": places[0], "used": places[2]}
        is_exposed = told.get("proxies") or not is_loopback(told.get("host", GatewaySettings.host))
        if is_exposed and not lost and not os.path.exists(places[0]):
            soon.append(f"anyone who reaches it may read, as {places[0]} is not there: bring it back if there was one")
    pairs = [("authority", "certificate", "key", told["name"])]
    pairs += [("etcd_authority", "etcd_certificate", "etcd_key", None)] if "etcd" in told else []
    for authority, certificate, key, name in pairs:
        own, secret, signer = (pathlib.Path(told[it]) for it in (certificate, key, authority))
        faults += certificates.faults_of(own, secret, signer, name)
        soon += [it for it in map(ends_soon, (own, signer)) if it]
    return role, faults, soon + units.warnings(path, role, told)


def ends_soon(path: pathlib.Path) -> str:
    """Return a warning if a certificate expires within `SOON` days, else an empty text."""
    try:
        found = certificates.read(path)
    except (OSError, ValueError):
        return ""
    left = certificates.days_left(found)
    return f"{path} expires on {found.not_valid_after:%Y-%m-%d}: renew it (walrus-net renew)" if 0 < left < SOON else ""


def faults_of_places(told: dict[str, Any]) -> list[str]:
    """Return the faults of the addresses of recorders, of this service, and of the node's name as a host name."""
    places = [*told.get("recorders", []), *filter(None, [told.get("announced")])]
    faults = [f"{it} is not HOST:PORT" for it in places if not re.fullmatch(r"(\[[0-9A-Fa-f:.]+\]|[^:]+):\d{1,5}", it)]
    faults += ["recorders is empty"] if told.get("recorders") == [] else []
    faults += [f"port {told['port']} is not from 0 to 65535"] if not 0 <= told.get("port", 0) < 65_536 else []
    if not re.fullmatch(r"(.*:)?\d{1,5}|", told.get("metrics", "")):
        faults.append(f"metrics {told['metrics']} is no PORT, and not HOST:PORT")
    if "database" in told and told.get("host") == "" == told.get("announced", ""):
        faults.append("announced is missing, as an empty host does not say where others reach the node")
    if "database" in told and not is_known_to_tls(told["name"]):
        faults.append(f"nobody reaches a node called {told['name']}: between dots a name has 1 to 63 letters")
    if "etcd" in told and not told["etcd"].startswith("https://"):
        faults.append("etcd is a URL with https")
    return faults


def faults_of_files(told: dict[str, Any]) -> list[str]:
    """Return the faults of the program, and of the folders of a service's own files."""
    faults = []
    if "program" in told and not os.access(told["program"], os.X_OK):
        faults.append(f"program: {told['program']} is not there, or cannot be run")
    for name in ("database", "state"):
        if name in told:
            own = pathlib.Path(told[name])
            kept = next(it for it in own.parents if it.exists())  # systemd makes folders that are missing
            if not os.access(kept, os.W_OK) or not kept.is_dir():
                faults.append(f"{name}: {kept} is not a folder that can be written to")
    return faults


def faults_of_keys(told: dict[str, Any]) -> list[str]:
    """Return which keys anyone on this machine may read, such as after a copy from a stick that keeps no modes."""
    keys = [pathlib.Path(told[it]) for it in ("key", "etcd_key", "tls_key") if told.get(it)]
    return [f"anyone on this machine may read {it}: chmod 600 {it}" for it in keys if is_open(it)]


def faults_of_https(told: dict[str, Any]) -> list[str]:
    """Return the faults of the certificate for HTTPS and its key. Its signature is not checked, as others sign it."""
    names = [told[it] for it in ("tls_certificate", "tls_key") if told.get(it)]
    if len(names) < 2:
        return ["tls_certificate and tls_key go together"] if names else []
    own, key = map(pathlib.Path, names)
    return certificates.faults_of(own, key)


def is_open(path: pathlib.Path) -> bool:
    """Return whether users other than the owner of a file and its group may use it."""
    try:
        return bool(path.stat().st_mode & stat.S_IRWXO)
    except OSError:  # a missing file is reported elsewhere
        return False
