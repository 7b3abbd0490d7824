"""Files of settings, one for each service: reading, checking and writing them.

A file is TOML. Its `role` names the kind of service, whose dataclass has the other names. Paths (`File`) are relative
to the file."""
import dataclasses
import ipaddress
import json
import os
import pathlib
import tomllib
import typing
from typing import Annotated, Any, ClassVar, Mapping, Self

File = Annotated[str, "a path, relative to the file of settings"]
WORDS = {str: "a text", File: "a text", int: "a whole number", float: "a number", bool: "true or false"}
# The least values of numbers by their names; 0 for all others. With less a service would ask without a pause (probe),
# take the ledger for away between two lines of a recorder, which come each second (stale), or wait for ever.
LEAST = {"scrub_rate": 1, "connections": 1, "uploads": 1, "turns": 1, "epochs": 1, "probe": 0.1, "stale": 2}
ANYONE, MEMBERS = "anyone", "members"  # who may read at a node: members show a certificate of the network


class Wrong(ValueError):
    """A file of settings is wrong; the text has all its faults."""


@dataclasses.dataclass
class Role:
    """The settings of a kind of service, which a subclass lists."""

    role: ClassVar[str]

    @classmethod
    def read(cls, path: pathlib.Path) -> Self:
        """Return the settings from a file; raises `Wrong`."""
        values = values_of(path)
        if faults := faults_in(cls, values):
            raise Wrong(f"{path}: {'; '.join(faults)}")
        return cls(**{name: it for name, it in placed(cls, path, values).items() if name != "role"})


def words_of(kind: Any) -> str:
    return WORDS[kind] if kind in WORDS else f"a list, each of it {WORDS[typing.get_args(kind)[0]]}"


def fits(value: Any, kind: Any) -> bool:
    """Return whether a value from a file has the type of a field of a dataclass."""
    if typing.get_origin(kind) is list:
        return isinstance(value, list) and all(fits(it, typing.get_args(kind)[0]) for it in value)
    return type(value) in {float: (int, float), File: (str,)}.get(kind, (kind,))


def values_of(path: pathlib.Path) -> dict[str, Any]:
    """Return the values of a file, without a check against a role. Raises `Wrong` or `OSError`."""
    try:
        text = path.read_text()
        values = json.loads(text) if path.suffix == ".json" else tomllib.loads(text)
    except (tomllib.TOMLDecodeError, UnicodeDecodeError, json.JSONDecodeError) as fault:
        raise Wrong(f"{path} cannot be read: {fault}") from None
    if not isinstance(values, dict):
        raise Wrong(f"{path} has no settings")
    return values


def is_address(text: str) -> bool:
    """Return whether a text is an IP address in the form that a connection reports."""
    try:
        return str(ipaddress.ip_address(text)) == text
    except ValueError:
        return False


def faults_of_values(values: Mapping[str, Any]) -> list[str]:
    """Return the faults of settings that have the right type but a value that no service can have."""
    faults = []
    for name, value in values.items():
        if type(value) in (int, float) and not value >= LEAST.get(name, 0):
            faults.append(f"{name} must be at least {LEAST.get(name, 0)}, not {value}")
    if (suffix := pathlib.Path(values.get("database", "")).suffix) in (".ledger", ".parts"):
        faults.append(f"database must not end with {suffix}: the node keeps its {suffix[1:]} beside it under that name")
    if values.get("reserve", 0) > 1:
        faults.append(f"reserve is a fraction of the disk, at most 1, and not {values['reserve']}")
    if values.get("reads", ANYONE) not in (ANYONE, MEMBERS):
        faults.append(f"reads is {ANYONE} or {MEMBERS}, and not {values['reads']}")
    bad = [it for it in values.get("proxies", []) if not is_address(it)]
    return faults + [f"proxies are addresses, such as 10.0.0.1 or fd00::1, and not {it}" for it in bad]


def faults_in(kind: type[Role], values: Mapping[str, Any]) -> list[str]:
    """Return the faults in the settings of a role, without reading the files that they name."""
    fields = {field.name: field for field in dataclasses.fields(kind)}
    none = dataclasses.MISSING
    needed = [name for name, it in fields.items() if it.default is none and it.default_factory is none]
    faults = (
        [] if values.get("role", kind.role) == kind.role else [f"it is for the role {values['role']}, not {kind.role}"]
    )
    faults += [f"{name} is no setting of a {kind.role}" for name in values if name not in (*fields, "role")]
    faults += [f"{name} is missing" for name in needed if values.get(name) in (None, "")]
    for name, field in fields.items():
        if name in values and not fits(values[name], field.type):
            faults.append(f"{name} must be {words_of(field.type)}, not {json.dumps(values[name], default=str)[:80]}")
    return faults or faults_of_values(values)


def located(path: pathlib.Path, text: str) -> str:
    """Return a path that a file of settings has, resolved against the file's folder, or the path of the credential of
    that name if the service manager passed one. Standard output (-) stays as it is."""
    if text == "-":
        return text
    given = os.environ.get("CREDENTIALS_DIRECTORY")
    if given and (secret := pathlib.Path(given, pathlib.Path(text).name)).exists():
        return str(secret)
    return str(path.parent / text)


def placed(kind: type[Role], path: pathlib.Path, values: Mapping[str, Any]) -> dict[str, Any]:
    """Return the values of a file, with its paths resolved."""
    names = [it.name for it in dataclasses.fields(kind) if it.type == File and values.get(it.name)]
    return {**values, **{name: located(path, values[name]) for name in names}}


def write(kind: type[Role], path: pathlib.Path, values: Mapping[str, Any]) -> None:
    """Write a file of settings. Texts, numbers and lists are written the same in TOML as in JSON."""
    assert not faults_in(kind, values), faults_in(kind, values)
    path.write_text("".join(f"{name} = {json.dumps(it)}\n" for name, it in {"role": kind.role, **values}.items()))
