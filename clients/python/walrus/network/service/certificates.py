"""Keys and certificates: authorities, whose certificates are self-signed, and certificates of names that they sign."""
import asyncio
import contextlib
import datetime
import ipaddress
import os
import pathlib
import ssl
import sys
from typing import Any, Iterable, Optional

from cryptography import x509
from cryptography.exceptions import InvalidSignature
from cryptography.hazmat.primitives import hashes, serialization
from cryptography.hazmat.primitives.asymmetric import ec
from cryptography.x509.oid import ExtendedKeyUsageOID, NameOID

from .names import NAME

AUTHORITY_DAYS, DAYS = 3_650.0, 825.0
SOON, DAY = 30.0, 86_400.0  # days before a certificate expires in which a warning is given; seconds
EARLIER = datetime.timedelta(hours=1)  # by which a certificate is valid before it was made, for clocks that are slow
LATE = ": renew it (walrus-net renew)"
EARLY = "; if it was fast where this was made, renew it there (walrus-net renew)"
Key = ec.EllipticCurvePrivateKey


def write_key(path: pathlib.Path, key: Any) -> None:
    """Writes a key that only its owner can read. It is not typed as `Key`, as some stubs lack `private_bytes` there."""
    form = serialization.Encoding.PEM, serialization.PrivateFormat.PKCS8, serialization.NoEncryption()
    path.unlink(missing_ok=True)
    with open(os.open(path, os.O_WRONLY | os.O_CREAT | os.O_EXCL, 0o600), "wb") as out:
        out.write(key.private_bytes(*form))


def read_key(path: pathlib.Path) -> Key:
    key = serialization.load_pem_private_key(path.read_bytes(), None)
    if not isinstance(key, Key):
        raise ValueError(f"{path} does not contain a key of an elliptic curve")
    return key


def read(path: pathlib.Path) -> x509.Certificate:
    try:
        return x509.load_pem_x509_certificate(path.read_bytes())
    except ValueError:
        raise ValueError(f"{path} does not contain a certificate") from None


def built(name: str, key: Key, days: float) -> x509.CertificateBuilder:
    now = datetime.datetime.utcnow()
    subject = x509.Name([x509.NameAttribute(NameOID.COMMON_NAME, name)])
    made = x509.CertificateBuilder().subject_name(subject).public_key(key.public_key())
    made = made.serial_number(x509.random_serial_number())
    made = made.add_extension(x509.SubjectKeyIdentifier.from_public_key(key.public_key()), critical=False)
    return made.not_valid_before(now - EARLIER).not_valid_after(now + datetime.timedelta(days=days))


def written(path: pathlib.Path, certificate: x509.Certificate) -> None:
    """Writes a certificate, and replaces an earlier one at once."""
    fresh = path.with_suffix(".new")
    fresh.write_bytes(certificate.public_bytes(serialization.Encoding.PEM))
    fresh.replace(path)


def make_authority(path: pathlib.Path, days: float = AUTHORITY_DAYS) -> None:
    """Makes PATH.crt for PATH.key, or also a new key if there is none. What an existing key signed remains valid."""
    key_path = path.with_name(f"{path.name}.key")
    if not key_path.exists():
        write_key(key_path, ec.generate_private_key(ec.SECP256R1()))
    key = read_key(key_path)
    usage = x509.KeyUsage(False, False, False, False, False, True, True, False, False)
    made = built(path.name, key, days).issuer_name(x509.Name([x509.NameAttribute(NameOID.COMMON_NAME, path.name)]))
    made = made.add_extension(x509.BasicConstraints(True, 0), True).add_extension(usage, True)
    written(path.with_name(f"{path.name}.crt"), made.sign(key, hashes.SHA256()))


def name_of(text: str) -> x509.GeneralName:
    """Returns a name for a certificate: an IP address, or the name of a host or a node."""
    try:
        return x509.IPAddress(ipaddress.ip_address(text))
    except ValueError:
        return x509.DNSName(text)


def make(path: pathlib.Path, authority: pathlib.Path, name: str, known: Iterable[str], days: float = DAYS) -> None:
    """Makes PATH.key, and PATH.crt for a name, signed by an authority. `known` are the names that identify a server."""
    key, signer = ec.generate_private_key(ec.SECP256R1()), read_key(authority.with_name(f"{authority.name}.key"))
    issuer = read(authority.with_name(f"{authority.name}.crt"))
    names = x509.SubjectAlternativeName([name_of(it) for it in dict.fromkeys(known)])
    usage = x509.ExtendedKeyUsage([ExtendedKeyUsageOID.SERVER_AUTH, ExtendedKeyUsageOID.CLIENT_AUTH])
    from_key = x509.AuthorityKeyIdentifier.from_issuer_public_key(signer.public_key())
    made = built(name, key, days).issuer_name(issuer.subject).add_extension(names, False)
    made = made.add_extension(x509.BasicConstraints(False, None), True).add_extension(usage, False)
    made = made.add_extension(from_key, False)
    write_key(path.with_name(f"{path.name}.key"), key)
    written(path.with_name(f"{path.name}.crt"), made.sign(signer, hashes.SHA256()))


def common_name(certificate: x509.Certificate) -> str:
    found = certificate.subject.get_attributes_for_oid(NameOID.COMMON_NAME)
    return str(found[0].value) if len(found) == 1 else ""


def names_of(certificate: x509.Certificate) -> list[str]:
    """Returns the names that identify a server with this certificate."""
    try:
        return [
            str(it.value) for it in certificate.extensions.get_extension_for_class(x509.SubjectAlternativeName).value
        ]
    except x509.ExtensionNotFound:
        return []


def days_left(certificate: x509.Certificate) -> float:
    return (certificate.not_valid_after - datetime.datetime.utcnow()).total_seconds() / DAY


async def watch(name: str, loaded: x509.Certificate) -> None:
    """Prints once a day that the certificate that a service has loaded expires soon."""
    while True:
        if days_left(loaded) < SOON:
            text = f"{name}: the certificate of {common_name(loaded)} that is loaded expires on "
            text += f"{loaded.not_valid_after:%Y-%m-%d}: renew it (walrus-net renew), and restart this service"
            with contextlib.suppress(OSError):
                print(text, file=sys.stderr, flush=True)
        await asyncio.sleep(DAY)


def serving(authority: str, *own: str) -> ssl.SSLContext:
    """Returns how a service with this certificate and key answers clients over TLS: they may show a certificate, which
    the authority must then have signed."""
    context = ssl.create_default_context(ssl.Purpose.CLIENT_AUTH, cafile=authority)
    context.load_cert_chain(*own)
    context.verify_mode = ssl.CERT_OPTIONAL
    return context


def peer_name(told: Any) -> str:
    """Returns the name in the certificate of a peer, as `SSLSocket.getpeercert` has it; empty if it shows none."""
    names: list[str] = [text for part in (told or {}).get("subject", ()) for kind, text in part if kind == "commonName"]
    return names[0] if len(names) == 1 and NAME.fullmatch(names[0]) else ""


def early(certificate: x509.Certificate) -> str:
    """Returns the predicate that a certificate is not valid yet, with what to do first; an empty text if it is."""
    begin = certificate.not_valid_before
    is_early = begin > datetime.datetime.utcnow()
    return f"is not valid before {begin:%Y-%m-%d %H:%M} UTC: set the clock here if it is slow" if is_early else ""


def is_signed(certificate: x509.Certificate, authority: x509.Certificate) -> bool:
    """Whether an authority has signed a certificate."""
    key, algorithm = authority.public_key(), certificate.signature_hash_algorithm
    if not isinstance(key, ec.EllipticCurvePublicKey) or algorithm is None:
        return False
    try:
        key.verify(certificate.signature, certificate.tbs_certificate_bytes, ec.ECDSA(algorithm))
    except InvalidSignature:
        return False
    return certificate.issuer == authority.subject


def signer(certificate: x509.Certificate, authorities: Iterable[pathlib.Path]) -> Optional[pathlib.Path]:
    """Returns which of these authorities, by its name in PATH.crt, is the issuer of a certificate; None if none is."""
    return next((it for it in authorities if certificate.issuer == read(it.with_name(f"{it.name}.crt")).subject), None)


def fault_of_key(key: pathlib.Path, certificate: pathlib.Path) -> str:
    """Returns why OpenSSL does not take a key for a certificate, which is there; an empty text if it does."""
    try:
        key.read_bytes()  # whose fault names the file
        ssl.SSLContext(ssl.PROTOCOL_TLS_SERVER).load_cert_chain(certificate, key, password="")
    except ssl.SSLError as fault:
        return f"{key} is not the key of {certificate}, or has a password: {fault}"
    except OSError as fault:
        return str(fault)
    return ""


def faults_of(
    certificate: pathlib.Path, key: pathlib.Path, authority: Optional[pathlib.Path] = None, name: Optional[str] = None
) -> list[str]:
    """Returns what is wrong with a certificate, its key, its signature and its common name, as sentences. Without an
    authority it is a certificate that others signed."""
    faults, found, is_ours = list[str](), dict[pathlib.Path, x509.Certificate](), authority is not None
    for path in filter(None, (certificate, authority)):
        try:
            found[path] = it = read(path)
        except (OSError, ValueError) as fault:
            faults.append(str(fault))
            continue
        if days_left(it) < 0:
            faults.append(f"{path} has expired on {it.not_valid_after:%Y-%m-%d}{LATE if is_ours else ''}")
        if text := early(it):
            faults.append(f"{path} {text}{EARLY if is_ours else ''}")
    if own := found.get(certificate):
        faults += filter(None, [fault_of_key(key, certificate)])
        if authority in found and not is_signed(own, found[authority]):
            faults.append(f"{certificate} was not signed by {authority}")
        if name is not None and common_name(own) != name:
            faults.append(f"{certificate} has the name {common_name(own)}, not {name}")
    return faults
