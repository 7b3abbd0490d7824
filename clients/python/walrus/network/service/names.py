"""Names of participants and addresses of machines: their forms."""
import ipaddress
import re

NAME, HOST = re.compile("[A-Za-z0-9][A-Za-z0-9._-]{0,63}"), re.compile("[A-Za-z0-9:][A-Za-z0-9.:-]{0,252}")


def read_address(text: str) -> "ipaddress.IPv4Address | ipaddress.IPv6Address | None":
    """Returns the address in a text, an IPv4-mapped one as IPv4; None for a name or an empty text."""
    try:
        found = ipaddress.ip_address(text.partition("%")[0])
    except ValueError:
        return None
    return getattr(found, "ipv4_mapped", None) or found


def is_loopback(address: str) -> bool:
    """Whether an address is a loopback address, which only this machine reaches."""
    found = read_address(address)
    return found is not None and found.is_loopback


def is_inner(address: str) -> bool:
    """Whether an address belongs to a network that not everybody reaches, such as a private one."""
    found = read_address(address)
    return found is not None and not found.is_global


def is_address(host: str) -> bool:
    """Whether a host is ADDRESS or ADDRESS:PORT, and no name."""
    found = re.fullmatch(r"\[(.*)\](:[0-9]*)?|([0-9.]+)(:[0-9]*)?", host)
    return found is not None and read_address(found[1] or found[3] or "") is not None
