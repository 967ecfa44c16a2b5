"""RFC 3986 as a slow program, from its words alone: reading, equality, normal forms, resolution. It doesn't call the library.

Each call takes the set of departures to follow. With none of them it follows the RFC to the letter, with all of them the library."""
from __future__ import annotations

import ipaddress
import os
import re
import sys
from typing import AbstractSet, List, NamedTuple, Optional, Tuple

from form import TOP

sys.path.insert(0, os.path.join(TOP, "tests"))
import model  # noqa: E402

# The tags. docs/SUITE.md says what each is.
DEPARTURES = frozenset({"dots", "escaped-dots", "two-slashes", "slash", "port", "ipv6", "scheme-case", "kind"})
Set = AbstractSet[str]


def _read_registered() -> Set:
    with open(os.path.join(TOP, "crates/uriparse_scheme/schemes.tsv"), encoding="utf-8") as file:
        return frozenset(line.rstrip("\n").split("\t")[1] for line in file if line.count("\t") > 1 and not line.startswith("#"))


REGISTERED = _read_registered()


class Reference(NamedTuple):
    """The components of a reference as they are spelled; None is an absent one."""

    scheme: Optional[bytes]
    user: Optional[bytes]
    host: Optional[bytes]
    port: Optional[bytes]
    path: bytes
    query: Optional[bytes]
    fragment: Optional[bytes]


def read(text: bytes, follow: Set) -> Optional[Reference]:
    """The components, or None if the text isn't a reference: appendices A and B."""
    match = model.APPENDIX_B.match(text)
    assert match is not None
    scheme, authority, path, query, fragment = match.group(2, 4, 5, 7, 9)
    user = host = port = None
    if authority is not None:
        before, sign, after = authority.rpartition(b"@")
        user = before if sign else None
        named = re.fullmatch(rb"(\[.*\]|[^:]*)(?::([0-9]*))?", after, re.DOTALL)
        if named is None:
            return None
        host, port = named[1], named[2]
    elif scheme is None and b":" in path.partition(b"/")[0]:
        return None
    found = Reference(scheme, user, host, port, path, query, fragment)
    # The model has a limit of ports, which the RFC's grammar doesn't have.
    judged = found if "port" in follow else found._replace(port=None if port is None else b"")
    return found if model.parts_of(written(judged, frozenset())) is not None else None


def written(one: Reference, follow: Set) -> bytes:
    """Section 5.3."""
    path = b"/." + one.path if "two-slashes" in follow and one.host is None and one.path[:2] == b"//" else one.path
    authority = b"" if one.host is None else b"//" + (b"" if one.user is None else one.user + b"@") + one.host
    pieces = [b"" if one.scheme is None else one.scheme + b":", authority, b"" if one.port is None else b":" + one.port, path]
    return b"".join(pieces + [sign + part for sign, part in ((b"?", one.query), (b"#", one.fragment)) if part is not None])


def spelled(one: Reference, follow: Set) -> Reference:
    """As the library writes a result."""
    if "slash" in follow and one.host is not None and one.path == b"":
        one = one._replace(path=b"/")
    if "port" in follow and one.port is not None:
        one = one._replace(port=(one.port.lstrip(b"0") or b"0") if one.port else None)
    if "ipv6" in follow and one.host is not None and one.host[:1] == b"[" and one.host[1:2] not in b"vV":
        one = one._replace(host=b"[" + _ipv6(one.host[1:-1]) + b"]")
    if "scheme-case" in follow and one.scheme is not None and one.scheme.lower().decode() in REGISTERED:
        one = one._replace(scheme=one.scheme.lower())
    return one


def _ipv6(text: bytes) -> bytes:
    """RFC 5952, with the last 32 bits in decimal after the prefix ::ffff:0:0/96."""
    address = ipaddress.IPv6Address(text.decode())
    return b"::ffff:" + str(address.ipv4_mapped).encode() if address.ipv4_mapped is not None else address.compressed.encode()


def canonical(one: Reference) -> Reference:
    """Sections 6.2.2.1 and 6.2.2.2: case and percent-encoding."""
    part = [None if value is None else model.canonical(value) for value in (one.user, one.path, one.query, one.fragment)]
    host = None if one.host is None else one.host.lower() if one.host[:1] == b"[" else model.name_of(one.host)
    return Reference(one.scheme and one.scheme.lower(), part[0], host, one.port, part[1] or b"", part[2], part[3])


def _plain_dots(path: bytes, follow: Set) -> bytes:
    if "escaped-dots" not in follow:
        return path
    segments = path.split(b"/")
    return b"/".join(re.sub(rb"(?i)%2e", b".", one) if model.canonical(one) in (b".", b"..") else one for one in segments)


def equal(left: Reference, right: Reference, follow: Set) -> bool:
    """Whether the canonical spellings are equal: section 6.2.2. A relative path keeps its dot segments, which lead somewhere."""
    kinds = [one.host is not None and model.host_key(one.host)[0] for one in (left, right)]
    one, other = (canonical(spelled(one, follow)) for one in (left, right))
    if "dots" not in follow:
        one, other = (each if each.scheme is None else each._replace(path=model.without_dots(each.path)) for each in (one, other))
    return one == other and ("kind" not in follow or kinds[0] == kinds[1])


def normal(one: Reference, follow: Set) -> bytes:
    """Section 6.2.2 of a URI."""
    one = spelled(canonical(one), follow)
    return written(spelled(one._replace(path=model.without_dots(one.path)), follow), follow)


def steps(base: Reference, reference: Reference) -> Tuple[str, bytes]:
    """The row of section 5.2.2, and the path whose dot segments it removes."""
    if reference.scheme is not None:
        return "scheme", reference.path
    if reference.host is not None:
        return "authority", reference.path
    if reference.path == b"":
        return ("empty path" if reference.query is None else "query"), b""
    if reference.path[:1] == b"/":
        return "absolute path", reference.path
    if base.host is not None and base.path == b"":
        return "merge, empty base path", b"/" + reference.path
    return "merge", base.path[:base.path.rfind(b"/") + 1] + reference.path


def removals(path: bytes) -> List[str]:
    """The steps of section 5.2.4 that the path takes, besides E."""
    found = set()
    while path:
        rules = (("2A", b"^\\.\\.?/", b""), ("2B", b"^/\\.(/|$)", b"/"), ("2C", b"^/\\.\\.(/|$)", b"/"), ("2D", b"^\\.\\.?$", b""), ("2E", b"^/?[^/]*", b""))
        name, rule, rest = next(one for one in rules if re.match(one[1], path))
        path = re.sub(rule, rest, path, count=1)
        found.add(name)
    return sorted(found - {"2E"})


def target(base: Reference, reference: Reference, follow: Set) -> bytes:
    """Sections 5.2.2 and 5.3."""
    row, path = steps(base, reference)
    if row in ("empty path", "query"):
        query = base.query if reference.query is None else reference.query
        found = base._replace(query=query, fragment=reference.fragment)
    else:
        path = model.without_dots(_plain_dots(path, follow))
        place = reference if row in ("scheme", "authority") else base
        scheme = base.scheme if row != "scheme" else reference.scheme
        found = Reference(scheme, place.user, place.host, place.port, path, reference.query, reference.fragment)
    return written(spelled(found, follow), follow)
