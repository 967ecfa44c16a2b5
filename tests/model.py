"""The checks as a slow program, written from their words alone: whether a URI is below another one, whether a host is within a domain, what a
host may be taken for, and the redirect check of the pages. It doesn't call the library.

    model.py [FILE]    compares the answers of tests/hostile.tsv, or of another such file, with those of this program"""
from __future__ import annotations

import ipaddress
import os
import re
import sys
from typing import Dict, List, NamedTuple, Optional, Tuple

TOP = os.path.dirname(os.path.dirname(os.path.abspath(__file__)))

APPENDIX_B = re.compile(rb"^(([^:/?#]+):)?(//([^/?#]*))?([^?#]*)(\?([^#]*))?(#(.*))?", re.DOTALL)
_CHARACTER = rb"(?:[A-Za-z0-9._~!$&'()*+,;=-]|%[0-9A-Fa-f]{2})"
_NAME = re.compile(rb"%s*" % _CHARACTER)
_USER = re.compile(rb"(?:%s|:)*" % _CHARACTER)
_PATH = re.compile(rb"(?:%s|[:@/])*" % _CHARACTER)
_REST = re.compile(rb"(?:%s|[:@/?])*" % _CHARACTER)
_SCHEME = re.compile(rb"[A-Za-z][A-Za-z0-9+.-]*")
_FUTURE = re.compile(rb"\[[vV][0-9A-Fa-f]+\.[A-Za-z0-9._~!$&'()*+,;=:-]+\]")
_OCTET = rb"(?:25[0-5]|2[0-4][0-9]|1[0-9][0-9]|[1-9]?[0-9])"
_IPV4 = re.compile(rb"\.".join([_OCTET] * 4))

HIDES_ADDRESS, MAY_BE_NUMERIC, HAS_ESCAPES = 1, 2, 4
# The domains of the redirect check.
DOMAINS = (b"example.com", b"example.org")


class Parts(NamedTuple):
    """The components of a reference; a port is None if it is absent or empty."""

    scheme: Optional[bytes]
    user: Optional[bytes]
    host: Optional[bytes]
    port: Optional[int]
    path: bytes
    query: Optional[bytes]


def _read_default_ports() -> Dict[bytes, int]:
    with open(os.path.join(TOP, "crates/uriparse_scheme/schemes.tsv"), "rb") as file:
        rows = [line.rstrip(b"\n").split(b"\t") for line in file]
    return {row[1]: int(row[3]) for row in rows if len(row) > 3}


DEFAULT_PORTS = _read_default_ports()


def is_ipv6(text: bytes) -> bool:
    try:
        return b"%" not in text and bool(ipaddress.IPv6Address(text.decode()))
    except ValueError:
        return False


def is_host(text: bytes) -> bool:
    if text[:1] == b"[":
        return bool(_FUTURE.fullmatch(text)) or (text[-1:] == b"]" and is_ipv6(text[1:-1]))
    return bool(_NAME.fullmatch(text))


def parts_of(text: bytes) -> Optional[Parts]:
    """The components, or None if the text isn't a reference: RFC 3986, appendices A and B."""
    match = APPENDIX_B.match(text)
    assert match is not None
    scheme, authority, path, query, fragment = match.group(2, 4, 5, 7, 9)
    user = host = port = None
    if authority is not None:
        before, sign, after = authority.rpartition(b"@")
        user = before if sign else None
        named = re.fullmatch(rb"(\[.*\]|[^:]*)(?::([0-9]*))?", after, re.DOTALL)
        if not named or not is_host(named[1]) or (user is not None and not _USER.fullmatch(user)):
            return None
        host, port = named[1], int(named[2]) if named[2] else None
    is_valid = ((scheme is None or _SCHEME.fullmatch(scheme)) and (port is None or port <= 65535) and _PATH.fullmatch(path)
                and all(part is None or _REST.fullmatch(part) for part in (query, fragment)))
    # Without a scheme a first segment with a colon would be one, and text before ":" that is no scheme is such a segment.
    return Parts(scheme, user, host, port, path, query) if is_valid else None


def canonical(text: bytes) -> bytes:
    """The text with escapes of unreserved characters decoded, and the digits of other escapes in upper case."""
    def spelled(match: "re.Match[bytes]") -> bytes:
        byte = bytes.fromhex(match[1].decode())
        return byte if re.fullmatch(rb"[A-Za-z0-9._~-]", byte) else match[0].upper()
    return re.sub(rb"%([0-9A-Fa-f]{2})", spelled, text)


def name_of(host: bytes) -> bytes:
    """The canonical spelling of a name, in lower case."""
    return re.sub(rb"%..", lambda match: match[0].upper(), canonical(host).lower())


def is_address(text: bytes) -> bool:
    return bool(_IPV4.fullmatch(text))


def host_key(host: bytes) -> Tuple[str, bytes]:
    """The kind of a host, and its canonical spelling."""
    if host[:1] == b"[":
        is_future = host[1:2] in b"vV"
        return ("future", host.lower()) if is_future else ("ipv6", ipaddress.IPv6Address(host[1:-1].decode()).packed)
    return ("ipv4", host) if is_address(host) else ("name", name_of(host))


def labels_of(name: bytes) -> List[bytes]:
    """What dots separate, without regard to a dot at the end."""
    return (name[:-1] if name[-1:] == b"." else name).split(b".")


def flags_of(host: Optional[bytes]) -> int:
    """What the host of a reference may be taken for."""
    kind, name = ("none", b"") if host is None else host_key(host)
    if kind != "name":
        return 0
    return (HIDES_ADDRESS * is_address(name) + MAY_BE_NUMERIC * labels_of(name)[-1][:1].isdigit() + HAS_ESCAPES * (b"%" in name))


def is_in_domain(host: Optional[bytes], domain: bytes) -> bool:
    """Equal, or two names: no label is empty, neither is an address nor has an escape, and the labels end with the domain's."""
    if host is None:
        return False
    (kind, name), (other, whole) = host_key(host), host_key(domain)
    if (kind, name) == (other, whole):
        return True
    labels, ends = labels_of(name), labels_of(whole)
    return (kind == other == "name" and all(labels) and b"%" not in name + whole
            and not is_address(b".".join(labels)) and not is_address(b".".join(ends))
            and len(labels) >= len(ends) and labels[len(labels) - len(ends):] == ends)


def without_dots(path: bytes) -> bytes:
    """RFC 3986, section 5.2.4, with whole segments."""
    out: List[bytes] = []
    while path:
        if path.startswith((b"../", b"./")):
            path = path[path.index(b"/") + 1:]
        elif path.startswith(b"/./") or path == b"/.":
            path = b"/" + path[3:]
        elif path.startswith(b"/../") or path == b"/..":
            path = b"/" + path[4:]
            out = out[:-1]
        elif path in (b".", b".."):
            path = b""
        else:
            end = path.find(b"/", 1)
            end = len(path) if end < 0 else end
            out.append(path[:end])
            path = path[end:]
    return b"".join(out)


def removed_segments(path: bytes) -> List[bytes]:
    """The segments that double dots remove, each the last one that is left of those before it. The path is canonical."""
    left: List[bytes] = []
    removed: List[bytes] = []
    for segment in (path[1:] if path[:1] == b"/" else path).split(b"/"):
        if segment == b".." and left:
            removed.append(left.pop())
        elif segment not in (b".", b".."):
            left.append(segment)
    return removed


def without_parameters(segment: bytes) -> bytes:
    """What precedes the first ";", "?" or "#", which may be escaped."""
    return re.split(rb";|%3B|%3F|%23", segment, maxsplit=1)[0]


def is_ambiguous(segment: bytes) -> bool:
    """An escape of NUL, "%", "/" or "\\", or a dot segment before ";", "?" or "#"."""
    before = without_parameters(segment)
    return bool(re.search(rb"%(00|25|2F|5C)", segment)) or (before != segment and before in (b".", b".."))


def is_unclear(segment: bytes) -> bool:
    """Empty without its parameters, or ambiguous."""
    return without_parameters(segment) == b"" or is_ambiguous(segment)


def place_of(uri: Parts) -> Tuple[object, ...]:
    """The scheme, the user information, the host and the port that is used."""
    scheme = (uri.scheme or b"").lower()
    username, colon, password = (uri.user or b"").partition(b":")
    user = uri.user is not None and (canonical(username), bool(colon), canonical(password))
    host = uri.host is not None and host_key(uri.host)
    return scheme, user, host, (DEFAULT_PORTS.get(scheme) if uri.port is None else uri.port) if host else None


def path_of(uri: Parts) -> bytes:
    """The path in canonical spelling. After an authority an empty one is "/"."""
    return canonical(uri.path) or (b"/" if uri.host is not None else b"")


def is_below(uri: Parts, base: Parts) -> bool:
    """At the same place; the normal form of the path is in the directory of the base's, with no ambiguous segment after it; and no double
    dot of the path removes an unclear segment."""
    path, directory = (without_dots(path_of(one)).split(b"/") for one in (uri, base))
    rest = path[len(directory) - 1:]
    return (place_of(uri) == place_of(base) and (len(directory) > 1 or path == directory) and path[:len(directory) - 1] == directory[:-1]
            and bool(rest) and not any(map(is_ambiguous, rest)) and not any(map(is_unclear, removed_segments(path_of(uri)))))


def target_of(base: Parts, reference: Parts) -> Parts:
    """RFC 3986, section 5.2.2, with the dot segments removed as in a normal form."""
    if reference.scheme is not None:
        return reference._replace(path=without_dots(path_of(reference)))
    if reference.host is not None:
        return reference._replace(scheme=base.scheme, path=without_dots(path_of(reference)))
    if reference.path == b"":
        query = base.query if reference.query is None else reference.query
        return base._replace(path=without_dots(path_of(base)), query=query)
    merged = reference.path if reference.path[:1] == b"/" else path_of(base).rpartition(b"/")[0] + b"/" + reference.path
    return base._replace(path=without_dots(canonical(merged)), query=reference.query)


def is_allowed(page: bytes, location: bytes, below: bool) -> bool:
    """The redirect check of the pages, for DOMAINS: `https`; no user information; a name within a domain, that may be taken for nothing else,
    without escapes and labels of IDNA; the port of `https`; and, where this is asked, below the page."""
    base, reference = parts_of(page), parts_of(location)
    assert base is not None
    if reference is None:
        return False
    target = target_of(base, reference)
    return ((target.scheme or b"").lower() == b"https" and target.user is None and target.host is not None
            and host_key(target.host)[0] == "name" and any(is_in_domain(target.host, domain) for domain in DOMAINS)
            and not re.search(rb"%|(^|\.)xn--", target.host, re.IGNORECASE)
            and flags_of(target.host) == 0 and target.port in (None, 443) and (not below or is_below(target, base)))


def answer_to(call: str, text: bytes, other: bytes) -> str:
    """The answer of a row."""
    read = parts_of(text)
    if call in ("redirect", "redirect-below"):
        return "yes" if is_allowed(other, text, call == "redirect-below") else "no"
    if read is None or (call == "within" and read.scheme is None):
        return "rejected"
    if call == "host-flags":
        return str(flags_of(read.host))
    if call == "host-within":
        return "yes" if is_in_domain(read.host, other) else "no"
    base = parts_of(other)
    assert call == "within" and base is not None and base.scheme is not None, (call, other)
    return "yes" if is_below(read, base) else "no"


class Row(NamedTuple):
    """A row of tests/hostile.tsv."""

    tries: str
    call: str
    text: str
    other: str
    answer: str
    differ: str


def read_rows(path: str = os.path.join(TOP, "tests/hostile.tsv")) -> List[Row]:
    """The rows of the file, without its comments."""
    with open(path, encoding="utf-8") as file:
        lines = [line.rstrip("\n").split("\t") for line in file if not line.startswith("#")]
    plain = [[re.sub(r"\\x([0-9a-f]{2})", lambda match: chr(int(match[1], 16)), field) for field in line] for line in lines]
    assert all(len(line) == 6 for line in plain), [line for line in plain if len(line) != 6]
    return [Row(*line) for line in plain]


def main() -> None:
    rows = read_rows(*sys.argv[1:])
    wrong = [(row, found) for row in rows for found in (answer_to(row.call, row.text.encode(), row.other.encode()),) if found != row.answer]
    for row, found in wrong:
        print("%s: %s" % (found, "\t".join(row)))
    print("%d rows, %d wrong answers" % (len(rows), len(wrong)))
    sys.exit(bool(wrong))


if __name__ == "__main__":
    main()
