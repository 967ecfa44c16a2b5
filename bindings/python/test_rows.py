"""The rows of bindings/rows.tsv, which each language answers alike: over bytes, and over str if they are UTF-8. The last line has the counts."""
from __future__ import annotations

import os
import re
import sys
from typing import Any, Callable, Dict, List, Optional, Tuple

import uriparse

ROWS = os.path.join(os.path.dirname(os.path.abspath(__file__)), "..", "rows.tsv")


def pairs(uri: Any) -> str:
    found = ["<%s>" % shown(name if value is None else name + (b"=" if isinstance(name, bytes) else "=") + value)
             for name, value in uriparse.pairs(uriparse.parse(uri).query)]
    return "".join(found)


def pair_values(uri: Any, name: Any) -> str:
    return "".join("<%s>" % shown(value) for value in uriparse.pair_values(uri, name))


def segments(uri: Any) -> str:
    return "".join("<%s>" % shown(segment) for segment in uriparse.segments(uriparse.parse(uri).path))


def host_address(text: Any) -> Optional[bytes]:
    found = uriparse.host_address(text)
    return None if found is None else found.packed


def replace(text: Any, component: Any, value: Any) -> Any:
    return uriparse.replace(text, **{component if isinstance(component, str) else component.decode(): value})


# A call, and what its errors call its arguments. An answer is true for a reference.
CALLS: Dict[str, Tuple[Callable[..., Any], Tuple[str, ...]]] = {
    "check": (lambda text: bool(uriparse.parse(text) is not None), ("text",)), "is_uri": (uriparse.is_uri, ("text",)),
    "port": (lambda text: uriparse.parse(text).port, ("text",)), "port_number": (lambda text: uriparse.parse(text).port_number, ("text",)),
    "host_kind": (lambda text: uriparse.parse(text).host_kind, ("text",)), "host_flags": (lambda text: int(uriparse.host_flags(text)), ("text",)),
    "disagreement": (lambda text: int(uriparse.disagreement(text)), ("text",)),
    "default_port": (uriparse.default_port, ("scheme",)), "origin": (uriparse.origin, ("text",)), "normalize": (uriparse.normalize, ("text",)),
    "port_or_default": (uriparse.port_or_default, ("text",)), "host_address": (host_address, ("text",)), "hash": (uriparse.hash_of, ("text",)),
    "key": (uriparse.key, ("text",)), "page_key": (uriparse.page_key, ("text",)),
    "place_key": (uriparse.place_key, ("text",)), "domain_prefix": (uriparse.domain_prefix, ("domain",)), "base_prefix": (uriparse.base_prefix, ("base",)),
    "is_normalized": (uriparse.is_normalized, ("text",)), "is_public": (uriparse.is_public, ("text",)), "is_ambiguous": (uriparse.is_ambiguous, ("segment",)),
    "same_origin": (uriparse.same_origin, ("left", "right")), "trim_link": (uriparse.trim_link, ("text",)),
    "form_decode": (uriparse.form_decode, ("text",)), "pair_values": (pair_values, ("text", "name")),
    "segments": (segments, ("text",)), "without_default_port": (uriparse.without_default_port, ("text",)),
    "request_target": (uriparse.request_target, ("text",)), "mask_password": (uriparse.mask_password, ("text",)), "host_is_within_any": (uriparse.host_is_within_any, ("text", "domains")),
    "escape": (uriparse.escape, ("text",)), "decode": (uriparse.decode, ("text",)),
    "encode": (lambda component, data: uriparse.encode(component if isinstance(component, str) else component.decode(), data), ("component", "data")),
    "pairs": (pairs, ("text",)), "pair": (uriparse.pair, ("text", "name")), "with_pair": (uriparse.with_pair, ("text", "name", "value")),
    "with_appended_pair": (uriparse.with_appended_pair, ("text", "name", "value")), "without_pairs": (uriparse.without_pairs, ("text", "names")),
    "without_pair": (uriparse.without_pair, ("text", "names")), "host_is_within": (uriparse.host_is_within, ("text", "domain")),
    "is_within": (uriparse.is_within, ("uri", "base")), "resolve": (uriparse.resolve, ("base", "reference")),
    "relativize": (uriparse.relativize, ("base", "uri")), "equal": (uriparse.equal, ("left", "right")),
    "compare": (uriparse.compare, ("left", "right")), "replace": (replace, ("text", "", ""))}


def field(text: str) -> Optional[bytes]:
    """The bytes of an argument, or None if it is absent."""
    if text == "\\N":
        return None
    return re.sub(rb"\\x([0-9A-F]{2})", lambda found: bytes.fromhex(found[1].decode()), text.encode())


def shown(answer: Any) -> str:
    """An answer as the rows write it."""
    if answer is None or isinstance(answer, bool):
        return "\\N" if answer is None else str(answer).lower()
    if not isinstance(answer, bytes):
        return str(answer)
    try:
        return re.sub("[\0-\x1f]", lambda found: "\\x%02X" % ord(found[0]), answer.decode())
    except UnicodeDecodeError:
        return "".join("\\x%02X" % byte if byte > 126 else chr(byte) for byte in answer)


def shown_error(error: uriparse.URIError, names: Tuple[str, ...]) -> str:
    """The code, the component, which argument it is, and the place; 0 stands for none, too."""
    if error.argument == "change":
        argument = "-"
    elif error.argument in names:
        argument = str(1 + names.index(error.argument))
    else:
        argument = "3"
    return "! %s %s %s %d" % (error.reason.name, error.component, argument, error.place)


def answer(call: str, arguments: List[Any]) -> str:
    function, names = CALLS[call]
    try:
        return shown(function(*arguments))
    except uriparse.URIError as error:
        return shown_error(error, names)


def as_str(arguments: List[Optional[bytes]]) -> Optional[List[Optional[str]]]:
    try:
        return [None if argument is None else argument.decode() for argument in arguments]
    except UnicodeDecodeError:
        return None


def main() -> None:
    passed = 0
    left_out: Dict[str, int] = {}
    with open(sys.argv[1] if len(sys.argv) > 1 else ROWS, encoding="utf-8") as file:
        rows = [line.rstrip("\n").split("\t") for line in file if line.strip() and not line.startswith("#")]
    for call, *texts, expected in rows:
        if call not in CALLS:
            left_out[call] = left_out.get(call, 0) + 1
            continue
        arguments = [field(text) for text in texts]
        wanted = re.sub(r"^(!.*) -$", r"\1 0", expected)
        found = answer(call, arguments)
        assert field(found) == field(wanted), (call, texts, found, wanted)
        strings = as_str(arguments)
        if strings is not None and "\\x" not in wanted:
            found = answer(call, strings)
            assert field(found) == field(wanted), (call, strings, found, wanted)
        passed += 1
    print("%d rows; no call for %s" % (passed, ", ".join("%s (%d)" % row for row in left_out.items()) or "none"))


main()
