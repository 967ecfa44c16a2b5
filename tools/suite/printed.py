"""The suite's answers as the program `uri` prints them: a registered scheme in lower case, a slash for an empty path after an authority, a port
without leading zeros, no empty port, and IPv6 addresses as in RFC 5952."""
from __future__ import annotations

import os
from typing import Any, Dict, Optional, Set

import ours  # names the folder of the next
import uriparse
from form import TOP, Vector

Parts = Dict[str, Optional[str]]


def _registered() -> Set[str]:
    """The registered schemes, in lower case."""
    with open(os.path.join(TOP, "crates/uriparse_scheme/schemes.tsv"), encoding="ascii") as file:
        return {line.split("\t")[1] for line in file}


REGISTERED = _registered()


def _parts(parts: Parts) -> Parts:
    scheme, host, port = parts["scheme"], parts["host"], parts["port"]
    if scheme is not None and scheme.lower() in REGISTERED:
        scheme = scheme.lower()
    if parts["kind"] == "ipv6":
        host = uriparse.parse(uriparse.normalize("//%s" % host)).host
    if port is not None:
        port = str(int(port)) if port else None
    return {**parts, "scheme": scheme, "host": host, "port": port, "path": "/" if host is not None and not parts["path"] else parts["path"]}


def _text(parts: Parts) -> str:
    """The reference with these components."""
    text = "" if parts["scheme"] is None else "%s:" % parts["scheme"]
    if parts["host"] is not None:
        user = "" if parts["userinfo"] is None else "%s@" % parts["userinfo"]
        port = "" if parts["port"] is None else ":%s" % parts["port"]
        text += "//%s%s%s" % (user, parts["host"], port)
    query = "" if parts["query"] is None else "?%s" % parts["query"]
    fragment = "" if parts["fragment"] is None else "#%s" % parts["fragment"]
    return "%s%s%s%s" % (text, parts["path"], query, fragment)


def answer_of(vector: Vector) -> Any:
    """The answer as the program prints it."""
    chapter, answer = vector["id"].partition("-")[0], vector["answer"]
    if chapter == "reading" and "rejected" not in answer:
        return _parts(answer)
    if chapter == "edits" and isinstance(answer, str):
        return _text(_parts(ours.reading(answer)))
    return answer
