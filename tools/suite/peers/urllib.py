"""Answers of Python's urllib.parse, a line for a line."""
import re
import sys
from urllib.parse import urljoin, urlsplit


def text_of(field):
    return re.sub(r"((?:\\x[0-9a-f]{2})+)", lambda found: bytes.fromhex(found[0].replace("\\x", "")).decode("utf-8", "surrogateescape"), field)


def field_of(text):
    if text is None:
        return "\\-"
    data = text.encode("utf-8", "surrogateescape")
    return "".join(chr(byte) if 0x20 <= byte < 0x7f and byte != 0x5c else "\\x%02x" % byte for byte in data)


def reading(text):
    """An empty query, fragment or authority isn't told from an absent one."""
    parts = urlsplit(text)
    user, sign, place = parts.netloc.rpartition("@")
    host = re.fullmatch(r"(\[.*\]|[^:]*)(?::(.*))?", place, re.DOTALL)
    parts.port  # raises ValueError if it is none
    has_authority = bool(parts.netloc)
    return [parts.scheme or None, user if sign else None, (host[1] if host else place) if has_authority else None, host and host[2], parts.path,
            parts.query or None, parts.fragment or None]


def answer_to(chapter, *texts):
    try:
        if chapter == "reading":
            return "=" + "\t".join(map(field_of, reading(*texts)))
        return "=" + field_of(urljoin(*texts)) if chapter == "resolution" else "?"
    except ValueError:
        return "!"


for line in sys.stdin:
    chapter, *fields = line.rstrip("\n").split("\t")
    print(answer_to(chapter, *map(text_of, fields)) if chapter in ("reading", "resolution") else "?")
