"""Answers of Python's rfc3986, a line for a line. Only reading validates: the other calls don't ask for it."""
import re
import sys

from rfc3986 import exceptions, uri_reference, validators

VALIDATOR = validators.Validator().check_validity_of(*validators.Validator.COMPONENT_NAMES)


def text_of(field):
    return re.sub(r"((?:\\x[0-9a-f]{2})+)", lambda found: bytes.fromhex(found[0].replace("\\x", "")).decode("utf-8", "surrogateescape"), field)


def field_of(text):
    if text is None:
        return "\\-"
    data = text.encode("utf-8", "surrogateescape")
    return "".join(chr(byte) if 0x20 <= byte < 0x7f and byte != 0x5c else "\\x%02x" % byte for byte in data)


def reading(uri):
    """An empty authority isn't told from an absent one. None is what the library has for an empty path."""
    VALIDATOR.validate(uri)
    return "\t".join(map(field_of, [uri.scheme, uri.userinfo, uri.host, uri.port, uri.path or "", uri.query, uri.fragment]))


def equality(one, other):
    return "true" if one == other else "false"


def normal(uri):
    return field_of(uri.normalize().unsplit())


def resolution(base, reference):
    return field_of(reference.resolve_with(base, strict=True).unsplit())


ANSWERS = {"reading": reading, "equality": equality, "normal": normal, "resolution": resolution}


def answer_to(chapter, *texts):
    try:
        return "=" + ANSWERS[chapter](*map(uri_reference, texts))
    except (exceptions.RFC3986Exception, ValueError):
        return "!"


for line in sys.stdin:
    chapter, *fields = line.rstrip("\n").split("\t")
    print(answer_to(chapter, *map(text_of, fields)) if chapter in ANSWERS else "?")
