"""The codes of errors, and the exception that has them. See uriparse.h."""
from __future__ import annotations

import enum
from typing import Any, Dict, Literal, Optional, Tuple, Union

Component = Literal["scheme", "authority", "username", "password", "host", "port", "path", "query", "fragment"]

NO_ROOM = 2
IN_BASE = 0x100


class Code(enum.IntEnum):
    """The codes of uriparse.h, by their names there. Another number is a code without a name."""

    # codes.tsv: codes
    OK = 0
    OUT_OF_MEMORY = 1
    NO_ROOM = 2
    NO_SCHEME = 3
    COLON_IN_SEGMENT = 4
    TOO_MANY_SEGMENTS = 5
    TWO_SLASHES = 6
    NO_COMPONENT = 8
    NO_ORIGIN = 10
    MISSING_HOST = 11
    BAD_CHANGE = 12
    BAD_NAMES = 13
    NO_PAIRS = 14
    NO_ADDRESS = 15
    USERNAME_COLON = 0x10
    USERNAME_BYTE = 0x11
    USERNAME_ESCAPE = 0x12
    PASSWORD_BYTE = 0x21
    PASSWORD_ESCAPE = 0x22
    HOST_BYTE = 0x31
    HOST_IPV6_BYTE = 0x32
    HOST_IPV6_FORM = 0x33
    HOST_FUTURE_BYTE = 0x34
    HOST_FUTURE_FORM = 0x35
    PORT_BYTE = 0x41
    PORT_RANGE = 0x42
    PATH_BYTE = 0x51
    PATH_ESCAPE = 0x52
    QUERY_BYTE = 0x61
    QUERY_ESCAPE = 0x62
    FRAGMENT_BYTE = 0x71
    FRAGMENT_ESCAPE = 0x72
    SCHEME_EMPTY = 0x80
    SCHEME_BYTE = 0x81
    SCHEME_LETTER = 0x82
    KEY_FLAGS = 0x90
    NO_TARGET = 0x91
    # codes.tsv: end

    @classmethod
    def _missing_(cls, value: object) -> Optional[Code]:
        if not isinstance(value, int):
            return None
        made = int.__new__(cls, value)
        made._name_ = "CODE_%#x" % value
        made._value_ = value
        return made


# The component that an error is about, by the upper digit of its code, or by the code.
_COMPONENTS_OF_DIGITS: Dict[int, Component] = {
    1: "username", 2: "password", 3: "host", 4: "port", 5: "path", 6: "query", 7: "fragment", 8: "scheme"}
# codes.tsv: components
_COMPONENTS_OF_CODES: Dict[int, Component] = {
    Code.NO_SCHEME: "scheme", Code.COLON_IN_SEGMENT: "path", Code.TOO_MANY_SEGMENTS: "path", Code.TWO_SLASHES: "path",
    Code.MISSING_HOST: "host", Code.BAD_NAMES: "query", Code.NO_PAIRS: "query", Code.NO_TARGET: "path"}

# The errors that no byte has: what is missing, or what is wrong of several components together.
_UNPLACED = (Code.OUT_OF_MEMORY, Code.NO_ROOM, Code.NO_SCHEME, Code.TOO_MANY_SEGMENTS, Code.TWO_SLASHES,
             Code.NO_COMPONENT, Code.NO_ORIGIN, Code.MISSING_HOST, Code.BAD_CHANGE, Code.NO_PAIRS, Code.NO_ADDRESS,
             Code.SCHEME_EMPTY, Code.KEY_FLAGS, Code.NO_TARGET)
# codes.tsv: end

_ERROR_TEXTS = {
    # codes.tsv: words
    0: "no error",
    1: "out of memory",
    2: "buffer too small",
    3: "not URI",
    4: "schemeless path URI reference starts with colon segment",
    5: "exceeded maximum path length",
    6: "absolute path URI reference starts with two slashes",
    8: "no component has this number",
    10: "the reference has no origin",
    11: "user name, password or port without a host",
    12: "a change without a meaning",
    13: "invalid names of pairs",
    14: "no pair of the query is left",
    15: "the host is no IP address",
    0x10: "username contains a colon character",
    0x11: "invalid username character",
    0x12: "invalid username percent encoding",
    0x21: "invalid password character",
    0x22: "invalid password percent encoding",
    0x31: "invalid host IPv4 or registered name character",
    0x32: "invalid host IPv6 character",
    0x33: "invalid host IPv6 format",
    0x34: "invalid host IPvFuture character",
    0x35: "invalid host IPvFuture format",
    0x41: "invalid port character",
    0x42: "port overflow",
    0x51: "invalid path character",
    0x52: "invalid path percent encoding",
    0x61: "invalid query character",
    0x62: "invalid query percent encoding",
    0x71: "invalid fragment character",
    0x72: "invalid fragment percent encoding",
    0x80: "scheme is empty",
    0x81: "invalid scheme character",
    0x82: "scheme starts with non-alphabetic character",
    0x90: "no key has these flags",
    0x91: "the path is in no target of a request",
    # codes.tsv: end
}


def error_text(code: int) -> str:
    """What a code means, in English."""
    return _ERROR_TEXTS.get(code & ~IN_BASE, "unknown code")


def _message(code: int, place: int, argument: str) -> str:
    """What is wrong, and where; not the text, which may have a password."""
    why = code & ~IN_BASE
    whose = argument + ": " if code & IN_BASE else ""
    is_unplaced = why in _UNPLACED or (why == Code.COLON_IN_SEGMENT and argument in ("path", "change"))
    where = "first wrong byte %d: " % place if place or not is_unplaced else ""
    return whose + where + error_text(code)


class URIError(ValueError):
    """A text is rejected, with a code of uriparse.h: what is wrong, and how many bytes of it, or characters of a str, precede it.

    The place is 0 if the text isn't wrong by itself: a base without a scheme, a target with too many segments, or a path that `replace`
    can't put beside the other components. The message has no part of the text."""

    code: int
    text: Union[str, bytes]
    place: int
    argument: str

    def __init__(self, code: int, text: Union[str, bytes], place: int = 0, argument: str = "text"):
        self.code = code
        self.text = text
        self.place = place
        self.argument = argument
        super().__init__(_message(code, place, argument))

    def __reduce__(self) -> Tuple[Any, ...]:
        return type(self), (self.code, self.text, self.place, self.argument), self.__dict__

    @property
    def reason(self) -> Code:
        """The code without IN_BASE."""
        return Code(self.code & ~IN_BASE)

    @property
    def component(self) -> Optional[Component]:
        """The component that is wrong or missing."""
        why = self.code & ~IN_BASE
        return _COMPONENTS_OF_DIGITS.get(why >> 4) or _COMPONENTS_OF_CODES.get(why)
