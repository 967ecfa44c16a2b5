"""Calls with any arguments, by position and by name: each returns or raises TypeError, ValueError, BufferError or OverflowError, or what an
argument raises by itself. `test_arguments.py [COUNT of calls] [SEED]`. The last line has the counts."""
from __future__ import annotations

import array
import inspect
import mmap
import random
import sys

import uriparse
from uriparse import _uriparse

PLACES = mmap.mmap(-1, 4096)
RELEASED = memoryview(b"a")
RELEASED.release()


class Mine(Exception):
    pass


class Str(str):
    def __str__(self):
        raise Mine

    __len__ = __eq__ = __hash__ = __getitem__ = encode = __str__


class Bytes(bytes):
    def __len__(self):
        return -1

    def __bytes__(self):
        raise Mine

    __getitem__ = __iter__ = __bytes__


class Index:
    def __index__(self):
        raise Mine

    __iter__ = __bool__ = __len__ = __index__


class Uri(uriparse.URI):
    def __str__(self):
        raise Mine

    __hash__ = None
    host = "x"

    def __eq__(self, other):
        raise Mine


def raising(some):
    yield from some
    raise Mine


def reentrant():
    """An iterator that calls the functions that read it, and changes what it has given."""
    text = bytearray(b"http://h/a")
    for _ in range(3):
        yield text
        del text[3:]
        text += b"//x" * 50
        yield uriparse.normalize_many([bytes(text)])[0] or b"a"


def some_argument(draw):
    text = "".join(draw.choices("ah:/?#[]@%41&=*.\u00e9\ud800\U0001f600\0 ", k=draw.choice((0, 1, 3, 8, 3000))))
    data = text.encode("utf-8", "surrogatepass")
    return draw.choice([
        lambda: text, lambda: data, lambda: "http://h/" + "a" * 9, lambda: b"s:a", lambda: uriparse.URI("http://u:p@h:80/a?a=1&b#c"), lambda: Uri("s:a"),
        lambda: Str(text), lambda: Bytes(data), lambda: bytearray(data), lambda: memoryview(data), lambda: memoryview(data)[::2],
        lambda: memoryview(b"abcdefgh").cast("B", (2, 4)), lambda: memoryview(b"abcdefgh").cast("H"), lambda: RELEASED,
        lambda: array.array("b", b"s:a"), lambda: array.array("w" if sys.version_info >= (3, 13) else "u", "ab"), lambda: PLACES, lambda: None, lambda: True, lambda: 5, lambda: -1, lambda: 1 << 200,
        lambda: 5.0, lambda: object(), lambda: Index(), lambda: [text, "b"], lambda: [data, b"a"], lambda: (text, data), lambda: raising([text]),
        lambda: reentrant(), lambda: uriparse.parse("//h:8/a"), lambda: uriparse.URI, lambda: {text: 1}, lambda: Ellipsis])()


CALLS = [getattr(uriparse, name) for name in uriparse.__all__ if callable(getattr(uriparse, name)) and getattr(uriparse, name).__module__ != "typing"]
CALLS += [getattr(_uriparse, name) for name in dir(_uriparse) if name[0] != "_" and name != "use"]
URIS = [uriparse.URI(text) for text in ("http://u:p@h:80/a?a=1&b#c", "a", "s:a/../b")]
CALLS += [getattr(uri, name) for uri in URIS for name in dir(uri) if callable(getattr(uri, name)) and (
    name[0] != "_" or name in ("__truediv__", "__eq__", "__lt__", "__ge__", "__hash__", "__str__", "__repr__", "__reduce__"))]
NAMES = ("text", "uri", "base", "reference", "left", "right", "domain", "domains", "name", "names", "value", "query", "data", "component", "errors", "host", "port",
         "path", "texts", "references", "is_raising", "scheme", "segment", "other", "")


def parameters(call):
    """The names of the arguments that a call must have."""
    try:
        found = inspect.signature(call).parameters.values()
    except ValueError:
        return []
    return [one.name for one in found if one.default is one.empty and one.kind in (one.POSITIONAL_ONLY, one.POSITIONAL_OR_KEYWORD)]


def fitting(draw, name):
    """An argument that a parameter of this name is likely to accept."""
    if name == "component":
        return draw.choice((*uriparse.COMPONENTS, *uriparse.ENCODED, 0, 3, 8, 0x90, 0x50, 1 << 40))
    if name in ("texts", "references"):
        return [some_argument(draw) for _ in range(draw.choice((1, 2, 30)))] if draw.random() < 0.3 else ["http://h/%d" % number for number in range(2000)]
    return draw.choice(("http://h/a?b=c#d", "a%7e", "?a=1&b", "h", "", "%", "a b"))


def some_call(draw):
    call = draw.choice(CALLS)
    if draw.random() < 0.6:
        names = parameters(call)
        return call(*(some_argument(draw) if draw.random() < 0.2 else fitting(draw, name) for name in names))
    arguments = [some_argument(draw) for _ in range(draw.choice((0, 1, 1, 1, 2, 2, 2, 3, 4, 9)))]
    named = {name: some_argument(draw) for name in draw.sample(NAMES, draw.choice((0, 0, 0, 0, 1, 2)))}
    return call(*arguments, **named)


def main():
    count = int(sys.argv[1]) if len(sys.argv) > 1 else 100_000
    draw = random.Random(int(sys.argv[2]) if len(sys.argv) > 2 else 1)
    returned = 0
    for _ in range(count):
        try:
            some_call(draw)
            returned += 1
        except (TypeError, ValueError, BufferError, OverflowError, Mine):
            pass
    assert uriparse.normalize("HTTP://H/%7e") == "http://h/~" and str(uriparse.URI("s:a").resolve("b")) == "s:b"
    print("%d calls, %d of which returned" % (count, returned))


main()
