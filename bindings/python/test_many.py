"""The calls of many texts beside one call for each: on random texts, as many as an argument says (20,000 without one), on long
ones, and in threads. The last line has the counts."""
from __future__ import annotations

import dataclasses
import random
import sys
from concurrent.futures import ThreadPoolExecutor
from typing import Any, Callable, List, Optional

import fuzz

import uriparse


def one(call: Callable[..., Any], *arguments: Any) -> Any:
    """What a call of one text returns, or None if it is rejected."""
    try:
        return call(*arguments)
    except uriparse.URIError:
        return None


def raised(call: Callable[..., Any], *arguments: Any, **named: Any) -> Exception:
    try:
        call(*arguments, **named)
    except Exception as error:
        return error
    raise AssertionError(arguments)


def part(component: str, text: bytes) -> Optional[bytes]:
    found = one(uriparse.parse, text)
    return found and getattr(found, component)


def compare(texts: List[bytes], base: bytes) -> None:
    assert uriparse.normalize_many(texts) == [one(uriparse.normalize, text) for text in texts]
    assert uriparse.resolve_many(base, iter(texts)) == [one(uriparse.resolve, base, text) for text in texts]
    assert uriparse.relativize_many(base, texts) == [one(uriparse.relativize, base, text) for text in texts]
    assert uriparse.is_within_many(texts, base) == [one(uriparse.is_within, text, base) for text in texts]
    assert uriparse.host_is_within_many(texts, b"h") == [one(uriparse.host_is_within, text, b"h") for text in texts]
    for found, text in zip(uriparse.parse_many(texts), texts):
        wanted = one(uriparse.parse, text)
        assert (found and dataclasses.asdict(found)) == (wanted and dataclasses.asdict(wanted)), text
    for component in uriparse.COMPONENTS:
        assert uriparse.get_many(component, texts) == [part(component, text) for text in texts], component
    assert uriparse.get_many("host_kind", texts) == [part("host_kind", text) for text in texts]
    assert uriparse.pair_many(texts, b"a") == [one(uriparse.pair, text, b"a") for text in texts]
    assert uriparse.without_pairs_many(texts, b"a", b"b*") == [one(uriparse.without_pairs, text, b"a", b"b*") for text in texts]
    assert uriparse.escape_many(texts) == [uriparse.escape(text) for text in texts]
    strings = [text.decode("latin-1") for text in texts]
    assert uriparse.normalize_many(strings) == [one(uriparse.normalize, text) for text in strings]
    assert uriparse.resolve_many(base.decode(), strings) == [one(uriparse.resolve, base.decode(), text) for text in strings]
    assert uriparse.relativize_many(base.decode(), strings) == [one(uriparse.relativize, base.decode(), text) for text in strings]
    assert uriparse.is_within_many(strings, base.decode()) == [one(uriparse.is_within, text, base.decode()) for text in strings]
    assert uriparse.host_is_within_many(strings, "h") == [one(uriparse.host_is_within, text, "h") for text in strings]
    assert uriparse.get_many("host_kind", strings) == [part("host_kind", text) for text in texts]
    assert uriparse.without_pairs_many(strings, "a", "b*") == [one(uriparse.without_pairs, text, "a", "b*") for text in strings]
    assert uriparse.escape_many(strings) == [uriparse.escape(text) for text in strings]
    assert uriparse.get_many("path", strings) == [part("path", text) for text in strings]


def test_sizes() -> None:
    """Of no text, of lists about as long as a buffer, and of results that have no room at first."""
    compare([], b"s:")
    for count in (1, 4095, 4096, 4097, 8192):
        compare([b"HTTP://h:080/%%7e%d" % number for number in range(count)], b"s:")
    long = b"A" * 700_000
    compare([b"", long + b":", b"%", b"/" + long, b"a b", b"?" + long, b""], b"s://" + b"%7e" * 100_000 + b"/")
    # The targets need several buffers, and the last text needs one of its own.
    texts = [b"g%d" % number for number in range(500)] + [b"%", b"", b"t:" + b"x" * 9_000_000]
    compare(texts, b"s://h/" + b"y" * 100_000 + b"/")
    # IPv6 addresses may be longer as RFC 5952 writes them, and an empty path becomes "/".
    compare([b"//h", b"//[::1:2:3:4:5:6:7]"] * 3000, b"s:")


def test_errors() -> None:
    texts = [b"a", b"b c", b"%"]
    assert uriparse.normalize_many(texts) == [b"a", None, None]
    assert uriparse.normalize_many([b"A:"], errors="raise") == [b"a:"]
    base = b"s:"
    for error in (raised(uriparse.normalize_many, texts, errors="raise"), raised(uriparse.parse_many, texts, errors="raise"),
                  raised(uriparse.resolve_many, base, texts, errors="raise"),
                  raised(uriparse.host_is_within_many, texts, b"h", errors="raise"),
                  raised(uriparse.get_many, "host", texts, errors="raise")):
        assert isinstance(error, uriparse.URIError) and (error.code, error.place, error.text) == (0x51, 1, b"b c"), error
    for wrong, code in ((b"/a", 0x103), (b"s:%", 0x152)):
        error = raised(uriparse.resolve_many, wrong, [])
        assert isinstance(error, uriparse.URIError) and (error.code, error.text) == (code, wrong), error
    for call in (uriparse.relativize_many, lambda base, uris: uriparse.is_within_many(uris, base)):
        error = raised(call, b"s:%", [])
        assert isinstance(error, uriparse.URIError) and (error.code, error.argument) == (0x152, "base"), error
    for first in (["s:", "s:%"], ["s:", b"s:"]):
        one_error, many_error = raised(uriparse.is_within, first[1], "s:"), raised(uriparse.is_within_many, first, "s:", errors="raise")
        assert type(one_error) is type(many_error) and str(one_error) == str(many_error), many_error
    error = raised(uriparse.relativize_many, "s:", ["s:", "a"], errors="raise")
    assert isinstance(error, uriparse.URIError) and (error.code, error.argument) == (uriparse.Code.NO_SCHEME, "uri"), error
    error = raised(uriparse.host_is_within_many, [], "a:1")
    assert isinstance(error, uriparse.URIError) and (error.argument, error.place) == ("domain", 1), error
    assert uriparse.is_within_many(["s://h/a/b", "s://h/b", "%"], "s://h/a/") == [True, False, None]
    assert uriparse.host_is_within_many(["//a.h", "//ah", "//"], "h") == [True, False, False]
    assert str(raised(uriparse.get_many, "hosts", [])) == (
        "no component 'hosts': it is one of scheme, authority, username, password, host, port, path, query, fragment, host_kind")
    test_pairs()
    for call in (uriparse.normalize_many, uriparse.parse_many):
        assert str(raised(call, texts, errors="ignore")) == "no errors 'ignore': it is one of none, raise"
        for other in (5, None, [97], memoryview(b"abcd").cast("I")):
            error = raised(call, [b"a", other])
            assert type(error) is TypeError and str(error).startswith("str or bytes expected, not "), other
        assert str(raised(call, [b"a", "a"])) == "str and bytes can't be mixed"
    assert uriparse.normalize_many([bytearray(b"%7e"), memoryview(b"--%7e")[2:]]) == [b"~", b"~"]


def test_pairs() -> None:
    """Values of pairs, references without pairs, and their errors."""
    assert uriparse.pair_many(["?a=%26&b", "?a", "?b=1", "a", "%", "?5=x&%61=1"], "a") == ["&", "", None, None, None, "1"]
    assert uriparse.pair_many([b"?5=%FF"], b"5") == [b"\xff"] and uriparse.pair_many(["?5=x"], 5) == ["x"]
    assert uriparse.pair_many(["?a", "b"], "a", errors="raise") == ["", None]
    assert type(raised(uriparse.pair_many, ["?a=%FF"], "a")) is UnicodeDecodeError
    texts = ["http://h/?utm_id=1&q=%2f#f", "?gclid", "a#f", "?", "%"]
    assert uriparse.without_pairs_many(texts, "utm_*", "gclid") == ["http://h/?q=%2f#f", "", "a#f", "?", None]
    for error in (raised(uriparse.pair_many, ["a", "b c"], "a", errors="raise"), raised(uriparse.without_pairs_many, ["a", "b c"], "a", errors="raise")):
        assert isinstance(error, uriparse.URIError) and (error.code, error.place, error.text, error.argument) == (0x51, 1, "b c", "text"), error
    error = raised(uriparse.without_pairs_many, [], "a", "b#")
    assert isinstance(error, uriparse.URIError) and (error.code, error.argument) == (uriparse.Code.BAD_NAMES, "names"), error
    error = raised(uriparse.pair_many, [], "\ud800")
    assert isinstance(error, uriparse.URIError) and error.argument == "name", error
    assert type(raised(uriparse.without_pairs_many, ["a"])) is TypeError and type(raised(uriparse.pair_many, ["a"], b"a")) is TypeError
    assert uriparse.escape_many(["a b", "\u00fc%"]) == ["a%20b", "%C3%BC%25"] and type(raised(uriparse.escape_many, ["\ud800"])) is UnicodeEncodeError
    assert uriparse.get_many("host_kind", ["//h", "//1.2.3.4", "//[::1]", "//[v1.a]", "a", "%"]) == ["name", "ipv4", "ipv6", "ipvfuture", None, None]


def test_threads(texts: List[bytes]) -> None:
    wanted = uriparse.normalize_many(texts)
    with ThreadPoolExecutor(4) as pool:
        assert all(found == wanted for found in pool.map(uriparse.normalize_many, [texts] * 12))


def main() -> None:
    count = int(sys.argv[1]) if len(sys.argv) > 1 else 20_000
    draw = random.Random(5)
    texts = [fuzz.some_text(draw) for _ in range(count)]
    test_sizes()
    test_errors()
    compare(texts, b"http://a/b/c/d;p?q")
    test_threads(texts)
    print("%d random texts, %d of them rejected" % (count, uriparse.normalize_many(texts).count(None)))


main()
