"""The calls from Python, and the package's parts. An argument is the header, which is compared with the package.

The status is 0 if each answer is right."""
from __future__ import annotations

import copy
import dataclasses
import http
import inspect
import ipaddress
import os
import pickle
import re
import sys
import traceback
import tracemalloc
import weakref
from concurrent.futures import ProcessPoolExecutor
from typing import Any, Callable, Dict, List, Optional

import uriparse


def raised(call: Callable[..., object], *arguments: Any) -> Exception:
    try:
        call(*arguments)
    except Exception as error:
        return error
    raise AssertionError(arguments)


def rejects(code: int, place: int, text: bytes, call: Callable[..., object], *arguments: Any) -> None:
    error = raised(call, *arguments)
    assert isinstance(error, uriparse.URIError), error
    assert (error.code, error.place, error.text) == (code, place, text), error


def rejects_str(code: int, place: int, text: str, argument: str, call: Callable[..., object], *arguments: Any) -> None:
    error = raised(call, *arguments)
    assert isinstance(error, uriparse.URIError), error
    assert (error.code, error.place, error.text, error.argument) == (code, place, text, argument), (error, vars(error))


def test_calls() -> None:
    assert uriparse.is_uri(b"a:b") and not uriparse.is_uri(b"a")
    assert uriparse.equal(b"a%7e", b"a~") and not uriparse.equal(b"a", b"b")
    assert uriparse.hash_of(b"a%7e") == uriparse.hash_of(b"a~")
    assert uriparse.normalize(b"HTTP://H/%7e/../x") == b"http://h/x"
    assert uriparse.resolve(b"http://a/b/c", b"../g#s") == b"http://a/g#s"
    assert uriparse.relativize(b"http://a/b/c", b"http://a/g#s") == b"../g#s" and uriparse.relativize(b"s:a", b"s:a") == b""
    assert uriparse.decode(b"a%20b%00+") == b"a b\0+" and uriparse.decode(b"") == b""
    assert uriparse.encode("segment", b"a/b c") == b"a%2Fb%20c" and uriparse.encode("query", b"") == b""
    assert [uriparse.encode(name, b":/") for name in uriparse.ENCODED] == [b"%3A%2F", b":%2F", b":%2F", b":/", b":/", b":/"]
    assert uriparse.escape("http://h/a b?\u00fc%".encode()) == b"http://h/a%20b?%C3%BC%25"
    assert uriparse.origin(b"HTTPS://u@H:443/a") == b"https://h" and uriparse.origin(b"http://h:1") == b"http://h:1"
    assert uriparse.origin(b"http://%31.2.3.4") == uriparse.origin(b"http://1.2.3.4") == b"http://1.2.3.4"
    assert uriparse.pairs(b"a=1&b=&c&&=d") == [(b"a", b"1"), (b"b", b""), (b"c", None), (b"", None), (b"", b"d")]
    assert uriparse.pairs(b"") == [(b"", None)] and uriparse.pairs(b"a%26=b=c+d#") == [(b"a%26", b"b=c+d#")]
    assert uriparse.first_fault(b"/a%4") == (0x52, 2) and uriparse.first_fault(b"/a") is None


def test_rejected() -> None:
    rejects(0x52, 1, b"/%", uriparse.parse, b"/%")
    rejects(0x61, 1, b"a b", uriparse.decode, b"a b")
    rejects(0x61, 1, b"a#%", uriparse.decode, b"a#%")
    rejects(0x62, 0, b"%2", uriparse.decode, b"%2")
    rejects(0x51, 1, b"a b", uriparse.equal, b"c", b"a b")
    rejects(0x51, 1, b"a b", uriparse.resolve, b"s:", b"a b")
    rejects(0x152, 2, b"s:%", uriparse.resolve, b"s:%", b"%")
    rejects(0x103, 0, b"/a", uriparse.resolve, b"/a", b"b")
    rejects(0x51, 3, b"s:a b", uriparse.relativize, b"s:", b"s:a b")
    rejects(0x152, 2, b"s:%", uriparse.relativize, b"s:%", b"%")
    rejects(3, 0, b"/a", uriparse.relativize, b"s:", b"/a")
    rejects(0x103, 0, b"/a", uriparse.relativize, b"/a", b"b")
    for text in (b"file:///a", b"http:///a", b"http://", b"https://u@:443/a", b"/a"):
        assert uriparse.origin(text) is None and uriparse.origin(text.decode()) is None, text
    rejects(0x51, 9, b"http://h/ ", uriparse.origin, b"http://h/ ")


def test_components() -> None:
    found = uriparse.parse(b"http://u@h:80/a?q#")
    assert found == {"scheme": b"http", "authority": b"u@h:80", "username": b"u", "host": b"h", "port": b"80", "path": b"/a",
                     "query": b"q", "fragment": b""}
    assert (found.host, found["host"], found.get("password"), found.password) == (b"h", b"h", None, None)
    assert "password" not in found and "host_kind" not in found and len(found) == 8
    assert isinstance(raised(found.__getitem__, "password"), KeyError)
    assert isinstance(raised(setattr, found, "host", b"i"), AttributeError)
    assert pickle.loads(pickle.dumps(found)) == found == copy.deepcopy(found) and len({found, copy.copy(found)}) == 1
    assert uriparse.parse(b"") == {"path": b""} and uriparse.spans(b"//[v1.x]").host_kind == 7
    assert (found.host_kind, found.port_number) == ("name", 80)
    kinds = {b"//1.2.3.4:": "ipv4", b"//[::1]": "ipv6", b"//[v1.x]": "ipvfuture", b"//": "name", b"a": None}
    for text, kind in kinds.items():
        assert (uriparse.parse(text).host_kind, uriparse.parse(text).port_number) == (kind, None), text


def test_messages() -> None:
    """What is wrong and where, without the text, which may have a password."""
    assert str(raised(uriparse.parse, b"http://h/a b")) == "first wrong byte 10: invalid path character"
    assert str(raised(uriparse.resolve, b"/a", b"")) == "base: not URI"
    assert str(raised(uriparse.resolve, b"s:%", b"")) == "base: first wrong byte 2: invalid path percent encoding"
    assert str(raised(uriparse.resolve, b"s://h/a/" + b"/" * 600_000, b"a" + b"/" * 600_000)) == "exceeded maximum path length"
    assert str(raised(uriparse.host_is_within, "//h", "h:80")) == "domain: first wrong byte 1: invalid host IPv4 or registered name character"
    for text in ("https://user:s3cret@h/a b", "https://user:s3cret %@h/"):
        error = raised(uriparse.URI, text)
        assert isinstance(error, uriparse.URIError) and error.text == text
        shown = "".join(traceback.format_exception_only(type(error), error)) + repr(error) + str(error.args)
        assert "s3cret" not in shown and "user:" not in shown, shown
    assert uriparse.error_text(0x1FF) == "unknown code"
    unknown = uriparse.URIError(0x9F, "a").reason
    assert isinstance(unknown, uriparse.Code) and unknown == 0x9F and unknown.name == "CODE_0x9f"


def test_copied_errors() -> None:
    error = raised(uriparse.resolve, b"s:%", b"")
    setattr(error, "note", "kept")
    copies = [copy.copy(error), copy.deepcopy(error)]
    copies += [pickle.loads(pickle.dumps(error, protocol)) for protocol in range(pickle.HIGHEST_PROTOCOL + 1)]
    for other in copies:
        assert type(other) is uriparse.URIError and vars(other) == vars(error), other
        assert (str(other), other.args) == (str(error), error.args), other


def test_pool() -> None:
    """Of four processes: the error of one text comes back, and the pool does the others."""
    texts = [b"HTTP://h/%d" % number for number in range(40)]
    texts[7] = b"http://h/a b"
    with ProcessPoolExecutor(4) as pool:
        done = [pool.submit(uriparse.normalize, text) for text in texts]
        error = done[7].exception(timeout=60)
        assert isinstance(error, uriparse.URIError)
        assert (error.code, error.place, error.text) == (0x51, 10, b"http://h/a b"), error
        for number, future in enumerate(done):
            assert number == 7 or future.result(timeout=60) == b"http://h/%d" % number
        assert pool.submit(uriparse.is_uri, b"a:").result(timeout=60)


def test_buffers() -> None:
    for text in (b"", b"a", b"HTTP://h:80/%7e?q", b"http://h/a b"):
        for other in (bytearray(text), memoryview(text), memoryview(bytearray(b"--" + text + b"--"))[2:-2]):
            assert uriparse.is_uri(other) == uriparse.is_uri(text) and uriparse.first_fault(other) == uriparse.first_fault(text)
            assert uriparse.escape(other) == uriparse.escape(text)
            assert uriparse.encode("query", other) == uriparse.encode("query", text)
            assert uriparse.pairs(other) == uriparse.pairs(text) == [(text, None)]
            if uriparse.first_fault(text):
                rejects(0x51, 10, text, uriparse.parse, other)
                continue
            assert uriparse.parse(other) == uriparse.parse(text) and uriparse.normalize(other) == uriparse.normalize(text)
            assert uriparse.resolve(b"s:", other) == uriparse.resolve(b"s:", text) and uriparse.equal(other, text)
            assert uriparse.hash_of(other) == uriparse.hash_of(text) and uriparse.decode(other) == uriparse.decode(text)
    rejects(0x62, 0, b"%2", uriparse.decode, bytearray(b"%2"))
    rejects(0x103, 0, b"/a", uriparse.resolve, bytearray(b"/a"), memoryview(b"b"))


def test_many() -> None:
    """test_many.py has more."""
    texts = [b"HTTP://h:80/%7e", b"a b", b"//1.2.3.4"]
    normal: List[Optional[bytes]] = uriparse.normalize_many(texts)
    assert normal == [b"http://h:80/~", None, b"//1.2.3.4/"]
    raising: List[bytes] = uriparse.resolve_many(b"s:", texts[::2], errors="raise")
    assert raising == [b"http://h:80/%7e", b"s://1.2.3.4/"]
    assert uriparse.get_many("port", texts) == [b"80", None, None]
    found = uriparse.parse_many(text for text in texts)
    assert found == [uriparse.parse(texts[0]), None, uriparse.parse(texts[2])]
    whole: List[uriparse.Components[bytes]] = uriparse.parse_many(texts[:1], errors="raise")
    assert dataclasses.asdict(whole[0]) == dataclasses.asdict(uriparse.parse(texts[0]))
    rejects(0x51, 1, b"a b", uriparse.normalize_many, texts, "raise")


def test_no_copy() -> None:
    long = bytearray(b"http://h/" + b"a" * 10_000_000)
    for text in (long, memoryview(long), memoryview(bytes(long))):
        tracemalloc.start()
        assert uriparse.is_uri(text) and uriparse.first_fault(text) is None and uriparse.equal(text, text)
        peak = tracemalloc.get_traced_memory()[1]
        tracemalloc.stop()
        assert peak < 100_000, peak


def test_released() -> None:
    """A bytearray is free to change after each call, also while an error is handled."""
    text = bytearray(b"a b")
    for other in (b"c", "c"):
        try:
            uriparse.equal(text, other)  # type: ignore[call-overload]
        except (uriparse.URIError, TypeError):
            text += b" "
    assert text == b"a b  "


def test_wrong_types() -> None:
    mixed: List[Callable[..., object]] = [uriparse.equal, uriparse.resolve, uriparse.relativize]
    for call in mixed:
        for texts in (("s:", b"s:"), (b"s:", "s:"), (bytearray(b"s:"), "s:"), ("s:", memoryview(b"s:"))):
            error = raised(call, *texts)
            assert type(error) is TypeError and str(error) == "str and bytes can't be mixed", error
        for some in (("s:", None), (None, "s:"), (b"s:", None), (None, b"s:"), (None, None)):
            error = raised(call, *some)
            assert type(error) is TypeError and str(error) == "str or bytes expected, not None", (some, error)
    single: List[Callable[..., object]] = [
        uriparse.parse, uriparse.spans, uriparse.first_fault, uriparse.is_uri, uriparse.hash_of, uriparse.normalize,
        uriparse.origin, uriparse.pairs, uriparse.decode, uriparse.form_decode, uriparse.escape, uriparse.trim_link, uriparse.is_normalized,
        uriparse.key, uriparse.normal_key, uriparse.page_key, uriparse.place_key, uriparse.domain_prefix, uriparse.base_prefix,
        uriparse.is_public, uriparse.segments, uriparse.without_default_port, uriparse.mask_password, uriparse.request_target,
        uriparse.is_ambiguous, uriparse.port_or_default, uriparse.host_address, lambda data: uriparse.encode("query", data)]
    for call in single:
        for other, name in ((None, "None"), (5, "int"), ([97], "list"), (memoryview(b"abcd").cast("I"), "memoryview")):
            if other is None and call is uriparse.pairs:
                continue
            error = raised(call, other)
            assert type(error) is TypeError and str(error) == "str or bytes expected, not " + name, (call, other, error)
    for other in (None, 5, [97], memoryview(b"abcd").cast("I"), memoryview(b"abcd").cast("B", (2, 2))):
        assert type(raised(uriparse.normalize, other)) is TypeError, other
    gaps = memoryview(b"abcd")[::2]
    takers: List[Callable[..., object]] = [
        uriparse.normalize, lambda text: uriparse.normalize_many([text]), lambda text: uriparse.replace(b"//h", path=text),
        lambda text: uriparse.with_pair(b"?", b"a", text), lambda text: uriparse.resolve(b"s:", text)]
    for call in takers:
        assert type(raised(call, gaps)) is BufferError
    error = raised(lambda: uriparse.encode("host", b""))  # type: ignore[call-overload]
    assert type(error) is ValueError
    assert str(error) == "no component 'host': it is one of username, password, segment, query, fragment, pair", error


def test_str() -> None:
    """A call of str returns what the call of its bytes returns, as str."""
    assert uriparse.is_uri("a:b") and not uriparse.is_uri("a") and not uriparse.is_uri("a:\u00e9")
    assert uriparse.equal("a%7e", "a~") and uriparse.hash_of("a%7e") == uriparse.hash_of(b"a~")
    assert uriparse.normalize("HTTP://H/%7e/../x") == "http://h/x"
    assert uriparse.resolve("http://a/b/c", "../g#s") == "http://a/g#s"
    assert uriparse.relativize("http://a/b/c", "http://a/g#s") == "../g#s"
    assert uriparse.origin("HTTPS://u@H:443/a") == "https://h"
    assert uriparse.escape("http://h/a b?\u00fc%\U0001f600") == "http://h/a%20b?%C3%BC%25%F0%9F%98%80"
    assert uriparse.encode("segment", "a/b \u00fc") == "a%2Fb%20%C3%BC" and uriparse.decode("a%20%c3%bC+") == "a \u00fc+"
    assert type(raised(uriparse.decode, "%FF")) is UnicodeDecodeError and uriparse.decode(b"%FF") == b"\xff"
    assert uriparse.form_decode("a+%2B%c3%bC") == "a +\u00fc" and uriparse.form_decode(b"+%ff") == b" \xff"
    assert type(raised(uriparse.form_decode, "%FF")) is UnicodeDecodeError
    assert uriparse.trim_link(" <URL:http://h/\u00fc>\n") == "http://h/\u00fc" and uriparse.trim_link(bytearray(b"\xff ")) == b"\xff"
    assert uriparse.pair_values("?a=1&\u0061=%C3%BC&a&b", "a") == ["1", "\u00fc", ""] == uriparse.URI("?a=1&%61=%C3%BC&a&b").pair_values("a")
    assert uriparse.pair_values(b"?5=%FF", 5) == [b"\xff"] and uriparse.pair_values("a", "a") == []
    assert type(raised(uriparse.pair_values, "?a=1&a=%FF", "a")) is UnicodeDecodeError
    assert uriparse.segments("/a%2F\u00fc//") == ["a%2F\u00fc", "", ""] and uriparse.segments(b"a/%ff") == [b"a", b"%ff"]
    assert uriparse.segments("") == [""] == uriparse.segments("/") and uriparse.URI("//h/a//?b/c").segments() == ["a", "", ""]
    assert uriparse.without_default_port("HTTP://H:080/%7e") == "HTTP://H/%7e" and uriparse.without_default_port(b"//h:80") == b"//h:80"
    assert str(uriparse.URI("https://h:443").without_default_port()) == "https://h" and uriparse.mask_password(b"//u:p@h") == b"//u:***@h"
    assert uriparse.request_target("http://h//a?b#c") == "//a?b" == uriparse.URI("http://h//a?b#c").request_target() and uriparse.request_target(b"//h") == b"/"
    assert uriparse.request_target("mailto:a") is None is uriparse.URI("a").request_target()
    assert uriparse.mask_password("ftp://u:secret@h/%7e") == "ftp://u:***@h/%7e" == str(uriparse.URI("ftp://u:secret@h/%7e").mask_password())
    assert uriparse.pairs("a=1&\u00fc=&c") == [("a", "1"), ("\u00fc", ""), ("c", None)] and uriparse.pairs("") == [("", None)]
    assert uriparse.first_fault("/a%4") == (0x52, 2) and uriparse.first_fault("/a") is None and uriparse.first_fault("a\u00fc") == (0x51, 1)
    found = uriparse.parse("http://u@h:80/a?q#")
    host: Optional[str] = found.host
    assert (host, found.path, found.fragment, found.host_kind, found.port_number) == ("h", "/a", "", "name", 80)
    assert uriparse.spans("//h").host.begin == 2
    many: List[Optional[str]] = uriparse.normalize_many(["HTTP://h:80/%7e", "a b", "\u00fc", "\ud800", "//1.2.3.4"])
    assert many == ["http://h:80/~", None, None, None, "//1.2.3.4/"]
    assert uriparse.resolve_many("s:", ["a", "//h"], errors="raise") == ["s:a", "s://h/"]
    assert uriparse.get_many("host", ("//h%d" % number for number in range(9000))) == ["h%d" % number for number in range(9000)]
    assert uriparse.parse_many(["a", " "]) == [uriparse.parse("a"), None]
    mixed: List[Any] = [["a", b"a"], [b"a", "a"], ["a"] * 5000 + [b"a"]]
    for wrong in mixed:
        assert str(raised(uriparse.normalize_many, wrong)) == "str and bytes can't be mixed", wrong[:2]
    lists: List[Callable[..., object]] = [uriparse.normalize_many, uriparse.parse_many]
    for call in lists:
        assert str(raised(call, ["a", None])) == "str or bytes expected, not None"
    assert str(raised(uriparse.resolve_many, "s:", [b"a"])) == "str and bytes can't be mixed"
    assert str(raised(uriparse.resolve_many, b"s:", ["a"])) == "str and bytes can't be mixed"


def test_surrogates() -> None:
    """A surrogate is an invalid byte of the component that it is in; no str of UTF-8 has one."""
    for code, text in ((0x51, "a\ud800"), (0x11, "//\ud800@h"), (0x61, "a?\udcff"), (0x71, "a#\ud800\udc00"), (0x31, "//a\ud800")):
        place = next(at for at, character in enumerate(text) if character > "\x7f")
        calls: List[Callable[..., object]] = [uriparse.parse, uriparse.normalize, uriparse.hash_of, uriparse.origin, uriparse.spans]
        for call in calls:
            error = raised(call, text)
            assert isinstance(error, uriparse.URIError) and (error.code, error.place, error.text) == (code, place, text), error
        assert uriparse.first_fault(text) == (code, place) and not uriparse.is_uri(text)
        error = raised(uriparse.escape, text)
        assert isinstance(error, uriparse.URIError) and error.place == place and error.component, error
    error = raised(uriparse.escape, "http://h/a b?\ud800")
    assert isinstance(error, uriparse.URIError) and (error.code, error.place, error.argument) == (0x61, 13, "text"), error
    for component, code in (("username", 0x11), ("password", 0x21), ("segment", 0x51), ("query", 0x61), ("fragment", 0x71)):
        error = raised(uriparse.encode, component, "\u00fc\ud800")
        assert isinstance(error, uriparse.URIError) and (error.code, error.place, error.argument) == (code, 1, "data"), error
    error = raised(uriparse.pairs, "a=\ud800")
    assert isinstance(error, uriparse.URIError) and (error.code, error.place, error.argument) == (0x61, 2, "query"), error
    error = raised(uriparse.decode, "a\ud800")
    assert isinstance(error, uriparse.URIError) and (error.code, error.place) == (0x61, 1), error
    assert uriparse.get_many("path", ["\ud800", "a"]) == [None, "a"]
    error = raised(uriparse.equal, "a", "\ud800")
    assert isinstance(error, uriparse.URIError) and (error.argument, str(error)) == (
        "right", "first wrong byte 0: invalid path character"), error


def test_reasons() -> None:
    """The argument, the component and the code of an error, for str and bytes."""
    rows: List[Any] = [
        (uriparse.parse, ("//u%@h",), "text", "username", uriparse.Code.USERNAME_ESCAPE),
        (uriparse.parse, ("//u:%@h",), "text", "password", uriparse.Code.PASSWORD_ESCAPE),
        (uriparse.parse, ("//[::g]",), "text", "host", uriparse.Code.HOST_IPV6_BYTE),
        (uriparse.parse, ("//h:70000",), "text", "port", uriparse.Code.PORT_RANGE),
        (uriparse.parse, ("a ",), "text", "path", uriparse.Code.PATH_BYTE),
        (uriparse.parse, ("1:2",), "text", "path", uriparse.Code.COLON_IN_SEGMENT),
        (uriparse.parse, ("?[",), "text", "query", uriparse.Code.QUERY_BYTE),
        (uriparse.parse, ("#%1",), "text", "fragment", uriparse.Code.FRAGMENT_ESCAPE),
        (uriparse.origin, ("/a ",), "text", "path", uriparse.Code.PATH_BYTE),
        (uriparse.without_pairs, ("?a", "b#"), "names", "query", uriparse.Code.BAD_NAMES),
        (uriparse.equal, ("%", "%"), "left", "path", uriparse.Code.PATH_ESCAPE),
        (uriparse.equal, ("a", "%"), "right", "path", uriparse.Code.PATH_ESCAPE),
        (uriparse.resolve, ("/a", "b"), "base", "scheme", uriparse.Code.NO_SCHEME),
        (uriparse.resolve, ("s:%", "%"), "base", "path", uriparse.Code.PATH_ESCAPE),
        (uriparse.resolve, ("s:", "?%"), "reference", "query", uriparse.Code.QUERY_ESCAPE),
        (uriparse.relativize, ("s:", "/a"), "uri", "scheme", uriparse.Code.NO_SCHEME),
        (uriparse.resolve_many, ("s:", ["a", "%"], "raise"), "reference", "path", uriparse.Code.PATH_ESCAPE)]
    for call, texts, argument, component, code in rows:
        other = tuple(text.encode() if isinstance(text, str) and text != "raise" else [one.encode() for one in text] if isinstance(text, list)
                      else text for text in texts)
        for arguments in (texts, other):
            error = raised(call, *arguments)
            assert isinstance(error, uriparse.URIError), error
            assert (error.argument, error.component, error.reason) == (argument, component, code), (arguments, error, error.reason)
            assert isinstance(error.reason, uriparse.Code) and error.code & ~uriparse.IN_BASE == code
    fault = uriparse.first_fault(b"%")
    assert fault and fault[0] is uriparse.Code.PATH_ESCAPE


def test_replace() -> None:
    """What is changed and what is kept; uriparse.h's tests have more."""
    assert uriparse.replace("HTTP://u:p@h:8080/%7Ea?q#f", host="example.org", username=None) == "HTTP://example.org:8080/%7Ea?q#f"
    assert uriparse.replace(b"a:b/c", host=b"h", port=80) == b"a://h:80/b/c"
    assert uriparse.replace(bytearray(b"//h"), host=None, path=memoryview(b"x")) == b"x"
    assert uriparse.replace("a?q", path="", query=None) == "" and uriparse.replace("a?q") == "a?q"
    every = {"scheme": "s", "username": "u", "password": "p", "host": "h", "port": "", "path": "a", "query": "", "fragment": ""}
    assert uriparse.replace("", **every) == "s://u:p@h:/a?#"
    assert uriparse.replace("s:" + "a" * 9000, fragment="f" * 9000) == "s:" + "a" * 9000 + "#" + "f" * 9000
    rows: List[Any] = [
        ("http://h/a b", {"host": "x"}, "text", "path", uriparse.Code.PATH_BYTE, 10),
        ("http://h", {"host": "a/b"}, "host", "host", uriparse.Code.HOST_BYTE, 1),
        ("http://h", {"host": "x", "port": 65536}, "port", "port", uriparse.Code.PORT_RANGE, 0),
        ("//h", {"username": "a:b"}, "username", "username", uriparse.Code.USERNAME_COLON, 1),
        ("//h", {"scheme": "1"}, "scheme", "scheme", uriparse.Code.SCHEME_LETTER, 0),
        ("a", {"port": 1}, "change", "host", uriparse.Code.MISSING_HOST, 0),
        ("s:a:b", {"scheme": None}, "change", "path", uriparse.Code.COLON_IN_SEGMENT, 0),
        ("//h//a", {"host": None}, "change", "path", uriparse.Code.TWO_SLASHES, 0),
        ("//h", {"query": "\u00fc"}, "query", "query", uriparse.Code.QUERY_BYTE, 0),
        ("//h", {"query": "\ud800"}, "query", "query", uriparse.Code.QUERY_BYTE, 0),
        ("a", {"path": "1:2"}, "path", "path", uriparse.Code.COLON_IN_SEGMENT, 0), ("a", {"path": "//x"}, "path", "path", uriparse.Code.TWO_SLASHES, 0),
        ("//h", {"path": "/a?"}, "path", "path", uriparse.Code.PATH_BYTE, 2), ("//h", {"path": "a//%"}, "path", "path", uriparse.Code.PATH_ESCAPE, 3),
        ("//h", {"port": "8:"}, "port", "port", uriparse.Code.PORT_BYTE, 1), ("//h", {"port": "]"}, "port", "port", uriparse.Code.PORT_BYTE, 0),
        ("//h", {"username": "a@b"}, "username", "username", uriparse.Code.USERNAME_BYTE, 1),
        ("//h", {"password": ":/"}, "password", "password", uriparse.Code.PASSWORD_BYTE, 1), ("a", {"query": "?#"}, "query", "query", uriparse.Code.QUERY_BYTE, 1),
        ("a", {"fragment": "a\0"}, "fragment", "fragment", uriparse.Code.FRAGMENT_BYTE, 1), ("a", {"scheme": "a+1_"}, "scheme", "scheme", uriparse.Code.SCHEME_BYTE, 3),
        ("a", {"scheme": "a\0"}, "scheme", "scheme", uriparse.Code.SCHEME_BYTE, 1), ("a", {"scheme": ""}, "scheme", "scheme", uriparse.Code.SCHEME_EMPTY, 0),
        ("//h", {"host": "[::1]x"}, "host", "host", uriparse.Code.HOST_BYTE, 0)]
    for text, values, argument, component, code, place in rows:
        error = raised(lambda: uriparse.replace(text, **values))
        assert isinstance(error, uriparse.URIError), (text, error)
        assert (error.argument, error.component, error.reason, error.place) == (argument, component, code, place), (text, error)
    assert str(raised(lambda: uriparse.replace("a", port=1))) == "user name, password or port without a host"
    error = raised(lambda: uriparse.replace("s:", path="a/" * 1_000_000 + "a"))
    assert isinstance(error, uriparse.URIError) and (error.argument, error.component, len(error.text), error.place) == (
        "path", "path", 2_000_001, 1_999_999), error
    for wrong in (lambda: uriparse.replace("a", host=b"h"), lambda: uriparse.replace(b"a", host="h"),  # type: ignore[call-overload]
                  lambda: uriparse.replace("//h", port=True), lambda: uriparse.replace(None, host="h"),  # type: ignore[call-overload]
                  lambda: uriparse.replace("//h", path=5.0)):  # type: ignore[call-overload]
        assert type(raised(wrong)) is TypeError
    found = dataclasses.replace(uriparse.parse("http://u@h:80/a"), host="1.2.3.4", port="081", password="p")
    assert (found.authority, found.host_kind, found.port_number) == ("u:p@1.2.3.4:081", "ipv4", 81)
    found = dataclasses.replace(found, host=None, username=None, password=None, port=None)
    assert (found.authority, found.host_kind, found.port_number) == (None, None, None)
    whole = uriparse.parse("http://u@h:80/a")
    for name, value in (("port", "8_0"), ("port", "\u0663"), ("port", "65536"), ("host", "a/b"), ("host", "u@h"), ("path", "a?b"), ("scheme", "1")):
        error = raised(lambda: dataclasses.replace(whole, **{name: value}))
        assert isinstance(error, uriparse.URIError) and (error.argument, error.component) == (name, name), (name, value, error)


def test_uri() -> None:
    uri = uriparse.URI("HTTP://u:p@h:080/a/../b?q#f")
    assert (uri.scheme, uri.authority, uri.username, uri.password, uri.host, uri.host_kind, uri.port, uri.port_number, uri.path, uri.query,
            uri.fragment) == ("HTTP", "u:p@h:080", "u", "p", "h", "name", "080", 80, "/a/../b", "q", "f")
    assert str(uri) == "HTTP://u:p@h:080/a/../b?q#f" and repr(uri) == "URI('HTTP://u:p@h:080/a/../b?q#f')"
    assert str(uri.normalize()) == "http://u:p@h:80/b?q#f"
    base = uriparse.URI("http://a/b/c")
    assert str(base.resolve("../g")) == "http://a/g" == str(base.resolve(uriparse.URI("../g")))
    one, same, other = map(uriparse.URI, ("http://h/%7e", "HTTP://H/~", "http://h/a"))
    assert one == same and hash(one) == hash(same) and one != other and {one, same, other} == {same, other}
    assert one != "http://h/%7e" and not one == None  # noqa: E711
    for name in ("host", "_text", "other"):
        assert type(raised(setattr, uri, name, "i")) is AttributeError and type(raised(delattr, uri, name)) is AttributeError
    uri.__init__("s:")  # type: ignore[misc]
    assert uri.scheme == "HTTP"
    for copied in (copy.copy(uri), copy.deepcopy(uri), pickle.loads(pickle.dumps(uri))):
        assert type(copied) is uriparse.URI and str(copied) == str(uri) and copied == uri
    assert type(raised(lambda: one < str(other))) is TypeError  # type: ignore[operator]
    for wrong in (None, b"s:", 5, one):
        assert str(raised(uriparse.URI, wrong)) == "str expected, not " + type(wrong).__name__
    error = raised(uriparse.URI, "http://h/a b")
    assert isinstance(error, uriparse.URIError) and (error.place, error.component) == (10, "path")
    for text, wanted in (("/a", 0x103), ("s:", 0x51)):
        error = raised(uriparse.URI(text).resolve, "a b")
        assert isinstance(error, uriparse.URIError) and error.code == wanted, error
    assert type(raised(one.resolve, b"a")) is TypeError

    class Loud(str):
        def __str__(self) -> str:
            return "s:other"
    assert str(uriparse.URI(Loud("s:a"))) == "s:a"


def test_checks() -> None:
    """The order, and URIs and hosts within others."""
    for left, right, order in (("http://h/%7e", "HTTP://H/~", 0), ("http:b", "https:a", -1), ("//2.0.0.0", "//10.0.0.0", -1),
                               ("//h:9", "//h:10", -1), ("a?", "a#z", 1), ("a", "a#", -1)):
        assert uriparse.compare(left, right) == order == -uriparse.compare(right.encode(), left.encode())
        assert (uriparse.URI(left) < uriparse.URI(right)) is (order < 0) is (uriparse.URI(right) > uriparse.URI(left))
        assert (uriparse.URI(left) <= uriparse.URI(right)) is (order <= 0) is (uriparse.URI(right) >= uriparse.URI(left))
    assert sorted(map(uriparse.URI, ("//h:10", "//h:9"))) == [uriparse.URI("//h:9"), uriparse.URI("//h:10")]
    for uri, base, within in (("HTTP://H:80/x/../a/b?q", "http://h/a/c", True), ("http://h/appX", "http://h/app/", False),
                              ("http://h/app/%2e%2e/admin", "http://h/app/", False), ("http://h/app/..;/admin", "http://h/app/", False),
                              ("https://h/a/b", "http://h/a/", False), ("mailto:a@b", "mailto:a@b", True)):
        assert uriparse.is_within(uri, base) is within is uriparse.URI(uri).is_within(uriparse.URI(base))
        assert uriparse.is_within(uri.encode(), bytearray(base.encode())) is within
    for text, domain, within in (("http://WWW.Example.com./", "example.com", True), ("//evilexample.com", "example.com", False),
                                 ("//1.2.3.4", "4", False), ("//[::1]", "[::1]", True), ("/a", "h", False)):
        assert uriparse.host_is_within(text, domain) is within is uriparse.host_is_within(text.encode(), domain.encode())
        assert uriparse.host_is_within_any(text, "a " + domain) is within is uriparse.URI(text).host_is_within_any(domain + " b")
        assert uriparse.host_is_within_any(text.encode(), domain.encode()) is within and not uriparse.host_is_within_any(text, " ")
    assert uriparse.host_flags("//%31.2.3.4") == uriparse.HostFlag.HIDES_ADDRESS | uriparse.HostFlag.MAY_BE_NUMERIC
    assert uriparse.host_flags(b"//0x7f.1") is uriparse.HostFlag.MAY_BE_NUMERIC and not uriparse.host_flags("//example.com")
    assert uriparse.disagreement("http://127.1/") is uriparse.Disagreement.NUMERIC_NAME and not uriparse.URI("https://h/").disagreement()
    assert uriparse.default_port("HTTPS") == 443 and uriparse.default_port(b"mailto") is None and uriparse.default_port("") is None
    for text, port in (("https://h", 443), ("https://h:", 443), ("//h:0", 0), ("//h", None), ("https:a", None)):
        assert uriparse.port_or_default(text) == port == uriparse.URI(text).port_or_default() == uriparse.port_or_default(text.encode())
    for text, address in (("//1.2.3.4:8", "1.2.3.4"), ("//[2001:DB8::7]", "2001:db8::7"), ("//h", None), ("//127.1", None), ("1.2.3.4", None)):
        expected = None if address is None else ipaddress.ip_address(address)
        assert uriparse.host_address(text) == expected == uriparse.URI(text).host_address() == uriparse.host_address(text.encode())
    for text, normal in (("http://h/", True), ("http://h", False), ("a/../b", False), ("", True)):
        assert uriparse.is_normalized(text) is normal is uriparse.URI(text).is_normalized() is uriparse.is_normalized(text.encode())
    for text, key, page in (("http://h:80/./%7e#f", "1\2http\1\2\1\0011h\1\00200080/./~\1\1\2f\1", "1\2http\1\2\1\0011h\1\1/~\1\1\1"),
                            ("", "1\1\1\1\1\1", "1\1\1\1\1\1")):
        assert uriparse.key(text) == key == uriparse.URI(text).key() == uriparse.key(text.encode()).decode()
        assert uriparse.page_key(text) == page == uriparse.URI(text).page_key() == uriparse.page_key(text.encode()).decode()
    assert uriparse.normal_key("//%31.2.3.4/") != uriparse.normal_key("//1.2.3.4/") and uriparse.URI("a/../b").normal_key() == uriparse.key("b")
    keyed = ["//h:9", "//h:10", "a", "a?", "//1.2.3.4", "//z", "%41", "b#c", "s:"]
    assert sorted(keyed, key=uriparse.key) == [str(uri) for uri in sorted(map(uriparse.URI, keyed))]
    many_keys: List[Optional[str]] = uriparse.key_many(["a/../b#c", "a b"], "page")
    assert many_keys == [uriparse.key("b"), None] and uriparse.key_many([b"a"], errors="raise") == [uriparse.key(b"a")]
    assert type(raised(uriparse.key_many, ["a"], "other")) is ValueError
    shown = "p\2" "1com\1example\1\2\00200080\1\1\2http\1/a\1\1\1"
    assert uriparse.place_key("HTTP://Example.com/a") == shown == uriparse.URI("http://example.com/./a").place_key()
    assert uriparse.place_key_many([b"HTTP://Example.com/a", b"a"]) == [shown.encode(), None]
    assert uriparse.place_key_many(["HTTP://Example.com/a"], "raise") == [shown]
    for prefix in (uriparse.domain_prefix("com"), uriparse.domain_prefix(b"EXAMPLE.com.").decode(), uriparse.URI("http://example.com/b").base_prefix()):
        assert shown.startswith(prefix) and prefix <= shown < uriparse.prefix_successor(prefix)
        assert uriparse.prefix_successor(prefix.encode()) == uriparse.prefix_successor(prefix).encode()
    assert uriparse.base_prefix(b"mailto:a@b") == b"p\1\2mailto\1a@b\1" and not shown.startswith(uriparse.domain_prefix("ample.com"))
    for text, public in (("http://example.com/", True), ("//10.0.0.1", False), ("//[64:ff9b::808:808]", True), ("//[::ffff:7f00:1]", False), ("a", False)):
        assert uriparse.is_public(text) is public is uriparse.URI(text).is_public() is uriparse.is_public(text.encode())
    for left, right, same in (("HTTPS://u@H:443/a", "https://h/b", True), ("http://h", "https://h", False), ("file:///a", "file:///a", False)):
        assert uriparse.same_origin(left, right) is same is uriparse.URI(left).same_origin(right) is uriparse.same_origin(left.encode(), right.encode())
    for segment, ambiguous in (("..;a", True), ("a%2fb", True), ("..", False), ("", False)):
        assert uriparse.is_ambiguous(segment) is ambiguous is uriparse.is_ambiguous(segment.encode())
    faults: List[Any] = [
        (uriparse.same_origin, ("a b", "%"), "left", 0x51, 1), (uriparse.same_origin, ("a", "%"), "right", 0x52, 0),
        (uriparse.is_normalized, ("a b",), "text", 0x51, 1), (uriparse.is_public, ("//h[",), "text", 0x31, 3), (uriparse.port_or_default, ("//h:x",), "text", 0x41, 4),
        (uriparse.host_address, ("//[::g]",), "text", 0x32, 5), (uriparse.is_ambiguous, ("/a",), "segment", 0x51, 0),
        (uriparse.is_ambiguous, ("\u00e9",), "segment", 0x51, 0), (uriparse.is_ambiguous, ("a%2/",), "segment", 0x52, 1),
        (uriparse.is_ambiguous, ("a\ud800",), "segment", 0x51, 1), (uriparse.trim_link, (" \ud800",), "text", 0x51, 1),
        (uriparse.form_decode, ("\u00e9+%",), "text", 0x61, 0), (uriparse.form_decode, ("+%",), "text", 0x62, 1),
        (uriparse.pair_values, ("a b", "a"), "text", 0x51, 1), (uriparse.pair_values, ("?a", "\ud800"), "name", 0x61, 0),
        (uriparse.compare, ("a", "a b"), "right", 0x51, 1), (uriparse.is_within, ("/a", "%"), "uri", 3, 0),
        (uriparse.is_within, ("s:", "%"), "base", 0x152, 0), (uriparse.is_within, ("a b", "%"), "uri", 0x51, 1),
        (uriparse.is_within, ("s:", "a"), "base", 0x103, 0),
        (uriparse.place_key, ("a",), "text", 3, 0), (uriparse.domain_prefix, ("h:1",), "domain", 0x31, 1), (uriparse.base_prefix, ("s:a b",), "base", 0x51, 3),
        (uriparse.host_is_within, ("a b", "["), "text", 0x51, 1), (uriparse.host_flags, ("a b",), "text", 0x51, 1)]
    for call, arguments, argument, code, place in faults:
        error = raised(call, *arguments)
        assert isinstance(error, uriparse.URIError) and (error.argument, error.code, error.place) == (argument, code, place), (error, arguments)
    for wrong in (lambda: uriparse.compare("a", b"a"), lambda: uriparse.is_within(b"s:", "s:"),  # type: ignore[call-overload]
                  lambda: uriparse.host_is_within("a", None), lambda: uriparse.host_flags(1),  # type: ignore[call-overload,arg-type]
                  lambda: uriparse.default_port(None), lambda: uriparse.URI("a") < "a"):  # type: ignore[arg-type,operator]
        assert isinstance(raised(wrong), TypeError)


def test_pairs_by_name() -> None:
    """Pairs that are found, set, appended and left out, and segments below a URI."""
    assert uriparse.pair("http://h/?q=R%26D&all", "q") == "R&D" and uriparse.pair(b"?%61=%FF&a=2", b"a") == b"\xff"
    assert uriparse.pair("?all", "all") == "" and uriparse.pair("?a", "b") is None and uriparse.pair("a", "a") is None
    assert uriparse.pair("?%C3%BC=%C3%BC", "\u00fc") == "\u00fc" and uriparse.pair("?7=a&200=b", http.HTTPStatus.OK) == "b"
    assert uriparse.without_pairs("?7&a&8", 7, http.HTTPStatus.OK, "8") == "?a" and uriparse.without_pairs(b"?7&a", 7) == b"?a"  # type: ignore[call-overload]
    assert uriparse.with_pair("?", "status", http.HTTPStatus.OK) == "?status=200" and uriparse.with_pair(b"?", 5, -1) == b"?5=-1"
    assert isinstance(raised(uriparse.pair, "?a=%FF", "a"), UnicodeDecodeError)
    assert uriparse.with_pair("http://h/?p=1&lang=de&%70=2#f", "p", "a&b") == "http://h/?p=a%26b&lang=de#f"
    assert uriparse.with_pair("http://h", "n", 2) == "http://h?n=2" and uriparse.with_pair(b"?", b"n", None) == b"?n"
    assert uriparse.with_appended_pair("?a=1", "a", "\u00fc +") == "?a=1&a=%C3%BC%20%2B"
    assert uriparse.without_pairs("http://h/?utm_source=x&q=1&%75tm_id=2&gclid#f", "utm_*", "gclid") == "http://h/?q=1#f"
    assert uriparse.without_pairs(b"http://h/?utm_a#f", b"utm_*") == b"http://h/#f"
    assert uriparse.without_pairs("?a", "b") == "?a" and uriparse.without_pairs("a", "b") == "a" and uriparse.without_pairs("?a") == "?a"
    assert uriparse.encode("pair", "a&b=c d+") == "a%26b%3Dc%20d%2B"
    faults: List[Any] = [
        (uriparse.with_pair, ("a b", "n", "v"), "text", 0x51, 1), (uriparse.without_pairs, ("?a", "c", "b#"), "names", 13, 3),
        (uriparse.pair, ("?a", "\ud800"), "name", 0x61, 0), (uriparse.encode, ("pair", "a\ud800"), "data", 0x61, 1)]
    for call, arguments, argument, code, place in faults:
        error = raised(call, *arguments)
        assert isinstance(error, uriparse.URIError) and (error.argument, error.code, error.place) == (argument, code, place), (error, arguments)
    for wrong in (lambda: uriparse.pair("?a", b"a"), lambda: uriparse.with_pair(b"?a", b"a", "b"),  # type: ignore[call-overload]
                  lambda: uriparse.without_pairs("?a", None), lambda: uriparse.with_pair("a", None, "b"),  # type: ignore[call-overload]
                  lambda: uriparse.pair("s:", [1]), lambda: uriparse.pair("s:", True),  # type: ignore[call-overload]
                  lambda: uriparse.with_pair(b"s:", "\ud800", b"a"),  # type: ignore[call-overload]
                  lambda: uriparse.without_pair("s:", b"a"), lambda: uriparse.without_pairs(b"?a", "a")):  # type: ignore[call-overload]
        assert isinstance(raised(wrong), TypeError)
    rejects_str(13, 1, "a b", "names", uriparse.without_pairs, "s:", "a b")
    rejects_str(0x61, 0, "\ud800", "name", uriparse.pair, "s:", "\ud800")
    rejects_str(0x61, 1, "a\ud800", "value", uriparse.with_pair, "s:", "a", "a\ud800")
    rejects_str(0x61, 2, "a=\ud800", "query", uriparse.pairs, "a=\ud800")
    assert str(raised(uriparse.pairs, "a=\ud800")) == "first wrong byte 2: invalid query character"
    assert uriparse.pairs(None) == [] and uriparse.URI("a").pairs() == [] and uriparse.URI("?").pairs() == [("", None)]


def test_names_as_data() -> None:
    """`without_pair` takes a name as it is; only `without_pairs` reads a `*` at its end as any rest."""
    for name, left in (("*", "?a=1&ab=2&sort*=3&sortby=4&a%26b=5"), ("a*", "?*&a=1&ab=2&sort*=3&sortby=4&a%26b=5"),
                       ("sort*", "?*&a=1&ab=2&sortby=4&a%26b=5"), ("a&b", "?*&a=1&ab=2&sort*=3&sortby=4"), ("a", "?*&ab=2&sort*=3&sortby=4&a%26b=5"),
                       ("%2A", "?*&a=1&ab=2&sort*=3&sortby=4&a%26b=5")):
        text = "?*&a=1&ab=2&sort*=3&sortby=4&a%26b=5"
        assert uriparse.without_pair(text, name) == left == str(uriparse.URI(text).without_pair(name)), name
        assert uriparse.without_pair(text.encode(), name.encode()) == left.encode(), name
    assert uriparse.without_pairs("?a*=1&ab=2", "a*") == "" and uriparse.without_pair("?a*=1&ab=2", "a*") == "?ab=2"
    assert uriparse.without_pair("?7&a", 7) == "?a" and uriparse.without_pair(b"?7&a", 7) == b"?a"  # type: ignore[call-overload]
    assert uriparse.without_pair("?a", "a") == "" and uriparse.without_pair("?%C3%BC&b", "\u00fc") == "?b" and uriparse.without_pair("s:", "a") == "s:"


def test_domains() -> None:
    """The place of the error of a domain is that of the first byte that no host has there."""
    for domain, place in (("example.com:443", 11), ("example.com/path", 11), ("h/", 1), ("a b", 1), ("u@h", 1), ("u:p@h", 1), ("h:x", 1),
                          ("1.2.3.4:80", 7), ("h?", 1), ("h#", 1), ("https://h", 5), ("[v1.a/b]", 5), ("[::1/]", 4), ("[::g]", 3), ("a%", 1),
                          ("\u00fc", 0), ("a\u00fc/", 1), ("a\ud800", 1), ("[", 0), ("[::1", 0)):
        error = raised(uriparse.host_is_within, "//h", domain)
        assert isinstance(error, uriparse.URIError) and (error.argument, error.component, error.text) == ("domain", "host", domain), (domain, error)
        assert error.place == place and error.code & uriparse.IN_BASE, (domain, error.place)
        if " " not in domain:
            several = raised(uriparse.host_is_within_any, "//h", "h  a " + domain + " %")
            assert isinstance(several, uriparse.URIError) and (several.argument, several.place, several.code) == ("domains", 5 + place, error.code), domain
        if "\ud800" not in domain:
            other = raised(uriparse.host_is_within, b"//h", domain.encode())
            assert isinstance(other, uriparse.URIError) and (other.code, other.place) == (error.code, place), (domain, other)


class Long(bytes):
    def __len__(self) -> int:
        return 1 << 20


class Other(str):
    def encode(self, *_: object) -> bytes:
        return Long(b"other")

    def __len__(self) -> int:
        return 1 << 20

    def __str__(self) -> str:
        return "other"


def test_subclasses() -> None:
    """A subclass can't say what its length or its bytes are."""
    assert uriparse.escape(Long(b"a")) == b"a" and uriparse.escape(Other("a")) == "a" and uriparse.decode(Long(b"%61")) == b"a"
    assert uriparse.normalize(Long(b"A:")) == b"a:" and uriparse.normalize_many([Long(b"A:"), b"B:"]) == [b"a:", b"b:"]
    assert uriparse.normalize_many([Other("A:")]) == ["a:"] and uriparse.replace(Other("a"), query=Other("q")) == "a?q"
    assert uriparse.parse(Long(b"s:a")).path == b"a" and uriparse.parse(Other("s:a")).path == "a"
    assert uriparse.resolve_many(Other("s:a"), [Other("b")]) == ["s:b"] and uriparse.pairs(Other("a=b")) == [("a", "b")]
    assert type(uriparse.without_pairs(Other("a"))) is str and type(uriparse.parse(Long(b"a")).path) is bytes
    error = raised(uriparse.parse, Other("a b"))
    assert isinstance(error, uriparse.URIError) and type(error.text) is str and error.text == "a b"


def test_one_text() -> None:
    """One text is no iterable of texts."""
    calls: List[Callable[..., object]] = [uriparse.normalize_many, uriparse.parse_many, lambda texts: uriparse.resolve_many("s:", texts),
                                          lambda texts: uriparse.get_many("host", texts)]
    for call in calls:
        for text in ("http://h/a", b"a", bytearray(b"a"), memoryview(b"a"), "", b"", uriparse.URI("a"), None, 5):
            assert type(raised(call, text)) is TypeError, text
    assert uriparse.normalize_many([]) == [] == uriparse.parse_many(iter(()))


def test_uris_as_arguments() -> None:
    """Where a reference is expected, a `URI` stands for its str."""
    uri, other = uriparse.URI("HTTP://u@WWW.Example.com:80/a/../b?x=1&y#f"), uriparse.URI("c")
    text = str(uri)
    single: List[Callable[..., object]] = [
        uriparse.parse, uriparse.spans, uriparse.first_fault, uriparse.is_uri, uriparse.hash_of, uriparse.normalize, uriparse.origin, uriparse.escape,
        uriparse.host_flags, lambda one: uriparse.replace(one, host="h"), lambda one: uriparse.pair(one, "x"),
        lambda one: uriparse.with_pair(one, "x", 2), lambda one: uriparse.with_appended_pair(one, "x", 2), lambda one: uriparse.without_pairs(one, "x"),
        lambda one: uriparse.without_pairs(one), lambda one: uriparse.without_pair(one, "x"), lambda one: uriparse.host_is_within(one, "example.com"),
        lambda one: uriparse.normalize_many([one]), lambda one: uriparse.parse_many([one]), lambda one: uriparse.get_many("host", [one]),
        lambda one: uriparse.resolve_many(one, ["c", other])]
    for call in single:
        assert call(uri) == call(text) and type(call(uri)) is type(call(text)), call
    double: List[Callable[..., object]] = [uriparse.resolve, uriparse.relativize, uriparse.equal, uriparse.compare, uriparse.same_origin,
                                         uriparse.is_within]
    for call in double:
        assert call(uri, uri) == call(text, text) == call(uri, text) == call(text, uri), call
    assert uriparse.host_is_within(uri, "example.com") and uri.host_is_within("example.com") and not uri.host_is_within("h")
    assert type(raised(uriparse.resolve, uri, b"c")) is TypeError
    assert (uri.host_flags(), uri.is_uri(), other.is_uri()) == (uriparse.HostFlag(0), True, False)
    assert uri.pairs() == [("x", "1"), ("y", None)] and uri.origin() == uriparse.URI("http://www.example.com") and other.origin() is None
    assert uri.spans() == uriparse.spans(text) and isinstance(uri.spans().host, uriparse.Span) and uri.spans().host.present
    others: List[Callable[..., object]] = [
        uriparse.decode, uriparse.form_decode, uriparse.trim_link, uriparse.is_ambiguous, uriparse.pairs, uriparse.default_port,
        lambda one: uriparse.encode("query", one),
        lambda one: uriparse.host_is_within("//h", one), lambda one: uriparse.replace("a", path=one)]
    for call in others:
        assert type(raised(call, uri)) is TypeError
    assert weakref.ref(uri)() is uri

    class Mine(uriparse.URI):
        pass
    mine = Mine("http://h/a?q")
    assert mine == uriparse.URI("http://H/a?q") and type(mine.resolve("b")) is Mine and type(mine / "b") is Mine and type(copy.copy(mine)) is Mine


def test_names_of_arguments() -> None:
    """Each argument can be given by its name."""
    assert uriparse.resolve(base="s:a", reference="b") == "s:b" == uriparse.resolve("s:a", reference="b")
    assert uriparse.is_within(base="s:a/", uri="s:a/b") and uriparse.host_is_within(domain="h", text="//h")
    assert uriparse.normalize(text="A:") == "a:" and uriparse.equal(left="a", right="%61") and uriparse.pair(name="a", uri="?a=1") == "1"
    assert uriparse.with_pair(uri="", name="a", value="b") == "?a=b" and uriparse.pairs(query="a") == [("a", None)]
    for call in (lambda: uriparse.resolve("s:", base="s:"), lambda: uriparse.resolve("s:"), lambda: uriparse.resolve("s:", "a", "b"),  # type: ignore[call-overload]
                 lambda: uriparse.normalize(), lambda: uriparse.normalize("a", other="b"), lambda: uriparse.replace("a", "s")):  # type: ignore[call-overload]
        assert type(raised(call)) is TypeError
    assert "(base, reference)" in str(inspect.signature(uriparse.resolve)) and "(uri, name, value)" in str(inspect.signature(uriparse.with_pair))


def test_segments() -> None:
    one = uriparse.URI("http://u@h/a?q#f")
    assert str(one / "b c/") == "http://u@h/a/b%20c%2F" and str(uriparse.URI("http://h") / "x") == "http://h/x"
    assert str(uriparse.URI("a/") / "b") == "a/b" and str(uriparse.URI("") / "b") == "b" and str(uriparse.URI("s:") / "b") == "s:b"
    assert all(isinstance(raised(lambda name: one / name, name), TypeError) for name in (None, 5, b"a"))
    assert all(isinstance(raised(lambda name: one / name, name), ValueError) for name in (".", "..", "..;x", ".;"))
    assert str(uriparse.URI("") / "a:b") == "./a:b" == str(uriparse.URI("?q") / "a:b") and str(uriparse.URI("s:") / "a:b") == "s:a:b"
    assert str(uriparse.URI("//h") / "a:b") == "//h/a:b" and str(uriparse.URI("a") / "b:c") == "a/b:c" and str(uriparse.URI("x") / "") == "x/"
    assert str(one.with_scheme("s").with_username(None).with_host("x").with_port(8).with_path("/y").with_query(None).with_fragment("g")) == "s://x:8/y#g"
    assert str(one.with_password("p")) == "http://u:p@h/a?q#f" and str(one.replace(username=None, fragment=None)) == "http://h/a?q"
    assert str(one.with_pair("n", "v").with_appended_pair("n", 2).without_pairs("q")) == "http://u@h/a?n=v&n=2#f"
    assert one.with_pair("n", "v").pair("n") == "v" and str(one.relativize("http://u@h/b")) == "b"


def test_package() -> None:
    assert os.path.exists(os.path.join(os.path.dirname(uriparse.__file__), "py.typed"))
    assert all(hasattr(uriparse, name) for name in uriparse.__all__)


def test_header(path: str) -> None:
    """The version and the codes are the header's."""
    with open(path) as file:
        header = file.read()
    assert re.findall('URIPARSE_VERSION "(.*)"', header) == [uriparse.__version__]
    flags = re.search(r"enum uriparse_host_flag \{(.*?)\};", header, re.DOTALL)
    assert flags and all(int(uriparse.HostFlag[name]) == int(bit) for name, bit in re.findall(r"URIPARSE_(\w+) = (\d)", flags[1]))
    reasons = re.search(r"enum uriparse_disagreement \{(.*?)\};", header, re.DOTALL)
    assert reasons and all(int(uriparse.Disagreement[name]) == int(bit) for name, bit in re.findall(r"URIPARSE_(\w+) = (\d+)", reasons[1]))
    codes = {name: int(code, 0) for name, code in re.findall(r"^  URIPARSE_(\w+) = (\w+),", header[:header.index("URIPARSE_COMPONENT_MASK = ")],
                                                             re.MULTILINE)}
    assert codes == {code.name: code.value for code in uriparse.Code}


def test_codes(path: str) -> None:
    """The words of errors are those of bindings/codes.tsv."""
    with open(path) as file:
        rows = [line.split("\t") for line in file if line[0] != "#"]
    texts = {int(row[0], 16): row[6] for row in rows if row[1] != "-"}
    assert texts.keys() == {code.value for code in uriparse.Code}
    for code, text in texts.items():
        assert uriparse.error_text(code) == uriparse.error_text(code | uriparse.IN_BASE) == text, code
    assert {uriparse.error_text(code) for code in range(0x100)} == {*texts.values(), "unknown code"}


def test_hostile(path: str) -> None:
    """The rows of tests/hostile.tsv, apart from those of redirects, which are the page's."""
    calls: Dict[str, Callable[[str, str], object]] = {
        "within": uriparse.is_within, "host-within": uriparse.host_is_within, "host-flags": lambda text, _: int(uriparse.host_flags(text))}
    count = 0
    with open(path, encoding="utf-8") as file:
        for line in file:
            fields = [re.sub(r"\\x([0-9a-f]{2})", lambda byte: chr(int(byte[1], 16)), field) for field in line.rstrip("\n").split("\t")]
            if line[0] != "#" and fields[1] in calls:
                try:
                    answer = str(calls[fields[1]](fields[2], fields[3])).replace("True", "yes").replace("False", "no")
                except uriparse.URIError:
                    answer = "rejected"
                assert answer == fields[4], (answer, line)
                count += 1
    assert count > 700, count


def main() -> None:
    for test in (test_calls, test_rejected, test_components, test_messages, test_copied_errors, test_pool, test_buffers,
                 test_many, test_no_copy, test_released, test_wrong_types, test_str, test_surrogates, test_reasons, test_replace, test_uri,
                 test_checks, test_pairs_by_name, test_names_as_data, test_domains, test_subclasses, test_one_text, test_uris_as_arguments,
                 test_names_of_arguments, test_segments, test_package):
        test()
    for header in sys.argv[1:]:
        test_header(header)
        test_codes(os.path.join(os.path.dirname(header), "../codes.tsv"))
        test_hostile(os.path.join(os.path.dirname(header), "../../tests/hostile.tsv"))
    print("ok")


if __name__ == "__main__":
    main()
