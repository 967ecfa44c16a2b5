"""The extension for SQLite beside Python's package: `test.py uri0.so [COUNT of random texts]`.

It needs a python3 whose sqlite3 loads extensions, and the package. The last line has the counts."""
from __future__ import annotations

import ctypes
import ipaddress
import json
import os
import random
import re
import shutil
import sqlite3
import struct
import sys
import tempfile
import threading
import time
from typing import Any, Callable, List, Optional, Tuple
from urllib.parse import quote

TOP = os.path.dirname(os.path.dirname(os.path.abspath(__file__)))
sys.path.insert(0, os.path.join(TOP, "python"))

import fuzz  # noqa: E402
import rows  # noqa: E402
import uriparse  # noqa: E402

ONE = ("valid", "fault", "scheme", "authority", "host", "port", "path", "query", "fragment", "normalize", "hash", "origin", "escape",
       "username", "password", "host_kind", "decode")
EXTENSION = os.path.abspath(sys.argv[1])
COUNT = int(sys.argv[2]) if len(sys.argv) > 2 else 100_000


def connect(encoding: str = "UTF-8", extension: str = EXTENSION) -> sqlite3.Connection:
    db = sqlite3.connect(":memory:", isolation_level=None)
    db.enable_load_extension(True)
    db.load_extension(extension)
    db.enable_load_extension(False)
    db.execute("PRAGMA trusted_schema = OFF")
    db.execute("PRAGMA encoding = '%s'" % encoding)
    return db


def one(db: sqlite3.Connection, expression: str, *values: Any) -> Any:
    return db.execute("SELECT " + expression, values).fetchone()[0]


def raised(call: Callable[[], object]) -> str:
    try:
        call()
    except (sqlite3.Error, MemoryError) as error:
        return "%s: %s" % (type(error).__name__, error)
    raise AssertionError("nothing raised")


def shown_origin(text: bytes) -> Optional[str]:
    found = answer_of(uriparse.origin, text)
    return found and found.decode()


def as_value(found: Optional[bytes]) -> Any:
    """Bytes as a text if they are UTF-8 without a zero byte."""
    try:
        return found if found is None or b"\0" in found else found.decode()
    except UnicodeDecodeError:
        return found


def decoded(text: bytes) -> Any:
    """What the text of a component stands for: a text if that is UTF-8 without a zero byte, else bytes."""
    return as_value(rows.decoded(text))


def expected(text: bytes) -> Tuple[Any, ...]:
    """What the functions of ONE return for a text."""
    escaped = uriparse.escape(text).decode()
    fault = uriparse.first_fault(text)
    if fault:
        return (0, fault[1], *[None] * 10, escaped, None, None, None, decoded(text))
    found = uriparse.parse(text)
    parts = [part if part is None else part.decode() for part in (
        found.scheme, found.authority, found.host, found.path, found.query, found.fragment)]
    parts.insert(3, found.port_number)  # type: ignore[arg-type]
    signed = struct.unpack("q", struct.pack("Q", uriparse.hash_of(text)))[0]
    return (1, None, *parts, uriparse.normalize(text).decode(), signed, shown_origin(text), escaped,
            *(part.decode() if isinstance(part, bytes) else part for part in rows.authority_parts(text)), decoded(text))


def test_rows(db: sqlite3.Connection) -> int:
    found = rows.library_rows()
    for (text,) in found["valid"]:
        assert one(db, "uri_valid(?)", text) == 1, text
    for (text,) in found["invalid"]:
        assert one(db, "uri_valid(?)", text) == 0, text
    for text, normal in found["normal"]:
        assert one(db, "uri_normalize(?)", text) == normal, text
    for base, text, target in found["target"]:
        assert one(db, "uri_resolve(?, ?)", base, text) == (target or None if base.startswith("a") else target), (base, text)
    related = rows.related_rows()
    for base, text, reference in related:
        assert one(db, "uri_relativize(?, ?)", base, text) == reference, (base, text)
        assert one(db, "uri_resolve(?, ?)", base, reference) == one(db, "uri_resolve(?, ?)", base, text), (base, text)
    equal = rows.program_rows()
    for left, right, is_equal in equal:
        assert one(db, "uri_equal(?, ?)", left, right) == is_equal, left
        assert one(db, "? = ? COLLATE URI", left, right) == is_equal, left
    counts = [len(of_kind) for of_kind in found.values()] + [len(related), len(equal)]
    assert min(counts) > 2 and sum(counts) > 190, counts
    return sum(counts)


def meant(db: sqlite3.Connection, row: rows.Meaning) -> Any:
    """What SQL returns for a row of rows.tsv."""
    values = [as_value(value) for value in row.values]
    if row.call == "pairs":
        return b"".join(b"<%s>" % (name if value is None else name + "=" + value).encode() for name, value in db.execute(
            "SELECT name, value FROM uri_pairs(?)", values))
    if row.call == "segments":
        return b"".join(b"<%s>" % segment.encode() for segment, in db.execute("SELECT segment FROM uri_segments(?)", values)) or None
    found = one(db, "%s(%s)" % (rows.SQL_CALLS[row.call], ", ".join("?" * len(values))), *values)
    if isinstance(found, int) and row.call in rows.BOOLEAN_CALLS:
        return (b"false", b"true")[found]
    if row.call == "hash" and found is not None:
        found %= 1 << 64
    if row.call == "host_address" and found is not None:
        return ipaddress.ip_address(found).packed
    if row.call == "pair_values" and found is not None:
        return "".join("<%s>" % value for value in json.loads(found)).encode()
    return found if found is None or isinstance(found, bytes) else str(found).encode()


def test_meanings(db: sqlite3.Connection) -> int:
    """The rows of rows.tsv. SQL returns NULL for an error, but `uri_check` raises that of a reference, whose place `uri_fault` returns, and
    names that are no query raise theirs."""
    found, texts = rows.meanings(), rows.error_texts()
    for row in found:
        if row.error is None:
            assert meant(db, row) == row.answer, (row, meant(db, row))
            continue
        code, _, wrong, place = row.error
        if code == "BAD_NAMES":
            assert raised(lambda: meant(db, row)) == "OperationalError: " + texts[code], row
        elif row.call == "check":
            assert meant(db, row) == b"false", row
            assert raised(lambda: one(db, "uri_check(?)", as_value(row.values[0]))).endswith("byte %s: %s" % (place, texts[code])), row
            assert one(db, "uri_fault_text(?)", as_value(row.values[0])) == texts[code], row
        else:
            assert (meant(db, row) == b"false") if row.call == "is_uri" else (meant(db, row) is None), row
        if wrong == 1 and place is not None and row.call not in rows.CALLS_OF_DATA:
            assert one(db, "uri_fault(?)", as_value(row.values[0])) == place, row
    return len(found)


def test_errors(db: sqlite3.Connection) -> None:
    for expression in ("uri_without_params()", "(SELECT * FROM (SELECT uri_without_params()))"):
        assert raised(lambda: one(db, expression)) == "OperationalError: wrong number of arguments to function uri_without_params()"
    for name in ("with_param", "with_appended_param"):
        assert one(db, "uri_%s(NULL, 'a', 'b')" % name) is None and one(db, "uri_%s('?a', NULL, 'b')" % name) is None, name
    assert one(db, "uri_without_param(NULL, 'a')") is None and one(db, "uri_without_param('?a', NULL)") is None
    assert one(db, "uri_without_params(NULL, 'a')") is None and one(db, "uri_without_params('a b')") is None
    assert one(db, "uri_check('HTTP://h/%7e')") == "HTTP://h/%7e" and one(db, "uri_check(NULL)") is None
    assert raised(lambda: one(db, "uri_check('http://h/a b')")) == (
        "OperationalError: first wrong byte 10: invalid path character")
    for name in (*ONE, "check"):
        assert one(db, "uri_%s(NULL)" % name) is None, name
        assert "wrong number of arguments" in raised(lambda: one(db, "uri_%s('a', 'b')" % name)), name
    for name in ("equal", "resolve", "relativize"):
        for pair in (("a:", None), (None, "a:"), (None, None), ("a b", "a:"), ("a:", "a b")):
            assert one(db, "uri_%s(?, ?)" % name, *pair) is None, (name, pair)
    assert one(db, "typeof(uri_port('//h:080'))") == "integer" and one(db, "uri_port('//h:080')") == 80
    assert one(db, "uri_origin('HTTPS://u@H:443/a')") == "https://h" and one(db, "uri_origin('//h')") is None
    for text in ("file:///a", "http:///a", "http://", "https://u@:443/a"):
        assert one(db, "uri_origin(?)", text) is None, text
    assert one(db, "uri_origin('http://%31.2.3.4')") == one(db, "uri_origin('http://1.2.3.4')") == "http://1.2.3.4"
    assert one(db, "uri_port('//h:')") is None and one(db, "uri_host('//')") == "" and one(db, "uri_path(12)") == "12"


def test_changes(db: sqlite3.Connection) -> int:
    """Components that are replaced, encoded and decoded, beside the package."""
    draw, count = random.Random(5), 0
    for expression, expected in (
            ("uri_is_within('HTTP://H:80/x/../a/b', 'http://h/a/')", 1), ("uri_is_within('http://h/appX', 'http://h/app/')", 0),
            ("uri_is_within('http://h/app/%2e%2e/admin', 'http://h/app/')", 0), ("uri_is_within('/a', 's:/')", None),
            ("uri_is_within('s:/a', NULL)", None), ("uri_host_is_within('//WWW.Example.com', 'example.com')", 1),
            ("uri_host_is_within('//evilexample.com', 'example.com')", 0), ("uri_host_is_within('a', 'h')", 0),
            ("uri_host_is_within('//h', 'a b')", None), ("uri_compare('//h:9', '//h:10')", -1), ("uri_compare('a b', '')", None),
            ("uri_compare('http://h/%7e', 'HTTP://H/~')", 0), ("uri_default_port('HTTPS')", 443), ("uri_host_flags('//%31.2.3.4')", 3),
            ("uri_host_flags('//127.1')", 2), ("uri_host_flags('a')", 0), ("uri_host_flags('a b')", None), ("uri_default_port('mailto')", None),
            ("uri_param('http://h/?q=R%26D&all', 'q')", "R&D"), ("uri_param('?all', 'all')", ""), ("uri_param('?a', 'b')", None),
            ("uri_param('a', 'a')", None), ("uri_param('?%61=1&a=2', 'a')", "1"),
            ("uri_with_param('http://h/?p=1&lang=de&%70=2#f', 'p', 'a&b')", "http://h/?p=a%26b&lang=de#f"),
            ("uri_with_param('http://h', 'n', 2)", "http://h?n=2"), ("uri_with_param('?a', 'n', NULL)", "?a&n"),
            ("uri_with_param('a', NULL, 'x')", None), ("uri_with_param('a b', 'n', 'x')", None),
            ("uri_without_params('http://h/?utm_source=x&q=1&%75tm_id=2&gclid#f', 'utm_*', 'gclid')", "http://h/?q=1#f"),
            ("uri_without_params('http://h/?utm_a#f', 'utm_*')", "http://h/#f"), ("uri_without_params('a', 'b')", "a"),
            ("uri_without_params('?a')", "?a"), ("uri_without_params('?a', 'b', NULL)", None),
            ("uri_without_params('?a&b', 'a', x'62')", ""), ("uri_without_params(x'3f61', 'b')", "?a"),
            ("uri_with_appended_param('?a=1&', 'a', 2)", "?a=1&a=2"), ("uri_without_param('?a*&ab', 'a*')", "?ab"),
            ("uri_without_param('?1=a&b', 1)", "?b"), ("uri_param('?a=%FF', 'a')", b"\xff"), ("uri_param('?a=%25FF', 'a')", "%FF"),
            ("uri_param('?a=x%00', 'a')", b"x\0"), ("uri_param('?%FF=1', x'ff')", "1"), ("uri_is_uri(x'733a')", 1), ("uri_is_uri(NULL)", None),
            ("uri_encode('pair', 'a&b=c d+')", "a%26b%3Dc%20d%2B"),
            ("uri_same_origin('HTTPS://u@H:443/a', 'https://h/b')", 1), ("uri_same_origin('file:///a', 'file:///a')", 0),
            ("uri_same_origin('a b', 's:')", None), ("uri_same_origin('s:', NULL)", None),
            ("uri_is_normalized('http://h/')", 1), ("uri_is_normalized('http://h')", 0), ("uri_is_normalized('a b')", None), ("uri_is_public('http://example.com')", 1), ("uri_is_public('//10.0.0.1')", 0),
            ("uri_is_public('a b')", None), ("uri_is_public(NULL)", None),
            ("uri_key('//h')", "1\1\2\1\0011h\1\1/\1\1\1"), ("uri_page_key('//h/./#f')", "1\1\2\1\0011h\1\1/\1\1\1"), ("uri_normal_key('//%31.2.3.4') = uri_normal_key('//1.2.3.4')", 0),
            ("uri_place_key('http://a.b/c')", "p\2" "1b\1a\1\2\00200080\1\1\2http\1/c\1\1\1"), ("uri_place_key('/c')", None), ("uri_place_key(NULL)", None),
            ("uri_domain_prefix('A.b.')", "p\2" "1b\1a\1"), ("uri_domain_prefix('h:1')", None), ("uri_base_prefix('s:/c/d')", "p\1\2s\1/c/"),
            ("uri_place_key('http://www.a.b/c') BETWEEN uri_domain_prefix('a.b') AND uri_domain_prefix('a.b') || char(127)", 1),
            ("uri_key('a b')", None), ("uri_key(NULL)", None), ("uri_key('//h:9') < uri_key('//h:10')", 1),
            ("uri_is_ambiguous('..;a')", 1), ("uri_is_ambiguous('..')", 0), ("uri_is_ambiguous('a/b')", None), ("uri_is_ambiguous(NULL)", None),
            ("uri_fault_text('a b')", "invalid path character"), ("uri_fault_text('a')", None), ("uri_fault_text(NULL)", None),
            ("uri_port_or_default('https://h')", 443), ("uri_port_or_default('//h:0')", 0), ("uri_port_or_default('//h')", None),
            ("uri_host_address('http://1.2.3.4/')", "1.2.3.4"), ("uri_host_address('//[2001:DB8:0::7]:1')", "2001:db8::7"),
            ("uri_host_address('//[1111:2222:3333:4444:5555:6666:255.255.255.255]')", "1111:2222:3333:4444:5555:6666:ffff:ffff"),
            ("uri_host_address('//h')", None), ("uri_host_address('//%31.2.3.4')", None), ("uri_host_address('a')", None),
            ("uri_host_address('//[::g]')", None), ("uri_host_address(NULL)", None),
            ("uri_form_decode('a+%2B%C3%A9')", "a +\u00e9"), ("uri_form_decode('+%FF')", b" \xff"), ("uri_form_decode('%')", None),
            ("uri_trim_link(' <URL:http://h/> ')", "http://h/"), ("uri_trim_link(x'20ff')", b"\xff"), ("uri_trim_link('')", ""),
            ("uri_param_values('?a=1&b&%61=%22%5C%0A&a&a=%FF&a=x%00', 'a')", '["1","\\"\\\\\\u000a","",null,null]'),
            ("uri_host_is_within_any('//a.example.org', 'example.com example.org')", 1), ("uri_host_is_within_any('file:///a', '')", 0),
            ("uri_host_is_within_any('//h', 'h a:1')", None), ("uri_host_is_within_any('a b', 'h')", None), ("uri_host_is_within_any('//h', NULL)", None),
            ("uri_without_default_port('HTTP://H:080/%7e')", "HTTP://H/%7e"), ("uri_without_default_port('//h:80')", "//h:80"),
            ("uri_without_default_port('a b')", None), ("uri_without_default_port(NULL)", None),
            ("uri_mask_password('ftp://u:secret@h')", "ftp://u:***@h"), ("uri_mask_password(x'2f2f753a4068')", "//u:***@h"),
            ("uri_request_target('http://h//a?b#c')", "//a?b"), ("uri_request_target('//h')", "/"), ("uri_request_target('s:a')", None),
            ("uri_request_target('/a b')", None), ("uri_request_target(NULL)", None), ("uri_mask_password('a b')", None), ("uri_mask_password(NULL)", None),
            ("group_concat(segment, '|') FROM uri_segments('http://h/a%2Fb/%C3%BC//')", "a/b|\u00fc||"), ("count(*) FROM uri_segments", 0),
            ("segment FROM uri_segments('/a/%FF') WHERE rowid = 1", b"\xff"), ("count(*) FROM uri_segments('a b')", 0), ("count(*) FROM uri_segments(NULL)", 0),
            ("count(*) FROM uri_segments(x'')", 1), ("count(*) FROM uri_segments('')", 1), ("uri FROM uri_segments('/')", "/"),
            ("uri_param_values('?a', 'b')", "[]"), ("uri_param_values('a', 'a')", "[]"), ("uri_param_values('a b', 'a')", None),
            ("uri_param_values('?a', NULL)", None), ("group_concat(value) FROM json_each(uri_param_values('?a=1&a=2', 'a'))", "1,2")):
        assert one(db, expression) == expected, expression
    assert one(db, "uri_replace('HTTP://u:p@h:8080/%7Ea?q#f', 'host', 'example.org')") == "HTTP://u:p@example.org:8080/%7Ea?q#f"
    assert one(db, "uri_replace('HTTP://u:p@h/a', 'username', NULL)") == "HTTP://h/a"
    assert one(db, "uri_replace('//h', 'port', 80)") == "//h:80" and one(db, "uri_replace('a', 'port', 80)") is None
    assert one(db, "uri_replace(NULL, 'port', 80)") is None and one(db, "uri_replace('a', NULL, 80)") is None
    assert one(db, "uri_replace('a b', 'path', 'a')") is None
    for expression in ("uri_replace('a', 'authority', 'h')", "uri_replace('a', 'Host', 'h')", "uri_replace('a', '', 'h')"):
        assert "no component" in raised(lambda: one(db, expression)), expression
    assert "no component 'host'" in raised(lambda: one(db, "uri_encode('host', 'a')"))
    for _ in range(COUNT // 20):
        text, value = fuzz.some_text(draw), draw.choice((None, *fuzz.VALUES))
        name = draw.choice(("scheme", "username", "password", "host", "port", "path", "query", "fragment"))
        found = answer_of(lambda whole: uriparse.replace(whole, **{name: value}), text)
        count += found is not None
        assert one(db, "uri_replace(?, ?, ?)", text, name, value) == (None if found is None else found.decode()), (text, name, value)
        component = draw.choice(list(fuzz.KEPT))
        assert one(db, "uri_encode(?, ?)", component, text) == uriparse.encode(component, text).decode(), (component, text)  # type: ignore[arg-type]
        assert one(db, "uri_decode(?)", text) == as_value(answer_of(uriparse.decode, text)), text
    return count


def test_components(db: sqlite3.Connection) -> None:
    """Components that are encoded and decoded (RFC 3986, section 2), and the parts of an authority (section 3.2)."""
    for component, encoded in (("username", "a%3Ab%40c%2F%3F%20%C3%A9%25&"), ("password", "a:b%40c%2F%3F%20%C3%A9%25&"),
                               ("segment", "a:b@c%2F%3F%20%C3%A9%25&"), ("query", "a:b@c/?%20%C3%A9%25&"),
                               ("fragment", "a:b@c/?%20%C3%A9%25&")):
        for text in ("a:b@c/? \u00e9%&", "a:b@c/? \u00e9%&".encode()):
            assert one(db, "uri_encode(?, ?)", component, text) == encoded, component
        assert one(db, "uri_decode(?)", encoded) == "a:b@c/? \u00e9%&", component
        assert one(db, "uri_encode(?, NULL)", component) is None and one(db, "uri_encode(?, '')", component) == ""
        assert one(db, "uri_encode(?, ?)", component.encode(), "\0") == "%00", component
    for component in ("host", "port", "path", "Query", "querys", "quer", "", "query\0", 96, b""):
        assert "OperationalError: no component" in raised(lambda: one(db, "uri_encode(?, 'a')", component)), component
        assert one(db, "uri_encode(?, NULL)", component) is None
    assert one(db, "uri_encode(NULL, 'a')") is None and one(db, "uri_encode(NULL, NULL)") is None
    assert "wrong number of arguments" in raised(lambda: one(db, "uri_encode('query')"))
    for text, found in (("a%2fb%20c+d?", "a/b c+d?"), ("", ""), ("%C3%A9%25", "\u00e9%"), ("a%2", None), ("a b", None), ("#", None),
                        ("%ff", b"\xff"), ("a%00", b"a\0"), ("%C0%80", b"\xc0\x80"), ("%ED%A0%80", b"\xed\xa0\x80"), ("%F0%9F%98%80", "\U0001f600"), (12, "12")):
        assert one(db, "uri_decode(?)", text) == found, text
    for authority, parts in (("u:p@h", ("u", "p", "name")), ("u@1.2.3.4:1", ("u", None, "ipv4")), (":@[::1]", ("", "", "ipv6")),
                             ("@[v1.a]", ("", None, "ipvfuture")), ("", (None, None, "name")), ("%31.2.3.4", (None, None, "name")),
                             ("u:p:q@1.2.3.256", ("u", "p:q", "name"))):
        assert db.execute("SELECT uri_username(?1), uri_password(?1), uri_host_kind(?1)", ("//" + authority,)).fetchone() == parts
        assert rows.authority_parts(b"//" + authority.encode()) == tuple(
            part.encode() if part is not None and at < 2 else part for at, part in enumerate(parts)), authority
    assert one(db, "uri_host_kind('mailto:a')") is None


def test_texts(db: sqlite3.Connection) -> None:
    """Texts of no byte, with NUL, and of 10 MB."""
    assert one(db, "uri_valid('') AND uri_normalize('') = '' AND uri_path(x'') = '' AND uri_resolve('s:', x'') = 's:'") == 1
    for text in (b"http://h/\0", b"\0"):
        for value in (text, text.decode()):
            assert one(db, "uri_fault(?)", value) == len(text) - 1 and one(db, "uri_host(?)", value) is None, text
            assert one(db, "uri_escape(?)", value) == text.decode().replace("\0", "%00"), text
    for size in (*range(1000, 1050), 10_000_000):
        tail = "a" * size
        assert one(db, "uri_path(?)", "S:/" + tail) == "/" + tail, size
        assert one(db, "uri_normalize(?)", "S:/%61/../" + tail) == "s:/" + tail, size
        assert one(db, "uri_resolve('http://h/', ?)", tail) == "http://h/" + tail, size
        assert one(db, "uri_relativize('http://h/x', ?)", "http://h/" + tail) == tail, size
        assert one(db, "uri_escape(?)", tail + " ") == tail + "%20", size
        assert one(db, "uri_encode('segment', ?)", tail + "/") == tail + "%2F", size
        assert one(db, "uri_decode(?)", tail + "%2F") == tail + "/" and one(db, "uri_decode(?)", tail + "%ff") == tail.encode() + b"\xff", size
        assert one(db, "uri_equal(?1, ?2) AND uri_hash(?1) = uri_hash(?2) AND ?1 = ?2 COLLATE URI", "S:" + tail,
                   "s:%61" + tail[1:]) == 1, size
        assert one(db, "?1 < ?2 COLLATE URI AND NOT ?2 < ?1 COLLATE URI", "S:" + tail, "s:%61" + tail) == 1, size
        assert one(db, "uri_fault(?)", tail + " ") == size
    limit = ctypes.CDLL("libsqlite3.so.0").sqlite3_hard_heap_limit64
    limit.argtypes = (ctypes.c_int64,)
    limit(ctypes.CDLL("libsqlite3.so.0").sqlite3_memory_used() + 50_000_000)
    try:
        assert raised(lambda: one(db, "uri_escape(zeroblob(20000000))")).startswith("MemoryError")
    finally:
        limit(0)
    # While memory runs out, the pairs of a query are an error, and never none.
    db.execute("CREATE TABLE one_text AS SELECT ? AS x", ("?" + "a" * 2_000_000,))
    answers = set()
    for more in range(1_000_000, 24_000_000, 500_000):
        limit(ctypes.CDLL("libsqlite3.so.0").sqlite3_memory_used() + more)
        try:
            answers.add(one(db, "count(*) FROM one_text, uri_pairs(x)"))
        except (MemoryError, sqlite3.Error):
            answers.add(None)
        finally:
            limit(0)
    assert answers == {None, 1}, answers
    db.execute("DROP TABLE one_text")


def query_of(text: bytes) -> Optional[bytes]:
    return None if uriparse.first_fault(text) else uriparse.parse(text).query


def test_pairs(db: sqlite3.Connection) -> int:
    """The pairs of a reference's query, decoded."""
    for text, expected in (("?a=1&b=%26&c", [("a", "1"), ("b", "&"), ("c", None)]), ("http://h/?", [("", None)]),
                           ("?=&&%3D=a=b+", [("", ""), ("", None), ("=", "a=b+")]), ("?%C3%BC=%ff&%00=%2500", [("\u00fc", b"\xff"), (b"\0", "%00")]),
                           ("?%ed%a0%80=%f4%90%80%80&%25ff=%25FF", [(b"\xed\xa0\x80", b"\xf4\x90\x80\x80"), ("%ff", "%FF")]),
                           ("a", []), ("?a b", []), (None, []), (b"?a=1", [("a", "1")]), (b"", []), (12, [])):
        found = db.execute("SELECT name, value FROM uri_pairs(?)", (text,)).fetchall()
        assert found == expected, (text, found)
    assert db.execute("SELECT typeof(name), typeof(value), uri FROM uri_pairs('?a')").fetchall() == [("text", "null", "?a")]
    assert one(db, "count(*) FROM uri_pairs") == 0
    assert db.execute("SELECT name FROM uri_pairs('?b=1&a=2&b=3') WHERE value > '1' ORDER BY 1").fetchall() == [("a",), ("b",)]
    long = "?" + "&".join("n%d=%s" % (at, "v" * at) for at in range(2000))
    assert one(db, "sum(length(value)) FROM uri_pairs(?)", long) == 1999000
    found = db.execute(
        "SELECT random.rowid - 1, name, value FROM random, uri_pairs(x) ORDER BY random.rowid, uri_pairs.rowid").fetchall()
    texts = [text for text, in db.execute("SELECT x FROM random ORDER BY rowid")]
    assert found == [(at, as_value(name), as_value(value)) for at, text in enumerate(texts) for name, value in rows.decoded_pairs(query_of(text))]
    return len(found)


def test_changed_pairs(db: sqlite3.Connection) -> int:
    """Pairs that are set, appended and left out of random references, and checks of two, beside lists and the package."""
    draw, count = random.Random(7), 0
    while count < COUNT // 10:
        text = fuzz.some_text(draw)
        if uriparse.first_fault(text):
            continue
        for call, values, wanted in rows.changed_pairs(draw, text):
            assert one(db, "%s(%s)" % (call, ", ".join("?" * len(values))), *values) == wanted.decode(), (call, values, wanted)
        base = text.partition(b"#")[0].partition(b"?")[0]
        other, domain = base + draw.choice(fuzz.BELOW), draw.choice(fuzz.HOSTS)
        assert one(db, "uri_is_within(?, ?)", other, base) == answer_of(uriparse.is_within, other, base), (other, base)
        assert one(db, "uri_host_is_within(?, ?)", text, domain) == answer_of(uriparse.host_is_within, text, domain), (text, domain)
        domains = domain + b" " + draw.choice(fuzz.HOSTS)
        assert one(db, "uri_host_is_within_any(?, ?)", text, domains) == answer_of(uriparse.host_is_within_any, text, domains), (text, domains)
        assert one(db, "uri_without_default_port(?)", text) == uriparse.without_default_port(text).decode(), text
        assert one(db, "uri_request_target(?)", text) == ((found := uriparse.request_target(text)) and found.decode()), text
        assert one(db, "uri_mask_password(?)", text) == uriparse.mask_password(text).decode(), text
        found = db.execute("SELECT segment FROM uri_segments(?)", (text,)).fetchall()
        assert found == [(as_value(uriparse.decode(segment)),) for segment in uriparse.segments(uriparse.parse(text).path)], text
        assert one(db, "uri_host_flags(?)", b"//" + domain) == answer_of(uriparse.host_flags, b"//" + domain), domain
        assert one(db, "uri_is_uri(?)", text) == uriparse.is_uri(text), text
        count += 1
    return count


def test_steps(db: sqlite3.Connection) -> None:
    """Many pairs and names are taken by steps, which change nothing, and between which an interrupt ends the statement."""
    draw = random.Random(8)
    for size, names_size in ((4095, 1), (4096, 4096), (5000, 5000), (20_000, 9000), (1, 9000), (9000, 1)):
        pieces = ["%s=%d" % (draw.choice("abcdefgh") * draw.choice((0, 1, 3)), at) for at in range(size // 3 + 1)]
        names = [draw.choice("abcdx") * draw.choice((1, 3, 5)) for _ in range(names_size // 3 + 1)]
        dropped = set(names)
        left = [piece for piece in pieces if piece.partition("=")[0] not in dropped]
        wanted = "s:?" + "&".join(left) + "#f" if left else "s:#f"
        assert one(db, "uri_without_params(?, ?)", "s:?" + "&".join(pieces) + "#f", "&".join(names)) == wanted, (size, names_size)
        assert one(db, "uri_without_params(?, ?, ?)", "s:?" + "&".join(pieces) + "#f", "&".join(names), "*") == "s:#f"
        assert "invalid names" in raised(lambda: one(db, "uri_without_params(?, ?)", "s:?" + "&".join(pieces), "*&" + "&".join(names) + "&a b"))
    timer = threading.Timer(0.3, db.interrupt)
    begin = time.process_time()
    timer.start()
    assert raised(lambda: one(db, "uri_without_params(?, ?)", "?" + "a&" * 500_000, "b&" * 100_000)) == "OperationalError: interrupted"
    assert time.process_time() - begin < 1.3, time.process_time() - begin
    assert one(db, "uri_without_params('?a&b', 'a')") == "?b"


def test_random(db: sqlite3.Connection, encoding: str) -> int:
    """Each function beside the package, of blobs and of texts."""
    draw = random.Random(encoding)
    texts = [fuzz.some_text(draw) for _ in range(COUNT)]
    db.execute("CREATE TABLE random (x, text)")
    db.executemany("INSERT INTO random VALUES (?, ?)", ((text, text.decode("utf-8", "replace")) for text in texts))
    calls = ", ".join("uri_%s(%%s)" % name for name in ONE)
    for row, text in zip(db.execute("SELECT %s FROM random ORDER BY rowid" % (calls % (("x",) * len(ONE)))), texts):
        assert row == expected(text), (text, row, expected(text))
    for row, text in zip(db.execute("SELECT %s FROM random ORDER BY rowid" % (calls % (("text",) * len(ONE)))), texts):
        assert row == expected(text.decode("utf-8", "replace").encode()), (text, row)
    pairs = zip(texts, texts[1:])
    two = db.execute("SELECT uri_resolve(a.x, b.x), uri_equal(a.x, b.x), uri_relativize(a.x, b.x), uri_compare(a.x, b.x) "
                     "FROM random a JOIN random b ON b.rowid = a.rowid + 1 ORDER BY a.rowid")
    for (target, is_equal, relative, order), (left, right) in zip(two, pairs):
        assert order == answer_of(uriparse.compare, left, right), (left, right)
        leading = answer_of(uriparse.relativize, left, right)
        assert relative == (leading if leading is None else leading.decode()), (left, right)
        assert (target or "").encode() == (answer_of(uriparse.resolve, left, right) or b""), (left, right)
        assert is_equal == answer_of(uriparse.equal, left, right), (left, right)
    shown = [text.decode("utf-8", "replace") for text in texts]
    back = [text.encode() if "\0" in text else text for text in shown]
    for component, kept in fuzz.KEPT.items():
        found = db.execute("SELECT uri_encode(?1, x), uri_decode(uri_encode(?1, text)) FROM random ORDER BY rowid", (component,)).fetchall()
        assert found == list(zip((quote(text, safe=kept) for text in texts), back)), component
    return len(texts)


def answer_of(call: Callable[..., Any], *texts: bytes) -> Any:
    try:
        return call(*texts)
    except uriparse.URIError:
        return None


def alike(draw: random.Random, text: str) -> str:
    """Another spelling of a text, if it is a reference."""
    return draw.choice((text.replace("a", "%61"), text.replace("%7e", "~"), text.replace("http:", "HTTP:"), text.swapcase(), text))


def test_order(db: sqlite3.Connection) -> int:
    """The collation is a total order in which references come first, and exactly the equal ones are level."""
    draw = random.Random(3)
    texts = [fuzz.some_text(draw).decode("utf-8", "replace").replace("\0", "0") for _ in range(120)]
    texts += [alike(draw, text) for text in texts] + ["//h", "//h/", "//h:", "//h:/", "//%31.2.3.4", "//1.2.3.4", "//1.2.3.4:",
                                                   "a/../b", "b", "a%2fb", "a%2Fb", "a/b", "a?b", "a%3fb", "a#b", "s:", "s:?"]
    texts += rows.close_texts()
    db.execute("CREATE TABLE few (at INTEGER PRIMARY KEY, x TEXT COLLATE URI)")
    db.executemany("INSERT INTO few VALUES (?, ?)", enumerate(texts))
    size = len(texts)
    signs = [0] * (size * size)
    for left, right, sign in db.execute("SELECT a.at, b.at, (a.x > b.x) - (a.x < b.x) FROM few a, few b"):
        signs[left * size + right] = sign
    # Each text's rank is how many texts precede it: the order is total if the ranks' order is the order of all pairs.
    ranks = [sum(sign > 0 for sign in signs[at * size:(at + 1) * size]) for at in range(size)]
    is_reference = [not uriparse.first_fault(text.encode()) for text in texts]
    level = 0
    for left in range(size):
        for right in range(size):
            sign = signs[left * size + right]
            assert sign == (ranks[left] > ranks[right]) - (ranks[left] < ranks[right]), (texts[left], texts[right])
            if is_reference[left] and is_reference[right]:
                is_equal = uriparse.equal(texts[left].encode(), texts[right].encode())
                level += is_equal and left != right
            else:
                is_equal = texts[left] == texts[right]
                assert is_reference[left] == is_reference[right] or (sign < 0) == is_reference[left], (texts[left], texts[right])
            assert (sign == 0) == is_equal, (texts[left], texts[right])
    assert level > 100 and 50 < sum(is_reference) < size - 20, level
    return size * size


def test_indexes(db: sqlite3.Connection) -> None:
    db.execute("CREATE TABLE ids (url TEXT COLLATE URI UNIQUE CHECK (uri_valid(url)), host GENERATED ALWAYS AS (uri_host(url)))")
    db.execute("INSERT INTO ids VALUES ('http://h/%7e')")
    assert "UNIQUE" in raised(lambda: db.execute("INSERT INTO ids VALUES ('HTTP://H:/~')"))
    assert "CHECK" in raised(lambda: db.execute("INSERT INTO ids VALUES ('a b')"))
    db.execute("INSERT INTO ids VALUES ('http://h/a/../~')")
    assert db.execute("SELECT url, host FROM ids WHERE url = 'http://H/%7E'").fetchall() == [("http://h/%7e", "h")]
    # The random texts in indexes: the file is sound, and a look-up by another spelling finds what a walk finds.
    db.execute("CREATE INDEX by_spelling ON random (text COLLATE URI)")
    db.execute("CREATE INDEX by_normal ON random (uri_normalize(text))")
    assert one(db, "integrity_check FROM pragma_integrity_check") == "ok"
    plan = str(db.execute("EXPLAIN QUERY PLAN SELECT * FROM random WHERE uri_normalize(text) = 's:'").fetchall())
    assert "by_normal" in plan, plan
    # The URIs within a domain, and below a base, are a range of place keys.
    db.execute("CREATE INDEX by_place ON random (uri_place_key(text))")
    in_range = "FROM random WHERE uri_place_key(text) >= {0} AND uri_place_key(text) < {0} || char(127)"
    plan = str(db.execute("EXPLAIN QUERY PLAN SELECT * " + in_range.format("uri_domain_prefix('h')")).fetchall())
    assert "by_place" in plan, plan
    for host in ("h", "H.", "a.b", "1.2.3.4", "[::1]", ""):
        assert one(db, "count(*) " + in_range.format("uri_domain_prefix(?1)"), host) == one(
            db, "count(*) FROM random NOT INDEXED WHERE uri_is_uri(text) AND uri_host_is_within(text, ?1)", host), host
    for base in ("http://h/", "s:", "s:/", "http://h/a/", "a://h"):
        assert one(db, "count(*) " + in_range.format("uri_base_prefix(?1)") + " AND uri_is_within(text, ?1)", base) == one(
            db, "count(*) FROM random NOT INDEXED WHERE uri_is_within(text, ?1)", base), base
    for text, in db.execute("SELECT text FROM random WHERE uri_valid(text) LIMIT 20").fetchall():
        other = alike(random.Random(4), text)
        assert one(db, "count(*) FROM random WHERE text = ? COLLATE URI", other) == one(
            db, "count(*) FROM random NOT INDEXED WHERE uri_equal(text, ?)", other), text
    valid = [row[0] for row in db.execute("SELECT uri_valid(text) FROM random ORDER BY text COLLATE URI")]
    assert valid == sorted(valid, reverse=True)


def test_hostile(db: sqlite3.Connection) -> int:
    """The rows of hostile input. A rejected one gives NULL."""
    answers = {"yes": 1, "no": 0, "rejected": None}
    found = rows.hostile_rows()
    for row in found:
        expression = rows.HOSTILE[row.call].replace("%s", "?")
        answer = one(db, expression, *(row.text, row.other)[:expression.count("?")])
        assert answer == (answers[row.answer] if row.answer in answers else int(row.answer)), (answer, row)
    assert len(found) > 700
    return len(found)


def test_redirects(db: sqlite3.Connection) -> int:
    """The view `allowed` of README.md has the targets that the rows allow."""
    found = rows.redirects()
    for row in found:
        db.execute("DELETE FROM links")
        db.execute("INSERT INTO links VALUES (?, ?)", (row.other, row.text))
        condition = " WHERE uri_is_within(target, page)" if row.call == "redirect-below" else ""
        assert one(db, "count(*) FROM allowed" + condition) == (row.answer == "yes"), row
    assert len(found) >= 60
    return len(found)


def test_names() -> None:
    """The extension loads under any file name."""
    with tempfile.TemporaryDirectory() as folder:
        for name in ("uri0.so", "mod_links.so", "3.so", "libsome.thing.so.1"):
            path = os.path.join(folder, name)
            shutil.copy(EXTENSION, path)
            assert one(connect(extension=path), "uri_host('//h')") == "h", name


def test_page() -> int:
    """The statements of README.md print what stands there, and its Python runs."""
    page = os.path.join(os.path.dirname(os.path.abspath(__file__)), "README.md")
    db = connect()
    statements = rows.page_statements(page)
    for statement, wanted in statements:
        try:
            found = ["|".join("NULL" if value is None else str(value) for value in row) for row in db.execute(statement)]
        except sqlite3.Error as error:
            found = ["error: %s" % error]
        assert "\n".join(found) == "\n".join(wanted), (statement, found, wanted)
    test_redirects(db)
    with open(page, encoding="utf-8") as file:
        code, = re.findall(r"^```python\n(.*?)^```$", file.read(), re.MULTILINE | re.DOTALL)
    other = sqlite3.connect(":memory:")
    exec(code.replace("bindings/sqlite/out/uri0", EXTENSION), {"db": other})
    assert one(other, "uri_valid('a')") == 1
    return len(statements)


def main() -> None:
    counts: List[str] = []
    for encoding in ("UTF-8", "UTF-16le", "UTF-16be"):
        db = connect(encoding)
        found: Optional[int] = None
        found = test_rows(db) + test_hostile(db)
        meanings = test_meanings(db)
        test_errors(db)
        test_components(db)
        changed = test_changes(db)
        test_texts(db)
        texts = test_random(db, encoding) if encoding != "UTF-16be" else 0
        of_names = test_changed_pairs(db)
        test_steps(db)
        pairs = test_order(db)
        of_queries = test_pairs(db) if texts else 0
        if texts:
            test_indexes(db)
        assert one(db, "encoding FROM pragma_encoding") == encoding
        counts.append("%s: %d rows, %d of rows.tsv, %d changes, %d random texts, %d with changed pairs, %d pairs of their queries, %d pairs in "
                      "order" % (encoding, found, meanings, changed, texts, of_names, of_queries, pairs))
        db.close()
    test_names()
    counts.append("%d statements of README.md" % test_page())
    print("; ".join(counts))


main()
