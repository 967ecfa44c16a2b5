"""The extension for PostgreSQL beside Python's package, by psql: `test.py [COUNT of random texts]`.

PGHOST and PGUSER name a server in which databases may be made. Each line that is printed is a test."""
from __future__ import annotations

import hashlib
import ipaddress
import os
import random
import re
import struct
import subprocess
import sys
import threading
import time
from typing import Any, Callable, Dict, List, Optional, Tuple
from urllib.parse import quote

TOP = os.path.dirname(os.path.dirname(os.path.abspath(__file__)))
sys.path[:0] = [os.path.join(TOP, "python"), os.path.join(TOP, "sqlite")]

import fuzz  # noqa: E402
import rows  # noqa: E402
import uriparse  # noqa: E402

COUNT = int(sys.argv[1]) if len(sys.argv) > 1 else 20_000
# What Python calls the encoding of a database that isn't UTF-8.
CODECS = {"latin": "latin-1", "eucjp": "euc_jp"}
ONE = ("valid", "fault", "scheme", "authority", "host", "port", "path", "query", "fragment", "normalize", "hash", "origin", "escape", "username",
       "password", "host_kind")


def psql(database: str, *commands: str, data: bytes = b"", check: bool = True) -> Tuple[List[List[Optional[str]]], str]:
    """The rows that the commands print, and what stands on standard error."""
    words = ["psql", "-X", "-q", "-A", "-t", "-F", "\t", "-P", "null=\\N", "-v", "VERBOSITY=verbose", "-d", database]
    if check:
        words += ["-v", "ON_ERROR_STOP=1"]
    for command in commands:
        words += ["-c", command]
    done = subprocess.run(words, input=data, stdout=subprocess.PIPE, stderr=subprocess.PIPE)
    assert not check or not done.returncode, done.stderr.decode()
    lines = done.stdout.decode("latin-1").split("\n")[:-1]
    return [[None if field == "\\N" else field for field in line.split("\t")] for line in lines], done.stderr.decode()


def run(database: str, command: str) -> bytes:
    """The bytes that a command prints."""
    return subprocess.run(["psql", "-X", "-q", "-d", database, "-c", command], stdout=subprocess.PIPE, check=True).stdout


def one(database: str, expression: str) -> Optional[str]:
    return psql(database, "SELECT " + expression)[0][0][0]


def quoted(text: str) -> str:
    return "E'%s'" % text.replace("\\", "\\\\").replace("'", "\\'")


def error_of(database: str, command: str) -> str:
    """The SQLSTATE, the message and the detail of the command's error."""
    lines = psql(database, command, check=False)[1].split("\n")
    return " / ".join(line for line in lines if line.startswith(("ERROR", "DETAIL")))


def shown(value: Any) -> Optional[str]:
    return value if value is None else value.decode() if isinstance(value, bytes) else str(value)


def expected(database: str, text: bytes) -> List[Optional[str]]:
    """What the functions of ONE return for a text. Its UTF-8 is what is escaped."""
    codec = CODECS.get(database)
    escaped = uriparse.escape(text.decode(codec).encode() if codec else text)
    fault = uriparse.first_fault(text)
    if fault:
        return ["f", shown(fault[1]), *[None] * 10, shown(escaped), None, None, None]
    found = uriparse.parse(text)
    signed = struct.unpack("q", struct.pack("Q", uriparse.hash_of(text)))[0]
    values = (found.scheme, found.authority, found.host, found.port_number, found.path, found.query, found.fragment,
              uriparse.normalize(text), signed, answer_of(uriparse.origin, text), escaped, *rows.authority_parts(text))
    return ["t", None, *map(shown, values)]


def answer_of(call: Callable[..., Any], *texts: bytes) -> Any:
    """What a call of the package returns, or None if it rejects a text."""
    try:
        return call(*texts)
    except uriparse.URIError:
        return None


def in_database(database: str, found: Optional[bytes]) -> Optional[bytes]:
    """UTF-8 in the database's encoding, if it is a text there."""
    try:
        return None if found is None or b"\0" in found else found if database == "ascii" else found.decode().encode(
            CODECS.get(database, "utf-8"))
    except UnicodeError:
        return None


def decoded(database: str, text: bytes) -> Optional[bytes]:
    """What the text of a component stands for, in the database's encoding, if that is a text there."""
    return in_database(database, rows.decoded(text))


def load(database: str, texts: List[bytes]) -> None:
    """The texts in the table `random`, by their number."""
    lines = b"".join(b"%d\t%s\n" % (at, text.hex().encode()) for at, text in enumerate(texts))
    psql(database, "CREATE TABLE bytes (at int, x text)", "COPY bytes FROM STDIN", data=lines)
    psql(database, "CREATE TABLE random AS SELECT at, convert_from(decode(x, 'hex'), getdatabaseencoding()) AS x FROM bytes")


def test_rows(database: str) -> str:
    found = rows.library_rows()
    wanted: List[Tuple[str, Optional[str]]] = [("uri_valid(%s)" % quoted(text), "t") for (text,) in found["valid"]]
    wanted += [("uri_valid(%s)" % quoted(text), "f") for (text,) in found["invalid"]]
    wanted += [("uri_normalize(%s)" % quoted(text), normal) for text, normal in found["normal"]]
    wanted += [("uri_resolve(%s, %s)" % (quoted(base), quoted(text)), target)
               for base, text, target in found["target"] if not base.startswith("a")]
    for base, text, reference in rows.related_rows():
        wanted.append(("uri_relativize(%s, %s)" % (quoted(base), quoted(text)), reference))
        wanted.append(("uri_relativize(uri %s, uri %s)" % (quoted(base), quoted(text)), reference))
    for left, right, is_equal in rows.program_rows():
        wanted.append(("uri_equal(%s, %s)" % (quoted(left), quoted(right)), "t" if is_equal else "f"))
        wanted.append(("uri %s = uri %s" % (quoted(left), quoted(right)), "t" if is_equal else "f"))
    wanted += [("uri_origin(%s)" % quoted(text), None) for text in ("file:///a", "http:///a", "http://", "https://u@:443/a")]
    wanted += [("uri_origin(%s)" % quoted(text), "http://1.2.3.4") for text in ("http://%31.2.3.4", "http://1.2.3.4")]
    wanted += [
        ("uri_replace('HTTP://u:p@h:8080/%7Ea?q#f', 'host', 'example.org')", "HTTP://u:p@example.org:8080/%7Ea?q#f"),
        ("uri_replace('HTTP://u:p@h/a', 'username', NULL)", "HTTP://h/a"), ("uri_replace('//h', 'port', '80')", "//h:80"),
        ("uri_replace('a', 'port', '80')", None), ("uri_replace(NULL::text, 'port', '80')", None), ("uri_replace('a', NULL, '80')", None),
        ("uri_replace(uri 's:a', 'path', %s)" % quoted("b" * 5000), "s:" + "b" * 5000), ("uri_replace('s:a:b', 'scheme', NULL)", None),
        ("uri_replace(NULL::uri, 'port', '80')", None), ("uri_replace(uri 'a', NULL, '80')", None),
        ("uri_without_params('http://h/?a', VARIADIC '{}')", "http://h/?a"), ("uri_without_params('a b', VARIADIC '{}')", None),
        ("uri_without_params(uri '?a', VARIADIC '{}'::text[])", "?a"), ("uri_without_params('?a', VARIADIC NULL::text[])", None),
        ("pg_typeof(uri_without_params(uri '?a', 'a'))", "uri"), ("uri_without_params(uri '?a&b&c', 'a', 'c')", "?b"),
        ("uri_without_param(uri '?a*&ab', 'a*')", "?ab"), ("pg_typeof(uri_without_param(uri '?a', 'a'))", "uri"),
        ("uri_without_param('?a', NULL)", None), ("uri_with_appended_param(uri '?a=1&', 'a', '2')", "?a=1&a=2"),
        ("pg_typeof(uri_with_appended_param(uri '?a', 'a', NULL))", "uri"), ("uri_with_appended_param('?a', NULL, 'b')", None),
        ("uri_with_appended_param(NULL::text, 'a', 'b')", None), ("uri_is_uri(uri 's:a')", "t"), ("uri_is_uri(NULL::text)", None),
        ("uri_is_within('HTTP://H:80/x/../a/b', 'http://h/a/')", "t"), ("uri_is_within(uri 'http://h/appX', 'http://h/app/')", "f"),
        ("uri_is_within('http://h/app/%2e%2e/admin', uri 'http://h/app/')", "f"), ("uri_is_within(uri 's:/a', uri 's:/')", "t"),
        ("uri_is_within('/a', 's:/')", None), ("uri_is_within('s:/a', NULL)", None),
        ("uri_host_is_within('//WWW.Example.com', 'example.com')", "t"), ("uri_host_is_within(uri '//evilexample.com', 'example.com')", "f"),
        ("uri_host_is_within('a', 'h')", "f"), ("uri_host_is_within('//h', 'a b')", None),
        ("uri_compare('//h:9', '//h:10')", "-1"), ("uri_compare('http://h/%7e', 'HTTP://H/~')", "0"), ("uri_compare('a b', '')", None),
        ("uri_default_port('HTTPS')", "443"), ("uri_host_flags('//%31.2.3.4')", "3"),
        ("uri_host_flags(uri '//127.1')", "2"), ("uri_host_flags('a')", "0"), ("uri_host_flags('a b')", None), ("uri_default_port('mailto')", None),
        ("uri_param('http://h/?q=R%26D&all', 'q')", "R&D"), ("uri_param(uri '?all', 'all')", ""), ("uri_param('?a', 'b')", None),
        ("uri_param('a', 'a')", None), ("uri_param('?%61=1&a=2', 'a')", "1"),
        ("uri_with_param('http://h/?p=1&lang=de&%70=2#f', 'p', 'a&b')", "http://h/?p=a%26b&lang=de#f"),
        ("uri_with_param(uri 'http://h', 'n', 'c d+')", "http://h?n=c%20d%2B"), ("uri_with_param('?a', 'n', NULL)", "?a&n"),
        ("uri_with_param('a', NULL, 'x')", None), ("uri_with_param('a b', 'n', 'x')", None),
        ("uri_without_params('http://h/?utm_source=x&q=1&%75tm_id=2&gclid#f', 'utm_*', 'gclid')", "http://h/?q=1#f"),
        ("uri_without_params(uri 'http://h/?utm_a#f', 'utm_*')", "http://h/#f"), ("uri_without_params('a', 'b')", "a"),
        ("uri_without_params('?a', 'b', NULL)", None), ("uri_encode('pair', 'a&b=c d+')", "a%26b%3Dc%20d%2B"),
        ("uri_same_origin('HTTPS://u@H:443/a', 'https://h/b')", "t"), ("uri_same_origin(uri 'file:///a', uri 'file:///a')", "f"),
        ("uri_same_origin(uri 'http://h', 'http://h:81')", "f"), ("uri_same_origin('http://h', uri 'http://h:80')", "t"),
        ("uri_same_origin('a b', 's:')", None), ("uri_is_normalized('http://h/')", "t"), ("uri_is_normalized(uri 'http://h')", "f"),
        ("uri_key('//h') = E'1\\x01\\x02\\x01\\x011h\\x01\\x01/\\x01\\x01\\x01'", "t"), ("uri_page_key(uri '//h/./#f') = uri_key('//H')", "t"),
        ("uri_normal_key('//%31.2.3.4') = uri_normal_key('//1.2.3.4')", "f"), ("uri_key('a b')", None),
        ("uri_place_key('http://a.b/c') = E'p\\x021b\\x01a\\x01\\x02\\x0200080\\x01\\x01\\x02http\\x01/c\\x01\\x01\\x01'", "t"),
        ("uri_place_key(uri '/c')", None), ("uri_domain_prefix('h:1')", None), ("uri_base_prefix(uri 's:/c/d') = E'p\\x01\\x02s\\x01/c/'", "t"),
        ("starts_with(uri_place_key(uri 'http://www.a.b/c'), uri_domain_prefix('A.b.'))", "t"),
        ('uri_key(\'//h:9\') COLLATE "C" < uri_key(uri \'//h:10\')', "t"),
        ("uri_is_normalized('a b')", None), ("uri_is_public('http://example.com')", "t"), ("uri_is_public(uri '//[::ffff:10.0.0.1]')", "f"),
        ("uri_is_public('a')", "f"), ("uri_is_public('a b')", None), ("uri_is_ambiguous('..;a')", "t"), ("uri_is_ambiguous('a/b')", None),
        ("uri_fault_text('a b')", "invalid path character"), ("uri_fault_text('a')", None), ("uri_fault_text(NULL)", None),
        ("uri_port_or_default(uri 'https://h')", "443"), ("uri_port_or_default('//h:0')", "0"), ("uri_port_or_default('//h')", None),
        ("uri_host_inet('http://1.2.3.4/')", "1.2.3.4"), ("uri_host_inet(uri '//[2001:DB8:0::7]:1')", "2001:db8::7"),
        ("masklen(uri_host_inet('//1.2.3.4'))", "32"), ("masklen(uri_host_inet('//[::1]'))", "128"), ("family(uri_host_inet('//[::1]'))", "6"),
        ("uri_host_inet('//10.1.2.3') << inet '10.0.0.0/8'", "t"), ("uri_host_inet('//[::1]') = inet '::1'", "t"),
        ("uri_host_inet('//h')", None), ("uri_host_inet('//127.1')", None), ("uri_host_inet('a b')", None),
        ("uri_form_decode('a+%2B%C3%A9')", "a +\u00c3\u00a9"), ("uri_form_decode('+%FF')", None), ("uri_form_decode('a%00')", None),
        ("uri_trim_link(' <URL:http://h/> ')", "http://h/"), ("uri_trim_link('')", ""),
        ("uri_host_is_within_any('//a.example.org', 'example.com example.org')", "t"), ("uri_host_is_within_any(uri 'file:///a', '')", "f"),
        ("uri_host_is_within_any('//h', 'h a:1')", None), ("uri_host_is_within_any('a b', 'h')", None), ("uri_host_is_within_any('//h', NULL)", None),
        ("uri_without_default_port('HTTP://H:080/%7e')", "HTTP://H/%7e"), ("uri_without_default_port(uri '//h:80')", "//h:80"),
        ("uri_without_default_port('a b')", None), ("uri_mask_password('ftp://u:secret@h')", "ftp://u:***@h"),
        ("uri_request_target('http://h//a?b#c')", "//a?b"), ("uri_request_target(uri '//h')", "/"), ("uri_request_target('s:a')", None),
        ("uri_mask_password(uri '//u:@h')", "//u:***@h"), ("uri_mask_password('a b')", None),
        ("array_agg(s) FROM uri_segments('http://h/a%2Fb/%C3%A9//%FF/%00') AS s", '{a/b,\u00c3\u00a9,"",NULL,NULL}'),
        ("count(*) FROM uri_segments(uri '')", "1"), ("count(*) FROM uri_segments('a b')", "0"), ("count(*) FROM uri_segments(NULL::text)", "0"),
        ("uri_param_values('?a=1&b&%61=R%26D&a&a=%FF&a=x%00', 'a')", '{1,R&D,"",NULL,NULL}'), ("uri_param_values(uri '?a', 'b')", "{}"),
        ("uri_param_values('a', 'a')", "{}"), ("uri_param_values('a b', 'a')", None), ("uri_param_values('?a', NULL)", None),
        ("uri_relativize('http://a/b/c', 'http://a/g#s')", "../g#s"), ("uri_relativize(uri 's:a', uri '/b')", None),
        ("uri_encode('segment', 'a/b c')", "a%2Fb%20c"), ("uri_encode('query', '\\xff26'::bytea)", "%FF&"),
        ("uri_decode_bytes('a%20%ff')", "\\x6120ff"),
        ("uri_decode_bytes('%')", None), ("uri_decode('a%20b')", "a b"), ("uri_decode('%ff')", None), ("uri_host_kind(uri '//[::1]')", "ipv6")]
    answers = psql(database, *("SELECT " + expression for expression, _ in wanted))[0]
    for (expression, answer), row in zip(wanted, answers):
        assert row == [answer], (expression, row, answer)
    assert len(answers) == len(wanted) > 310
    return "rows: %d" % len(wanted)


def spelled(value: Optional[bytes]) -> str:
    """A literal for an argument: of text, or of bytea if it isn't UTF-8."""
    try:
        return "NULL" if value is None else quoted(value.decode())
    except UnicodeDecodeError:
        return "'\\x%s'::bytea" % value.hex() if value else ""


def expression_of(row: rows.Meaning, kind: str = "") -> str:
    """The call of a row of rows.tsv. `kind` is the type of its first argument, if that isn't text."""
    if row.call == "pair_values":
        call = "uri_param_values(%s)" % ", ".join(map(spelled, row.values))
        return ("CASE WHEN %s IS NOT NULL THEN (SELECT coalesce(string_agg('<' || value || '>', '' ORDER BY at), '') "
                "FROM unnest(%s) WITH ORDINALITY AS u (value, at)) END" % (call, call))
    if row.call == "host_address":
        return "uri_host_inet(%s)%s" % (spelled(row.values[0]), "" if row.answer is None else " = inet '%s'" % ipaddress.ip_address(row.answer))
    if row.call == "pairs":
        return ("(SELECT coalesce(string_agg(concat('<', name, '=' || value, '>'), '' ORDER BY at), '') "
                "FROM uri_pairs(%s) WITH ORDINALITY AS p (name, value, at))" % spelled(row.values[0]))
    if row.call == "segments":
        return "(SELECT string_agg('<' || s || '>', '' ORDER BY at) FROM uri_segments(%s) WITH ORDINALITY AS u (s, at))" % spelled(row.values[0])
    return "%s(%s%s)" % (rows.SQL_CALLS[row.call], kind, ", ".join(map(spelled, row.values)))


def test_meanings() -> str:
    """The rows of rows.tsv. SQL returns NULL for an error, but `uri_check`, and a change of a `uri`, raise that of a reference, whose place
    `uri_fault` returns, and names that are no query raise theirs. Bytes that are no text are NULL too."""
    found, texts = rows.meanings(), rows.error_texts()
    wanted: List[Tuple[str, Optional[str]]] = []
    raised: List[Tuple[str, str]] = []
    for row in found:
        expression, answer = expression_of(row), row.answer
        if row.error is None:
            known = in_database("utf8", answer)
            if row.call == "hash":
                known = b"%d" % struct.unpack("q", struct.pack("Q", int(answer or b"")))
            if row.call == "host_address" and answer is not None:
                known = b"t"
            if row.call in rows.BOOLEAN_CALLS:
                known = {b"true": b"t", b"false": b"f"}[known or b""]
            wanted.append((expression, known if known is None else known.decode("latin-1")))
            continue
        code, _, wrong, place = row.error
        syntax = "ERROR:  22P02: invalid input syntax for type uri: " + texts[code]
        if code == "BAD_NAMES":
            raised.append((expression, "ERROR:  22023: " + texts[code]))
        elif row.call == "check":
            wanted.append((expression, "f"))
            wanted.append((expression.replace("uri_valid", "uri_fault_text"), texts[code]))
            raised.append((expression.replace("uri_valid", "uri_check"), "%s / DETAIL:  First wrong byte: %s." % (syntax, place)))
            raised.append(("uri " + spelled(row.values[0]), "%s / DETAIL:  First wrong byte: %s." % (syntax, place)))
        else:
            wanted.append((expression, "f" if row.call == "is_uri" else None))
        if row.call == "replace" and wrong != 1:
            raised.append((expression_of(row, "uri "), syntax))
        if wrong == 1 and place is not None and row.call not in rows.CALLS_OF_DATA:
            wanted.append(("uri_fault(%s)" % spelled(row.values[0]), str(place)))
    answers = psql("utf8", *("SELECT " + expression for expression, _ in wanted))[0]
    for (expression, answer), line in zip(wanted, answers):
        assert line == [answer], (expression, line, answer)
    assert len(answers) == len(wanted)
    for expression, error in raised:
        assert error_of("utf8", "SELECT " + expression) == error, (expression, error)
    return "rows.tsv: %d, with %d answers and %d errors" % (len(found), len(wanted), len(raised))


def test_changed_pairs(texts: List[bytes]) -> str:
    """Pairs that are set, appended and left out of random references, and checks of two, beside lists and the package."""
    draw = random.Random(7)
    lines: List[Tuple[str, List[Optional[bytes]]]] = []
    for text in texts:
        if uriparse.first_fault(text):
            continue
        for call, values, answer in rows.changed_pairs(draw, text):
            if all(value is None or in_database("utf8", value) is not None for value in values):
                lines.append((call, [*values, *[None] * (3 - len(values)), answer]))
        base = text.partition(b"#")[0].partition(b"?")[0]
        other, domain = base + draw.choice(fuzz.BELOW), draw.choice(fuzz.HOSTS)
        for call, left, right, found in (
                ("uri_is_within", other, base, answer_of(uriparse.is_within, other, base)),
                ("uri_host_is_within", text, domain, answer_of(uriparse.host_is_within, text, domain)),
                ("uri_host_is_within_any", text, domain + b" x", answer_of(uriparse.host_is_within_any, text, domain + b" x")),
                ("uri_compare", text, base, answer_of(uriparse.compare, text, base)),
                ("uri_host_flags", text, None, answer_of(uriparse.host_flags, text)), ("uri_is_uri", text, None, uriparse.is_uri(text))):
            shown_answer = {True: b"true", False: b"false", None: None}[found] if isinstance(found, bool) or found is None else b"%d" % found
            lines.append((call, [left, right, None, shown_answer]))
        lines.append(("uri_without_default_port", [text, None, None, uriparse.without_default_port(text)]))
        lines.append(("uri_request_target", [text, None, None, uriparse.request_target(text)]))
        lines.append(("uri_mask_password", [text, None, None, uriparse.mask_password(text)]))
    data = "".join("%d\t%s\t%s\n" % (at, call, "\t".join(
        "\\N" if value is None else value.hex() for value in values)) for at, (call, values) in enumerate(lines))
    psql("utf8", "CREATE TABLE hexed (at int, call text, a text, b text, c text, answer text)", "COPY hexed FROM STDIN", data=data.encode())
    columns = ", ".join("convert_from(decode(%s, 'hex'), 'UTF8') AS %s" % (name, name) for name in ("a", "b", "c", "answer"))
    calls = " ".join("WHEN '%s' THEN (%s)::text" % (call, expression) for call, expression in (
        ("uri_with_param", "uri_with_param(a, b, c)"), ("uri_with_appended_param", "uri_with_appended_param(a, b, c)"),
        ("uri_without_param", "uri_without_param(a, b)"), ("uri_without_params", "uri_without_params(a, b, c)"),
        ("uri_is_within", "uri_is_within(a, b)"), ("uri_host_is_within", "uri_host_is_within(a, b)"),
        ("uri_host_is_within_any", "uri_host_is_within_any(a, b)"), ("uri_without_default_port", "uri_without_default_port(a)"),
        ("uri_request_target", "uri_request_target(a)"), ("uri_mask_password", "uri_mask_password(a)"), ("uri_compare", "uri_compare(a, b)"),
        ("uri_host_flags", "uri_host_flags(a)"), ("uri_is_uri", "uri_is_uri(a)")))
    psql("utf8", "CREATE TABLE called AS SELECT at, call, a, b, c, answer, CASE call %s END AS found FROM (SELECT at, call, %s FROM hexed) h" % (
        calls, columns))
    wrong = psql("utf8", "SELECT * FROM called WHERE found IS DISTINCT FROM answer ORDER BY at LIMIT 3", "SELECT count(found) FROM called")[0]
    assert len(wrong) == 1 and int(wrong[0][0] or 0) > len(lines) * 2 // 3, wrong
    return "changed pairs and checks of two: %d" % len(lines)


def test_steps() -> str:
    """Many pairs and names are taken by steps, which change nothing, and between which a statement ends at its time."""
    draw = random.Random(8)
    for size, names_size in ((4096, 4096), (20_000, 9000), (1, 9000), (9000, 1)):
        pieces = ["%s=%d" % (draw.choice("abcdefgh") * draw.choice((0, 1, 3)), at) for at in range(size // 3 + 1)]
        names = [draw.choice("abcdx") * draw.choice((1, 3, 5)) for _ in range(names_size // 3 + 1)]
        left = [piece for piece in pieces if piece.partition("=")[0] not in set(names)]
        wanted = "s:?" + "&".join(left) + "#f" if left else "s:#f"
        for spelled_names in ("'%s'" % "&".join(names), "VARIADIC '{%s}'" % ",".join(names)):
            assert one("utf8", "uri_without_params('s:?%s#f', %s)" % ("&".join(pieces), spelled_names)) == wanted, (size, names_size)
    begin = time.monotonic()
    errors = psql("utf8", "SET statement_timeout = '1s'", "SELECT uri_without_params('?' || repeat('a&', 500000), repeat('b&', 100000))",
                  "RESET statement_timeout", "SELECT uri_without_params('?a&b', 'a')", check=False)
    taken = time.monotonic() - begin
    assert "57014" in errors[1] and errors[0] == [["?b"]] and taken < 2, (errors, taken)
    return "pairs and names by steps; a statement of 500,000 pairs and 100,000 names ends at its time"


def test_random(database: str, texts: List[bytes]) -> str:
    load(database, texts)
    calls = ", ".join("uri_%s(x)" % name for name in ONE)
    for row, text in zip(psql(database, "SELECT %s FROM random ORDER BY at" % calls)[0], texts):
        assert row == expected(database, text), (text, row, expected(database, text))
    two = psql(database, "SELECT uri_resolve(a.x, b.x), uri_relativize(a.x, b.x), uri_equal(a.x, b.x) FROM random a "
               "JOIN random b ON b.at = a.at + 1 ORDER BY a.at")[0]
    for row, left, right in zip(two, texts, texts[1:]):
        written = [shown(answer_of(call, left, right)) for call in (uriparse.resolve, uriparse.relativize)]
        is_equal = answer_of(uriparse.equal, left, right)
        assert row == [*written, {True: "t", False: "f", None: None}[is_equal]], (left, right, row)
    encodes = ", ".join("uri_encode('%s', x)" % component for component in fuzz.KEPT)
    # Texts that are decoded may have tabs: their sums are compared.
    found = psql(database, "SELECT md5(uri_decode(x)), uri_decode(uri_encode('query', x)) = x, %s FROM random ORDER BY at" % encodes)[0]
    for row, text in zip(found, texts):
        sum_of = decoded(database, text)
        utf8 = text.decode(CODECS[database]).encode() if database in CODECS else text
        assert row == [sum_of if sum_of is None else hashlib.md5(sum_of).hexdigest(), "t",
                       *(quote(utf8, safe=kept) for kept in fuzz.KEPT.values())], (database, text, row)
    # The functions of the type, and the plan in parallel, answer the same.
    of_text = psql(database, "SELECT md5(string_agg(concat_ws(' ', uri_host(x), uri_path(x), uri_hash(x), uri_username(x), "
                   "uri_password(x), uri_host_kind(x)), ',' ORDER BY at)) "
                   "FROM random WHERE uri_valid(x)")[0]
    of_type = psql(database, "SET force_parallel_mode = on; SET parallel_setup_cost = 0; SET parallel_tuple_cost = 0",
                   "SELECT md5(string_agg(concat_ws(' ', uri_host(x::uri), uri_path(x::uri), uri_hash(x::uri), uri_username(x::uri), "
                   "uri_password(x::uri), uri_host_kind(x::uri)), ',' ORDER BY at)) "
                   "FROM random WHERE uri_valid(x)")[0]
    assert of_text == of_type
    return "random texts in %s: %d" % (database, len(texts))


def test_encodings() -> str:
    """Percent-encoding is of UTF-8 in each encoding (RFC 3987, section 3.1). In SQL_ASCII the bytes are taken as they are."""
    count = 0
    for database, spelled, escaped in (
            ("utf8", "\u00e9", "%C3%A9"), ("utf8", "\u65e5", "%E6%97%A5"), ("latin", "\u00e9", "%C3%A9"), ("latin", "\u00ff", "%C3%BF"),
            ("latin", "http://h/a b?\u00fc%#[x]", "http://h/a%20b?%C3%BC%25#%5Bx%5D"), ("eucjp", "\u65e5", "%E6%97%A5"),
            ("eucjp", "http://h/\u65e5\u672c?\u30a2 b", "http://h/%E6%97%A5%E6%9C%AC?%E3%82%A2%20b"),
            ("eucjp", "\u00e9", "%C3%A9"), ("eucjp", "a b", "a%20b"), ("eucjp", "", "")):
        assert one(database, "uri_escape(convert_from('\\x%s', 'UTF8'))" % spelled.encode().hex()) == escaped, (database, spelled)
        assert one(database, "uri_valid(uri_escape(convert_from('\\x%s', 'UTF8')))" % spelled.encode().hex()) == "t"
        assert one(database, "uri_encode('fragment', convert_from('\\x%s', 'UTF8'))" % spelled.encode().hex()) == quote(
            spelled, safe=fuzz.KEPT["fragment"]), (database, spelled)
        count += 1
    # A character that the encoding doesn't have can't be decoded.
    for database, text, answer in (
            ("utf8", "%F0%9F%98%80%E6%97%A5", "f09f9880e697a5"), ("utf8", "%E6%97", None), ("utf8", "%C0%80", None), ("utf8", "a%00", None),
            ("latin", "%C3%A9+a%20b", "e92b612062"), ("latin", "%E6%97%A5", None), ("latin", "%E9", None), ("eucjp", "%E6%97%A5", "c6fc"),
            ("eucjp", "a%2F%E6%97%A5", "612fc6fc"), ("eucjp", "%F0%9F%98%80", None), ("eucjp", "%C6%FC", None), ("ascii", "%C6%FC", "c6fc"),
            ("ascii", "%00", None), ("latin", "", ""), ("latin", "%2", None), ("latin", "a b", None), ("eucjp", "[", None)):
        assert one(database, "encode(uri_decode('%s')::bytea, 'hex')" % text if database != "utf8" else
                   "encode(convert_to(uri_decode('%s'), 'UTF8'), 'hex')" % text) == answer, (database, text)
        count += 1
    assert error_of("utf8", "SELECT uri_encode('host', 'a')") == "ERROR:  22023: no component \"host\""
    assert one("latin", "uri_escape(chr(233))") == "%C3%A9" and one("ascii", "uri_escape(chr(233))") == "%E9"
    assert one("eucjp", "uri_escape(convert_from('\\xc6fc', 'EUC_JP'))") == "%E6%97%A5"
    for database, spelled, size in (("latin", "\u00e9", 2), ("eucjp", "\u65e5", 3)):
        for length in (512 // size, 513, 2_000_000):
            assert one(database, "uri_escape(repeat(convert_from('\\x%s', 'UTF8'), %d)) = repeat('%s', %d)" % (
                spelled.encode().hex(), length, uriparse.escape(spelled.encode()).decode(), length)) == "t", (database, length)
            assert one(database, "uri_decode(repeat('%s', %d)) = repeat(convert_from('\\x%s', 'UTF8'), %d)" % (
                quote(spelled), length, spelled.encode().hex(), length)) == "t", (database, length)
            count += 1
    return "escapes of UTF-8 in four encodings: %d" % count


def query_of(text: bytes) -> Optional[bytes]:
    return None if uriparse.first_fault(text) else uriparse.parse(text).query


def test_pairs(database: str, texts: List[bytes]) -> str:
    """The pairs of a reference's query beside the package's, decoded. Names and values may have tabs: their sums are compared."""
    for text, answer in (("'?a=1&b=%26&c'", [["a", "1"], ["b", "&"], ["c", None]]), ("'http://h/?'", [["", None]]), ("'?%00=%00&%2500=+'", [[
            None, None], ["%00", "+"]]), ("'a'", []), ("'?a b'", []), ("NULL::text", []), ("uri '?=a=b'", [["", "a=b"]])):
        assert psql(database, "SELECT * FROM uri_pairs(%s)" % text)[0] == answer, text
    # What isn't ASCII is in the database's encoding, and NULL if that has no such text: never what another value is.
    for encoded in ("%C3%BC", "%E6%97%A5", "%F0%9F%98%80", "%FF"):
        found = decoded(database, encoded.encode())
        known = None if found is None else found.decode("latin-1")
        assert psql(database, "SELECT * FROM uri_pairs('?%s=%s')" % (encoded, encoded))[0] == [[known, known]], (database, encoded)
        assert one(database, "uri_param('?a=%s', 'a')" % encoded) == known, (database, encoded)
    assert one(database, "uri_param('?a=%25FF', 'a')") == "%FF"
    assert one(database, "sum(length(value)) FROM uri_pairs('?' || (SELECT string_agg('n=' || repeat('v', n), '&') FROM "
               "generate_series(0, 1999) n))") == "1999000"
    found = psql(database, "SELECT at, md5(name), md5(value) FROM random, uri_pairs(x) WITH ORDINALITY AS p (name, value, place) "
                 "ORDER BY at, place")[0]
    wanted = [[str(at), *(text if text is None else hashlib.md5(text).hexdigest() for text in (in_database(database, piece) for piece in pair))]
              for at, text in enumerate(texts) for pair in rows.decoded_pairs(query_of(text))]
    assert found == wanted, database
    return "pairs of queries in %s: %d" % (database, len(found))


def test_type() -> str:
    assert error_of("utf8", "SELECT uri 'http://h/a b'") == (
        "ERROR:  22P02: invalid input syntax for type uri: invalid path character / DETAIL:  First wrong byte: 10.")
    assert error_of("utf8", "SELECT uri_check('%')").endswith("DETAIL:  First wrong byte: 0.")
    if int(one("utf8", "current_setting('server_version_num')") or 0) >= 160000:
        assert psql("utf8", "SELECT pg_input_is_valid('a b', 'uri'), pg_input_is_valid('a', 'uri'), (pg_input_error_info('a b', 'uri')).detail")[0] == [
            ["f", "t", "First wrong byte: 1."]]
    assert error_of("utf8", "SELECT ('http://h/' || chr(252))::uri").endswith("First wrong byte: 9.")
    psql("utf8", "CREATE TABLE ids (url uri PRIMARY KEY, note text)", "INSERT INTO ids VALUES ('HTTP://h/%7e', 'kept')")
    assert error_of("utf8", "INSERT INTO ids VALUES ('http://H:/~')").startswith("ERROR:  23505")
    assert error_of("utf8", "INSERT INTO ids VALUES ('a b')").startswith("ERROR:  22P02")
    assert error_of("utf8", "INSERT INTO ids SELECT 'x y'::text").startswith("ERROR:  22P02")
    psql("utf8", "INSERT INTO ids SELECT 'http://h/a/../~'::text")
    assert psql("utf8", "SELECT url, url::text, note, uri_host(url) FROM ids WHERE url = 'http://h/%7E'")[0] == [
        ["HTTP://h/%7e", "HTTP://h/%7e", "kept", "h"]]
    assert one("utf8", "uri '//%31.2.3.4' = uri '//1.2.3.4'") == "f"
    assert one("utf8", "pg_typeof(uri_resolve(uri 'http://a/b', uri 'c'))::text || uri_resolve(uri 'http://a/b', uri 'c')::text") == (
        "urihttp://a/c")
    nulls = ", ".join("uri_%s(NULL::text)" % name for name in (*ONE, "check"))
    assert psql("utf8", "SELECT " + nulls)[0] == [[None] * (len(ONE) + 1)]
    psql("utf8", "INSERT INTO ids VALUES ('http://h/varying'::varchar(20))", "DELETE FROM ids WHERE url = 'http://h/varying'::varchar")
    assert error_of("utf8", "INSERT INTO ids VALUES ('a b'::varchar)").startswith("ERROR:  22P02")
    # A change that is rejected ends the UPDATE, and the value stays. Calls of text give NULL.
    psql("utf8", "CREATE TABLE changed (url uri, t text)", "INSERT INTO changed VALUES ('http://h/', 'http://h/')")
    assert error_of("utf8", "UPDATE changed SET url = uri_replace(url, 'port', '70000')") == (
        "ERROR:  22P02: invalid input syntax for type uri: port overflow")
    psql("utf8", "UPDATE changed SET url = uri_without_params(url, VARIADIC '{}'), t = uri_replace(t, 'port', '70000')")
    assert psql("utf8", "SELECT url, t FROM changed")[0] == [["http://h/", None]]
    # Binary copies come in again, and are checked.
    copied = run("utf8", "COPY ids TO STDOUT (FORMAT binary)")
    psql("utf8", "CREATE TABLE again (LIKE ids)", "COPY again FROM STDIN (FORMAT binary)", data=copied)
    assert one("utf8", "count(*) FROM again JOIN ids USING (url) WHERE again.url::text = ids.url::text") == "2"
    wrong = psql("utf8", "COPY again FROM STDIN (FORMAT binary)", data=copied.replace(b"%7e", b"%7 "), check=False)[1]
    assert "22P02" in wrong and "First wrong byte: 9." in wrong, wrong
    return "type: casts, keys, binary copies and errors"


def test_overloads() -> str:
    """Calls and comparisons of a text and a value, of literals, and of other strings find one function."""
    psql("utf8", "CREATE TABLE two (u uri, t text, v varchar, n name)",
         "INSERT INTO two VALUES ('http://a/b', 'http://a/b', 'http://a/b', 'http://a/b')")
    columns = ("u", "t", "v", "n", "'http://a/b'", "NULL")
    pairs = [(left, right) for left in columns for right in columns]
    wanted: List[Tuple[str, Optional[str]]] = []
    for name, answer in (("resolve", "http://a/b"), ("relativize", "")):
        for pair in pairs:
            call = "uri_%s(%s, %s)" % (name, *pair)
            wanted += [("pg_typeof(%s)" % call, "uri" if "u" in pair else "text"), (call, None if "NULL" in pair else answer)]
    for name in ("scheme", "host", "path", "origin", "hash", "username", "host_kind", "normalize"):
        for column in columns:
            kind = "bigint" if name == "hash" else "uri" if name == "normalize" and column == "u" else "text"
            wanted.append(("pg_typeof(uri_%s(%s))" % (name, column), kind))
    for operator in ("=", "<>", "<", "<=", ">", ">="):
        wanted += [("%s %s %s" % (left, operator, right), None if "NULL" in (left, right) else "t" if "=" in operator else "f")
                   for left, right in pairs]
    wanted += [("uri_cmp('a', 'b')", "-1"), ("uri_lt('a', 'b')", "t"), ("uri_eq('a', 'a')", "t"), ("min('a')", "a"), ("min(u)", "http://a/b"),
               ("max(t)", "http://a/b"), ("min(v)", "http://a/b"), ("max(n)", "http://a/b"), ("pg_typeof(min(u))", "uri"),
               ("pg_typeof(max(v))", "text"), ("uri_or_null(max(t))", "http://a/b"), ("max(uri_or_null('a b'))", None),
               ("max(u) FILTER (WHERE false)", None), ("uri_resolve(u, 'a b')", None), ("uri_relativize('a b', u)", None),
               ("u = ANY(ARRAY['a b', 'HTTP://a/b'])", "t"), ("u = ANY(ARRAY['a b', 'HTTP://a/b']::varchar[])", "t"),
               ("u IN ('a', 'HTTP://a/b')", "t"), ("u IN (t, v)", "t"), ("u NOT IN (SELECT t FROM two)", "f")]
    for text, answer in (("HTTP://A/%62", "t"), ("http://a/c", "f"), ("a b", None), ("%", None), ("", "f")):
        wanted += [(expression % text, answer) for expression in ("u = text '%s'", "text '%s' = u", "u = '%s'::varchar", "NOT u <> text '%s'")]
    answers = psql("utf8", *("SELECT %s FROM two" % expression for expression, _ in wanted))[0]
    for (expression, answer), row in zip(wanted, answers):
        assert row == [answer], (expression, row, answer)
    assert len(answers) == len(wanted) > 400
    return "calls and comparisons of texts and values: %d" % len(wanted)


def test_joins() -> str:
    """Comparisons with texts use the indexes and the joins of the type, and skip the texts that are no references."""
    for query, word in (("SELECT * FROM valid WHERE x = text 's:'", "Index Cond"), ("SELECT * FROM valid WHERE text 's:' = x", "Index Cond"),
                        ("SELECT * FROM valid WHERE x < 's:'::varchar", "by_order"), ("SELECT min(x) FROM valid", "Index Only Scan"),
                        ("SELECT max(x) FROM valid", "Backward")):
        plan = str(psql("ascii", "SET enable_seqscan = off; SET enable_bitmapscan = off", "EXPLAIN " + query)[0])
        assert word in plan, (query, plan)
    wanted = psql("ascii", "SELECT count(*), sum(a.at), sum(b.at) FROM few a JOIN random b ON uri_equal(a.x::text, b.x)")[0]
    assert int(wanted[0][0] or 0) > 1000, wanted
    for kind in ("hashjoin", "mergejoin"):
        off = "; ".join("SET enable_%s = %s" % (name, "on" if name == kind else "off") for name in ("hashjoin", "mergejoin", "nestloop"))
        for clause in ("a.x = b.x", "b.x = a.x"):
            query = "FROM few a JOIN random b ON " + clause
            plan = str(psql("ascii", off, "EXPLAIN SELECT count(*) " + query)[0])
            assert {"hashjoin": "Hash Join", "mergejoin": "Merge Join"}[kind] in plan, plan
            assert psql("ascii", off, "SELECT count(*), sum(a.at), sum(b.at) " + query)[0] == wanted, kind
    row = psql("ascii", "SELECT count(*) FILTER (WHERE (a.x < b.x) IS DISTINCT FROM (a.x < b.x::text) OR (a.x > b.x) IS DISTINCT FROM "
               "(a.x::text > b.x) OR (a.x <= b.x) IS DISTINCT FROM (a.x::text <= b.x) OR (a.x >= b.x) IS DISTINCT FROM (a.x >= b.x::text) "
               "OR (a.x <> b.x) IS DISTINCT FROM (a.x::text <> b.x)) FROM few a, few b")[0]
    assert row == [["0"]], row
    row = psql("ascii", "SELECT min(x) = (SELECT x FROM few ORDER BY x LIMIT 1), max(x) = (SELECT x FROM few ORDER BY x DESC LIMIT 1) FROM few",
               "SELECT bool_and(low = (SELECT min(x) FROM few b WHERE b.at % 7 = a.part)) FROM (SELECT at % 7 AS part, min(x) AS low FROM few "
               "GROUP BY at % 7) a", "SET force_parallel_mode = on", "SELECT min(x) = (SELECT x FROM few ORDER BY x LIMIT 1) FROM few")[0]
    assert row == [["t", "t"], ["t"], ["t"]], row
    return "indexes, joins, min and max of texts and values"


def test_extension() -> str:
    """A role that isn't a superuser may create the extension, beside that of version 0.3.0 or another of the name `uri`."""
    psql("postgres", "CREATE ROLE plain", "CREATE DATABASE fresh OWNER plain TEMPLATE template0 ENCODING 'UTF8'")
    psql("fresh", "SET ROLE plain", "CREATE EXTENSION uriparse")
    # Each function but the two aggregates, the two that remove a component by NULL, and the four that write a pair without a value by it.
    functions = ("FROM pg_proc p JOIN pg_depend d ON d.classid = 'pg_proc'::regclass AND d.objid = p.oid AND d.deptype = 'e' "
                 "JOIN pg_extension e ON e.oid = d.refobjid AND e.extname = 'uriparse' ")
    assert one("fresh", "count(*) %s WHERE NOT (p.proisstrict AND p.provolatile = 'i' AND p.proparallel = 's')" % functions) == "8"
    # What reads a text costs more than a comparison of numbers: the planner asks the number first.
    assert one("fresh", "count(*) %s WHERE p.procost < 10 AND p.prolang = (SELECT oid FROM pg_language WHERE lanname = 'c')" % functions) == "0"
    psql("fresh", "CREATE TABLE numbers (t text, n int)")
    plan = str(psql("fresh", "EXPLAIN SELECT * FROM numbers WHERE uri_host(t) = 'h' AND n = 1")[0])
    assert "((n = 1) AND (uri_host(t) = 'h'::text))" in plan, plan
    return "the extension by a role that is no superuser"


def test_move() -> str:
    """A database of version 0.3.0, whose type had another order, moves by the statements of README.md. Until then its module is its own."""
    with open(os.path.join(os.path.dirname(os.path.abspath(__file__)), "README.md"), encoding="utf-8") as file:
        moves = re.findall(r"^    ((?:CREATE SCHEMA|ALTER|CREATE EXTENSION|DROP).*?;)(?: +--.*)?$", file.read(), re.MULTILINE)
    assert len(moves) == 5, moves
    psql("postgres", "CREATE DATABASE moved TEMPLATE template0 ENCODING 'UTF8'")
    psql("moved", "CREATE EXTENSION uri", "CREATE EXTENSION amcheck", "CREATE TABLE ids (url uri PRIMARY KEY, at int)",
         "INSERT INTO ids SELECT ('http://h:' || n)::uri, n FROM generate_series(1, 3000) n",
         "INSERT INTO ids SELECT ('//10.0.0.' || n)::uri, 5000 + n FROM generate_series(1, 255) n",
         "INSERT INTO ids VALUES ('s:', 6000), ('s:?', 6001), ('//h/%7e', 6002), ('//%31.2.3.4', 6003), ('//1.2.3.4', 6004)", "CREATE INDEX by_url ON ids (url)")
    order = "SELECT string_agg(at::text, ' ' ORDER BY url) FROM ids"
    searched = ("SELECT count(*) FROM (SELECT url AS x FROM ids) t, LATERAL (SELECT FROM ids WHERE url = t.x) found", "SELECT bt_index_check('by_url', true)",
                "SELECT bt_index_check('ids_pkey', true)")
    # The new module is loaded first.
    other = ("CREATE SCHEMA IF NOT EXISTS beside", "CREATE EXTENSION IF NOT EXISTS uriparse SCHEMA beside",
             "SELECT beside.uri_host('//h'), beside.uri '//h:9' OPERATOR(beside.<) beside.uri '//h:10'")
    before = psql("moved", "SET enable_seqscan = off", *other, *searched, order)[0]
    assert before[:2] == [["h", "t"], ["3260"]], before[:2]
    psql("moved", "DROP EXTENSION uriparse")
    psql("moved", *moves)
    after = psql("moved", "SET enable_seqscan = off", *searched, order)[0]
    assert after[0] == ["3260"] and after[-1] != before[-1], (after[0], before[0])
    plan = str(psql("moved", "SET enable_seqscan = off", "EXPLAIN SELECT FROM ids WHERE url = 'http://H:77/'")[0])
    assert "Index" in plan and one("moved", "at FROM ids WHERE url = 'http://H:077'") == "77", plan
    assert one("moved", "count(*) FROM pg_extension WHERE extname = 'uri'") == "0"
    assert error_of("moved", "INSERT INTO ids VALUES ('HTTP://h:3000')").startswith("ERROR:  23505")
    return "a database of 0.3.0 that moves: 3260 rows found by each index"


def test_order() -> str:
    """The operators are a total order, in which exactly the equal ones are level; the indexes agree with it."""
    psql("ascii", "CREATE TABLE few (at int, x uri)", "INSERT INTO few SELECT at, x::uri FROM random WHERE uri_valid(x) AND at < 220",
         "INSERT INTO few SELECT at + 1000, replace(x::text, 'a', '%61')::uri FROM few WHERE uri_valid(replace(x::text, 'a', '%61'))",
         "INSERT INTO few VALUES (5000, '//h'), (5001, '//h/'), (5002, '//%31.2.3.4'), (5003, '//1.2.3.4'), (5004, 'a/../b'), (5005, 'b')",
         "INSERT INTO few VALUES " + ", ".join("(%d, '%s')" % row for row in enumerate(rows.close_texts()[::2], 6000)))
    # Each text's rank is how many texts precede it: the order is total if the ranks' order is the order of all pairs.
    psql("ascii", "CREATE TABLE ranks AS SELECT a.at, a.x, (SELECT count(*) FROM few b WHERE b.x < a.x) AS rank FROM few a")
    row = psql("ascii", "SELECT count(*), count(*) FILTER (WHERE sign(uri_cmp(a.x, b.x)) <> sign(a.rank - b.rank)), count(*) FILTER ("
               "WHERE (a.x = b.x) <> (a.rank = b.rank) OR (a.x = b.x) <> uri_equal(a.x::text, b.x::text) OR (a.x <> b.x) = (a.x = b.x)"
               " OR (a.x < b.x) <> (a.rank < b.rank) OR (a.x >= b.x) <> (a.rank >= b.rank) OR (a.x <= b.x) <> (a.rank <= b.rank)"
               " OR (a.x > b.x) <> (a.rank > b.rank)), count(*) FILTER (WHERE a.x = b.x AND a.at <> b.at) FROM ranks a, ranks b")[0][0]
    pairs, wrong, odd, level = map(int, row)  # type: ignore[arg-type]
    assert wrong == odd == 0 and pairs > 40_000 and level > 100, row
    psql("ascii", "CREATE TABLE valid AS SELECT at, x::uri AS x FROM random WHERE uri_valid(x)", "CREATE INDEX by_order ON valid (x)",
         "CREATE INDEX by_hash ON valid USING hash (x)", "CREATE INDEX by_normal ON random (uri_normalize(x))", "ANALYZE valid",
         "CREATE EXTENSION IF NOT EXISTS amcheck", "SELECT bt_index_check('by_order', true)")
    joined = set()
    for kind in ("hashjoin", "mergejoin", "nestloop"):
        off = "; ".join("SET enable_%s = %s" % (name, "on" if name == kind else "off") for name in ("hashjoin", "mergejoin", "nestloop"))
        query = "FROM valid a JOIN few b ON a.x = b.x"
        plan = str(psql("ascii", off, "EXPLAIN SELECT count(*) " + query)[0])
        assert {"hashjoin": "Hash Join", "mergejoin": "Merge Join", "nestloop": "Nested Loop"}[kind] in plan, plan
        joined.add(str(psql("ascii", off, "SELECT count(*), sum(a.at), sum(b.at) " + query)[0]))
    assert len(joined) == 1, joined
    plan = str(psql("ascii", "SET enable_seqscan = off", "EXPLAIN SELECT * FROM random WHERE uri_normalize(x) = 's:'")[0])
    assert "by_normal" in plan, plan
    psql("ascii", 'CREATE INDEX by_place ON random (uri_place_key(x) COLLATE "C")')
    in_range = 'FROM random WHERE uri_place_key(x) COLLATE "C" >= %s AND uri_place_key(x) COLLATE "C" < %s || chr(127)' % (("uri_domain_prefix('h')",) * 2)
    plan = str(psql("ascii", "SET enable_seqscan = off", "EXPLAIN SELECT * " + in_range)[0])
    assert "by_place" in plan, plan
    within = psql("ascii", "SELECT count(*) FROM random WHERE uri_is_uri(x) AND uri_host_is_within(x, 'h')")[0]
    assert psql("ascii", "SET enable_seqscan = off", "SELECT count(*) " + in_range)[0] == within, within
    return "order: %d pairs, %d of them level; three kinds of joins agree" % (pairs, level)


def test_long() -> str:
    """Texts of no byte, and of 10 MB."""
    assert psql("utf8", "SELECT uri_valid(''), uri_path(''), uri_normalize(''), uri_host('//')")[0] == [["t", "", "", ""]]
    for size in (1015, 1016, 1023, 1024, 1025, 10_000_000):
        psql("utf8", "DROP TABLE IF EXISTS long", "CREATE TABLE long AS SELECT repeat('a', %d) AS x" % size)
        row = psql("utf8", "SELECT uri_path('S:/' || x) = '/' || x, uri_normalize('S:/%61/../' || x) = 's:/' || x, "
                   "uri_resolve('http://h/', x) = 'http://h/' || x, uri_escape(x || ' ') = x || '%20', uri_fault(x || ' ') = length(x), "
                   "uri_relativize('http://h/x', 'http://h/' || x) = x, uri_encode('segment', x || '/') = x || '%2F', "
                   "uri_decode(x || '%2F') = x || '/', uri_decode(x || '%ff') IS NULL, "
                   "('S:' || x)::uri = ('s:%61' || substr(x, 2))::uri, uri_cmp(('S:' || x)::uri, ('s:%61' || substr(x, 2))::uri) = 0, "
                   "('S:' || x)::uri < ('s:' || x || 'a')::uri FROM long")[0]
        assert row == [["t"] * 12], (size, row)
    # Stored compressed, and out of line.
    psql("utf8", "CREATE TABLE stored (x uri)",
         "INSERT INTO stored SELECT ('s:' || repeat('ab', n))::uri FROM generate_series(1, 9000, 900) n",
         "INSERT INTO stored SELECT x FROM stored")
    assert one("utf8", "count(*) FROM (SELECT DISTINCT x FROM stored) d") == "10"
    assert psql("utf8", "SELECT length(min(x)::text), length(max(x)::text) FROM stored")[0] == [["4", "16204"]]
    # An entry of a btree has at most 2,704 bytes; a hash index has no such limit, also as a constraint.
    psql("utf8", "CREATE TABLE limits (x uri)", "CREATE INDEX ON limits (x)",
         "CREATE TABLE unlimited (x uri, EXCLUDE USING hash (x WITH =))")
    spelled = "('s:' || (SELECT string_agg(md5(n::text), '') FROM generate_series(1, %d) n))::uri"
    psql("utf8", "INSERT INTO limits VALUES (%s)" % spelled % 84)
    assert error_of("utf8", "INSERT INTO limits VALUES (%s)" % spelled % 85).startswith("ERROR:  54000: index row size")
    psql("utf8", "INSERT INTO unlimited VALUES (%s)" % spelled % 9000)
    assert error_of("utf8", "INSERT INTO unlimited SELECT replace(x::text, 's:', 'S:')::uri FROM unlimited").startswith("ERROR:  23P01")
    return "texts of 0 to 10,000,000 bytes"


def test_cancelled() -> str:
    """A query and the build of an index are cancelled midway; the backend and the table work on."""
    psql("utf8", "CREATE TABLE many AS SELECT ('HTTP://h/%7e/../' || n)::uri AS x FROM generate_series(1, 200000) n")
    said: List[str] = []

    def work() -> None:
        found, errors = psql(
            "utf8", "SET application_name = 'victim'", "SELECT count(uri_normalize(a.x)) FROM many a, many b",
            "SELECT pg_backend_pid() > 0, uri_normalize('HTTP://h/%7e')", check=False)
        said.extend((str(found), errors))

    thread = threading.Thread(target=work)
    thread.start()
    cancelled = None
    for _ in range(100):
        time.sleep(0.1)
        cancelled = psql("utf8", "SELECT pg_cancel_backend(pid) FROM pg_stat_activity WHERE application_name = 'victim' AND leader_pid IS NULL "
                         "AND query LIKE '%count(uri_normalize%' AND clock_timestamp() - query_start > interval '300 ms'")[0]
        if cancelled:
            break
    thread.join(60)
    assert cancelled == [["t"]] and said[0] == "[['t', 'http://h/~']]" and "57014" in said[1], said
    errors = psql("utf8", "SET statement_timeout = '50ms'", "CREATE UNIQUE INDEX one ON many (x)", check=False)[1]
    assert "57014" in errors, errors
    psql("utf8", "CREATE UNIQUE INDEX one ON many (x)")
    assert one("utf8", "x::text FROM many WHERE x = 'http://H/~/../77'") == "HTTP://h/%7e/../77"
    return "a query and an index cancelled midway"


def test_hostile(database: str) -> str:
    """The rows of hostile input. A rejected one gives NULL."""
    answers: Dict[str, Optional[str]] = {"yes": "t", "no": "f", "rejected": None}
    found = rows.hostile_rows()
    asked = [rows.HOSTILE[row.call] % (quoted(row.text), quoted(row.other))[:rows.HOSTILE[row.call].count("%s")] for row in found]
    said = psql(database, "SELECT * FROM unnest(ARRAY[%s])" % ", ".join("(%s)::text" % one for one in asked))[0]
    for (answer,), row in zip(said, found):
        wanted = answers.get(row.answer, row.answer)
        assert (answer and answer[:1]) == wanted, (answer, row)
    assert len(said) == len(found) > 700
    return "%d rows of hostile input" % len(found)


def test_redirects(database: str) -> str:
    """The view `allowed` of README.md has the targets that the rows allow."""
    found = rows.redirects()
    for row in found:
        condition = " WHERE uri_is_within(target, page)" if row.call == "redirect-below" else ""
        said, _ = psql(database, "DELETE FROM links", "INSERT INTO links VALUES (%s, %s)" % (quoted(row.other), quoted(row.text)),
                       "SELECT count(*) FROM allowed" + condition)
        assert said == [[str(int(row.answer == "yes"))]], (said, row)
    assert len(found) >= 60
    return "%d redirects" % len(found)


def test_page() -> str:
    """The statements of README.md print what stands there."""
    psql("postgres", "CREATE DATABASE page TEMPLATE template0 ENCODING 'UTF8'")
    statements = rows.page_statements(os.path.join(os.path.dirname(os.path.abspath(__file__)), "README.md"))
    for statement, wanted in statements:
        found, errors = psql("page", statement, check=False)
        lines = ["|".join("NULL" if field is None else field for field in row).encode("latin-1").decode() for row in found]
        lines += ["error: " + text for text in re.findall("^ERROR:  [0-9A-Z]{5}: (.*)$", errors, re.MULTILINE)]
        assert lines == wanted, (statement, lines, errors, wanted)
    return "README.md: %d statements, %s" % (len(statements), test_redirects("page"))


def main() -> None:
    draw = random.Random(6)
    texts = [text for text in (fuzz.some_text(draw) for _ in range(COUNT * 2)) if b"\0" not in text][:COUNT]
    psql("postgres", "CREATE DATABASE utf8 TEMPLATE template0 ENCODING 'UTF8'",
         "CREATE DATABASE ascii TEMPLATE template0 ENCODING 'SQL_ASCII'", "CREATE DATABASE latin TEMPLATE template0 ENCODING 'LATIN1'",
         "CREATE DATABASE eucjp TEMPLATE template0 ENCODING 'EUC_JP'")
    for database in ("utf8", "ascii", "latin", "eucjp"):
        psql(database, "CREATE EXTENSION uriparse")
    print(test_rows("utf8"))
    print(test_hostile("utf8"))
    print(test_meanings())
    for database, some in (("ascii", texts), ("utf8", [text.decode("utf-8", "replace").encode() for text in texts[:2000]]),
                           ("latin", texts[:2000]), ("eucjp", [text.decode("latin-1").encode("euc_jp", "ignore") for text in texts[:2000]])):
        print(test_random(database, some))
        print(test_pairs(database, some))
    print(test_changed_pairs(texts[:3000]))
    for test in (test_steps, test_page, test_encodings, test_type, test_overloads, test_order, test_joins, test_extension, test_move, test_long,
                 test_cancelled):
        print(test())
    psql("utf8", "DROP EXTENSION uriparse CASCADE")


main()
