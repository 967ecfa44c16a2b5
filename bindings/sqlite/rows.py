"""Rows of the tests of the library and of the program, for the tests of SQLite and PostgreSQL."""
from __future__ import annotations

import os
import random
import re
from typing import Dict, Iterator, List, NamedTuple, Optional, Tuple
from urllib.parse import quote, unquote_to_bytes

from fuzz import APPENDIX_B, model

TOP = os.path.dirname(os.path.dirname(os.path.dirname(os.path.abspath(__file__))))
RFC_BASE = "http://a/b/c/d;p?q"

_WORD = r"(?:'([^']*)'|(\S+))"
_ONE = re.compile(r"^(check|normalize|rfc) %s -> (.*)$" % _WORD)
_TWO = re.compile(r"^resolve %s %s -> (.*)$" % (_WORD, _WORD))
_RELATED = re.compile(r"^relate (\S+) (\S+) -> (\S+)$")
_REJECTED = re.compile(r"invalid|overflow|too many|schemeless|exceeded|not URI| character$| format$")


def _lines(subject: str) -> Iterator[Tuple[str, str]]:
    """The lines of the tests of a subject, with the names of their files."""
    folder = os.path.join(TOP, "tests", subject)
    for name in sorted(os.listdir(folder)):
        with open(os.path.join(folder, name), encoding="utf-8") as file:
            yield from ((name, line.rstrip("\n").rstrip(";").rstrip('"')) for line in file)


def _answer(text: str) -> str | None:
    """The text of an answer, or None if it is an error's."""
    return "" if text == "''" else None if _REJECTED.search(text) else text


def library_rows() -> Dict[str, List[Tuple[str, ...]]]:
    """Texts that are references, or aren't; normal forms; bases, references and targets. A target is '' if a text is
    rejected."""
    found: Dict[str, List[Tuple[str, ...]]] = {"valid": [], "invalid": [], "normal": [], "target": []}
    for name, line in _lines("references"):
        if (row := _ONE.match(line)):
            text, answer = row[2] if row[2] is not None else row[3], _answer(row[4])
            if row[1] == "check" and name == "references.rt.txt":
                found["valid" if row[4] == "accepted" else "invalid"].append((text,))
            elif row[1] == "normalize" and answer is not None:
                found["normal"].append((text, answer))
            elif row[1] == "rfc" and answer is not None:
                found["target"].append((RFC_BASE, text, answer))
        elif (row := _TWO.match(line)):
            base, text = (row[at] if row[at] is not None else row[at + 1] for at in (1, 3))
            found["target"].append((base, text, _answer(row[5]) or ""))
    return found


def related_rows() -> List[Tuple[str, str, str]]:
    """Bases, URIs and the references that lead from the one to the other."""
    found = [_RELATED.match(line) for _, line in _lines("relations")]
    return [(row[1], row[2], "" if row[3] == "''" else row[3]) for row in found if row]


def program_rows() -> List[Tuple[str, str, bool]]:
    """Two texts, and whether they are equal, of the program's command `equal`."""
    with open(os.path.join(TOP, "tests/program/mod.rt.txt"), encoding="utf-8") as file:
        rows = re.findall(r'\(\s*"equal\|([^|"\\]*)\|([^|"\\]*)",\s*0,\s*"(equal|different)\\n"', file.read())
    return [(left, right, answer == "equal") for left, right, answer in rows]


# The function that answers the rows of tests/hostile.tsv of each call.
HOSTILE = {"within": "uri_is_within(%s, %s)", "host-within": "uri_host_is_within(%s, %s)", "host-flags": "uri_host_flags(%s)"}


def hostile_rows() -> List[model.Row]:
    """The rows of tests/hostile.tsv that a function answers."""
    return [row for row in model.read_rows() if row.call in HOSTILE]


def redirects() -> List[model.Row]:
    """The rows of the redirect check, which is that of the pages' view `allowed`."""
    return [row for row in model.read_rows() if row.call.startswith("redirect")]


def page_statements(page: str) -> List[Tuple[str, List[str]]]:
    """The statements in the blocks of SQL on a page, each with the lines that its comments say it prints: `-- a|b` for a row, or
    `-- error: ..`, after the statement or in the lines below it."""
    with open(page, encoding="utf-8") as file:
        blocks = re.findall(r"^```sql\n(.*?)^```$", file.read(), re.MULTILINE | re.DOTALL)
    found: List[Tuple[str, List[str]]] = []
    statement = ""
    for line in "".join(blocks).splitlines():
        if line.startswith("-- "):
            found[-1][1].append(line[3:])
            continue
        row = re.match(r"(.*);(?: +-- (.*))?$", line)
        statement += (row[1] if row else line) + "\n"
        if row:
            found.append((statement.rstrip(), [row[2]] if row[2] else []))
            statement = ""
    assert not statement and len(found) > 8, statement
    return found


def close_texts() -> List[str]:
    """References that differ late, with escapes round the ends of the pieces of a key, and with long authorities."""
    texts = []
    for size in (*range(120, 132), *range(250, 258)):
        texts += [start + "b" * size + end for start in ("s:", "//h/") for end in ("%7Ea%2f", "~a%2F", "~a/", "~a", "%7ea?%7e#~", "")]
    for size in (508, 509, 510, 700):
        texts += ["//" + host * size + end for host in "hH" for end in ("", "/", ":", ":80/a", "/%61")]
    return texts


def decoded_pairs(query: Optional[bytes]) -> List[Tuple[bytes, Optional[bytes]]]:
    """The bytes of the names and values of the pairs of this query, if there is one."""
    pieces = [piece.partition(b"=") for piece in query.split(b"&")] if query is not None else []
    return [(unquote_to_bytes(name), unquote_to_bytes(value) if sign else None) for name, sign, value in pieces]


# What a query has (RFC 3986, section 3.4), and an IPv4 address (section 3.2.2).
_QUERY = re.compile(rb"(?:[A-Za-z0-9._~!$&'()*+,;=:@/?-]|%[0-9A-Fa-f]{2})*")
_OCTET = rb"(?:25[0-5]|2[0-4][0-9]|1[0-9][0-9]|[1-9]?[0-9])"
_IPV4 = re.compile(rb"\.".join([_OCTET] * 4))


def decoded(text: bytes) -> Optional[bytes]:
    """The bytes that the text of a component stands for, if it is one."""
    return unquote_to_bytes(text) if _QUERY.fullmatch(text) else None


def authority_parts(text: bytes) -> Tuple[Optional[bytes], Optional[bytes], Optional[str]]:
    """The user name, the password and the kind of the host of a reference, by appendix B and section 3.2 of RFC 3986."""
    match = APPENDIX_B.match(text)
    authority: Optional[bytes] = match[4] if match else None
    if authority is None:
        return None, None, None
    userinfo, sign, host = authority.rpartition(b"@")
    username, colon, password = userinfo.partition(b":")
    is_ipv4 = _IPV4.fullmatch(host.partition(b":")[0])
    kind = "ipvfuture" if host[:2] in (b"[v", b"[V") else "ipv6" if host[:1] == b"[" else "ipv4" if is_ipv4 else "name"
    return username if sign else None, password if colon else None, kind


# The function of SQL for a call of rows.tsv. It has none for a port as text, and none for a query that is no reference's. That of an
# address, and of the values of pairs, has another form in each database.
SQL_CALLS = {"check": "uri_valid", "is_uri": "uri_is_uri", "port_number": "uri_port", "host_kind": "uri_host_kind",
             "host_flags": "uri_host_flags", "disagreement": "uri_disagreement", "default_port": "uri_default_port", "origin": "uri_origin", "pairs": "uri_pairs",
             "pair": "uri_param", "with_pair": "uri_with_param", "with_appended_pair": "uri_with_appended_param",
             "without_pairs": "uri_without_params", "without_pair": "uri_without_param", "host_is_within": "uri_host_is_within",
             "is_within": "uri_is_within", "resolve": "uri_resolve", "relativize": "uri_relativize", "equal": "uri_equal",
             "compare": "uri_compare", "replace": "uri_replace", "decode": "uri_decode", "encode": "uri_encode", "hash": "uri_hash",
             "same_origin": "uri_same_origin", "is_normalized": "uri_is_normalized", "is_public": "uri_is_public", "is_ambiguous": "uri_is_ambiguous",
             "port_or_default": "uri_port_or_default", "host_address": "uri_host_address", "pair_values": "uri_param_values",
             "form_decode": "uri_form_decode", "trim_link": "uri_trim_link", "key": "uri_key", "page_key": "uri_page_key",
             "segments": "uri_segments", "without_default_port": "uri_without_default_port", "mask_password": "uri_mask_password", "request_target": "uri_request_target",
             "host_is_within_any": "uri_host_is_within_any",
             "place_key": "uri_place_key", "domain_prefix": "uri_domain_prefix", "base_prefix": "uri_base_prefix"}
NO_SQL_CALLS = {"port", "drop_pairs"}
BOOLEAN_CALLS = {"check", "is_uri", "host_is_within", "host_is_within_any", "is_within", "equal", "same_origin", "is_normalized", "is_public", "is_ambiguous"}
# The calls whose first argument is no reference.
CALLS_OF_DATA = {"decode", "form_decode", "is_ambiguous", "domain_prefix"}


class Meaning(NamedTuple):
    """A row of rows.tsv. Of an error `answer` is None, and `error` has its code and component, the number of the wrong argument and
    the place of its first wrong byte, if there are such."""
    call: str
    values: List[Optional[bytes]]
    answer: Optional[bytes]
    error: Optional[Tuple[str, str, Optional[int], Optional[int]]]


def _meant(field: str) -> Optional[bytes]:
    """What an argument or an answer of rows.tsv stands for."""
    return None if field == r"\N" else re.sub(rb"\\x([0-9A-F]{2})", lambda match: bytes.fromhex(match[1].decode()), field.encode())


def meanings() -> List[Meaning]:
    """The rows of rows.tsv for which SQL has a function. Its segments are decoded."""
    found = []
    with open(os.path.join(TOP, "bindings/rows.tsv"), encoding="utf-8") as file:
        lines = [line.rstrip("\n").split("\t") for line in file if line.strip() and not line.startswith("#")]
    for call, *fields, answer in lines:
        error = re.fullmatch(r"! (\w+) (\w+) (\d|-) (\d+|-)", answer)
        values = [_meant(field) for field in fields]
        if error:
            numbers = [None if number == "-" else int(number) for number in (error[3], error[4])]
            found.append(Meaning(call, values, None, (error[1], error[2], *numbers)))
        else:
            found.append(Meaning(call, values, unquote_to_bytes(answer) if call == "segments" else _meant(answer), None))
    assert {row.call for row in found} == {*SQL_CALLS, *NO_SQL_CALLS}
    found = [row for row in found if row.call in SQL_CALLS]
    assert len(found) > 400, len(found)
    return found


def error_texts() -> Dict[str, str]:
    """The texts of the codes of the library for C, by their names in rows.tsv."""
    with open(os.path.join(TOP, "bindings/c/calls.c"), encoding="utf-8") as file:
        return dict(re.findall(r'case URIPARSE_(\w+): return "(.*)";', file.read()))


def changed_pairs(draw: random.Random, text: bytes) -> Iterator[Tuple[str, Tuple[Optional[bytes], ...], bytes]]:
    """Calls that change the pairs of a reference, and what they return by lists of Python's."""
    begin, end = (match := APPENDIX_B.match(text)) and (match.end(5), match.end(6) if match[6] is not None else match.end(5))
    query: Optional[bytes] = match[7]

    def with_query(pieces: List[bytes]) -> bytes:
        return text[:begin] + (b"?" + b"&".join(pieces) if pieces else b"") + text[end:]

    pieces = (query or b"").split(b"&")
    names = [unquote_to_bytes(piece.partition(b"=")[0]) for piece in pieces]
    name, value = draw.choice([*names, b"a", b"*", b"a*", b"", b"a&b", b"\xc3\xa9"]), draw.choice((None, b"", b"a", b"b&=+ ", b"\xc3\xa9"))
    piece = b"=".join(quote(part, safe="!$'(),;:@/?").encode() for part in (name, value) if part is not None)
    kept = pieces if pieces[-1] else pieces[:-1]
    if b"*" not in piece + name + (value or b""):
        yield "uri_with_appended_param", (text, name, value), with_query([*kept, piece])
        first = names.index(name) if name in names else len(pieces)
        set_in = [piece if at == first else own for at, own in enumerate(pieces) if at == first or names[at] != name]
        yield "uri_with_param", (text, name, value), with_query(set_in if name in names else [*kept, piece])
    left = [own for at, own in enumerate(pieces) if names[at] != name]
    yield "uri_without_param", (text, name), text if query is None else with_query(left)
    pattern = quote(name[:2], safe="").encode() + b"*"
    left = [own for at, own in enumerate(pieces) if not names[at].startswith(name[:2]) and names[at] != b"b"]
    yield "uri_without_params", (text, pattern, b"b"), text if query is None else with_query(left)
