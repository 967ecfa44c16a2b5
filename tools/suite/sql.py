"""The suite's questions in SQL, for SQLite and PostgreSQL: of the columns a, b and c, which are a vector's inputs.

Functions of SQL return NULL for what is rejected, and don't say which input it was. uri_replace changes one component."""
from __future__ import annotations

from typing import List, Optional, Sequence

from form import field_of, text_of

COMPONENTS = ("scheme", "username", "password", "host", "port", "path", "query", "fragment")
READ = ("fault", "scheme", "username", "password", "host", "authority", "path", "query", "fragment", "host_kind", "port")
QUESTIONS = {
    "reading": "CAST(uri_valid(a) AS integer), " + ", ".join("uri_%s(a)" % name for name in READ),
    "equality": "CAST(uri_equal(a, b) AS integer), uri_compare(a, b)",
    "normal": "uri_normalize(a)",
    "resolution": "uri_resolve(a, b)",
    "relative": "uri_relativize(a, b)",
    "edits": "uri_replace(a, b, c)",
    "within": "CAST(uri_is_within(a, b) AS integer)",
}
TRUTH = {"0": "false", "1": "true"}
Values = Sequence[Optional[str]]


def inputs_of(chapter: str, fields: List[str]) -> Optional[List[Optional[str]]]:
    """The columns, or None if there is no call for a vector."""
    inputs = [text_of(field) for field in fields]
    if chapter == "edits":
        changed = [(name, text_of(field[1:])) for name, field in zip(COMPONENTS, fields[1:]) if field]
        if len(changed) != 1:
            return None
        inputs = [inputs[0], *changed[0]]
    return (inputs + [None, None])[:3]


def _port_of(user: Optional[str], host: Optional[str], authority: Optional[str], number: Optional[str]) -> Optional[str]:
    """The port as it is spelled; uri_port has only its number."""
    if authority is None:
        assert number is None
        return None
    rest = authority[0 if user is None else len(user) + 1:][len(host or ""):]
    assert (str(int(rest[1:])) if rest[1:] else None) == number, authority
    return rest[1:] if rest else None


def _reading(found: Values) -> str:
    valid, fault, scheme, user, password, host, authority, path, query, fragment, kind, number = found
    if valid == "0":
        assert set(found[2:]) == {None}, found
        return "!0\t\\?\t%s" % fault
    assert fault is None, found
    if password is not None:
        user = "%s:%s" % (user, password)
    port = _port_of(user, host, authority, number)
    return "=" + "\t".join(map(field_of, (scheme, user, host, port, path, query, fragment, kind)))


def line_of(chapter: str, found: Values) -> str:
    """The line that a runner prints for the values of the answer."""
    if chapter == "reading":
        return _reading(found)
    first = found[0]
    if first is None:
        assert set(found) == {None}, found
        return "!"
    if chapter == "equality":
        return "=%s\t%s" % (TRUTH[first], found[1])
    return "=" + (TRUTH[first] if chapter == "within" else field_of(first))
