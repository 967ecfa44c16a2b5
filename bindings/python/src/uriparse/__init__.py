"""URIs of RFC 3986 by proved code: the library for C in an extension module. See uriparse.h.

A text is a str, or bytes, or another buffer of bytes, such as a bytearray, which is read where it lies: nothing may change it
during a call. A call of str returns str, and a call of bytes returns bytes; a call of both raises TypeError. Where a reference
is expected, a `URI` stands for its str."""
from __future__ import annotations

import enum
import ipaddress
from dataclasses import dataclass, field
from typing import (Any, AnyStr, Dict, Generic, Iterable, Iterator, List, Literal, Mapping, NamedTuple, Optional, Tuple, TypeVar, Union,
                    overload)

Buffer = Union[bytes, bytearray, memoryview]
Text = Union[str, Buffer]
HostKind = Literal["name", "ipv4", "ipv6", "ipvfuture"]

try:
    from . import _uriparse
except ImportError as _error:
    if _error.name != __name__:
        raise
    import sysconfig as _sysconfig
    if _sysconfig.get_config_var("Py_GIL_DISABLED"):
        raise ImportError("uriparse doesn't support a free-threaded CPython") from None
    raise ImportError("%s. To build the module, run `(cd crates/uriparse_c && rt lib)`, then `pip install ./bindings/python`" % _error) from None

from ._errors import IN_BASE, NO_ROOM, Code, Component, URIError, error_text
# methods.tsv: imports
from ._uriparse import (base_prefix, compare, decode, default_port, domain_prefix, equal, form_decode, hash_of,
                        host_is_within, host_is_within_any, is_ambiguous, is_normalized, is_public, is_uri, is_within,
                        key, mask_password, normal_key, normalize, origin, page_key, pair, pair_values, pairs, parse,
                        place_key, port_or_default, relativize, request_target, resolve, same_origin, segments,
                        trim_link, with_appended_pair, with_pair, without_default_port)
# methods.tsv: end

__all__ = [
    "COMPONENTS", "ENCODED", "IN_BASE", "NO_ROOM", "URI", "Buffer", "Code", "Component", "Components", "Disagreement",
    "Encodable", "HostFlag", "HostKind", "Parts", "Span", "Text", "URIError", "encode", "error_text", "escape_many",
    "get_many", "host_is_within_many", "is_within_many", "key_many", "normalize_many", "pair_many", "parse_many",
    "place_key_many", "prefix_successor", "relativize_many", "replace", "resolve_many", "without_pair",
    "without_pairs", "without_pairs_many"]
# methods.tsv: names
__all__ += ["base_prefix", "compare", "decode", "default_port", "disagreement", "domain_prefix", "equal", "escape",
            "first_fault", "form_decode", "hash_of", "host_address", "host_flags", "host_is_within",
            "host_is_within_any", "is_ambiguous", "is_normalized", "is_public", "is_uri", "is_within", "key",
            "mask_password", "normal_key", "normalize", "origin", "page_key", "pair", "pair_values", "pairs", "parse",
            "place_key", "port_or_default", "relativize", "request_target", "resolve", "same_origin", "segments",
            "spans", "trim_link", "with_appended_pair", "with_pair", "without_default_port"]
# methods.tsv: end
__version__ = "0.4.0"
if _uriparse.version != __version__:
    raise ImportError("the extension module has version %s of the library, and the package is version %s" % (_uriparse.version, __version__))

Encodable = Literal["username", "password", "segment", "query", "fragment", "pair"]

COMPONENTS: Tuple[Component, ...] = ("scheme", "authority", "username", "password", "host", "port", "path", "query", "fragment")
ENCODED: Dict[Encodable, int] = {"username": 0x10, "password": 0x20, "segment": 0x50, "query": 0x60, "fragment": 0x70, "pair": 0x90}


class HostFlag(enum.IntFlag):
    """What a name of a host may be taken for: an IPv4 address that it hides, a number, or another host, by the escapes that it has."""

    HIDES_ADDRESS = 1
    MAY_BE_NUMERIC = 2
    HAS_ESCAPES = 4


class Disagreement(enum.IntFlag):
    """Why another reader, such as a browser or a library by the URL Standard, may read another URI in the same string."""

    OTHER_SCHEME = 1
    WITHOUT_HOST = 2
    LATER_ADDRESS = 4
    ESCAPED_NAME = 8
    NUMERIC_NAME = 16
    ENCODED_NAME = 32
    ESCAPED_DOTS = 64
    USER_INFORMATION = 128


class Span(NamedTuple):
    """Where a component is: the bytes from `begin` up to `end`."""

    begin: int
    end: int
    present: bool


class Parts(NamedTuple):
    """Where the components are, with the numbers of the host's kind and of the port."""

    scheme: Span
    authority: Span
    username: Span
    password: Span
    host: Span
    port: Span
    path: Span
    query: Span
    fragment: Span
    host_kind: int
    port_number: int


def spans(text: Union[Text, URI]) -> Parts:
    """Where the components are."""
    numbers: Tuple[Any, ...] = _uriparse.spans(text)
    return Parts._make([*(Span(*place) for place in numbers[:-2]), *numbers[-2:]])


@dataclass(frozen=True, eq=False, init=False)
class Components(_uriparse.Read, Mapping[str, AnyStr], Generic[AnyStr]):
    """The components of a reference, as they stand in its text. An absent one is None. As a mapping it has those that are
    present, by name, and is equal to a dict of them. A component is cut when it is read, and the text is kept as long.

    One that is made of components, as by `dataclasses.replace`, has those of the reference that `replace` makes of them, and raises
    its error."""

    __slots__ = ()
    scheme: Optional[AnyStr] = field()
    authority: Optional[AnyStr] = field(init=False)
    username: Optional[AnyStr] = field()
    password: Optional[AnyStr] = field()
    host: Optional[AnyStr] = field()
    port: Optional[AnyStr] = field()
    path: AnyStr = field()
    query: Optional[AnyStr] = field()
    fragment: Optional[AnyStr] = field()
    host_kind: Optional[HostKind] = field(init=False)
    port_number: Optional[int] = field(init=False)

    def __new__(cls, scheme: Optional[AnyStr], username: Optional[AnyStr], password: Optional[AnyStr], host: Optional[AnyStr],
                port: Optional[AnyStr], path: AnyStr, query: Optional[AnyStr], fragment: Optional[AnyStr]) -> Components[AnyStr]:
        empty: Any = "" if isinstance(path, str) else b""
        text = replace(empty, scheme=scheme, username=username, password=password, host=host, port=port, path=path, query=query, fragment=fragment)
        return _uriparse.Read.__new__(cls, text)

    @classmethod
    def _of(cls, text: AnyStr) -> Components[AnyStr]:
        return _uriparse.Read.__new__(cls, text)

    def __reduce__(self) -> Tuple[Any, ...]:
        return type(self)._of, (self._text,)

    def __getitem__(self, name: str) -> AnyStr:
        found: Optional[AnyStr] = getattr(self, name) if name in COMPONENTS else None
        if found is None:
            raise KeyError(name)
        return found

    def __iter__(self) -> Iterator[str]:
        return (name for name in COMPONENTS if getattr(self, name) is not None)

    def __len__(self) -> int:
        return sum(1 for _ in self)

    def __eq__(self, other: object) -> bool:
        return isinstance(other, Mapping) and dict(self) == dict(other)

    def __hash__(self) -> int:
        return hash(tuple(self.items()))


def first_fault(text: Union[Text, URI]) -> Optional[Tuple[Code, int]]:
    """The code of the text's first fault and how many bytes precede it, or None if it is a reference."""
    fault = _uriparse.first_fault(text)
    return (Code(fault[0]), fault[1]) if fault else None


def host_flags(text: Union[Text, URI]) -> HostFlag:
    """What the name of a reference's host may be taken for. An address has no flag, and neither has a reference without a host."""
    return HostFlag(_uriparse.host_flags(text))


def disagreement(text: Union[Text, URI]) -> Disagreement:
    """Why another reader may read another URI in the same string, or no flag if readers by the URL Standard have the same scheme, host,
    port, path, query and fragment and there is no user information. A relative reference has `OTHER_SCHEME`."""
    return Disagreement(_uriparse.disagreement(text))


def host_address(text: Union[Text, URI]) -> Union[ipaddress.IPv4Address, ipaddress.IPv6Address, None]:
    """The IPv4 or IPv6 address that is the host of a reference, or None. A name isn't looked up, and has none."""
    found = _uriparse.host_address(text)
    return None if found is None else ipaddress.ip_address(found)


class _Keep(enum.Enum):
    """What `replace` does to a component that it isn't given."""

    KEEP = "keep"


_KEEP = _Keep.KEEP
_uriparse.use(Components, URIError, _KEEP)


@overload
def replace(text: Buffer, *, scheme: Union[Buffer, None, _Keep] = ..., username: Union[Buffer, None, _Keep] = ...,
            password: Union[Buffer, None, _Keep] = ..., host: Union[Buffer, None, _Keep] = ...,
            port: Union[Buffer, int, None, _Keep] = ..., path: Union[Buffer, None, _Keep] = ...,
            query: Union[Buffer, None, _Keep] = ..., fragment: Union[Buffer, None, _Keep] = ...) -> bytes: ...
@overload
def replace(text: Union[str, URI], *, scheme: Union[str, None, _Keep] = ..., username: Union[str, None, _Keep] = ...,
            password: Union[str, None, _Keep] = ..., host: Union[str, None, _Keep] = ...,
            port: Union[str, int, None, _Keep] = ..., path: Union[str, None, _Keep] = ...,
            query: Union[str, None, _Keep] = ..., fragment: Union[str, None, _Keep] = ...) -> str: ...
def replace(text: Union[Text, URI], *, scheme: Any = _KEEP, username: Any = _KEEP, password: Any = _KEEP, host: Any = _KEEP, port: Any = _KEEP,
            path: Any = _KEEP, query: Any = _KEEP, fragment: Any = _KEEP) -> Any:
    """A reference with these components set, or removed by None. What isn't named stays, byte for byte. All changes are made at
    once.

    A value has no delimiters; the port may be an int. Setting the host makes an authority, and removing it removes the
    authority; removing the user name removes the password. A path that isn't empty gets a leading slash after an authority.
    The `argument` of a URIError is "text" if the text is rejected, the component if its value is, else "change"."""
    return _uriparse.replace(text, scheme, username, password, host, port, path, query, fragment)


def _digits(number: int, is_str: bool) -> Any:
    return "%d" % number if is_str else b"%d" % number


@overload
def without_pairs(uri: Buffer, *names: Buffer) -> bytes: ...
@overload
def without_pairs(uri: Union[str, URI], *names: str) -> str: ...
def without_pairs(uri: Union[Text, URI], *names: Any) -> Any:
    """The reference without the pairs of these names in its query, and without the query if none is left. A name is written as
    in a query, and one that ends in `*` stands for each that begins with what precedes it: `utm_*`. `without_pair` takes a name that
    is data."""
    if not names:
        return _uriparse.without_pairs(uri, None)
    is_str = isinstance(uri, (str, URI))
    written = [_digits(name, is_str) if isinstance(name, int) and not isinstance(name, bool) else name for name in names]
    return _uriparse.without_pairs(uri, "&".join(written) if is_str else b"&".join(written))


@overload
def without_pair(uri: Buffer, name: Buffer) -> bytes: ...
@overload
def without_pair(uri: Union[str, URI], name: str) -> str: ...
def without_pair(uri: Union[Text, URI], name: Any) -> Any:
    """The reference without the pairs of this name, and without the query if none is left. The name is data, as that of `with_pair`: `*`
    and `&` are characters of it."""
    if isinstance(name, int) and not isinstance(name, bool):
        name = _digits(name, isinstance(uri, (str, URI)))
    encoded = encode("pair", name)
    return without_pairs(uri, encoded.replace("*", "%2A") if isinstance(encoded, str) else encoded.replace(b"*", b"%2A"))


@overload
def encode(component: Encodable, data: Buffer) -> bytes: ...
@overload
def encode(component: Encodable, data: str) -> str: ...
def encode(component: Encodable, data: Text) -> Any:
    """The component that stands for the bytes, or for the UTF-8 of a str: one of the names in ENCODED."""
    if component not in ENCODED:
        raise ValueError("no component %r: it is one of %s" % (component, ", ".join(ENCODED)))
    return _uriparse.encode(ENCODED[component], data)


@overload
def escape(text: Buffer) -> bytes: ...
@overload
def escape(text: Union[str, URI]) -> str: ...
def escape(text: Any) -> Any:
    """A reference, made of any text, with escapes for what may not stand where it does."""
    try:
        return _uriparse.escape(text)
    except UnicodeEncodeError as error:
        # The surrogate is a wrong byte of the component that it is in.
        before: str = str.__getitem__(text, slice(error.start))
        fault = first_fault(_uriparse.escape(before) + "\ud800")
        raise URIError(fault[0] if fault else Code.PATH_BYTE, text, error.start) from None


_URI = TypeVar("_URI", bound="URI")


class URI(_uriparse.Compared):
    """A URI or a relative reference, made from a str that stays as it is. It can't be changed. An absent component is None, and the
    others are cut when they are read.

    Two are equal if they differ at most in case and percent-encoding where these mean nothing, as `equal` says; the order is that of
    `compare`. Calls of the module accept it where they accept a reference."""

    __slots__ = ("__weakref__",)

    def __reduce__(self) -> Tuple[Any, ...]:
        return type(self), (self._text,)

    def __truediv__(self: _URI, name: str) -> _URI:
        """The URI of a segment below this one, without a query and a fragment. The name is data: a `/` becomes `%2F`. A name that
        servers may take for a dot segment raises ValueError."""
        if not isinstance(name, str):
            return NotImplemented
        if name.partition(";")[0] in (".", ".."):
            raise ValueError("%r is no name of a segment" % name)
        path, segment = self.path, encode("segment", name)
        if path or self.host is not None:
            segment = path + segment if path.endswith("/") else path + "/" + segment
        elif self.scheme is None and ":" in segment:
            segment = "./" + segment
        return self.replace(path=segment, query=None, fragment=None)

    def replace(self: _URI, **components: Any) -> _URI:
        """The URI with these components set, or removed by None, as the function `replace` does."""
        return type(self)(replace(self, **components))

    def with_scheme(self: _URI, scheme: Optional[str]) -> _URI:
        return self.replace(scheme=scheme)

    def with_username(self: _URI, username: Optional[str]) -> _URI:
        return self.replace(username=username)

    def with_password(self: _URI, password: Optional[str]) -> _URI:
        return self.replace(password=password)

    def with_host(self: _URI, host: Optional[str]) -> _URI:
        return self.replace(host=host)

    def with_port(self: _URI, port: Union[str, int, None]) -> _URI:
        return self.replace(port=port)

    def with_path(self: _URI, path: str) -> _URI:
        return self.replace(path=path)

    def with_query(self: _URI, query: Optional[str]) -> _URI:
        return self.replace(query=query)

    def with_fragment(self: _URI, fragment: Optional[str]) -> _URI:
        return self.replace(fragment=fragment)

    def is_uri(self) -> bool:
        """Whether it has a scheme."""
        return is_uri(self)

    def spans(self) -> Parts:
        """Where the components are."""
        return spans(self)

    def pairs(self) -> List[Tuple[str, Optional[str]]]:
        """The pairs of the query, not decoded; none if there is no query."""
        return pairs(self.query)

    def segments(self) -> List[str]:
        """The segments of the path, not decoded."""
        return segments(self.path)

    def pair(self, name: str) -> Optional[str]:
        """The decoded value of the first pair with this name, or None."""
        return pair(self, name)

    def pair_values(self, name: str) -> List[str]:
        """The decoded values of all pairs with this name."""
        return pair_values(self, name)

    def with_pair(self: _URI, name: str, value: Union[str, int, None]) -> _URI:
        """With one pair of this name, in place of the first one."""
        return type(self)(with_pair(self, name, value))

    def with_appended_pair(self: _URI, name: str, value: Union[str, int, None]) -> _URI:
        """With a pair after all others."""
        return type(self)(with_appended_pair(self, name, value))

    def without_pairs(self: _URI, *names: str) -> _URI:
        """Without the pairs of these names, which may end in `*`."""
        return type(self)(without_pairs(self, *names))

    def without_pair(self: _URI, name: str) -> _URI:
        """Without the pairs of this name, which is data."""
        return type(self)(without_pair(self, name))

    def is_within(self, base: Union[str, URI]) -> bool:
        """Whether it is below the base."""
        return is_within(self, base)

    def host_is_within(self, domain: str) -> bool:
        """Whether the host is the domain or a name within it."""
        return host_is_within(self, domain)

    def host_is_within_any(self, domains: str) -> bool:
        """Whether the host is within one of the domains, which spaces separate."""
        return host_is_within_any(self, domains)

    def host_flags(self) -> HostFlag:
        """What the host may be taken for."""
        return host_flags(self)

    def disagreement(self) -> Disagreement:
        """Why another reader may read another URI in the same string."""
        return disagreement(self)

    def host_address(self) -> Union[ipaddress.IPv4Address, ipaddress.IPv6Address, None]:
        """The address that is the host, or None."""
        return host_address(self)

    def port_or_default(self) -> Optional[int]:
        """The port, or the default port of the scheme, or None."""
        return port_or_default(self)

    def same_origin(self, other: Union[str, URI]) -> bool:
        """Whether both have an origin and it is one."""
        return same_origin(self, other)

    def is_normalized(self) -> bool:
        """Whether it is its own normal form."""
        return is_normalized(self)

    def is_public(self) -> bool:
        """Whether the host leads anywhere on the Internet, as far as its text says."""
        return is_public(self)

    def origin(self: _URI) -> Optional[_URI]:
        """The origin, or None if it has none."""
        found = origin(self)
        return None if found is None else type(self)(found)

    def normalize(self: _URI) -> _URI:
        """The normal form."""
        return type(self)(normalize(self))

    def without_default_port(self: _URI) -> _URI:
        """Without the port, if that is the default port of the scheme."""
        return type(self)(without_default_port(self))

    def mask_password(self: _URI) -> _URI:
        """With `***` in place of the password, if it has one."""
        return type(self)(mask_password(self))

    def request_target(self) -> Optional[str]:
        """The path and the query, as an HTTP request has them, or None."""
        return request_target(self)

    def key(self) -> str:
        """The sort key."""
        return key(self)

    def normal_key(self) -> str:
        """The sort key of the normal form."""
        return normal_key(self)

    def page_key(self) -> str:
        """The sort key of the page that it leads to."""
        return page_key(self)

    def place_key(self) -> str:
        """The place key, which begins with the host from its last label on."""
        return place_key(self)

    def base_prefix(self) -> str:
        """What the place keys of all URIs below this base begin with."""
        return base_prefix(self)

    def resolve(self: _URI, reference: Union[str, URI]) -> _URI:
        """The target of a reference against this base."""
        return type(self)(resolve(self, reference))

    def relativize(self: _URI, uri: Union[str, URI]) -> _URI:
        """The reference that leads from this base to a URI."""
        return type(self)(relativize(self, uri))


def _is_raising(errors: str) -> bool:
    if errors not in ("none", "raise"):
        raise ValueError("no errors %r: it is one of none, raise" % errors)
    return errors == "raise"


@overload
def normalize_many(texts: Iterable[Buffer], errors: Literal["none"] = "none") -> List[Optional[bytes]]: ...
@overload
def normalize_many(texts: Iterable[Buffer], errors: Literal["raise"]) -> List[bytes]: ...
@overload
def normalize_many(texts: Iterable[Union[str, URI]], errors: Literal["none"] = "none") -> List[Optional[str]]: ...
@overload
def normalize_many(texts: Iterable[Union[str, URI]], errors: Literal["raise"]) -> List[str]: ...
def normalize_many(texts: Iterable[Union[Text, URI]], errors: str = "none") -> List[Any]:
    """The normal form of each text, or None for one that is rejected; with errors="raise" the first of these raises its
    URIError."""
    return _uriparse.normalize_many(texts, _is_raising(errors))


# What `get_many` reads, by the numbers that the module has for it.
_READ: Tuple[Union[Component, Literal["host_kind"]], ...] = (*COMPONENTS, "host_kind")

_FORMS = {"exact": 0, "normal": 1, "page": 2}


@overload
def key_many(texts: Iterable[Buffer], form: str = "exact", errors: Literal["none"] = "none") -> List[Optional[bytes]]: ...
@overload
def key_many(texts: Iterable[Buffer], form: str = "exact", *, errors: Literal["raise"]) -> List[bytes]: ...
@overload
def key_many(texts: Iterable[Union[str, URI]], form: str = "exact", errors: Literal["none"] = "none") -> List[Optional[str]]: ...
@overload
def key_many(texts: Iterable[Union[str, URI]], form: str = "exact", *, errors: Literal["raise"]) -> List[str]: ...
def key_many(texts: Iterable[Union[Text, URI]], form: str = "exact", errors: str = "none") -> List[Any]:
    """The sort key of each text, as `key`, `normal_key` or `page_key` makes it, or None for one that is rejected; with
    errors="raise" the first of these raises its URIError."""
    if form not in _FORMS:
        raise ValueError("no form %r: it is one of exact, normal, page" % form)
    return _uriparse.key_many(_FORMS[form], texts, _is_raising(errors))


_PLACE = 3


@overload
def place_key_many(texts: Iterable[Buffer], errors: Literal["none"] = "none") -> List[Optional[bytes]]: ...
@overload
def place_key_many(texts: Iterable[Buffer], errors: Literal["raise"]) -> List[bytes]: ...
@overload
def place_key_many(texts: Iterable[Union[str, URI]], errors: Literal["none"] = "none") -> List[Optional[str]]: ...
@overload
def place_key_many(texts: Iterable[Union[str, URI]], errors: Literal["raise"]) -> List[str]: ...
def place_key_many(texts: Iterable[Union[Text, URI]], errors: str = "none") -> List[Any]:
    """The place key of each text, as `place_key` makes it, or None for one that is rejected; with errors="raise" the first of these
    raises its URIError."""
    return _uriparse.key_many(_PLACE, texts, _is_raising(errors))


@overload
def prefix_successor(prefix: bytes) -> bytes: ...
@overload
def prefix_successor(prefix: str) -> str: ...
def prefix_successor(prefix: Union[str, bytes]) -> Union[str, bytes]:
    """The least string above all that begin with a prefix that `domain_prefix` or `base_prefix` returns: its last character is the next
    one."""
    if not isinstance(prefix, (str, bytes)):
        raise TypeError("a str or bytes expected, not %s" % type(prefix).__name__)
    if not prefix:
        raise ValueError("an empty prefix has no successor")
    if isinstance(prefix, str):
        return prefix[:-1] + chr(ord(prefix[-1]) + 1)
    return prefix[:-1] + bytes((prefix[-1] + 1,))


@overload
def resolve_many(base: Buffer, references: Iterable[Buffer], errors: Literal["none"] = "none") -> List[Optional[bytes]]: ...
@overload
def resolve_many(base: Buffer, references: Iterable[Buffer], errors: Literal["raise"]) -> List[bytes]: ...
@overload
def resolve_many(base: Union[str, URI], references: Iterable[Union[str, URI]],
                 errors: Literal["none"] = "none") -> List[Optional[str]]: ...
@overload
def resolve_many(base: Union[str, URI], references: Iterable[Union[str, URI]], errors: Literal["raise"]) -> List[str]: ...
def resolve_many(base: Union[Text, URI], references: Iterable[Union[Text, URI]], errors: str = "none") -> List[Any]:
    """The target of each reference against a base, or None for one that is rejected; with errors="raise" the first of these raises
    its URIError. A rejected base always raises its own."""
    if isinstance(base, (str, URI)):
        resolve(base, "")
    else:
        resolve(base, b"")
    return _uriparse.resolve_many(base, references, _is_raising(errors))


@overload
def relativize_many(base: Buffer, uris: Iterable[Buffer], errors: Literal["none"] = "none") -> List[Optional[bytes]]: ...
@overload
def relativize_many(base: Buffer, uris: Iterable[Buffer], errors: Literal["raise"]) -> List[bytes]: ...
@overload
def relativize_many(base: Union[str, URI], uris: Iterable[Union[str, URI]],
                    errors: Literal["none"] = "none") -> List[Optional[str]]: ...
@overload
def relativize_many(base: Union[str, URI], uris: Iterable[Union[str, URI]], errors: Literal["raise"]) -> List[str]: ...
def relativize_many(base: Union[Text, URI], uris: Iterable[Union[Text, URI]], errors: str = "none") -> List[Any]:
    """The reference that leads from a base to each URI, or None for one that is rejected; with errors="raise" the first of these
    raises its URIError. A rejected base always raises its own."""
    if isinstance(base, (str, URI)):
        relativize(base, "s:")
    else:
        relativize(base, b"s:")
    return _uriparse.relativize_many(base, uris, _is_raising(errors))


@overload
def is_within_many(uris: Iterable[Union[Text, URI]], base: Union[Text, URI],
                   errors: Literal["none"] = "none") -> List[Optional[bool]]: ...
@overload
def is_within_many(uris: Iterable[Union[Text, URI]], base: Union[Text, URI], errors: Literal["raise"]) -> List[bool]: ...
def is_within_many(uris: Iterable[Union[Text, URI]], base: Union[Text, URI], errors: str = "none") -> List[Any]:
    """Whether each URI is below a base, as `is_within` says, or None for one that is rejected; with errors="raise" the first of these
    raises its URIError. A rejected base always raises its own."""
    if isinstance(base, (str, URI)):
        is_within("s:", base)
    else:
        is_within(b"s:", base)
    return _uriparse.is_within_many(base, uris, _is_raising(errors))


@overload
def host_is_within_many(texts: Iterable[Union[Text, URI]], domain: Text,
                        errors: Literal["none"] = "none") -> List[Optional[bool]]: ...
@overload
def host_is_within_many(texts: Iterable[Union[Text, URI]], domain: Text, errors: Literal["raise"]) -> List[bool]: ...
def host_is_within_many(texts: Iterable[Union[Text, URI]], domain: Text, errors: str = "none") -> List[Any]:
    """Whether the host of each reference is a domain or a name within it, as `host_is_within` says, or None for one that is rejected;
    with errors="raise" the first of these raises its URIError. A rejected domain always raises its own."""
    if isinstance(domain, str):
        host_is_within("", domain)
    else:
        host_is_within(b"", domain)
    return _uriparse.host_is_within_many(domain, texts, _is_raising(errors))


@overload
def pair_many(uris: Iterable[Buffer], name: Union[Buffer, int], errors: Literal["none", "raise"] = "none") -> List[Optional[bytes]]: ...
@overload
def pair_many(uris: Iterable[Union[str, URI]], name: Union[str, int],
              errors: Literal["none", "raise"] = "none") -> List[Optional[str]]: ...
def pair_many(uris: Iterable[Union[Text, URI]], name: Any, errors: str = "none") -> List[Any]:
    """The decoded value of the first pair with this name of each reference, as `pair` returns it, or None if there is none or the reference
    is rejected; with errors="raise" the first that is rejected raises its URIError. A name that is an int is of str."""
    if isinstance(name, int) and not isinstance(name, bool):
        name = _digits(name, True)
    if isinstance(name, str):
        pair("", name)
    else:
        pair(b"", name)
    return _uriparse.pair_many(name, uris, _is_raising(errors))


@overload
def without_pairs_many(uris: Iterable[Buffer], *names: Buffer, errors: Literal["none"] = "none") -> List[Optional[bytes]]: ...
@overload
def without_pairs_many(uris: Iterable[Buffer], *names: Buffer, errors: Literal["raise"]) -> List[bytes]: ...
@overload
def without_pairs_many(uris: Iterable[Union[str, URI]], *names: str, errors: Literal["none"] = "none") -> List[Optional[str]]: ...
@overload
def without_pairs_many(uris: Iterable[Union[str, URI]], *names: str, errors: Literal["raise"]) -> List[str]: ...
def without_pairs_many(uris: Iterable[Union[Text, URI]], *names: Any, errors: str = "none") -> List[Any]:
    """Each reference without the pairs of these names, of which there is one at least, as `without_pairs` returns it, or None for one that
    is rejected; with errors="raise" the first of these raises its URIError. Rejected names always raise their own."""
    if not names:
        raise TypeError("without_pairs_many() lacks the name of a pair")
    if isinstance(names[0], str):
        without_pairs("", *names)
    else:
        without_pairs(b"", *names)
    written: Union[str, bytes] = "&".join(names) if isinstance(names[0], str) else b"&".join(names)
    return _uriparse.without_pairs_many(written, uris, _is_raising(errors))


@overload
def escape_many(texts: Iterable[Buffer]) -> List[bytes]: ...
@overload
def escape_many(texts: Iterable[Union[str, URI]]) -> List[str]: ...
def escape_many(texts: Iterable[Union[Text, URI]]) -> List[Any]:
    """A reference made of each text, as `escape` makes it."""
    return _uriparse.escape_many(texts)


@overload
def parse_many(texts: Iterable[Buffer], errors: Literal["none"] = "none") -> List[Optional[Components[bytes]]]: ...
@overload
def parse_many(texts: Iterable[Buffer], errors: Literal["raise"]) -> List[Components[bytes]]: ...
@overload
def parse_many(texts: Iterable[Union[str, URI]], errors: Literal["none"] = "none") -> List[Optional[Components[str]]]: ...
@overload
def parse_many(texts: Iterable[Union[str, URI]], errors: Literal["raise"]) -> List[Components[str]]: ...
def parse_many(texts: Iterable[Union[Text, URI]], errors: str = "none") -> List[Any]:
    """The components of each text, or None for one that is rejected; with errors="raise" the first of these raises its
    URIError."""
    return _uriparse.parse_many(texts, _is_raising(errors))


@overload
def get_many(component: Literal["host_kind"], texts: Iterable[Union[Text, URI]],
             errors: Literal["none", "raise"] = "none") -> List[Optional[HostKind]]: ...
@overload
def get_many(component: Component, texts: Iterable[Buffer], errors: Literal["none", "raise"] = "none") -> List[Optional[bytes]]: ...
@overload
def get_many(component: Component, texts: Iterable[Union[str, URI]],
             errors: Literal["none", "raise"] = "none") -> List[Optional[str]]: ...
def get_many(component: Union[Component, Literal["host_kind"]], texts: Iterable[Union[Text, URI]],
             errors: Literal["none", "raise"] = "none") -> List[Any]:
    """A component of each text, one of the names in COMPONENTS, or the kind of its host (`host_kind`), or None if it is absent or the
    text is rejected; with errors="raise" the first rejected text raises its URIError. Takes less time than `parse_many`."""
    if component not in _READ:
        raise ValueError("no component %r: it is one of %s" % (component, ", ".join(_READ)))
    return _uriparse.get_many(_READ.index(component), texts, _is_raising(errors))
