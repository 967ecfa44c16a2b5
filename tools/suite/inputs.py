"""Inputs by class: for each component strings at the ends of its rules, with the section that they witness."""
from __future__ import annotations

import itertools
from typing import Dict, Iterator, List, NamedTuple, Optional, Tuple

Choice = Optional[str]
# Strings for each component; None is an absent one.
SCHEMES: List[Choice] = ["a", "http", "HTTP", "Z9", "a+b-.1", "s" * 255, "1a", "+a", "-a", ".a", "a_b", "a%41", "a b", "a~", ""]
USERS: List[Choice] = [None, "", "u", "U", "u:p", ":", ":p", "u:", "u:p:q", "%7e", "%7E:%3a", "-._~!$&'()*+,;=", "a%", "a%4", "a%zz", "u:%",
                       "u:%4", "u v", "u:p q", "u<", "u[", "u]", "u@v", "\u00e9"]
NAMES: List[Choice] = ["", "h", "H", "EXAMPLE.com", "example.com.", "a..b", "%41", "%61", "%2e", "%2F", "%c3%a9", "%C3%A9", "-._~!$&'()*+,;=",
                       "256.1.1.1", "01.2.3.4", "1.2.3", "1.2.3.4.5", "%31.2.3.4", "1.2.3.4.", "h" * 300, "%", "%4", "%4g", "h h", "h<", "h>",
                       "h|", "h\\", "h^", "h`", "h{", "h\"", "\u00e9"]
ADDRESSES: List[Choice] = ["0.0.0.0", "1.2.3.4", "9.10.99.100", "199.200.249.250", "255.255.255.255", "[v1.x]", "[vF.a:b]", "[V1.~!$&'()*+,;=:]",
                           "[v10af.a]", "[v.x]", "[v1.]", "[v1x]", "[vg.x]", "[v1.%41]", "[v1.a/b]", "[]", "[", "]", "[:]", "[:::]", "[1::2::3]",
                           "[12345::]", "[g::]", "[::1%25eth0]", "[::1%eth0]", "[::1", "::1]", "[::1]x", "x[::1]", "[::256.1.1.1]",
                           "[::01.2.3.4]", "[::1.2.3]", "[1.2.3.4]", "[FFFF::abCD]", "[0001::0]", "[0:0:0:0:0:0:0:0]", "[::ffff:1.2.3.4]",
                           "[::1.2.3.4]", "[1:0:0:2:0:0:0:3]", "[1:2:3:4:5:6:7:8:9]", "[ ::1]"]
# Hosts that differ in their kind, or that are one address in different spellings.
CLOSE_HOSTS = ["1.2.3.4", "%31.2.3.4", "1.2.3.%34", "01.2.3.4", "[::1.2.3.4]", "[::102:304]", "[0::0102:0304]", "[::ffff:1.2.3.4]", "[v1.A]",
               "[V1.a]", "h%2e", "h."]
PORTS: List[Choice] = [None, "", "0", "1", "80", "080", "443", "65535", "65536", "00000000000000000080", "99999", "18446744073709551617", "8o",
                       "-1", "+1", " 80", "%38", "8:0", "\u0661"]
PATHS: List[Choice] = ["", "/", "//", "///", "/a", "/a/", "/a/b", "//a", "/.", "/..", "/./", "/../", "/a/./b", "/a/../b", "/a/..//b", "/...",
                       "/.a", "/a.", "/..a", "/%2e", "/%2E%2e/a", "/.%2e/a", "/%7e", "/%7E", "/%41%5a", "/%2f", "/%2F", "/-._~!$&'()*+,;=:@",
                       "/a:b", "/a%", "/a%4", "/a%g0", "/a b", "/a[b]", "/a|b", "/a\\b", "/\u00e9"]
RELATIVE: List[Choice] = ["a", "a/b", ".", "..", "./", "../", "./a", "../a", "../../a", "a/.", "a/..", "a/../b", "./a:b", "a/b:c", ".//a", "%2e",
                          "%2E/a", "a:", "a:b", "1:b", ":", ":a", "@", "a@b", "*", "a%3ab", "+a:b", "%61:b"]
RESTS: List[Choice] = [None, "", "q", "Q", "a=b&c", "?", "/", ":@", "%7e", "%3F", "%3f", "-._~!$&'()*+,;=", "..", "/../a", "%", "%4", "%zz",
                       "a b", "[", "]", "<", "\"", "{", "|", "\\", "^", "`", "\u00e9"]

SECTIONS = {"scheme": "3.1", "user": "3.2.1", "host": "3.2.2", "port": "3.2.3", "path": "3.3", "query": "3.4", "fragment": "3.5"}
# What the components are where a class doesn't choose them.
PLAIN: Dict[str, Choice] = {"scheme": "s", "user": None, "host": "h", "port": None, "path": "/p", "query": None, "fragment": None}
CHOICES: Dict[str, List[Choice]] = {"scheme": SCHEMES, "user": USERS, "host": [None, *NAMES, *ADDRESSES], "port": PORTS,
                                    "path": [*PATHS, *RELATIVE], "query": RESTS, "fragment": [*RESTS, "#"]}


class Input(NamedTuple):
    """A string, the section that it witnesses, and its class."""

    text: str
    section: str
    made: str


def join(parts: Dict[str, Choice]) -> str:
    """The components with their delimiters. Without a host there is no authority."""
    host = parts["host"]
    user, port = parts["user"], parts["port"]
    authority = "" if host is None else "//" + ("" if user is None else user + "@") + host + ("" if port is None else ":" + port)
    front = "" if parts["scheme"] is None else parts["scheme"] + ":"
    rest = [sign + str(parts[name]) for name, sign in (("query", "?"), ("fragment", "#")) if parts[name] is not None]
    return front + authority + (parts["path"] or "") + "".join(rest)


def each_choice() -> Iterator[Input]:
    """Each string of each component: in a URI, in a relative reference, and with no other component."""
    for name, choice in [(name, choice) for name, choices in CHOICES.items() for choice in choices]:
        alone = "h" if name in ("user", "port") else None
        frames: Dict[str, Dict[str, Choice]] = {"URI": {}, "relative": {"scheme": None}, "no authority": {"host": None},
                                                "alone": {"scheme": None, "host": alone, "path": ""}}
        yield from (Input(join({**PLAIN, **others, name: choice}), SECTIONS[name], "%s, %s" % (name, frame)) for frame, others in frames.items())


def each_pair() -> Iterator[Input]:
    """Each pair of strings of two components."""
    for left, right in itertools.combinations(CHOICES, 2):
        frame: Dict[str, Choice] = {**PLAIN, "host": "h" if {left, right} & {"user", "port"} or left == "scheme" else None}
        strings = (join({**frame, left: one, right: other}) for one, other in itertools.product(CHOICES[left], CHOICES[right]))
        yield from (Input(text, SECTIONS[left], "pair of %s and %s" % (left, right)) for text in strings)


def each_byte() -> Iterator[Input]:
    """Each byte of ASCII in each component, in its middle, and as a digit of an escape."""
    for name, byte in itertools.product(SECTIONS, range(128)):
        middle = "a%sb" % chr(byte) if name != "port" else "1%s2" % chr(byte)
        escape = "%" + chr(byte) + "1"
        front = "/" if name == "path" else ""
        yield Input(join({**PLAIN, name: front + middle}), SECTIONS[name], "byte of %s" % name)
        if name not in ("scheme", "port"):
            yield Input(join({**PLAIN, name: front + escape}), "2.1", "escape in %s" % name)


def each_address() -> Iterator[Input]:
    """Each count of groups before and after "::" of an IPv6 address, with and without an IPv4 address at the end."""
    for before, after, shape in itertools.product(range(9), range(9), ("::", "::4", "", "4")):
        if before + after <= 9:
            tail = ["1.2.3.4"] if "4" in shape else []
            front, back = ["%x" % (index + 10) for index in range(before)], ["0%x" % index for index in range(after)] + tail
            address = ":".join(front) + "::" + ":".join(back) if "::" in shape else ":".join(front + back)
            yield Input("s://[%s]" % address, "3.2.2", "IPv6 address")


def dotted(length: int, names: Tuple[str, ...] = ("", ".", "..", "g", "%2e")) -> Iterator[str]:
    """Each path of so many segments."""
    for segments in itertools.product(names, repeat=length):
        yield "/".join(segments)
