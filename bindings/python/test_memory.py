"""Each call with each of its allocations failing, and calls by the million, which keep no memory: `test_memory.py [COUNT of calls of each kind]`.

A call whose allocation fails raises MemoryError, and the same call after it returns the same as before. The last line has the counts."""
from __future__ import annotations

import copy
import gc
import pickle
import resource
import sys
from dataclasses import replace

import uriparse

# A debug build of CPython ends with an assertion of its own if it has no memory for a frame, and CPython 3.12 and 3.13 crash, also without
# this module.
set_nomemory = None
if sys.version_info[:2] == (3, 11) and not hasattr(sys, "gettotalrefcount"):
    try:
        from _testcapi import remove_mem_hooks, set_nomemory
    except ImportError:
        pass

LONG = "http://u:p@h/" + "a/%7e/../" * 400 + "?" + "a=b&c&" * 300 + "#f"
URI = uriparse.URI("http://u:p@www.example.com:80/a/b?x=1&y#f")
SAME = uriparse.URI("http://u:p@www.example.com:80/a/%62?x=1&y#f")
READ = uriparse.parse("http://u:p@www.example.com:80/a/b?x=1&y#f")
SURROGATE = "http://h/\ud800"
MANY = ["HTTP://h/%7e", "a b", "\u00e9", SURROGATE, URI, "//[::1:2:3:4:5:6:7]"] * 3


def members(found):
    return [getattr(found, name) for name in (*uriparse.COMPONENTS, "host_kind", "port_number")]


CALLS = [
    lambda: members(uriparse.parse(LONG)), lambda: members(uriparse.parse(LONG.encode())), lambda: members(uriparse.parse(bytearray(b"//h:80"))),
    lambda: members(uriparse.URI(LONG)), lambda: hash(uriparse.URI(LONG)), lambda: URI == SAME, lambda: URI < SAME, lambda: repr(URI) + str(URI),
    lambda: dict(READ), lambda: replace(READ, host="1.2.3.4", port="8"), lambda: pickle.loads(pickle.dumps(URI)), lambda: copy.deepcopy(READ),
    lambda: uriparse.spans(LONG), lambda: uriparse.first_fault("/%4"), lambda: uriparse.is_uri(SURROGATE), lambda: uriparse.hash_of(LONG),
    lambda: uriparse.host_flags("//%31.2.3.4"), lambda: uriparse.disagreement(LONG), lambda: uriparse.default_port("https"), lambda: uriparse.port_or_default(LONG),
    lambda: str(uriparse.host_address("//[::1]")), lambda: uriparse.host_address(URI), lambda: uriparse.is_normalized(LONG), lambda: uriparse.is_public(LONG),
    lambda: uriparse.key(LONG), lambda: uriparse.normal_key(LONG.encode()), lambda: uriparse.page_key(URI), lambda: uriparse.key_many([LONG, "a b"], "page"),
    lambda: uriparse.place_key(LONG), lambda: uriparse.place_key_many([LONG, "a"]), lambda: uriparse.domain_prefix(b"h"), lambda: uriparse.base_prefix(LONG),
    lambda: uriparse.is_ambiguous("..;a"), lambda: uriparse.same_origin(LONG, URI), lambda: uriparse.trim_link(" <URL:" + LONG + ">"),
    lambda: uriparse.form_decode("%c3%a9+" * 1000), lambda: uriparse.pair_values(LONG, "a"), lambda: uriparse.pair_values(b"s:", b"a"),
    lambda: uriparse.segments(LONG), lambda: uriparse.segments(b"/a%2fb"), lambda: uriparse.without_default_port(LONG), lambda: uriparse.mask_password(URI),
    lambda: uriparse.request_target(LONG), lambda: uriparse.request_target("s:a"),
    lambda: uriparse.host_is_within_any(URI, "example.com example.org"),
    lambda: uriparse.normalize(LONG), lambda: uriparse.normalize(bytearray(b"A:")), lambda: uriparse.resolve(URI, LONG), lambda: uriparse.resolve(b"s:a", b"b"),
    lambda: uriparse.relativize(LONG, URI), lambda: uriparse.origin(URI), lambda: uriparse.origin("file:///a"), lambda: uriparse.equal(LONG, URI),
    lambda: uriparse.compare(LONG, URI), lambda: uriparse.is_within(URI, URI), lambda: uriparse.host_is_within(URI, "example.com"),
    lambda: uriparse.escape("\u00e9 " * 2000), lambda: uriparse.encode("pair", "\u00e9&" * 1000), lambda: uriparse.decode("%c3%a9" * 1000),
    lambda: uriparse.replace(LONG, scheme="s", username=None, host="h", port=80, path="/" * 3000), lambda: uriparse.replace(b"//h", query=memoryview(b"q")),
    lambda: uriparse.pair(LONG, "a"), lambda: uriparse.with_pair(LONG, "a", "\u00e9" * 2000), lambda: uriparse.with_pair(LONG, 5, None),
    lambda: uriparse.with_appended_pair(URI, "a", 7), lambda: uriparse.without_pairs(LONG, "a", "x*"), lambda: uriparse.without_pairs(URI),
    lambda: uriparse.without_pair(URI, "x"), lambda: uriparse.pairs("a=1&b&\u00e9=\u00e9"), lambda: uriparse.pairs(None), lambda: URI / "a b",
    lambda: uriparse.normalize_many(MANY), lambda: uriparse.resolve_many("s:a/" + "b" * 2000, MANY), lambda: uriparse.resolve_many(bytearray(b"s:"), [b"a"]),
    lambda: uriparse.escape_many(MANY), lambda: uriparse.pair_many(MANY, "a"), lambda: uriparse.without_pairs_many(MANY, "a", "b*"),
    lambda: uriparse.get_many("host_kind", MANY), lambda: uriparse.relativize_many("s:a/", MANY), lambda: uriparse.is_within_many(MANY, "s:"),
    lambda: uriparse.host_is_within_many(MANY, "h"), lambda: uriparse.host_is_within_many([b"//h"], bytearray(b"h")),
    lambda: list(map(bool, uriparse.parse_many(MANY))), lambda: uriparse.get_many("host", iter(MANY)),
    lambda: uriparse.normalize_many([bytearray(b"%7e"), memoryview(b"--%7e")[2:]])]

# Calls that are rejected.
REJECTED = [
    lambda: uriparse.parse("a b"), lambda: uriparse.parse(bytearray(b"a b")), lambda: uriparse.URI(SURROGATE), lambda: uriparse.URI(b"a"),
    lambda: uriparse.resolve("s:%", "a"), lambda: uriparse.equal("a", b"a"), lambda: uriparse.equal("a", "%"), lambda: uriparse.normalize(None),
    lambda: uriparse.normalize(memoryview(b"abcd")[::2]), lambda: uriparse.host_is_within("//h", "h:80"), lambda: uriparse.decode("a#"),
    lambda: uriparse.is_ambiguous("a/b"), lambda: uriparse.trim_link(SURROGATE), lambda: uriparse.form_decode("a#"), lambda: uriparse.host_address("a b"),
    lambda: uriparse.pair_values("?a=1&a=%ff", "a"), lambda: uriparse.same_origin("a", "%"), lambda: uriparse.pair_values("?a", SURROGATE),
    lambda: uriparse.segments(SURROGATE), lambda: uriparse.without_default_port("a b"), lambda: uriparse.mask_password("//u:%@h"), lambda: uriparse.request_target("a b"),
    lambda: uriparse.host_is_within_any("//h", "h h:80"), lambda: uriparse.decode("%ff"), lambda: uriparse.escape(SURROGATE), lambda: uriparse.encode("pair", SURROGATE), lambda: uriparse.pairs(SURROGATE),
    lambda: uriparse.replace("//h", host="a/b"), lambda: uriparse.replace("a", port=1), lambda: uriparse.replace("a", host=b"h"),
    lambda: uriparse.with_pair("s:", "a", SURROGATE), lambda: uriparse.without_pairs("?a", "b#"), lambda: uriparse.normalize_many(MANY, "raise"),
    lambda: uriparse.parse_many(["a", b"a"]), lambda: uriparse.get_many("host", ["a", None]), lambda: uriparse.normalize_many("a"),
    lambda: uriparse.resolve("s:", base="s:"), lambda: uriparse.normalize(other="a"), lambda: replace(READ, host="a/b"),
    lambda: uriparse.resolve_many("s:", ["a", "%"], "raise"), lambda: uriparse.is_within_many(["s:", "%"], "s:", "raise"),
    lambda: uriparse.host_is_within_many(["a"], SURROGATE), lambda: uriparse.pair_many(["?a=%ff"], "a"), lambda: uriparse.escape_many([SURROGATE]),
    lambda: uriparse.without_pairs_many(["a", "%"], "a", errors="raise")]


def is_frameless(error):
    """Whether it is what CPython 3.11 raises if it has no memory for the frame of a function in Python. For a function in C that fails without
    an exception it has other words."""
    return isinstance(error, SystemError) and str(error).startswith(("error return without exception set", "<function "))


def outcome(call):
    """What a call returns, or what it raises."""
    try:
        return call()
    except Exception as error:
        return type(error), str(error)


def starve(call):
    """The call with its first allocation failing, its second, .. until twenty in turn change nothing: there are no more. Returns how many
    failed."""
    wanted = outcome(call)
    failed = at = survived = 0
    while survived < 20:
        set_nomemory(at, at + 1)
        try:
            found = call()
        except MemoryError:
            found = MemoryError
        except Exception as error:
            found = MemoryError if is_frameless(error) else error
        remove_mem_hooks()
        if isinstance(found, Exception):
            found = type(found), str(found)
        # CPython 3.11 raises an error without its words if it has no memory for them.
        if found is not MemoryError and found != (wanted[:1] + ("",) if isinstance(wanted, tuple) else None):
            assert found == wanted, (found, wanted)
        assert outcome(call) == wanted
        at += 1
        failed += found is MemoryError
        survived = 0 if found is MemoryError else survived + 1
    return failed


def run(call, count):
    for _ in range(count):
        try:
            call()
        except (ValueError, TypeError, BufferError):
            pass


def counted():
    """How many blocks are allocated, and how many references there are, which only a debug build of CPython counts."""
    gc.collect()
    return sys.getallocatedblocks(), getattr(sys, "gettotalrefcount", int)()


def kept(call, count):
    """How much more there is after some calls."""
    run(call, 100)
    before = counted()
    run(call, count)
    return max(after - at for after, at in zip(counted(), before))


def main():
    count = int(sys.argv[1]) if len(sys.argv) > 1 else 14_000
    calls = CALLS + REJECTED
    failed = sum(map(starve, calls)) if set_nomemory else 0
    for call in calls:
        run(call, min(count, 100))
    before = resource.getrusage(resource.RUSAGE_SELF).ru_maxrss
    for call in calls:
        found = kept(call, count)
        assert found < 50 + count // 20, (found, call.__code__.co_firstlineno, call)
    grown = resource.getrusage(resource.RUSAGE_SELF).ru_maxrss - before
    assert grown < 20_000 or count < 10_000, grown
    starved = "%d failed allocations" % failed if set_nomemory else "no failed allocations"
    what = "memory and no reference" if hasattr(sys, "gettotalrefcount") else "memory"
    print("%s; %d calls keep no %s" % (starved, len(calls) * count, what))


main()
