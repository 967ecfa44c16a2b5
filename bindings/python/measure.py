"""Measures the package next to `urllib.parse` and, if they are there, `yarl` and `rfc3986`: the least processor time of a call over some runs, each
over COUNT links of 80 bytes with escapes and dot segments, or references of 20 bytes to resolve.

    measure.py [COUNT]     COUNT links, or 100,000; prints a table for docs/PERF.md"""
import importlib
import platform
import random
import sys
import time
from urllib.parse import urljoin, urlsplit

import uriparse

RUNS = 7
BASE = "https://www.example.com/a/b/c/d?q"


def module(name):
    """The module and its version, if it is there."""
    try:
        return importlib.import_module(name)
    except ImportError:
        return None


def links(draw, count):
    form = "https://www.example%05d.com/articles/%05d/../%s/item-%06d?ref=%03d&q=caf%%C3%%A9#part-%d"
    return [form % (draw.randrange(20_000), draw.randrange(100_000), draw.choice(("~x", "%7ex")), number, draw.randrange(1000), number % 9)
            for number in range(count)]


def references(draw, count):
    return ["../%s/%06d?q=%04d" % (draw.choice(("e", "./f", "../g")), number, draw.randrange(10_000)) for number in range(count)]


def each(call):
    return lambda texts: [call(text) for text in texts]


def compare(pairs):
    return [left == right for left, right in pairs]


def pairs_of(kind, texts):
    """Half of them with another one, half with an equal one that is another object."""
    one, other = [[kind("".join(text)) for text in texts] for _ in range(2)]
    half = len(one) // 2
    return [*zip(one[:half], other[1:half + 1]), *zip(one[half:], other[half:])]


def peers(yarl, rfc3986):
    """A job, a call's name, and the call of a list."""
    yield "host", "`get_many`", lambda texts: uriparse.get_many("host", texts)
    yield "host", "`parse`", each(lambda text: uriparse.parse(text).host)
    yield "host", "`urlsplit`", each(lambda text: urlsplit(text).hostname)
    if yarl:
        yield "host", "`yarl.URL`", each(lambda text: yarl.URL(text).host)
    if rfc3986:
        yield "host", "`rfc3986.urlparse`", each(lambda text: rfc3986.urlparse(text).host)
    yield "normal form", "`normalize_many`", uriparse.normalize_many
    yield "normal form", "`normalize`", each(uriparse.normalize)
    if yarl:
        yield "normal form", "`yarl.URL`", each(lambda text: str(yarl.URL(text)))
    if rfc3986:
        yield "normal form", "`rfc3986` `normalize`", each(lambda text: rfc3986.uri_reference(text).normalize().unsplit())
    yield "target", "`resolve_many`", lambda texts: uriparse.resolve_many(BASE, texts)
    yield "target", "`resolve`", each(lambda text: uriparse.resolve(BASE, text))
    yield "target", "`urljoin`", each(lambda text: urljoin(BASE, text))
    if yarl:
        base = yarl.URL(BASE)
        yield "target", "`yarl` `join`", each(lambda text: str(base.join(yarl.URL(text))))
    if rfc3986:
        parsed = rfc3986.uri_reference(BASE)
        yield "target", "`rfc3986` `resolve_with`", each(lambda text: rfc3986.uri_reference(text).resolve_with(parsed).unsplit())


def least(call, texts):
    """The least processor time of a run, in seconds."""
    times = []
    for _ in range(RUNS):
        begin = time.process_time()
        call(texts)
        times.append(time.process_time() - begin)
    return min(times)


def main():
    count = int(sys.argv[1]) if len(sys.argv) > 1 else 100_000
    found = {name: module(name) for name in ("yarl", "rfc3986")}
    versions = ["%s %s" % (name, it.__version__) for name, it in found.items() if it]
    print(", ".join(["uriparse " + uriparse.__version__, "Python " + platform.python_version(), *versions]))
    draw = random.Random(1)
    texts = {"target": references(draw, count)}
    texts["host"] = texts["normal form"] = links(draw, count)
    for kind in (uriparse.URI, str):
        texts[kind] = pairs_of(kind, texts["host"])
    print("| Job | Call | µs |\n|---|---|---:|")
    for job, name, call in peers(**found):
        print("| %s | %s | %.2f |" % (job, name, least(call, texts[job]) / count * 1e6))
    for kind in (uriparse.URI, str):
        print("| `==` | `%s` | %.2f |" % (kind.__name__, least(compare, texts[kind]) / count * 1e6))
    for kind in (uriparse.URI, str):
        print("| `hash` | `%s` | %.2f |" % (kind.__name__, least(lambda pairs: [hash(left) for left, _ in pairs], texts[kind]) / count * 1e6))


if __name__ == "__main__":
    main()
