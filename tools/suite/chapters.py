"""The chapters: which inputs each has, by class, and the section that each vector witnesses."""
from __future__ import annotations

import itertools
import random
import re
from typing import Callable, Dict, Iterable, Iterator, List, NamedTuple, Optional, Set, Tuple, TypeVar

import inputs
import letter

One = TypeVar("One")
Changes = Dict[str, Optional[str]]


class Question(NamedTuple):
    """A vector without its answer."""

    input: Tuple[str, ...]
    section: str
    made: str
    changes: Optional[Changes] = None


def _some(chance: random.Random, items: Iterable[One], count: int) -> List[One]:
    """At most `count` of the items, in their order."""
    everything = list(items)
    picked = sorted(chance.sample(range(len(everything)), min(count, len(everything))))
    return [everything[index] for index in picked]


def _is_valid(text: str) -> bool:
    return letter.read(text.encode(), letter.DEPARTURES) is not None


def _valid(items: Iterable[inputs.Input]) -> List[inputs.Input]:
    return [one for one in items if _is_valid(one.text)]


def reading(chance: random.Random) -> Iterator[Question]:
    singles = [*inputs.each_choice(), *inputs.each_byte(), *inputs.each_address()]
    for one in [*singles, *_some(chance, inputs.each_pair(), 3400)]:
        yield Question((one.text,), one.section, one.made)


# Changes to a string that may or may not keep what it means: a section, a class, a function.
VARIANTS: List[Tuple[str, str, Callable[[str], str]]] = [
    ("6.2.1", "the same string", lambda text: text),
    ("6.2.2.1", "upper case", str.upper),
    ("6.2.2.1", "lower case", str.lower),
    ("6.2.2.1", "hexadecimal digits in upper case", lambda text: re.sub("%..", lambda found: found[0].upper(), text)),
    ("6.2.2.1", "scheme in upper case", lambda text: re.sub("^[^:/?#]+:", lambda found: found[0].upper(), text)),
    ("6.2.2.2", "letters escaped", lambda text: re.sub("(?<![%0-9A-Fa-f])[p-q](?![:a-z])", lambda found: "%%%02x" % ord(found[0]), text)),
    ("6.2.2.2", "delimiters escaped", lambda text: re.sub("[!$&'()*+,;=@]", lambda found: "%%%02X" % ord(found[0]), text)),
    ("6.2.2.2", "unreserved escapes decoded", lambda text: re.sub("%7[eE]", "~", text).replace("%41", "A").replace("%61", "a")),
    ("6.2.2.3", "a dot segment more", lambda text: re.sub("(/p)", r"/.\1", text, count=1)),
    ("3.2", "an empty port more", lambda text: re.sub("(//[^/?#:]*)([/?#]|$)", r"\1:\2", text, count=1)),
    ("6.2.3", "port with zeros", lambda text: re.sub(":([0-9])", r":00\1", text, count=1)),
    ("6.2.3", "no slash at the end", lambda text: re.sub("/$", "", text)),
    ("3.4", "an empty query more", lambda text: text + "?"),
    ("3.5", "an empty fragment more", lambda text: text + "#"),
]


def _rejected(chance: random.Random, count: int) -> List[inputs.Input]:
    return _some(chance, [one for one in inputs.each_choice() if not _is_valid(one.text)], count)


def _varied(chance: random.Random) -> Iterator[Question]:
    singles = _valid([*inputs.each_choice(), *inputs.each_address()])
    for section, made, change in VARIANTS:
        changed = [one for one in singles if change(one.text) != one.text or section == "6.2.1"]
        yield from (Question((one.text, change(one.text)), section, made) for one in _some(chance, changed, 170))


def _two_of_one(chance: random.Random) -> Iterator[Question]:
    for name in inputs.CHOICES:
        same = _valid(one for one in inputs.each_choice() if one.made == name + ", URI")
        pairs = _some(chance, itertools.product(same, same), 200)
        yield from (Question((left.text, right.text), left.section, "two of " + name) for left, right in pairs)


def _either_way(chance: random.Random, items: Iterable[inputs.Input], other: str, made: str) -> Iterator[Question]:
    """Each string with another one, before or after it."""
    for one in items:
        yield Question((one.text, other) if chance.random() < 0.5 else (other, one.text), one.section, made)


def equality(chance: random.Random) -> Iterator[Question]:
    yield from _varied(chance)
    yield from _two_of_one(chance)
    for left, right in itertools.product(inputs.CLOSE_HOSTS, repeat=2):
        yield Question(("s://%s/" % left, "s://%s/" % right), "3.2.2", "two close hosts")
    yield from _either_way(chance, _rejected(chance, 60), "s:a", "one is rejected")


def _with_dots(chance: random.Random) -> Iterator[Question]:
    shapes = [(front, path) for front in ("s://h/", "s:/", "s:", "", "/") for length in (1, 2, 3) for path in inputs.dotted(length)]
    for front, path in shapes:
        yield Question((front + path,), "6.2.2.3", "dot segments after %r" % front)
    yield from (Question(("s://h/" + path,), "6.2.2.3", "dot segments, five") for path in _some(chance, inputs.dotted(5), 300))


def normal(chance: random.Random) -> Iterator[Question]:
    singles = _valid([*inputs.each_choice(), *inputs.each_address()])
    yield from (Question((one.text,), "6.2.2", one.made) for one in [*singles, *_some(chance, _valid(inputs.each_pair()), 1000)])
    yield from _with_dots(chance)
    yield from (Question((one.text,), one.section, "rejected") for one in _rejected(chance, 60))


# Section 5.4: references and their targets against EXAMPLE_BASE, as the RFC prints them.
EXAMPLE_BASE = "http://a/b/c/d;p?q"
NORMAL_EXAMPLES = {
    "g:h": "g:h", "g": "http://a/b/c/g", "./g": "http://a/b/c/g", "g/": "http://a/b/c/g/", "/g": "http://a/g", "//g": "http://g",
    "?y": "http://a/b/c/d;p?y",
    "g?y": "http://a/b/c/g?y", "#s": "http://a/b/c/d;p?q#s", "g#s": "http://a/b/c/g#s", "g?y#s": "http://a/b/c/g?y#s", ";x": "http://a/b/c/;x",
    "g;x": "http://a/b/c/g;x", "g;x?y#s": "http://a/b/c/g;x?y#s", "": "http://a/b/c/d;p?q", ".": "http://a/b/c/", "./": "http://a/b/c/",
    "..": "http://a/b/",
    "../": "http://a/b/", "../g": "http://a/b/g", "../..": "http://a/", "../../": "http://a/", "../../g": "http://a/g"}
ABNORMAL_EXAMPLES = {
    "../../../g": "http://a/g", "../../../../g": "http://a/g", "/./g": "http://a/g", "/../g": "http://a/g", "g.": "http://a/b/c/g.",
    ".g": "http://a/b/c/.g",
    "g..": "http://a/b/c/g..", "..g": "http://a/b/c/..g", "./../g": "http://a/b/g", "./g/.": "http://a/b/c/g/", "g/./h": "http://a/b/c/g/h",
    "g/../h": "http://a/b/c/h", "g;x=1/./y": "http://a/b/c/g;x=1/y", "g;x=1/../y": "http://a/b/c/y", "g?y/./x": "http://a/b/c/g?y/./x",
    "g?y/../x": "http://a/b/c/g?y/../x", "g#s/./x": "http://a/b/c/g#s/./x", "g#s/../x": "http://a/b/c/g#s/../x", "http:g": "http:g"}
BASES = ["http://a/b/c/d;p?q", "s://h", "s://u:p@h:8/", "s://h//", "s:", "s:a", "s:a/b/c", "s:/a/b", "s:/", "s:../a", "s://h/a/./../b/c",
         "s:/.//a/b", "HTTP://h/%7e/%2e%2e/b", "s://h/a/..", "foo://[::0:1]:007?x#y"]
PIECES = ["", "t:", "s:", "//g", "//u@g:", "//", "t://g", "//[::1]"]
ENDS = ["", "?", "?y", "#", "#f", "?y#f", "?/../y", "#/./f"]


def _resolved(base: str, reference: str) -> Question:
    """Its class is the row of section 5.2.2 and the steps of section 5.2.4 that it takes."""
    read = [letter.read(text.encode(), letter.DEPARTURES) for text in (base, reference)]
    if read[0] is None or read[1] is None or read[0].scheme is None:
        return Question((base, reference), "5.2.1" if read[0] is None or read[0].scheme is None else "4.1", "rejected")
    row, path = letter.steps(read[0], read[1])
    taken = letter.removals(path)
    section = "5.2.4" if taken else "5.2.3" if row.startswith("merge") else "5.2.2"
    return Question((base, reference), section, ", ".join([row, *taken]))


def _examples() -> Iterator[Question]:
    for section, examples in (("5.4.1", NORMAL_EXAMPLES), ("5.4.2", ABNORMAL_EXAMPLES)):
        yield from (Question((EXAMPLE_BASE, reference), section, "example") for reference in examples)


def resolution(chance: random.Random) -> Iterator[Question]:
    yield from _examples()
    ends = ["".join(three) for three in itertools.product(PIECES, ["", "/", "/x", "x", "..", "/..//x", ".//x"], ENDS)]
    dots = [path for length in (1, 2, 3) for path in inputs.dotted(length)]
    bases = [front + path for front, path in itertools.product(["s://h/", "s:/", "s:"], dots)]
    made = [*itertools.product(BASES, dots[:30]), *_some(chance, itertools.product(BASES, dots[30:]), 900), *_some(chance, itertools.product(BASES, ends), 1300),
            *_some(chance, itertools.product(bases, ["g", "../g", "", "?y", "/.//g"]), 900)]
    singles = [*_some(chance, _valid(inputs.each_choice()), 400), *_rejected(chance, 120)]
    made += [two for one in singles for two in (("s://h/a/b", one.text), (one.text, "g"))]
    yield from itertools.starmap(_resolved, made)


def _trees(chance: random.Random, count: int) -> Iterator[Tuple[str, str]]:
    """Pairs of URIs that share more or less of the front."""
    fronts = ["s://h", "S://h", "s://H", "s://u@h", "s://h:8", "s:", "t:", "s://h:08", "s://%68", "s://[::1]"]
    paths = ["", "/", "/a", "/a/", "/a/b", "/a/b/", "/a/b/c", "/a//b", "//a", "/b:c", "/a/b:c", "/%61/b", "/a/./b", "/a/../b", "/a/%2e%2e/b",
             "/a/..;/b", "/a/%2Fb", "/A/b", "/a;x/b", "a", "a/b", "/a/b/../c", "/a/.../b", "/a/%2e/b", "/a/..;x/../b", "/a%00/b"]
    ends = ["", "?q", "#f", "?q#f", "?"]
    likely = [(left, right) for left, right in itertools.product(fronts, fronts) for _ in range(12 if left == right else 1)]
    while count:
        (left, right), one, other = chance.choice(likely), chance.choice(paths), chance.choice(paths)
        two = (left + one + chance.choice(ends), right + other + chance.choice(ends))
        # A path after an authority has a slash, and one without an authority no two of them.
        if all(not re.match(r"s://[^/]*a|[st]://a", text.lower()) or text[2:4] == "//" for text in two):
            count -= 1
            yield two


def relative(chance: random.Random) -> Iterator[Question]:
    yield from (Question(two, "5.2", "two URIs") for two in _trees(chance, 2300))
    yield from _either_way(chance, _some(chance, inputs.each_choice(), 200), "s://h/a", "any string")


def within(chance: random.Random) -> Iterator[Question]:
    yield from (Question(two, "6.2.2", "two URIs") for two in _trees(chance, 2300))
    yield from _either_way(chance, _some(chance, inputs.each_choice(), 200), "s://h/a", "any string")


EDITED = ["s://u:p@h:8/a/b?q#f", "s:a", "s:/a", "s://h", "//h/a", "/a", "a/b", "", "?q", "s:", "s://h//a", "HTTP://H:080/%7e", "mailto:a@b"]
# What each component may be set to, besides what its class has.
NAMED = {"username": inputs.USERS, "password": inputs.USERS, "scheme": inputs.SCHEMES, "host": inputs.CHOICES["host"], "port": inputs.PORTS,
         "path": [*inputs.PATHS, *inputs.RELATIVE], "query": inputs.RESTS, "fragment": inputs.CHOICES["fragment"]}


def edits(chance: random.Random) -> Iterator[Question]:
    sections = {**inputs.SECTIONS, "username": "3.2.1", "password": "3.2.1"}
    single = [(text, name, value) for text in EDITED for name, values in NAMED.items() for value in [None, *values]]
    yield from (Question((text,), sections[name], "set " + name, {name: value}) for text, name, value in _some(chance, single, 2000))
    for text, (left, right) in itertools.product(EDITED, itertools.combinations(NAMED, 2)):
        yield Question((text,), "5.3", "set %s and %s" % (left, right), {left: chance.choice(NAMED[left]), right: chance.choice(NAMED[right])})


CHAPTERS: Dict[str, Callable[[random.Random], Iterator[Question]]] = {
    "reading": reading, "equality": equality, "normal": normal, "resolution": resolution, "relative": relative, "edits": edits, "within": within}


def _of_known_scheme(question: Question) -> Question:
    """With `http` for the scheme `s`: many libraries know that one alone."""
    return question._replace(input=tuple(re.sub("^[sS]:", lambda found: "http:" if found[0] == "s:" else "HTTP:", text) for text in question.input))


def questions_of(chapter: str, seed: int) -> Iterator[Question]:
    """The questions of a chapter, each once, every second one with a scheme that libraries know."""
    seen: Set[str] = set()
    for index, question in enumerate(CHAPTERS[chapter](random.Random("%d %s" % (seed, chapter)))):
        question = _of_known_scheme(question) if index % 2 else question
        key = repr((question.input, question.changes))
        if key not in seen:
            seen.add(key)
            yield question
