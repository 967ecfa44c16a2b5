"""The tags of a vector: the departures from the letter of the RFC without which its answer would be another one."""
from __future__ import annotations

from typing import AbstractSet, Any, List, Optional

import letter
import model
from chapters import ABNORMAL_EXAMPLES, EXAMPLE_BASE, NORMAL_EXAMPLES
from form import COMPONENTS, Vector

REJECTED = object()
# What the RFC allows and the library doesn't do: to drop a default port, and to normalize the base before a reference is resolved.
DEFAULT_PORT = "default-port"
BASE = "base"


def _read(text: bytes, follow: AbstractSet[str]) -> Optional[letter.Reference]:
    """The components; with the rule of default ports, which section 6.2.3 has for schemes, without such a port."""
    one = letter.read(text, follow)
    if DEFAULT_PORT not in follow or one is None or not one.port or one.scheme is None:
        return one
    return one._replace(port=None) if int(one.port) == model.DEFAULT_PORTS.get(one.scheme.lower()) else one


def model_answer(vector: Vector, follow: AbstractSet[str]) -> Any:
    """What the slow program answers, or None if it has no answer: relative references and edits are this library's own."""
    chapter = vector["id"].partition("-")[0]
    texts = [text.encode() for text in vector["input"]]
    read = [_read(text, follow) for text in texts]
    if chapter in ("relative", "edits"):
        return None
    needs_scheme = {"resolution": read[:1], "within": read}.get(chapter, [])
    if any(one is None for one in read) or any(one is not None and one.scheme is None for one in needs_scheme):
        return REJECTED
    if chapter == "reading":
        return read[0]
    if chapter == "equality":
        return letter.equal(read[0], read[1], follow)  # type: ignore[arg-type]
    if chapter == "within":
        return model.is_below(*map(model.parts_of, texts))
    if chapter == "resolution":
        base = _read(letter.normal(read[0], follow), follow) if BASE in follow else read[0]  # type: ignore[arg-type]
        return letter.target(base, read[1], follow)  # type: ignore[arg-type]
    return None if read[0] is None or read[0].scheme is None else letter.normal(read[0], follow)


def _comparable(answer: Any) -> Any:
    """The answer of the library as the slow program has it."""
    if isinstance(answer, str):
        return answer.encode()
    if "rejected" in answer:
        return REJECTED
    if "equal" in answer or "within" in answer:
        return answer.get("equal", answer.get("within"))
    scheme, user, host, port, path, query, fragment = (None if answer[name] is None else answer[name].encode() for name in COMPONENTS)
    return letter.Reference(scheme, user, host, port, path or b"", query, fragment)


def check(vector: Vector) -> None:
    """Fails if the library and the slow program differ, or if an example of section 5.4 isn't as printed."""
    expected = model_answer(vector, letter.DEPARTURES)
    if expected is not None and expected != _comparable(vector["answer"]):
        raise SystemExit("vectors: the slow program has another answer, %r: %r" % (expected, vector))
    if vector["class"] == "example":
        base, reference = vector["input"]
        printed = {**NORMAL_EXAMPLES, **ABNORMAL_EXAMPLES}[reference]
        assert base == EXAMPLE_BASE and model_answer(vector, frozenset()) == printed.encode(), vector


def tags_of(vector: Vector) -> List[str]:
    """The departures that the answer depends on, and what the RFC allows that would change it; `own` if the RFC asks no such question."""
    answer = model_answer(vector, letter.DEPARTURES)
    chapter = vector["id"].partition("-")[0]
    if answer is None or chapter == "within":
        return ["own"] if "rejected" not in vector["answer"] or chapter in ("edits", "within", "relative") else []
    needed = sorted(one for one in letter.DEPARTURES if model_answer(vector, letter.DEPARTURES - {one}) != answer)
    allowed = [one for one in (BASE, DEFAULT_PORT) if chapter != "reading" and model_answer(vector, letter.DEPARTURES | {one}) != answer]
    # If two departures have one effect, taking one away changes nothing.
    needed = needed or sorted(one for one in letter.DEPARTURES if model_answer(vector, frozenset({one})) != model_answer(vector, frozenset()))
    return needed + allowed
