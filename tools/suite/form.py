"""The form of the suite: vectors as JSON, a vector a line, and the lines that runners read and print. docs/SUITE.md says what they mean."""
from __future__ import annotations

import json
import os
import re
from typing import Any, Dict, Iterable, Iterator, List, Optional

TOP = os.path.dirname(os.path.dirname(os.path.dirname(os.path.abspath(__file__))))
CHAPTERS = ("reading", "equality", "normal", "resolution", "relative", "edits", "within")
COMPONENTS = ("scheme", "userinfo", "host", "port", "path", "query", "fragment")

Vector = Dict[str, Any]


def write_chapter(folder: str, chapter: str, vectors: Iterable[Vector]) -> int:
    """Writes a file, a vector a line, and returns how many there are."""
    lines = [json.dumps(vector, ensure_ascii=True) for vector in vectors]
    with open(os.path.join(folder, chapter + ".json"), "w", encoding="ascii", newline="\n") as file:
        file.write('{"chapter": "%s", "rfc": 3986, "vectors": [\n%s\n]}\n' % (chapter, ",\n".join(lines)))
    return len(lines)


def read_chapter(folder: str, chapter: str) -> List[Vector]:
    with open(os.path.join(folder, chapter + ".json"), encoding="ascii") as file:
        vectors: List[Vector] = json.load(file)["vectors"]
    return vectors


def read_all(folder: str) -> Iterator[Vector]:
    for chapter in CHAPTERS:
        yield from read_chapter(folder, chapter)


def field_of(text: Optional[str]) -> str:
    """A field of a line: `\\-` is an absent one, and `\\xHH` a byte that isn't printable ASCII, or a backslash."""
    if text is None:
        return "\\-"
    return "".join(chr(byte) if 0x20 <= byte < 0x7f and byte != 0x5c else "\\x%02x" % byte for byte in text.encode())


def text_of(field: str) -> Optional[str]:
    """The text of a field. Bytes that aren't UTF-8 become surrogates, which no answer of the suite has."""
    if field == "\\-":
        return None
    data = re.sub(rb"\\x([0-9a-f]{2})", lambda match: bytes.fromhex(match[1].decode()), field.encode())
    return data.decode("utf-8", "surrogateescape")


def question_of(vector: Vector) -> str:
    """The line that a runner reads: the chapter, the inputs, and for an edit the eight changes, of which an empty field keeps what is there."""
    changes: Dict[str, Optional[str]] = vector.get("changes", {})
    names = ("scheme", "username", "password", "host", "port", "path", "query", "fragment") if "changes" in vector else ()
    edits = ["=" + field_of(changes[name]) if name in changes else "" for name in names]
    return "\t".join([vector["id"].partition("-")[0], *map(field_of, vector["input"]), *edits])


def line_of(answer: Any) -> str:
    """The line that a runner prints for an answer."""
    if isinstance(answer, str):
        return "=" + field_of(answer)
    if "rejected" in answer:
        told = answer["rejected"]
        return "\t".join(["!" + str(told["input"]), told["component"], *([str(told["byte"])] if "byte" in told else [])])
    if "equal" in answer:
        return "=%s\t%d" % ("true" if answer["equal"] else "false", answer["order"])
    if "within" in answer:
        return "=true" if answer["within"] else "=false"
    return "=" + "\t".join([field_of(answer[name]) for name in COMPONENTS] + [answer["kind"] or "\\-"])
