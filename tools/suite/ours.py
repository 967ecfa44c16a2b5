"""The suite's answers, by the Python module of this library, which calls proved code."""
from __future__ import annotations

import os
import sys
from typing import Any, Callable, Dict, Optional

from form import TOP, Vector

sys.path.insert(0, os.environ.get("URIPARSE_PYTHON", os.path.join(TOP, "bindings/python/out")))
import uriparse  # noqa: E402

# Which input each parameter of the module is.
INPUTS = {"text": 0, "left": 0, "right": 1, "reference": 1, "base": 0, "uri": 1}


def _rejection(chapter: str, error: uriparse.URIError) -> Dict[str, Any]:
    where = {"uri": 0, "base": 1}.get(error.argument) if chapter == "within" else INPUTS.get(error.argument, 0)
    told: Dict[str, Any] = {"input": where, "component": error.component}
    if chapter == "reading":
        told["byte"] = len(str(error.text)[:error.place].encode())
    return {"rejected": told}


def reading(text: str) -> Dict[str, Optional[str]]:
    """The components of a reference as they are spelled."""
    parts = uriparse.parse(text)
    user = None if parts.username is None else parts.username + ("" if parts.password is None else ":" + parts.password)
    return {"scheme": parts.scheme, "userinfo": user, "host": parts.host, "port": parts.port, "path": parts.path, "query": parts.query,
            "fragment": parts.fragment, "kind": parts.host_kind}


def _accepted(vector: Vector, chapter: str) -> Any:
    inputs = vector["input"]
    if chapter == "reading":
        return reading(*inputs)
    if chapter == "equality":
        return {"equal": uriparse.equal(*inputs), "order": uriparse.compare(*inputs)}
    if chapter == "within":
        return {"within": uriparse.is_within(*inputs)}
    if chapter == "edits":
        return uriparse.replace(*inputs, **vector["changes"])
    calls: Dict[str, Callable[..., str]] = {"normal": uriparse.normalize, "resolution": uriparse.resolve, "relative": uriparse.relativize}
    return calls[chapter](*inputs)


def answer_to(vector: Vector) -> Any:
    """The answer to a vector, of which `id` and `input` are read, and `changes` for an edit."""
    chapter = vector["id"].partition("-")[0]
    try:
        return _accepted(vector, chapter)
    except uriparse.URIError as error:
        return _rejection(chapter, error)
