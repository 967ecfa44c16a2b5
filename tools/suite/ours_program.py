#!/usr/bin/env python3
"""The suite's answers by the program `uri`, a line for a line: `ours_program.py URI`.

A process answers all lines that have a base or edits in common. The program doesn't order references, and names the wrong component only
when it parses. It edits one component after the other, so it isn't asked to change two at once, nor to remove a user name or a password alone.
Edits with an empty port remove the port, so it isn't asked for these either."""
from __future__ import annotations

import json
import re
import subprocess
import sys
from typing import Dict, List, NamedTuple, Optional, Tuple

from form import field_of, text_of

COMPONENTS = ("scheme", "username", "password", "host", "port", "path", "query", "fragment")
REMOVED = {"scheme": "drop-scheme", "host": "drop-host", "port": "drop-port", "query": "drop-query", "fragment": "drop-fragment"}


class Question(NamedTuple):
    """The words of the program before its input, and what its line of input is."""

    words: Tuple[str, ...]
    line: str


class Answer(NamedTuple):
    """What is printed for a line of input, and what is reported of a rejected one."""

    output: str
    report: Optional[str]


def edit_of(fields: List[str]) -> Optional[List[str]]:
    changes = [(name, text_of(field[1:])) for name, field in zip(COMPONENTS, fields) if field]
    if len(changes) != 1 or changes[0] == ("port", ""):
        return None
    name, value = changes[0]
    if value is not None:
        return [name, value]
    return [REMOVED[name]] if name in REMOVED else None


def question_of(chapter: str, fields: List[str]) -> Optional[Question]:
    """What the program is asked, if it has the call."""
    one, two = [text_of(field) or "" for field in (fields + [""])[:2]]
    if chapter == "edits":
        edit = edit_of(fields[1:])
        return None if edit is None else Question(("--align", "edit", "--", *edit), one)
    if chapter == "reading":
        return Question(("--null", "--explain", "parse") if "\n" in one else ("--explain", "parse"), one)
    words = {"equality": ("equal",), "normal": ("normalize",), "resolution": ("resolve", "--", one), "relative": ("relativize", "--", one),
             "within": ("within", "--", two)}[chapter]
    lines = {"equality": one + "\t" + two, "normal": one, "within": one}
    return Question(("--align", *words), lines.get(chapter, two))


def answers_to(program: str, words: Tuple[str, ...], lines: List[str]) -> List[Answer]:
    """The answers to lines of input for the same words. If the words are rejected, each line is."""
    end = "\0" if "--null" in words else "\n"
    found = subprocess.run([program, "--lines", *words], input="".join(line + end for line in lines).encode(), capture_output=True)
    outputs = found.stdout.decode().split(end)[:-1]
    told = found.stderr.decode("utf-8", "replace")
    reports = {int(index) - 1: report for index, report in re.findall(r"^line ([0-9]+): (.*)$", told, re.M)}
    if not outputs and not reports:
        assert found.returncode == 1 and told.count("\n") == 1, (words, told)
        return [Answer("", told)] * len(lines)
    if "--align" not in words:  # a rejected line has no output
        assert len(outputs) == len(lines) - len(reports), (words, told)
        rest = iter(outputs)
        outputs = ["" if index in reports else next(rest) for index in range(len(lines))]
    return [Answer(output, reports.get(index)) for index, output in enumerate(outputs)]


def reading(answer: Answer) -> str:
    if answer.report is not None:
        told = re.match(r"(\w+) at byte ([0-9]+): ", answer.report)
        assert told is not None, answer
        return "!0\t%s\t%s" % (told[1], told[2])
    parts = json.loads(answer.output)
    user = parts["username"] if parts["password"] is None else parts["username"] + ":" + parts["password"]
    port = None if parts["port"] is None else str(parts["port"])
    return "=" + "\t".join(map(field_of, (parts["scheme"], user, parts["host"], port, parts["path"], parts["query"], parts["fragment"], parts["host_kind"])))


def line_of(chapter: str, question: Question, answer: Answer) -> str:
    if chapter == "reading":
        return reading(answer)
    if answer.report is not None:
        assert not answer.output, answer
        return "!"
    if chapter == "equality":
        return {"equal": "=true", "different": "=false"}[answer.output] + "\t\\?"
    if chapter == "within":
        assert answer.output in ("", question.line), answer
        return "=true" if answer.output else "=false"
    return "=" + field_of(answer.output)


def main() -> None:
    program = sys.argv[1]
    asked = [(chapter, question_of(chapter, fields)) for chapter, *fields in (line.rstrip("\n").split("\t") for line in sys.stdin)]
    groups: Dict[Tuple[str, ...], List[str]] = {}
    for _, question in asked:
        if question is not None:
            groups.setdefault(question.words, []).append(question.line)
    answers = {words: iter(answers_to(program, words, lines)) for words, lines in groups.items()}
    for chapter, question in asked:
        print("?" if question is None else line_of(chapter, question, next(answers[question.words])))


if __name__ == "__main__":
    main()
