#!/usr/bin/env python3
"""The suite's answers by the extension for PostgreSQL, a line for a line. PGHOST and PGUSER name a server that has the extension.

No text of PostgreSQL has a zero byte, so it isn't asked about these."""
from __future__ import annotations

import os
import subprocess
import sys
from typing import Dict, List, Optional, Tuple

import sql

Row = Tuple[int, List[Optional[str]]]


def script_of(chapter: str, rows: List[Row]) -> List[str]:
    """What asks the questions of a chapter, whose answers are printed as lines of COPY with the index of each."""
    texts = [[str(index), *("\\N" if text is None else text.encode().hex() for text in inputs)] for index, inputs in rows]
    columns = ", ".join("convert_from(decode(%s, 'hex'), 'UTF8') AS %s" % (name, name) for name in "abc")
    return ["CREATE TEMPORARY TABLE hex_%s (at int, a text, b text, c text);" % chapter, "COPY hex_%s FROM STDIN;" % chapter,
            *("\t".join(row) for row in texts), "\\.", "COPY (SELECT at, %s FROM (SELECT at, %s FROM hex_%s) AS asked) TO STDOUT;"
            % (sql.QUESTIONS[chapter], columns, chapter)]


def main() -> None:
    lines = [line.rstrip("\n").split("\t") for line in sys.stdin]
    chapters: Dict[str, List[Row]] = {}
    for index, (chapter, *fields) in enumerate(lines):
        inputs = sql.inputs_of(chapter, fields)
        if inputs is not None and not any("\0" in (text or "") for text in inputs):
            chapters.setdefault(chapter, []).append((index, inputs))
    # Without a COMMIT nothing stays in the database.
    script = ["SET client_min_messages = warning;", "BEGIN;", "CREATE EXTENSION IF NOT EXISTS uriparse;"]
    for chapter, rows in chapters.items():
        script += script_of(chapter, rows)
    words = ["psql", "-X", "-q", "-v", "ON_ERROR_STOP=1", "-d", os.environ.get("PGDATABASE", "postgres")]
    found = subprocess.run(words, input="\n".join(script) + "\n", check=True, stdout=subprocess.PIPE, encoding="ascii")
    answers = ["?"] * len(lines)
    for answer in found.stdout.splitlines():
        at, *values = answer.split("\t")
        answers[int(at)] = sql.line_of(lines[int(at)][0], [None if value == "\\N" else value for value in values])
    print("\n".join(answers))


if __name__ == "__main__":
    main()
