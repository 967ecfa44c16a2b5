#!/usr/bin/env python3
"""The suite's answers by the extension for SQLite, a line for a line: `ours_sqlite.py uri0.so`."""
from __future__ import annotations

import sqlite3
import sys
from typing import List

import sql


def answer_to(database: sqlite3.Connection, chapter: str, fields: List[str]) -> str:
    inputs = sql.inputs_of(chapter, fields)
    if inputs is None:
        return "?"
    found = database.execute("SELECT %s FROM (SELECT ? AS a, ? AS b, ? AS c)" % sql.QUESTIONS[chapter], inputs).fetchone()
    return sql.line_of(chapter, [None if value is None else str(value) for value in found])


def main() -> None:
    database = sqlite3.connect(":memory:")
    database.enable_load_extension(True)
    database.load_extension(sys.argv[1])
    for line in sys.stdin:
        chapter, *fields = line.rstrip("\n").split("\t")
        print(answer_to(database, chapter, fields))


if __name__ == "__main__":
    main()
