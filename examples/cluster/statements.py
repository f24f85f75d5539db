#!/usr/bin/env python3
"""Runs the SQL statements of standard input, which end with a semicolon in their line, on a database, as sqlite3 would: prints rows, goes on behind an error.
usage: statements.py DATABASE
"""
import sqlite3
import sys

database = sqlite3.connect(sys.argv[1], timeout=60, isolation_level=None)
for line in sys.stdin:
    for statement in line.split(";"):
        try:
            for row in database.execute(statement):
                print(*row, sep="|", flush=True)
        except sqlite3.Error as error:
            print(error, file=sys.stderr)
