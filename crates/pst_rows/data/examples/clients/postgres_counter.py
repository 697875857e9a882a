#!/usr/bin/env python3
"""A client of examples/counter.model: a number in PostgreSQL (at PGHOST, PGPORT), incremented by one statement, or by two (--racy)."""
import json, os, psycopg2, sys

connection = psycopg2.connect("")
connection.autocommit = True
table = f"counter_{os.environ['PST_WORKER']}"


def ask(statement, *values):
    with connection.cursor() as cursor:
        cursor.execute(statement.format(table), values)
        return cursor.fetchone()[0] if cursor.description else None


def reset():
    ask("drop table if exists {0}; create table {0} as select 0 as n")


def inc():
    if "--racy" not in sys.argv:
        return ask("update {} set n = n + 1 returning n")
    return ask("update {} set n = %s returning n", ask("select n from {}") + 1)


calls = {"reset": reset, "inc": inc, "get": lambda: ask("select n from {}")}
for line in sys.stdin:
    name, *args = json.loads(line)
    print(json.dumps(calls[name](*args)), flush=True)
