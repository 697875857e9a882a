#!/usr/bin/env python3
"""A client of @NAME@.model. `pst` starts one for each branch of each worker. Call your own server in place of this SQLite file.

A call is a line as ["add",10], and its answer is one line of JSON. Print nothing else on standard output; standard error is free.
"""
import json, os, sqlite3, sys

# Each worker tests a system of its own: a database, a prefix of keys or a port. Its number is PST_WORKER, from 1.
db = sqlite3.connect(f"@NAME@-{os.environ['PST_WORKER']}.db", isolation_level=None, timeout=10)
db.execute("pragma synchronous = off")


def reset():
    """Brings back the initial state of the model. Each client of a worker is asked for it before each run."""
    db.execute("create table if not exists numbers as select 0 as number")
    db.execute("update numbers set number = 0")


def add(n):
    db.execute("begin immediate")  # without this line and the `commit` a campaign finds a race
    number = get() + n
    db.execute("update numbers set number = ?", (number,))
    db.execute("commit")
    return number


def get():
    return db.execute("select number from numbers").fetchone()[0]


calls = {"reset": reset, "add": add, "get": get}
for line in sys.stdin:
    name, *args = json.loads(line)
    print(json.dumps(calls[name](*args)), flush=True)
