#!/usr/bin/env python3
"""A client of examples/counter.model: a number in an SQLite file, incremented by one statement, or by two (--racy)."""
import os, sqlite3, sys, tempfile
from pst_client import serve_branch

file = sqlite3.connect(f"{tempfile.gettempdir()}/pst-{os.environ['PST_WORKER']}.db", isolation_level=None, timeout=10)
file.execute("pragma synchronous = off")


def reset():
    file.execute("drop table if exists counter")
    file.execute("create table counter as select 0 as n")


def get():
    return file.execute("select n from counter").fetchone()[0]


def inc():
    if "--racy" not in sys.argv:
        return file.execute("update counter set n = n + 1 returning n").fetchone()[0]
    n = get() + 1
    file.execute("update counter set n = ?", (n,))
    return n


serve_branch({"reset": reset, "inc": inc, "get": get})
