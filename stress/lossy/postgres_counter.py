#!/usr/bin/env python3
"""A client of examples/counter.model: a number in PostgreSQL, behind the bad network of proxy.py (at port LOSSY_PORT). A call has LOSSY_SECONDS, else
50 ms, and then its outcome is unknown.

Each reset begins a new row, so that a call that lands late changes the number of its own run. With --racy a call reads the number, and writes it later. The tables are
`runs (worker, run)`, with a row for each worker, and `counters (worker, run, n)`.
"""
import json, os, psycopg2, psycopg2.extensions, select, sys, time

LIMIT = float(os.environ.get("LOSSY_SECONDS", 0.05))
worker = int(os.environ["PST_WORKER"])
limit = 10


# Waits for the server for at most the limit.
def wait(connection):
    end = time.monotonic() + limit
    while (state := connection.poll()) != psycopg2.extensions.POLL_OK:
        to_read, to_write = ([connection], []) if state == psycopg2.extensions.POLL_READ else ([], [connection])
        if not any(select.select(to_read, to_write, [], max(0, end - time.monotonic()))):
            raise TimeoutError


psycopg2.extensions.set_wait_callback(wait)


def connect(port):
    connection = psycopg2.connect(port=port)
    connection.autocommit = True
    return connection


def ask(connection, statement, *values):
    with connection.cursor() as cursor:
        cursor.execute(statement, values)
        return cursor.fetchone()[0] if cursor.description else None


direct = connect(os.environ["PGPORT"])
lossy = None
run = None


def reset(*_):
    global run
    run = None
    ask(direct, "with next as (update runs set run = run + 1 where worker = %s returning run) insert into counters select %s, run, 0 from next", worker, worker)


# One call through the bad network. The resets of all clients of a worker end before the first call, so its clients read the same number of the run.
def ask_lossy(statement, *values):
    global limit, lossy, run
    if run is None:
        run = ask(direct, "select run from runs where worker = %s", worker)
    if lossy is None:
        lossy = connect(os.environ["LOSSY_PORT"])
    limit = LIMIT
    try:
        return ask(lossy, statement, *values, worker, run)
    except (TimeoutError, psycopg2.Error):
        lossy.close()
        lossy = None
        raise
    finally:
        limit = 10


def inc():
    if "--racy" not in sys.argv:
        return ask_lossy("update counters set n = n + 1 where worker = %s and run = %s returning n")
    return ask_lossy("update counters set n = %s where worker = %s and run = %s returning n", get() + 1)


def get():
    return ask_lossy("select n from counters where worker = %s and run = %s")


calls = {"reset": reset, "inc": inc, "get": get}
for line in sys.stdin:
    name, *args = json.loads(line)
    try:
        print(json.dumps(calls[name](*args)), flush=True)
    except (TimeoutError, psycopg2.Error) as error:
        print("unknown", type(error).__name__, flush=True)
