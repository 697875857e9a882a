#!/usr/bin/env python3
"""A client of examples/replica.model: a register with a copy in each process, which reads all writes, or with --lagging only those that are 2 ms old.

A lagging copy never goes back, and has the writes of its own process at once. So some order of the calls explains what it answers, and none in the order
of time does: it answers an old value after another process was told that the new one is there.
"""
import fcntl, json, os, sys, tempfile, time

LAG = 0.002 if "--lagging" in sys.argv else 0
log = open(f"{tempfile.gettempdir()}/pst-replica-{os.environ['PST_WORKER']}.log", "a+")
read = value = 0


def apply(until):
    """Takes the writes before a time into the copy."""
    global read, value
    log.seek(0)
    for written, one in list(map(json.loads, log))[read:]:
        if written > until:
            break
        read, value = read + 1, one


def reset():
    global read, value
    log.truncate(0)
    read = value = 0


def put(one):
    fcntl.flock(log, fcntl.LOCK_EX)
    print(json.dumps([time.monotonic(), one]), file=log, flush=True)
    apply(time.monotonic())
    fcntl.flock(log, fcntl.LOCK_UN)
    return True


def get():
    apply(time.monotonic() - LAG)
    return value


calls = {"reset": reset, "put": put, "get": get}
for line in sys.stdin:
    name, *args = json.loads(line)
    print(json.dumps(calls[name](*args)), flush=True)
