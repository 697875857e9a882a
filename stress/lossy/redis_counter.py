#!/usr/bin/env python3
"""A client of examples/counter.model: a number in Redis, behind the bad network of proxy.py (at port LOSSY_PORT). A call has LOSSY_SECONDS, else
50 ms, and then its outcome is unknown.

Each reset begins a new key, so that a call that lands late changes the number of its own run. With --racy a call gets the number, and sets it later.
"""
import json, os, redis, sys

LIMIT = float(os.environ.get("LOSSY_SECONDS", 0.05))
worker = os.environ["PST_WORKER"]
direct = redis.Redis()
lossy = redis.Redis(port=int(os.environ["LOSSY_PORT"]), socket_timeout=LIMIT)
key = None


def reset(*_):
    global key
    key = None
    return direct.incr(f"run:{worker}")


# The resets of all clients of a worker end before the first call, so its clients read the same number of the run.
def own_key():
    global key
    if key is None:
        key = f"counter:{worker}:{int(direct.get(f'run:{worker}'))}"
    return key


def inc():
    if "--racy" not in sys.argv:
        return lossy.incr(own_key())
    value = get() + 1
    lossy.set(own_key(), value)
    return value


def get():
    return int(lossy.get(own_key()) or 0)


calls = {"reset": reset, "inc": inc, "get": get}
for line in sys.stdin:
    name, *args = json.loads(line)
    try:
        print(json.dumps(calls[name](*args)), flush=True)
    except (redis.TimeoutError, redis.ConnectionError) as error:
        lossy.connection_pool.disconnect()
        print("unknown", type(error).__name__, flush=True)
