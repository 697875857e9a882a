#!/usr/bin/env python3
import json, os, sys, redis

db = redis.Redis(db=int(os.environ["PST_WORKER"]))

def incr(key):
    value = int(db.get(key) or 0) + 1
    db.set(key, value)
    return value

calls = {
    "reset": lambda: db.flushdb(),
    "set": lambda key, value: db.set(key, value),
    "get": lambda key: [int(value) for value in [db.get(key)] if value is not None],
    "incr": incr,
}
for line in sys.stdin:
    name, *args = json.loads(line)
    print(json.dumps(calls[name](*args)), flush=True)
