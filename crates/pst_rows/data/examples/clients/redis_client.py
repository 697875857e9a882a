#!/usr/bin/env python3
import json, os, sys, redis

db = redis.Redis(db=int(os.environ["PST_WORKER"]))
calls = {
    "reset": lambda: db.flushdb(),
    "set": lambda key, value: db.set(key, value),
    "get": lambda key: [int(value) for value in [db.get(key)] if value is not None],
    "incr": lambda key: db.incr(key),
}
for line in sys.stdin:
    name, *args = json.loads(line)
    print(json.dumps(calls[name](*args)), flush=True)
