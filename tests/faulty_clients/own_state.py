#!/usr/bin/env python3
import json, sys
count = 0
def inc():
    global count
    count += 1
    return count
def get():
    return count
def reset():
    global count
    count = 0
for line in sys.stdin:
    name, *args = json.loads(line)
    print(json.dumps({"reset": reset, "inc": inc, "get": get}[name](*args)), flush=True)
