#!/usr/bin/env python3
"""A client of examples/counter.model: a number in memcached over a plain socket, incremented there, or read and then set (--racy)."""
import json, os, socket, sys

address = os.environ.get("MEMCACHED", "127.0.0.1:11211").split(":")
server = socket.create_connection((address[0], int(address[1]))).makefile("rw", newline="\r\n")
key = f"counter{os.environ['PST_WORKER']}"


def ask(text, lines=1):
    print(text, file=server, flush=True)
    return [server.readline().strip() for _ in range(lines)]


def put(n):
    ask(f"set {key} 0 0 {len(str(n))}\n{n}")
    return n


def get():
    return int(ask(f"get {key}", 3)[1])


inc = (lambda: put(get() + 1)) if "--racy" in sys.argv else lambda: int(ask(f"incr {key} 1")[0])
calls = {"reset": lambda: put(0), "inc": inc, "get": get}
for line in sys.stdin:
    name, *args = json.loads(line)
    print(json.dumps(calls[name](*args)), flush=True)
