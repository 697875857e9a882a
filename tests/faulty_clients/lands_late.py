#!/usr/bin/env python3
"""A right counter in a file. One `inc` of four is answered at once with `unknown timeout`, and takes effect 0.3 seconds later, also after a reset."""
import fcntl, json, os, random, sys, tempfile, threading

name = f"{tempfile.gettempdir()}/late-{os.environ['PST_WORKER']}"


def change(by):
    """Adds to the counter, or sets it to 0 without a number. Returns its value."""
    with open(name, "a+") as file:
        fcntl.flock(file, fcntl.LOCK_EX)
        file.seek(0)
        number = 0 if by is None else int(file.read() or 0) + by
        file.truncate(0)
        file.write(str(number))
        return number


for line in sys.stdin:
    operation = json.loads(line)[0]
    if operation == "inc" and random.random() < 0.25:
        threading.Timer(0.3, change, [1]).start()
        print("unknown timeout", flush=True)
    else:
        print(change({"reset": None, "inc": 1, "get": 0}[operation]), flush=True)
