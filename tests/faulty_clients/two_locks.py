#!/usr/bin/env python3
"""A counter in a file with two locks, which `inc` and `get` take in different orders: two calls at once wait for each other without end."""
import fcntl, json, os, sys, tempfile, time

name = f"{tempfile.gettempdir()}/two-locks-{os.environ['PST_WORKER']}"
locks = [open(f"{name}.{lock}", "w") for lock in "ab"]
for line in sys.stdin:
    operation = json.loads(line)[0]
    if operation == "reset":
        number = 0
    else:
        for lock in locks if operation == "inc" else reversed(locks):
            fcntl.flock(lock, fcntl.LOCK_EX)
            time.sleep(0.01)
        with open(name) as file:
            number = int(file.read()) + (operation == "inc")
    with open(name, "w") as file:
        file.write(str(number))
    for lock in locks:
        fcntl.flock(lock, fcntl.LOCK_UN)
    print(number, flush=True)
